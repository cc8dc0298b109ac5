"""Replicas on several threads."""
import threading
from functools import partial
from pathlib import Path
from typing import Callable, List, Tuple

import pytest

from rds import Closed, Replica

Pair = Tuple[Replica, Replica]

THREADS, TIMES = 4, 250


def on_threads(*calls: Callable[[], object]) -> None:
    """Makes the calls, each on a thread of its own. What one raises is raised here."""
    raised: List[BaseException] = []

    def make(call: Callable[[], object]) -> None:
        try:
            call()
        except BaseException as error:
            raised.append(error)

    threads = [threading.Thread(target=make, args=(it,), daemon=True) for it in calls]
    for thread in threads:
        thread.start()
    for thread in threads:
        thread.join(60)
        assert not thread.is_alive()
    if raised:
        raise raised[0]


def test_another_thread_than_the_makers(shop: Replica) -> None:
    on_threads(lambda: shop["k"].set(1))
    assert shop["k"].register == [1]
    on_threads(shop.close)
    with pytest.raises(Closed):
        shop.show()


def test_one_made_on_another_thread(tmp_path: Path) -> None:
    made: List[Replica] = []
    on_threads(lambda: made.append(Replica.new("g", ["a"], "a", tmp_path / "a.rds")))
    with made[0] as replica:
        replica["k"].set(1)
        replica.keep()
    with Replica.open(tmp_path / "a.rds") as replica:
        assert replica["k"].register == [1]


def test_calls_wait_for_each_other(shop: Replica) -> None:
    def edit(own: int) -> None:
        for at in range(TIMES):
            shop["n"].increase()
            shop[f"m{own}/s"].add(at)
            # More than the room that a replica has, so that two calls are made for it.
            assert len(shop["long"].show()["sets"]["s"]) == 1000
            assert shop[f"m{own}/s"].values == list(range(at + 1))

    shop.edit(("add", "long/s", number) for number in range(1000))
    on_threads(*(partial(edit, own) for own in range(THREADS)))
    assert shop["n"].counter == THREADS * TIMES
    with Replica.from_bytes(bytes(shop)) as again:
        assert again.show() == shop.show()


def test_updates_wait_for_each_other(shop: Replica) -> None:
    made: List[int] = []
    for at in range(20):
        mapping = {"r": {f"k{number}": at for number in range(50)}, "s": [at, f"{at}"]}
        on_threads(*(lambda: made.append(len(shop.update(mapping))) for _ in range(THREADS)))
    # Of each round one thread made all edits, and the others found that they stand there.
    assert sorted(made) == [0] * 20 * (THREADS - 1) + [52] * 20
    assert shop["r"].plain() == {f"k{number}": 19 for number in range(50)}


def test_a_fault_has_its_own_words(shop: Replica) -> None:
    def refused(path: str, words: str) -> None:
        for _ in range(TIMES):
            with pytest.raises(ValueError, match=words):
                shop[path].set(1)

    on_threads(lambda: refused("a//b", "the text is no key"), lambda: refused("", "the path has more than 8 keys"))


def test_replicas_that_pull_from_each_other(pair: Pair) -> None:
    shop, store = pair

    def work(mine: Replica, theirs: Replica) -> None:
        for at in range(TIMES):
            mine["s"].add(at)
            mine["n"].increase()
            mine.pull(theirs)

    on_threads(lambda: work(shop, store), lambda: work(store, shop))
    shop.pull(store)
    store.pull(shop)
    assert shop.show() == store.show()
    assert shop["n"].counter == 2 * TIMES and shop["s"].values == list(range(TIMES))


def test_one_that_is_closed_meanwhile(shop: Replica) -> None:
    def use() -> None:
        with pytest.raises(Closed):
            while True:
                shop["n"].increase()

    on_threads(use, use, shop.close)
