"""What replicas take of each other."""
import copy
import pickle
from typing import Tuple

import pytest

from rds import (
    Bad,
    BadCertificate,
    BadName,
    BadRoster,
    BadText,
    Closed,
    CounterFull,
    Cut,
    Extra,
    OwnAhead,
    RdsError,
    Replica,
    SameReplica,
    WrongAsker,
    WrongGroup,
    WrongRoster,
    _nodes,
)

Pair = Tuple[Replica, Replica]


def test_two_replicas_meet(pair: Pair) -> None:
    shop, store = pair
    shop["apples/tags"].add("red")
    store["apples"].increase(10)
    assert store.pull(shop) == 1
    assert store["apples/tags"].values == ["red"] and store["apples"].counter == 10
    assert shop.pull(store) == 1
    assert shop.show() == store.show()
    assert shop.pull(store) == 0


def test_marks_are_compared_at_a_glance(pair: Pair) -> None:
    shop, store = pair
    assert shop.mark() == store.mark() == "0" * 32
    shop["apples"].increase(3)
    assert shop.mark() != store.mark()
    store.pull(shop)
    assert shop.mark() == store.mark()
    store["k"].set(1)
    store["k"].clear()
    assert shop.mark() == store.mark()


def test_an_add_wins(pair: Pair) -> None:
    shop, store = pair
    shop["t"].add("x")
    store.pull(shop)
    store["t"].delete("x")
    shop["t"].add("x")
    store.pull(shop)
    shop.pull(store)
    assert shop["t"].values == store["t"].values == ["x"]


def test_a_register_keeps_what_was_set_apart(pair: Pair) -> None:
    shop, store = pair
    shop["price"].set(3)
    store["price"].set("dear")
    store.pull(shop)
    assert store["price"].register == [3, "dear"]
    assert store.conflicts() == {"price": [3, "dear"]}
    assert store["price"].set(None).killed == 2
    assert store["price"].register == [None] and store.conflicts() == {}


def test_a_question_is_answered_late(pair: Pair) -> None:
    shop, store = pair
    store["a"].set(1)
    question = shop.ask()
    shop["b"].set(2)
    answer = store.answer(question)
    store["a"].set(3)
    assert shop.take(question, answer) == 1
    assert shop["a"].register == [1] and shop["b"].register == [2]
    assert shop.take(question, answer) == 1
    assert shop["a"].register == [1]


def test_merge(pair: Pair) -> None:
    shop, store = pair
    shop["a"].set("ü")
    shop["n"].increase(2)
    assert store.merge(bytes(shop)) == 2
    assert store.show() == shop.show()
    assert store.merge(bytes(shop)) == 0


def test_an_older_state_of_oneself(pair: Pair) -> None:
    shop, store = pair
    older = bytes(shop)
    shop["a"].set(1)
    assert shop.merge(older) == 0
    store.pull(shop)
    with Replica.from_bytes(older) as put_back:
        with pytest.raises(OwnAhead, match="dot 1 of the replica's own isn't known to it"):
            put_back.merge(bytes(shop))
        with pytest.raises(OwnAhead):
            put_back.pull(store)
        assert bytes(put_back) == older


def test_growth(shop: Replica) -> None:
    shop.grow("north")
    with Replica.new("inventory", ["shop", "store", "north"], "north") as north:
        north["k"].add(1)
        shop.pull(north)
    assert shop["k"].values == [1]
    assert shop.status().names == ["shop", "store", "north"]
    with pytest.raises(BadName) as caught:
        shop.grow("North")
    assert caught.value.given == "North"
    with pytest.raises(BadRoster):
        shop.grow("store")


def test_rosters_that_grew_apart(pair: Pair) -> None:
    shop, store = pair
    shop.grow("north")
    store.grow("south")
    with pytest.raises(WrongRoster):
        shop.pull(store)


def test_texts_that_are_refused(pair: Pair) -> None:
    shop, store = pair
    store["x"].add(1)
    question = shop.ask()
    answer = store.answer(question)
    before = bytes(shop)
    for refused, bad in ((Cut, b""), (Cut, answer[:-1]), (Extra, answer + b"x"), (Bad, b"x" + answer[1:])):
        with pytest.raises(refused):
            shop.take(question, bad)
    with pytest.raises(BadText):
        store.answer(b"\xff" * 9)
    with pytest.raises(SameReplica):
        shop.answer(question)
    with pytest.raises(WrongAsker):
        store.take(question, answer)
    assert bytes(shop) == before


def test_each_changed_byte_of_an_answer(pair: Pair) -> None:
    shop, store = pair
    store["x"].add("y")
    store["n"].increase(5)
    question = shop.ask()
    answer = store.answer(question)
    before, taken, refusals = bytes(shop), {}, set()
    for at in range(len(answer)):
        changed = answer[:at] + bytes([answer[at] ^ 1]) + answer[at + 1 :]
        with Replica.from_bytes(before) as asker:
            try:
                asker.take(question, changed)
                taken[at] = asker.show()
            except RdsError as error:
                refusals.add(type(error))
                assert bytes(asker) == before
    assert BadCertificate in refusals
    # The 48 bytes of the tag stand behind the own number, and say nothing of the document.
    own = _nodes.Question.of(answer).at
    due = {"counters": {"n": 5}, "maps": {}, "regs": {}, "sets": {"x": ["y"]}}
    assert [taken.pop(at) for at in range(own + 1, own + 49)] == [due] * 48
    # What else is taken is a text of another document: a value, a key or a name has changed.
    assert due not in taken.values()


def test_groups_are_apart(shop: Replica) -> None:
    with Replica.new("other", ["shop", "store"], "store") as other:
        with pytest.raises(WrongGroup):
            shop.pull(other)


def test_counters_have_an_end(shop: Replica) -> None:
    most = 281_474_976_710_655
    shop["n"].increase(most)
    for more in (1, most, 1 << 64, 1 << 70):
        with pytest.raises(CounterFull) as caught:
            shop["n"].increase(more)
        assert caught.value.given == "n"
    assert shop["n"].decrease(most).killed == 0
    assert shop["n"].counter == 0


def test_new_ones_that_are_none() -> None:
    with pytest.raises(ValueError):
        Replica.new("g", ["a"], "b")
    with pytest.raises(BadName):
        Replica.new("g", ["A"], "A")
    with pytest.raises(BadRoster):
        Replica.new("g", ["a", "a"], "a")
    with pytest.raises(BadRoster):
        Replica.new("g", [f"n{number}" for number in range(300)], "n299")
    with pytest.raises(RdsError):
        Replica.from_bytes(b"no")


def test_one_that_is_closed(shop: Replica) -> None:
    shop.close()
    shop.close()
    with pytest.raises(Closed):
        shop.show()
    with pytest.raises(Closed):
        shop["k"].set(1)


def test_no_copies(shop: Replica) -> None:
    with pytest.raises(TypeError):
        copy.copy(shop)
    with pytest.raises(TypeError):
        copy.deepcopy(shop)
    with pytest.raises(TypeError):
        pickle.dumps(shop)
