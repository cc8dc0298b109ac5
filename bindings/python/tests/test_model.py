"""The library beside the plain model of bench/plain_*.py, which is written from the documents alone.

Random edits and meetings have to leave the same file, question, answer, document and mark, byte by byte.
"""
import importlib
import json
import random
import sys
from pathlib import Path
from typing import Any, Callable, Dict, List, Tuple

import pytest

from rds import Edited, RdsError, Replica, Scalar

BENCH = Path(__file__).parents[3] / "bench"
if not (BENCH / "plain_model.py").exists():
    pytest.skip("the plain model isn't here", allow_module_level=True)
sys.path.append(str(BENCH))
files: Any = importlib.import_module("plain_files")
model: Any = importlib.import_module("plain_model")
texts: Any = importlib.import_module("plain_texts")

NAMES = ["a", "b", "c"]
PATHS = ["k", "m/k", "m/n/k", "m", "ü", "m/n"]
VALUES: List[Scalar] = [None, False, True, 0, -7, 1 << 62, "", "red", "ü\n"]


def tagged(value: Scalar) -> Tuple[int, Any]:
    """A value as the model has it."""
    if isinstance(value, str):
        return 4, value
    if value is None or isinstance(value, bool):
        return {None: 0, False: 1, True: 2}[value], value
    return 3, value


def shown(document: List[Tuple[str, Any]]) -> Dict[str, Any]:
    """A document of the model as JSON has it."""
    parts = {kind: dict(rows) for kind, rows in document}
    return {**parts, "maps": {key: shown(below) for key, below in parts["maps"].items()}}


class Both:
    """A replica of the library, and the model's."""

    def __init__(self, own: int) -> None:
        self.real = Replica.new("g", NAMES, NAMES[own])
        self.plain = model.Replica("g", tuple(NAMES), own, model.State())

    def edit(self, chance: random.Random) -> None:
        verb, path = chance.choice(["set", "add", "add", "del", "clear", "inc", "dec"]), chance.choice(PATHS)
        if verb in ("inc", "dec"):
            path, amount = chance.choice(["k", "n"]), chance.choice([0, 1, 5, 1 << 47])
            place = self.real[path]
            call: Callable[[], Edited] = lambda: (place.increase if verb == "inc" else place.decrease)(amount)
            self.same(call, lambda: model.edited(self.plain, verb, (path,), amount=amount))
            return
        value = chance.choice(VALUES)
        place = self.real[path]
        calls: Dict[str, Callable[[], Edited]] = {
            "set": lambda: place.set(value),
            "add": lambda: place.add(value),
            "del": lambda: place.delete(value),
            "clear": place.clear,
        }
        self.same(calls[verb], lambda: model.edited(self.plain, verb, tuple(path.split("/")), tagged(value)))

    def same(self, call: Callable[[], Edited], due: Callable[[], Any]) -> None:
        try:
            plain, (dot, killed) = due()
        except model.Refused as refused:
            with pytest.raises(RdsError) as caught:
                call()
            assert caught.value.number == refused.number
            return
        assert call() == (dot[1] if dot else None, killed)
        self.plain = plain

    def check(self) -> None:
        assert bytes(self.real) == files.file_text(self.plain)
        assert self.real.show() == shown(model.document(self.plain.state, ()))
        assert self.real.mark() == model.mark_of(self.plain.state)


class Letter:
    """A question, its answer, and who asked as it was then."""

    def __init__(self, asker: Both, other: Both) -> None:
        self.asker, self.asked = asker, asker.plain
        self.question, self.answer = asker.real.ask(), other.real.answer(asker.real.ask())
        self.delta = other.plain.state.least(self.asked.state.digest())
        self.names = model.longer(self.asked.names, other.plain.names)
        assert self.question == texts.question_text(self.asked)
        assert self.answer == texts.response_text(other.plain, self.asked)

    def take(self) -> None:
        self.asker.plain = model.taken_by_text(self.asker.plain, self.asked, self.delta, self.names)
        assert self.asker.real.take(self.question, self.answer) == self.delta.size()


def merge(one: Both, other: Both) -> None:
    lacking = other.plain.state.least(one.plain.state.digest()).size()
    one.plain = model.taken(one.plain, other.plain.state, other.plain.names)
    # A snapshot alone is a file of an older program.
    given = bytes(other.real)[: None if lacking % 2 else -files.SUM]
    assert one.real.merge(given) == lacking


@pytest.mark.parametrize("seed", range(6))
def test_random_steps(seed: int) -> None:
    chance = random.Random(seed)
    all_of = [Both(own) for own in range(3)]
    letters: List[Letter] = []
    for step in range(250):
        one, other = chance.sample(all_of, 2)
        what = chance.random()
        if what < 0.7:
            one.edit(chance)
        elif what < 0.8:
            letters.append(Letter(one, other))
        elif what < 0.9 and letters:
            chance.choice(letters).take()
        elif what < 0.98:
            merge(one, other)
        elif len(all_of[0].plain.names) < 6:
            name = f"n{step}"
            all_of[0].real.grow(name)
            all_of[0].plain = model.grown(all_of[0].plain, (name,))
        one.check()
        other.check()
    for it in all_of:
        with Replica.from_bytes(bytes(it.real)) as again:
            assert again.show() == it.real.show()
        it.real.close()


def test_a_status_counts_what_the_model_has() -> None:
    both = Both(1)
    chance = random.Random(7)
    for _ in range(100):
        both.edit(chance)
    lives, numbers = both.plain.state.lives, both.plain.state.numbers
    status = both.real.status()
    assert (status.group, status.own, status.names) == ("g", "b", NAMES)
    assert status.live == len(both.plain.state.live()) and status.live + status.dead == len(lives)
    assert status.counters == len({key for key, _ in numbers})
    assert status.components == both.plain.state.size()
    assert status.bytes == len(texts.snapshot_text(both.plain))
    assert status.mark == model.mark_of(both.plain.state)
    assert json.dumps(both.real.show())
