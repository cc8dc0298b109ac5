"""How long calls take, over a document of so many registers, m{0..99}/k{i}: bench.py ELEMENTS

Each line is as those of bindings/c/bench.c: what it was, how often, the processor's microseconds for one, bytes or
nothing, with tabs between.
"""
import sys
import tempfile
import time
from ctypes import byref
from pathlib import Path
from typing import Callable

from rds import Replica
from rds._library import LIB

EDITS = 2000


def say(what: str, seconds: float, times: int, size: int = 0) -> None:
    print(f"{what}\t{times}\t{seconds * 1e6 / times:.4f}" + (f"\t{size}" if size else ""))


def each(what: str, times: int, call: Callable[[int], object], size: int = 0) -> None:
    """Says how long a call takes, which is done so many times with a number from 0 on."""
    begun = time.process_time()
    for number in range(times):
        call(number)
    say(what, time.process_time() - begun, times, size)


def path_of(number: int) -> str:
    return f"m{number % 100}/k{number}"


def main(elements: int) -> None:
    times = 5 if elements > 10000 else 200
    first, second = Replica.new("g", ["a", "b"], "a"), Replica.new("g", ["a", "b"], "b")
    each("edit: a new register, from an empty document on", elements, lambda i: first[path_of(i)].set(i))
    at, room, length = first._at, first._room, byref(first._length)
    each("crossing (rds_told, without room)", 200000, lambda i: LIB.rds_told(at, room, 0, length))
    each("get of one register", times, lambda i: first["m5/k5"].register)
    each("view of a path that shows nothing", EDITS, lambda i: first["m5/no"].show())
    each("view of one map of 100", times, lambda i: first["m5"].show())
    each("view of all", times, lambda i: first.show())
    snapshot = bytes(first)
    each("snapshot", times, lambda i: bytes(first), len(snapshot))
    each("snapshot opened, and freed", times, lambda i: Replica.from_bytes(snapshot).close())
    each("merge of a snapshot into an empty replica", 1, lambda i: second.merge(snapshot))
    each("merge of a snapshot that is there", times, lambda i: second.merge(snapshot))
    meet(first, second, elements, times)
    edits = [("set", path_of(i * 37 % elements), -i) for i in range(EDITS)]
    begun = time.process_time()
    first.edit(edits)
    say("edit: one line of 2,000 in a call", time.process_time() - begun, EDITS)
    each("edit: an old register set anew", EDITS, lambda i: first[path_of(i * 37 % elements)].set(i))
    each("edit: a new register", EDITS, lambda i: first[path_of(elements + i)].set(i))
    with tempfile.TemporaryDirectory() as folder:
        path = Path(folder, "f.rds")
        path.write_bytes(bytes(first))
        time_file(path, elements, times)


def time_file(path: Path, elements: int, times: int) -> None:
    """Each keep is synced; the time that a disk takes isn't in it."""
    with Replica.open(path) as file:
        each("edit in a file: an old register set anew", EDITS, lambda i: file[path_of(i * 37 % elements)].set(i))
        each("edit in a file: a new register", EDITS, lambda i: file[path_of(elements + EDITS + i)].set(i))
        each("keep of these", 1, lambda i: file.keep())
        each("edit and keep", 100, lambda i: set_and_keep(file, i * 37 % elements, i))
    each("file opened, and closed", times, lambda i: Replica.open(path).close())


def set_and_keep(file: Replica, number: int, value: int) -> None:
    file[path_of(number)].set(value)
    file.keep()


def meet(first: Replica, second: Replica, elements: int, times: int) -> None:
    asking = answering = taking = 0.0
    for number in range(times):
        for edit in range(10):
            first[path_of((number * 10 + edit) * 91 % elements)].set(-number)
        begun = time.process_time()
        question = second.ask()
        asked = time.process_time()
        answer = first.answer(question)
        answered = time.process_time()
        second.take(question, answer)
        asking += asked - begun
        answering += answered - asked
        taking += time.process_time() - answered
    say("ask, after ten edits", asking, times, len(question))
    say("answer", answering, times, len(answer))
    say("take", taking, times)


if __name__ == "__main__":
    main(int(sys.argv[1]))
