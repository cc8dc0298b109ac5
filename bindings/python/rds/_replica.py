"""Replicas, and places in their documents."""
from __future__ import annotations

import errno
import json
import os
import threading
from ctypes import byref, c_size_t, c_uint64, create_string_buffer, string_at
from typing import Any, Dict, Iterable, Iterator, List, Mapping, NamedTuple, NoReturn, Optional, Tuple, Union, cast

from ._faults import RdsError, fault, refuse
from ._library import BAD_SCALAR, DEVICE, LAST_FAULT, LIB, MEMORY, NO_ROOM, UNSURE, EditedSlot, FileSlot
from ._nodes import Question, Synced, Tag, met
from ._plain import edits_of, plain_of

Scalar = Union[None, bool, int, str]
"""A value: None, a bool, a whole number of 64 bits with sign, or a text of at most 1,024 bytes."""

Edit = Union[Tuple[str, str], Tuple[str, str, Scalar]]
"""("set", PATH, VALUE), and likewise "add" and "del"; ("clear", PATH); ("inc", KEY, N) and likewise "dec"."""

_PathLike = Union[str, "os.PathLike[str]"]

_ROOM = 4096
_MOST = (1 << 64) - 1
_SAME_REPLICA, _OUT_OF_TURN, _FORKED, _EXISTS, _BESIDE = 21, 22, 28, 71, 72


class Edited(NamedTuple):
    """What an edit did: the number of the dot that it added, if any, and how many dots it killed."""

    dot: Optional[int]
    killed: int


class Status(NamedTuple):
    """Whose replica it is, and how much it holds: `bytes` are those of its snapshot. Replicas that hold the same
    entries and numbers have the same `mark`, 32 hex digits."""

    group: str
    own: str
    names: List[str]
    live: int
    dead: int
    counters: int
    components: int
    bytes: int
    mark: str


def _bytes_of(text: str) -> bytes:
    # What UTF-8 doesn't have goes in as it is, for the library to refuse.
    return text.encode("utf-8", "surrogatepass")


class Place:
    """A place in a replica's document: what stands at a path, and below it."""

    __slots__ = ("_replica", "_at", "path")

    def __init__(self, replica: Replica, path: str) -> None:
        self._replica = replica
        self._at = _bytes_of(path)
        self.path = path

    def __repr__(self) -> str:
        return f"<Place {self.path!r}>"

    def __getitem__(self, path: str) -> Place:
        """The place at a path below this one.

        >>> with Replica.new("g", ["a"], "a") as replica:
        ...     replica["apples"]["tags"]
        <Place 'apples/tags'>
        """
        return Place(self._replica, f"{self.path}/{path}" if self.path else path)

    def __iter__(self) -> Iterator[str]:
        """The keys below this place, in order; at the root those of counters too.

        >>> with Replica.new("g", ["a"], "a") as replica:
        ...     edited = replica["apples/tags"].add("red"), replica["apples/price"].set(3)
        ...     list(replica["apples"])
        ['price', 'tags']
        """
        return iter(sorted({key for kind in self.show().values() for key in kind}))

    def set(self, value: Scalar) -> Edited:
        """Sets the register here: what it had is gone.

        >>> with Replica.new("g", ["a"], "a") as replica:
        ...     edited = replica["price"].set(3), replica["price"].set(4)
        ...     edited, replica["price"].register
        ((Edited(dot=1, killed=0), Edited(dot=2, killed=1)), [4])
        """
        return self._replica._edit("set", self, value)

    def add(self, value: Scalar) -> Edited:
        """Adds a value to the set here."""
        return self._replica._edit("add", self, value)

    def delete(self, value: Scalar) -> Edited:
        """Deletes a value from the set here.

        >>> with Replica.new("g", ["a"], "a") as replica:
        ...     edited = replica["tags"].add("red"), replica["tags"].delete("red"), replica["tags"].delete("red")
        ...     edited[1:], replica["tags"].values
        ((Edited(dot=None, killed=1), Edited(dot=None, killed=0)), [])
        """
        return self._replica._edit("del", self, value)

    def clear(self) -> Edited:
        """Clears what is here and below, but counters."""
        return self._replica._change(self.path, LIB.rds_clear, self._at, len(self._at))

    def increase(self, by: int = 1) -> Edited:
        """Raises the counter here. Counters stand at the root, so the path is one key.

        >>> with Replica.new("g", ["a"], "a") as replica:
        ...     edited = replica["apples"].increase(10), replica["apples"].decrease(3)
        ...     replica["apples"].counter
        7
        """
        return self._count(LIB.rds_inc, by)

    def decrease(self, by: int = 1) -> Edited:
        """Lowers the counter here."""
        return self._count(LIB.rds_dec, by)

    def _count(self, call: Any, by: int) -> Edited:
        if by < 0:
            raise ValueError(f"a counter changes by 0 or more, and not by {by}")
        # More than 64 bits are more than a counter takes, as is the most that they can say.
        return self._replica._change(self.path, call, self._at, len(self._at), min(by, _MOST))

    @property
    def values(self) -> List[Scalar]:
        """The values of the set here, in their order: None, false, true, numbers, texts."""
        found: List[Scalar] = self._got()["set"]
        return found

    @property
    def register(self) -> List[Scalar]:
        """The values of the register here: none, one, or several where it was set at replicas that hadn't met."""
        found: List[Scalar] = self._got()["reg"]
        return found

    @property
    def counter(self) -> Optional[int]:
        """What the counter here stands at, if there is one."""
        found: Optional[int] = self._got()["counter"]
        return found

    def _got(self) -> Dict[str, Any]:
        got: Dict[str, Any] = json.loads(self._replica._gives(self.path, LIB.rds_get, self._at, len(self._at)))
        return got

    def show(self) -> Dict[str, Any]:
        """What the document shows here and below, by kind and key; counters at the root alone.

        >>> with Replica.new("g", ["a"], "a") as replica:
        ...     edited = replica["apples/tags"].add("red")
        ...     replica["apples"].show()
        {'maps': {}, 'regs': {}, 'sets': {'tags': ['red']}}
        """
        shown: Dict[str, Any] = json.loads(self._replica._gives(self.path, LIB.rds_view, self._at, len(self._at)))
        return shown

    def plain(self) -> Any:
        """What stands here as a plain value: a map as a dict, else a set as a list, else a register as its value, else
        a counter as its number. Where nothing stands it is an empty dict. Of a register with several values it is the
        last, which is the same at all replicas; `conflicts` lists them.

        >>> with Replica.new("g", ["a"], "a") as replica:
        ...     edited = replica["apples/tags"].add("red"), replica["apples/price"].set(3)
        ...     replica["apples"].plain(), replica["apples/tags"].plain(), replica["apples/price"].plain()
        ({'price': 3, 'tags': ['red']}, ['red'], 3)
        """
        with self._replica._lock:
            below = plain_of(self.show())
            got = {} if below or not self.path else self._got()
        if got.get("set") or got.get("reg"):
            return got["set"] or got["reg"][-1]
        return below if got.get("counter") is None else got["counter"]

    def update(self, mapping: Mapping[str, Any]) -> List[Edit]:
        """Puts a nested mapping in here, and gives the edits that this took. A scalar sets the register at its key, and
        the values of a list, tuple or set are added as elements. What stands there already isn't edited; a register
        with several values is, and has one then. Nothing is deleted, of any kind, and what is empty leaves nothing.

        >>> with Replica.new("g", ["a"], "a") as replica:
        ...     replica.update({"apples": {"price": 3, "tags": ["red"]}})
        ...     replica["apples"].update({"price": 4, "tags": {"red"}}), replica.update(replica.plain())
        [('set', 'apples/price', 3), ('add', 'apples/tags', 'red')]
        ([('set', 'apples/price', 4)], [])

        What a document can't hold is told by its path, as a float is by `TypeError`, before anything is changed. No
        number changes a counter: one that the counter doesn't stand at sets a register beside it.
        """
        if not isinstance(mapping, Mapping):
            raise TypeError(f"what is put in is a mapping, and not {type(mapping).__name__}")
        with self._replica._lock:
            edits = list(edits_of(mapping, self.show(), self.path))
            done = self._replica.edit(edits) if edits else []
        # All was looked at, so nothing is refused but dots beyond the last one that a replica has.
        for refused in done:
            if isinstance(refused, RdsError):
                raise refused
        return edits

    def conflicts(self) -> Dict[str, List[Scalar]]:
        """The registers here and below that have several values, by their paths from the root."""
        lines = self._replica._gives(self.path, LIB.rds_conflicts, self._at, len(self._at)).splitlines()
        return {found["path"]: found["values"] for found in map(json.loads, lines)}

    def dump(self) -> List[Edit]:
        """The edits that make what stands here and below, for `Replica.edit`. Of a register with several values the
        last one stands after that; counters are among them at the root.

        >>> with Replica.new("g", ["a"], "a") as replica:
        ...     edited = replica["tags"].add("red"), replica["n"].increase(2)
        ...     replica.dump()
        [('add', 'tags', 'red'), ('inc', 'n', 2)]
        """
        lines = self._replica._gives(self.path, LIB.rds_dump, self._at, len(self._at)).splitlines()
        return [cast(Edit, tuple(json.loads(line))) for line in lines]


class Replica:
    """A replica of a group: a document that is edited here, and that joins with the group's others.

    It is open until `close`, or the end of its `with` block. It may be used on any thread: calls on several wait for
    each other, and not for those of other replicas. A replica has no copy and isn't pickled (`TypeError`).

    A replica that lives in a file is locked there while it is open. `keep` writes it, and what wasn't kept is lost at
    `close`. What goes to others (`ask`, `answer`, `bytes`) is kept first, so that nobody has what the file may lose.
    """

    __slots__ = ("_slot", "_at", "_room", "_length", "_edited", "_lock", "_file", "_is_ahead", "__weakref__")

    def __init__(self) -> None:
        self._slot = FileSlot()
        self._at = byref(self._slot.replica)
        self._room = create_string_buffer(_ROOM)
        self._length = c_size_t()
        self._edited = EditedSlot()
        # ctypes lets other threads run during a call, and the library takes one call of a replica at a time.
        self._lock = threading.RLock()
        self._file: Optional[str] = None
        self._is_ahead = False

    @classmethod
    def new(cls, group: str, names: Iterable[str], own: str, path: Optional[_PathLike] = None) -> Replica:
        """An empty replica: the one named `own` of a group whose replicas have these names. Each name is for one
        replica, for good. With a path it lives in a new file.

        >>> Replica.new("inventory", ["shop", "store"], "shop").status().names
        ['shop', 'store']
        """
        roster = list(names)
        if own not in roster:
            raise ValueError(f"{own!r} isn't among the names")
        self = cls()
        line = json.dumps(["roster", group, *roster]).encode()
        # A roster of more than 256 names is refused, whatever the number.
        self._done(LIB.rds_new(self._at, line, len(line), min(roster.index(own), 255)), group)
        if path is not None:
            self._open_by(LIB.rds_make_file, path)
        return self

    @classmethod
    def open(cls, path: _PathLike) -> Replica:
        """The replica in a file. `Busy` where another has it: nobody is waited for. `OSError` if it can't be read."""
        self = cls()
        self._open_by(LIB.rds_open_file, path)
        return self

    @classmethod
    def from_bytes(cls, snapshot: bytes) -> Replica:
        """The replica of a snapshot, in no file. Open none twice for editing.

        >>> with Replica.new("g", ["a"], "a") as replica:
        ...     edited = replica["k"].set(1)
        ...     Replica.from_bytes(bytes(replica))["k"].register
        [1]
        """
        self = cls()
        self._done(LIB.rds_open(self._at, snapshot, len(snapshot)))
        return self

    @classmethod
    def join(
        cls,
        url: str,
        own: str,
        path: Optional[_PathLike] = None,
        token: Optional[str] = None,
        timeout: Optional[float] = 30.0,
    ) -> Replica:
        """A new replica, named `own`, of the group of the node at `http://HOST:PORT`, with all that the node has seen.
        With a path it lives in a new file, and is kept there. The token and the timeout are as in `sync`.

        The name is put into the node's roster first, so it has to be new there: two that join at once never get one
        name. Let all join at one node of a group, always the same: rosters that grow at two can't meet again.

        Errors are as in `sync`. A node that refuses the name tells why by the `__cause__`, `BadRoster` (it is there
        already, or 256 are) or `BadName`; an older node refuses any, by 404. What is at the path already (`Exists`), or
        else hinders a file, is told before anything is asked. After a later error the name may be in the roster, so
        join by another. Only at `Unsure` a file is left: it holds the replica, and may be opened.
        """
        with met(url, token, timeout) as node:
            if path is not None:
                _refuse_path(path)
            node.grow(_bytes_of(own))
            snapshot = node.snapshot()
            with cls.from_bytes(snapshot) as theirs:
                status = theirs.status()
            if own == status.own or own not in status.names:
                raise fault(_OUT_OF_TURN, f"OutOfTurn: the node's snapshot has no place for {own!r}")
            self = cls.new(status.group, status.names, own)
            try:
                self.merge(snapshot)
                # Made last, so that no file is left of what fails before. All is kept in it at once.
                if path is not None:
                    self._open_by(LIB.rds_make_file, path)
            except BaseException:
                self.close()
                raise
            return self

    def _open_by(self, call: Any, path: _PathLike) -> None:
        name = os.fspath(path)
        at = os.fsencode(name)
        self._done(call(byref(self._slot), at, len(at)), name)
        self._file = name
        self._is_ahead = False

    def keep(self) -> None:
        """Keeps the replica in its file: all edits so far outlast a crash of the machine. `Closed` without a file. At
        `Unsure` they are in the file, and may not outlast a crash."""
        with self._lock:
            self._done(LIB.rds_keep(byref(self._slot)), self._file)
            self._is_ahead = False

    def close(self) -> None:
        """Frees what the replica has, and lets its file go. A second one does nothing."""
        with self._lock:
            LIB.rds_close(byref(self._slot))

    def __enter__(self) -> Replica:
        return self

    def __exit__(self, *_: object) -> None:
        self.close()

    def __del__(self) -> None:
        # Nobody else has it by now, whichever thread this is.
        if hasattr(self, "_slot"):
            LIB.rds_close(byref(self._slot))

    def __reduce__(self) -> NoReturn:
        raise TypeError("a replica lives at one place: it has no copy and isn't pickled")

    def _done(self, status: int, given: Optional[str] = None) -> None:
        """Raises what a status says, with the words that the library has for it."""
        if not status:
            return
        is_of_the_library = status <= LAST_FAULT and status not in (MEMORY, DEVICE, UNSURE)
        refuse(status, self._words() if is_of_the_library else "", given)

    def _words(self) -> str:
        """The words of the last fault; none where the replica is closed."""
        if LIB.rds_told(self._at, self._room, _ROOM, byref(self._length)):
            return ""
        return string_at(self._room, self._length.value).decode()

    def _gives(self, given: Optional[str], call: Any, *arguments: Any) -> bytes:
        """The bytes that a call gives."""
        length = self._length
        with self._lock:
            status = call(self._at, *arguments, self._room, _ROOM, byref(length))
            if status == NO_ROOM:
                room = create_string_buffer(length.value)
                self._done(LIB.rds_told(self._at, room, len(room), byref(length)), given)
                return room.raw
            self._done(status, given)
            return string_at(self._room, length.value)

    def _change(self, given: str, call: Any, *arguments: Any) -> Edited:
        """What an edit did."""
        done = self._edited
        with self._lock:
            status = call(self._at, *arguments, byref(done))
            if status:
                self._done(status, given)
            self._is_ahead = True
            return Edited(done.number if done.has_dot else None, done.killed)

    def _edit(self, verb: str, place: Place, value: Scalar) -> Edited:
        path, at = place.path, place._at
        if isinstance(value, str):
            text = _bytes_of(value)
            return self._change(path, _TEXT[verb], at, len(at), text, len(text))
        if value is None:
            return self._change(path, _NULL[verb], at, len(at))
        if isinstance(value, bool):
            return self._change(path, _BOOL[verb], at, len(at), value)
        if not isinstance(value, int):
            raise TypeError(f"a value is None, a bool, an int or a str, and not {type(value).__name__}")
        if not -(1 << 63) <= value < 1 << 63:
            refuse(BAD_SCALAR, given=path)
        return self._change(path, _INT[verb], at, len(at), value)

    def __getitem__(self, path: str) -> Place:
        """The place at a path: keys with '/' between them."""
        return Place(self, path)

    def __iter__(self) -> Iterator[str]:
        """The keys at the root."""
        return iter(self[""])

    def edit(self, edits: Iterable[Edit]) -> List[Union[Edited, RdsError]]:
        """Makes many edits, one after the other, in one call. What is refused changes nothing and doesn't stop the
        others: in its place stands why. `MemoryError` says that none was made, or in its words that they were.

        >>> with Replica.new("g", ["a"], "a") as replica:
        ...     for done in replica.edit([("set", "k", 1), ("set", "a//b", 2), ("inc", "n", 3)]):
        ...         print(repr(done))
        Edited(dot=1, killed=0)
        BadKey("'a//b': BadKey: the text is no key")
        Edited(dot=None, killed=0)
        """
        given = list(edits)
        lines = "\n".join(map(json.dumps, given)).encode()
        with self._lock:
            self._is_ahead = True
            answers = self._gives(None, LIB.rds_edit_lines, lines, len(lines)).splitlines()
        if len(answers) < len(given):
            raise MemoryError("rds: the edits were made, but there was no memory to tell what they did")
        return [_answer(json.loads(answer), one) for answer, one in zip(answers, given)]

    def show(self) -> Dict[str, Any]:
        """What the whole document shows."""
        return self[""].show()

    def plain(self) -> Dict[str, Any]:
        """The whole document as a plain dict, counters too, by the rules of `Place.plain`."""
        return plain_of(self.show())

    def update(self, mapping: Mapping[str, Any]) -> List[Edit]:
        """Puts a mapping in at the root, as `Place.update` does below it, and gives the edits that this took."""
        return self[""].update(mapping)

    def conflicts(self) -> Dict[str, List[Scalar]]:
        """The registers that have several values, by their paths."""
        return self[""].conflicts()

    def dump(self) -> List[Edit]:
        """The edits that make this document."""
        return self[""].dump()

    def status(self) -> Status:
        """Whose replica it is, and how much it holds."""
        return Status(**json.loads(self._gives(None, LIB.rds_status_json)))

    def mark(self) -> str:
        """The mark of the document, 32 hex digits, by which replicas are compared at a glance. Those that have the same
        updates have the same mark. That others have another isn't promised, since values can be chosen for it.

        >>> names = ["a", "b"]
        >>> with Replica.new("g", names, "a") as a, Replica.new("g", names, "b") as b:
        ...     edited = a["k"].set(1)
        ...     taken = b.pull(a)
        ...     a.mark() == b.mark(), len(a.mark())
        (True, 32)
        """
        return self._gives(None, LIB.rds_mark).decode()

    def __bytes__(self) -> bytes:
        """The bytes of a new file: the snapshot, and its checksum."""
        return self._gives_kept(LIB.rds_snapshot)

    def _gives_kept(self, call: Any, *arguments: Any) -> bytes:
        """Bytes that may go to others: of a replica in a file, once it is kept."""
        with self._lock:
            self._keep_ahead()
            return self._gives(None, call, *arguments)

    def _keep_ahead(self) -> None:
        """Keeps what the file doesn't have, where there is a file."""
        with self._lock:
            if self._file is not None and self._is_ahead:
                self.keep()

    def ask(self) -> bytes:
        """What asks another replica for what this one lacks."""
        return self._gives_kept(LIB.rds_ask)

    def answer(self, question: bytes) -> bytes:
        """The answer to another's question: the least that it lacks, with a certificate."""
        return self._gives_kept(LIB.rds_answer, question, len(question))

    def take(self, question: bytes, answer: bytes) -> int:
        """Takes the answer to a question of this replica's, and tells how many components came."""
        return self._taken(LIB.rds_take, question, len(question), answer, len(answer))

    def pull(self, peer: Replica) -> int:
        """Takes what the peer has and this one lacks, and tells how many components came.

        >>> names = ["a", "b"]
        >>> with Replica.new("g", names, "a") as a, Replica.new("g", names, "b") as b:
        ...     edited = a["k"].set(1), b["k"].set(2)
        ...     a.pull(b), b.pull(a), a.conflicts(), b.conflicts()
        (1, 1, {'k': [1, 2]}, {'k': [1, 2]})
        """
        question = self.ask()
        return self.take(question, peer.answer(question))

    def sync(self, url: str, token: Optional[str] = None, timeout: Optional[float] = 30.0) -> Synced:
        """Meets the node (`rds_node run`) at `http://HOST:PORT`: each of the two takes what it lacks. The token is the
        node's, where it has one. This replica may be used on other threads meanwhile.

        One that lives in a file is kept before anything of it goes to the node, and when it has taken something. One
        without a file isn't kept: go on from no older snapshot of it.

        A wait for a byte takes at most `timeout` seconds, and all waits together ten times as long. Each full megabyte
        that comes or goes adds one timeout. With None nothing is bounded.

        `ValueError` says that the words name no node, and `OSError` that it can't be reached or heard, among others
        `ConnectionError` and `TimeoutError`. A node refuses by `PeerEnded`. What is no node is told by `OutOfTurn`, or
        as bytes that are none of rds. `WrongGroup`, `WrongRoster` and `SameReplica` say that the two can't meet.
        `Forked` says that both have seen the same, and hold different entries; it may come once all has gone over.
        What was taken before an error stays taken.
        """
        with met(url, token, timeout) as node:
            own, tag = self._tagged()
            asked = node.ask(tag)
            if asked.text is None:
                if asked.own == own.own:
                    raise fault(_SAME_REPLICA)
                return Synced(0, 0)
            # Made before anything is asked for, since it judges who asks. What is taken adds nothing to it.
            answer = self.answer(asked.text)
            theirs = Question.of(asked.text)
            if theirs.hash() == tag.hash:
                if asked.tag and tag.is_forked(asked.tag):
                    raise fault(_FORKED)
                return Synced(0, 0)
            taken = self.take(own.text, node.answer(own.text))
            self._keep_ahead()
            if own.brings(answer, theirs):
                return Synced(taken, node.take(asked.text, answer))
            # The node lacked nothing, so this replica should be now what the node was when it asked.
            if asked.tag and self._tagged()[1].is_forked(asked.tag):
                raise fault(_FORKED)
            return Synced(taken, 0)

    def _tagged(self) -> Tuple[Question, Tag]:
        """What this replica asks, and the tag of that: both of one moment, though other threads may edit."""
        with self._lock:
            question = Question.of(self.ask())
            return question, Tag(question.hash(), self.mark())

    def merge(self, snapshot: bytes) -> int:
        """Takes all that a snapshot of another replica has seen, and tells how many components were lacking."""
        return self._taken(LIB.rds_merge, snapshot, len(snapshot))

    def _taken(self, call: Any, *arguments: Any) -> int:
        taken = c_uint64()
        with self._lock:
            self._done(call(self._at, *arguments, byref(taken)))
            self._is_ahead = True
        return taken.value

    def grow(self, name: str) -> None:
        """Puts a name last in the roster, for a new replica. To be done at one replica alone, for good."""
        text = _bytes_of(name)
        with self._lock:
            self._done(LIB.rds_grow(self._at, text, len(text)), name)
            self._is_ahead = True


def _refuse_path(path: _PathLike) -> None:
    """Raises what would keep a new file from being made at a path, as far as that can be told beforehand."""
    name = os.fspath(path)
    folder, last = os.path.split(name)
    if name.endswith(".new"):
        raise fault(_BESIDE, given=name)
    try:
        os.lstat(name)
    except FileNotFoundError:
        if not last or not os.path.isdir(folder or os.curdir):
            raise
    else:
        raise fault(_EXISTS, given=name)
    if not os.access(folder or os.curdir, os.R_OK | os.W_OK | os.X_OK):
        raise PermissionError(errno.EACCES, os.strerror(errno.EACCES), name)


def _answer(answer: Dict[str, Any], edit: Edit) -> Union[Edited, RdsError]:
    if "fault" in answer:
        return fault(answer["fault"], given=edit[1] if len(edit) > 1 else None)
    return Edited(answer["dot"][1] if answer["dot"] else None, answer["killed"])


_TEXT = {"set": LIB.rds_set_text, "add": LIB.rds_add_text, "del": LIB.rds_del_text}
_INT = {"set": LIB.rds_set_int, "add": LIB.rds_add_int, "del": LIB.rds_del_int}
_BOOL = {"set": LIB.rds_set_bool, "add": LIB.rds_add_bool, "del": LIB.rds_del_bool}
_NULL = {"set": LIB.rds_set_null, "add": LIB.rds_add_null, "del": LIB.rds_del_null}
