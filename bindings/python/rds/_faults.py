"""Why a call is refused. After a refusal the replica is as it was."""
from __future__ import annotations

import ctypes
import os
from typing import Dict, Optional, Type

from ._library import DEVICE, LIB, MEMORY


class RdsError(Exception):
    """A call was refused.

    `number` is its status, of docs/FAULTS.md or of rds.h, and `words` says what it is. `given` is the path, key, name,
    file or URL that was given, where there was one.
    """

    def __init__(self, number: int, words: str = "", given: Optional[str] = None) -> None:
        name, text = LIB.rds_status_name(number).decode(), LIB.rds_status_text(number).decode()
        self.number = number
        self.words = words or f"{name}: {text}"
        self.given = given
        super().__init__(self.words if given is None else f"{given!r}: {self.words}")


class BadName(RdsError, ValueError):
    """A text is no name of a replica: 1 to 16 bytes, first a to z, then a to z, 0 to 9 and '-'."""


class BadKey(RdsError, ValueError):
    """A text is no key: 1 to 64 bytes of UTF-8 without '/'."""


class BadPath(RdsError, ValueError):
    """A path has more than 8 keys, or none where a value has to stand."""


class BadScalar(RdsError, ValueError):
    """A value is none: a text of more than 1,024 bytes, or a number beyond 64 bits."""


class BadRoster(RdsError, ValueError):
    """A roster has no name, more than 256, or one twice."""


class SeqFull(RdsError):
    """The replica has used its last dot."""


class CounterFull(RdsError):
    """A counter's number of this replica would pass 281,474,976,710,655."""


class Conflict(RdsError):
    """A dot is live on both sides with different entries: two replicas shared a name, or a copy was edited."""


class OwnAhead(RdsError):
    """The other side has something of this replica's own that it lacks: it is older, as after a backup was put back."""


class WrongAsker(RdsError):
    """An answer was made for another replica, or for a later state of this one."""


class BadText(RdsError, ValueError):
    """Bytes aren't a text of the kind that is read."""


class Cut(BadText):
    """Bytes end before the text that they begin is whole."""


class Bad(BadText):
    """Bytes are no text of this kind."""


class Extra(BadText):
    """More bytes follow a whole text."""


class TooLong(RdsError, ValueError):
    """A text has more than 268,435,456 bytes, or a line more than 65,536."""


class BadCertificate(RdsError, ValueError):
    """The certificate of an answer doesn't hold."""


class WrongVersion(RdsError):
    """The other side speaks another version."""


class WrongGroup(RdsError):
    """The two replicas are of different groups."""


class WrongRoster(RdsError):
    """Neither of the two rosters begins the other."""


class SameReplica(RdsError):
    """Both sides are the same replica."""


class OutOfTurn(RdsError):
    """The peer sent something else than what was awaited, as what is no node does."""


class PeerEnded(RdsError):
    """A node refused a request. Where it told a fault, that is the `__cause__`, and speaks of the node: by `OwnAhead`
    it says that it is the older one itself."""


class BadLine(RdsError, ValueError):
    """An edit is none: not one of set, add, del, clear, inc, dec with what belongs to it."""


class Forked(RdsError):
    """Both sides have seen the same, and hold different entries."""


class Unsure(RdsError):
    """All was written to the file, and the system couldn't say that it lasts: it may be there after a crash or not."""


class Closed(RdsError):
    """The replica was closed; or it is to be kept and has no file."""


class NotUtf8(RdsError, ValueError):
    """A text can't be written as UTF-8."""


class Busy(RdsError):
    """Another program, or another replica of this one, has the file."""


class Linked(RdsError):
    """The file has several names (hard links), and the others wouldn't follow."""


class Replaced(RdsError):
    """The path leads to another file than the one that is held, or to none."""


class Exists(RdsError):
    """Something is at the path already."""


class Beside(RdsError, ValueError):
    """The path ends in .new, as files do that are written beside others."""


_CLASSES: Dict[int, Type[RdsError]] = {
    2: BadName,
    3: BadKey,
    4: BadPath,
    5: BadScalar,
    6: BadRoster,
    7: SeqFull,
    8: CounterFull,
    9: Conflict,
    10: OwnAhead,
    11: WrongAsker,
    12: Cut,
    13: Bad,
    14: Extra,
    15: TooLong,
    17: BadCertificate,
    18: WrongVersion,
    19: WrongGroup,
    20: WrongRoster,
    21: SameReplica,
    22: OutOfTurn,
    23: PeerEnded,
    25: BadLine,
    28: Forked,
    29: Unsure,
    64: Closed,
    67: NotUtf8,
    68: Busy,
    69: Linked,
    70: Replaced,
    71: Exists,
    72: Beside,
}


def fault(number: int, words: str = "", given: Optional[str] = None) -> RdsError:
    """The exception of a status."""
    return _CLASSES.get(number, RdsError)(number, words, given)


def refuse(number: int, words: str = "", given: Optional[str] = None) -> None:
    """Raises the exception of a status that isn't 0."""
    if number == MEMORY:
        raise MemoryError("rds: there was no memory left")
    if number == DEVICE:
        error = ctypes.get_errno()
        raise OSError(error, os.strerror(error), given)
    raise fault(number, words, given)
