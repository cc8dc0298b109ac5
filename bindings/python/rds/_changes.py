"""What a node that runs tells of its changes, as they come: docs/HTTP.md, "Changes as they come"."""
from __future__ import annotations

import errno
import json
import os
from typing import BinaryIO, Iterator, List, NamedTuple, Optional, Tuple

from ._faults import RdsError, fault
from ._nodes import met

_TOO_LONG, _OUT_OF_TURN = 15, 22
# The kinds of frames (RFC 6455): a part of a text behind its first, that, and those that are no text.
_MORE, _TEXT, _CLOSE, _PING, _PONG = 0, 1, 8, 9, 10
# The longest text, in bytes, and the longest frame that is none.
_LONGEST, _FEW = 1 << 16, 125
# A node is waited for so long, in seconds. One that has nothing to tell sends a ping each 20.
_QUIET = 60.0


class Change(NamedTuple):
    """What a node tells after a turn in which its document changed: the turn's number, the mark of the document, and the
    paths at which it changed. Where these are None it may have changed anywhere."""

    turn: int
    mark: str
    paths: Optional[List[str]]


def follow(url: str, path: str = "", token: Optional[str] = None) -> Iterator[Change]:
    """The changes of the node at a URL as they come, for as long as it runs: those at a path, above it or below it.

    The node is called by the first `next`. What was changed before is told nowhere: look at the document then.

        for change in rds.follow("http://127.0.0.1:7780", "apples"):
            print(change.paths)

    `PeerEnded` is raised where the node refuses, `ConnectionError` where it ends or isn't there, `TimeoutError` where it
    says nothing for 60 seconds, and `OutOfTurn` or `TooLong` where it is no node. It isn't called again.
    """
    with met(url, token, _QUIET) as node:
        link, source = node.listen()
        text, is_begun = b"", False
        while True:
            link.renew(_QUIET)
            is_last, kind, payload = _frame_of(source)
            if kind in (_PING, _CLOSE):
                link.sendall(_masked(_PONG if kind == _PING else _CLOSE, payload))
            if kind == _CLOSE:
                raise _ended()
            if kind in (_MORE, _TEXT):
                if is_begun is not (kind == _MORE):
                    raise _foreign()
                text, is_begun = text + payload, not is_last
                if len(text) > _LONGEST:
                    raise _too_long()
                if is_last:
                    change, text = _change_of(text), b""
                    if change.paths is None or any(_are_near(path, other) for other in change.paths):
                        yield change


def _are_near(one: str, other: str) -> bool:
    """Whether one of two paths is the other, or lies below it."""
    first, second = (path.split("/") if path else [] for path in (one, other))
    return all(a == b for a, b in zip(first, second))


def _change_of(text: bytes) -> Change:
    """What a text tells."""
    try:
        told = json.loads(text)
        turn, mark, paths = told["turn"], told["mark"], told["paths"]
    except (ValueError, TypeError, KeyError, RecursionError):
        raise _foreign() from None
    are_paths = paths is None or isinstance(paths, list) and all(isinstance(path, str) for path in paths)
    if type(turn) is not int or not isinstance(mark, str) or not are_paths:
        raise _foreign()
    return Change(turn, mark, paths)


def _frame_of(source: BinaryIO) -> Tuple[bool, int, bytes]:
    """The next frame: whether it is the last of its text, its kind, and what it holds."""
    first, length = _read(source, 2)
    is_last, kind = first >= 0x80, first & 0x0F
    if first & 0x70 or length >= 0x80 or kind not in (_MORE, _TEXT, _CLOSE, _PING, _PONG):
        raise _foreign()
    if kind >= _CLOSE and (length > _FEW or not is_last):
        raise _foreign()
    if length > _FEW:
        length = int.from_bytes(_read(source, 2 if length == 126 else 8), "big")
    if length > _LONGEST:
        raise _too_long()
    return is_last, kind, _read(source, length)


def _read(source: BinaryIO, length: int) -> bytes:
    data = source.read(length)
    if len(data) < length:
        raise _ended()
    return data


def _masked(kind: int, payload: bytes) -> bytes:
    """A frame to a node, of at most 125 bytes."""
    mask = os.urandom(4)
    hidden = bytes(byte ^ mask[at % 4] for at, byte in enumerate(payload))
    return bytes([0x80 | kind, 0x80 | len(payload)]) + mask + hidden


def _ended() -> ConnectionError:
    return ConnectionResetError(errno.ECONNRESET, "the node ended the connection")


def _foreign() -> RdsError:
    return fault(_OUT_OF_TURN, "OutOfTurn: what is told of changes is none of a node")


def _too_long() -> RdsError:
    return fault(_TOO_LONG, f"TooLong: a text of the node has more than {_LONGEST:,} bytes")
