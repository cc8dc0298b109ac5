"""Nodes that run (`rds_node run`), and what is asked of them: docs/FORMATS.md, "A meeting of two nodes"."""
from __future__ import annotations

import base64
import errno
import hashlib
import json
import math
import os
import re
import socket
import time
from contextlib import contextmanager
from http.client import HTTPConnection, HTTPException, HTTPResponse, IncompleteRead, RemoteDisconnected
from typing import Any, BinaryIO, Dict, Iterator, NamedTuple, Optional, Tuple

from ._faults import RdsError, fault
from ._library import LAST_FAULT

_TOO_LONG, _OUT_OF_TURN, _PEER_ENDED = 15, 22, 23
_SWITCHED, _DONE, _NOT_MODIFIED = 101, 200, 304
# What is said of a refusal without words.
_REFUSALS = {401: "a token is due", 403: "a token may be due"}

# The longest body of a response, in bytes; the room for what stands around it; the most of one that says little.
_LONGEST, _AROUND, _FEW = 268_435_456, 1 << 20, 1 << 16
# So much is sent or read at a time, in bytes.
_PIECE = 1 << 16
# No more of a node's words is told, in characters.
_WORDS = 500
# How many times the timeout a meeting has that moves little, and how many bytes give it one timeout more.
_WAITS, _PORTION = 10, 1 << 20

_URL = re.compile(r"http://((?:\[([0-9A-Fa-f:.]+)\]|([A-Za-z0-9._-]+))(?::([0-9]{1,5}))?)/?")
_TOKEN = re.compile(r"[A-Za-z0-9._~-]{16,128}")
_TAG = re.compile(r'"([0-9a-f]{64})-([0-9a-f]{32})"')
_NUMBER = re.compile(r"[0-9]{1,3}")
# What the key of a handshake is joined with (RFC 6455).
_JOINED = b"258EAFA5-E914-47DA-95CA-C5AB0DC85B11"


class Synced(NamedTuple):
    """What a meeting with a node brought: how many components this replica took, and how many the node took."""

    taken: int
    given: int


class Tag(NamedTuple):
    """A hash of what a replica has seen, and the mark of what it holds, in hex digits."""

    hash: str
    mark: str

    def __str__(self) -> str:
        return f'"{self.hash}-{self.mark}"'

    def is_forked(self, other: Tag) -> bool:
        """Whether both have seen the same, and hold different entries."""
        return self.hash == other.hash and self.mark != other.mark


class Question(NamedTuple):
    """The bytes of a question, and where in them the number stands of the replica that asks."""

    text: bytes
    at: int

    @classmethod
    def of(cls, text: bytes) -> Question:
        """Reads what a replica wrote: four bytes, a version, its group, its roster, its number and a brief."""
        at = 6 + text[5]
        count = int.from_bytes(text[at : at + 2], "big")
        at += 2
        for _ in range(count):
            at += 1 + text[at]
        return cls(text, at)

    @property
    def own(self) -> int:
        """The number of the replica that asks."""
        return self.text[self.at]

    def hash(self) -> str:
        """The hash of the group, the roster and the brief."""
        made = hashlib.sha256(self.text[5 : self.at])
        made.update(memoryview(self.text)[self.at + 1 :])
        return made.hexdigest()

    def brings(self, answer: bytes, asked: Question) -> bool:
        """Whether an answer of this replica's brings something to another that asked: also a longer roster."""
        # One that brings nothing ends without a key, dot, row or certificate: in 18 bytes of 0. No other does, since
        # the last row of a certificate ends in 13 of them at the most.
        return self.at > asked.at or not answer.endswith(bytes(18))


class Asked(NamedTuple):
    """What a node asks; None where that has the tag that was shown. An older node tells no tag and no number."""

    text: Optional[bytes]
    tag: Optional[Tag]
    own: Optional[int]


class _Patience:
    """How long a node is waited for: `timeout` seconds at a time, and ten times as long in all. Each full megabyte that
    comes or goes adds one timeout more. With None nothing is bounded."""

    def __init__(self, timeout: Optional[float]) -> None:
        self._timeout = timeout
        self._waited = 0.0
        self.moved = 0

    @contextmanager
    def wait(self) -> Iterator[Optional[float]]:
        """Gives how long a call may take. `TimeoutError` where it takes longer, or where no time is left."""
        if self._timeout is None:
            yield None
            return
        whole = self._timeout * (_WAITS + self.moved // _PORTION)
        left, begun = whole - self._waited, time.monotonic()
        try:
            if left <= 0:
                raise socket.timeout
            yield min(self._timeout, left)
        except socket.timeout:
            words = f"nothing went or came for {self._timeout:g} s"
            if left < self._timeout:
                words = f"no more than {self.moved:,} bytes went and came in {whole:g} s"
            raise TimeoutError(errno.ETIMEDOUT, words) from None
        finally:
            self._waited += time.monotonic() - begun


class _Link(socket.socket):
    """A connection. Its calls take as long as a patience says, and what comes after a call of `sendall` has a limit."""

    def __init__(self, address: Tuple[str, int], patience: _Patience) -> None:
        with patience.wait() as seconds:
            made = socket.create_connection(address, seconds)
        super().__init__(fileno=made.detach())
        self.setsockopt(socket.IPPROTO_TCP, socket.TCP_NODELAY, 1)
        self._patience = patience
        self._room = 0

    def renew(self, timeout: float) -> None:
        """What follows may take as long, and have as many bytes, as if nothing had come before."""
        self._patience, self._room = _Patience(timeout), _LONGEST + _AROUND

    def sendall(self, data: Any, flags: int = 0) -> None:
        self._room = _LONGEST + _AROUND
        left = memoryview(data)
        while left:
            with self._patience.wait() as seconds:
                self.settimeout(seconds)
                count = self.send(left[:_PIECE], flags)
            self._patience.moved += count
            left = left[count:]

    def recv_into(self, buffer: Any, nbytes: int = 0, flags: int = 0) -> int:
        with self._patience.wait() as seconds:
            self.settimeout(seconds)
            count = super().recv_into(buffer, nbytes, flags)
        self._patience.moved += count
        self._room -= count
        if self._room < 0:
            raise _too_long()
        return count


class _Connection(HTTPConnection):
    """A connection that is made anew where it was closed."""

    def __init__(self, host: str, port: int, patience: _Patience) -> None:
        super().__init__(host, port)
        self._patience = patience

    def connect(self) -> None:
        self.sock = _Link((self.host, self.port), self._patience)


class Node:
    """A node at a URL, and what is said to it over one connection."""

    def __init__(self, url: str, token: Optional[str], timeout: Optional[float]) -> None:
        found = _URL.fullmatch(url)
        port = int(found[4] or 80) if found else 0
        if not found or not 0 < port < 1 << 16:
            raise ValueError(f"{url!r} is no node, as http://127.0.0.1:7780 is")
        if token is not None and not _TOKEN.fullmatch(token):
            raise ValueError("a token is 16 to 128 of A-Z a-z 0-9 - . _ ~")
        if timeout is not None and not 0 < timeout < math.inf:
            raise ValueError(f"a timeout is None or a number of seconds above 0, and not {timeout}")
        self._fields = {"Host": found[1]}
        if token is not None:
            self._fields["Authorization"] = f"Bearer {token}"
        self._connection = _Connection(found[2] or found[3], port, _Patience(timeout))

    def close(self) -> None:
        self._connection.close()

    def ask(self, tag: Tag) -> Asked:
        """Asks for the node's question, unless that has the tag."""
        response, text = self._call("GET", "/ask", {"If-None-Match": str(tag)})
        found = _TAG.fullmatch(response.getheader("ETag", ""))
        number = response.getheader("Rds-Replica", "")
        theirs = Tag(found[1], found[2]) if found else None
        own = int(number) if _NUMBER.fullmatch(number) else None
        return Asked(None if response.status == _NOT_MODIFIED else text, theirs, own)

    def answer(self, question: bytes) -> bytes:
        """Asks for the node's answer to a question."""
        return self._call("POST", "/answer", {}, question)[1]

    def take(self, question: bytes, answer: bytes) -> int:
        """Has the node take an answer to its question, and tells how many components that brought it."""
        body = self._call("POST", "/take", {}, len(question).to_bytes(4, "big"), question, answer)[1]
        taken = _object_in(body).get("taken")
        if type(taken) is not int or taken < 0:
            raise fault(_OUT_OF_TURN, "OutOfTurn: the answer to POST /take is none of a node")
        return taken

    def grow(self, name: bytes) -> None:
        """Has the node put a name last in its roster."""
        # On a connection of its own, since `_call` repeats nothing there. If the node grew, and its response is lost, a
        # second request is refused: the name is there already, and nobody could say whose it is.
        self.close()
        body = self._call("POST", "/grow", {}, name)[1]
        if _object_in(body).get("ok") is not True:
            raise fault(_OUT_OF_TURN, "OutOfTurn: the answer to POST /grow is none of a node")

    def snapshot(self) -> bytes:
        """Asks for the snapshot of the node's document."""
        return self._call("GET", "/snapshot", {})[1]

    def listen(self) -> Tuple[_Link, BinaryIO]:
        """Has the connection handed over, for what is told of changes: it, and what comes over it (RFC 6455)."""
        key = base64.b64encode(os.urandom(16))
        due = base64.b64encode(hashlib.sha1(key + _JOINED).digest()).decode()
        fields = {"Connection": "Upgrade", "Upgrade": "websocket", "Sec-WebSocket-Version": "13"}
        with _heard("GET /live"):
            self._connection.connect()
            response = self._exchange("GET", "/live", {**fields, "Sec-WebSocket-Key": key.decode()}, ())
            if response.status != _SWITCHED:
                raise _refusal("GET /live", response)
        if response.getheader("Sec-WebSocket-Accept") != due or response.getheader("Sec-WebSocket-Extensions"):
            raise fault(_OUT_OF_TURN, "OutOfTurn: the answer to GET /live is none of a node")
        assert isinstance(self._connection.sock, _Link)
        return self._connection.sock, response.fp

    def _call(self, method: str, target: str, fields: Dict[str, str], *pieces: bytes) -> Tuple[HTTPResponse, bytes]:
        """The response to a request, and its body. A connection that rested may be ended by then: each request may be
        made twice, since one that is repeated changes nothing. A name isn't told on a connection that rested."""
        is_new = self._connection.sock is None
        try:
            return self._try(method, target, fields, pieces)
        except ConnectionError:
            if is_new:
                raise
        self.close()
        return self._try(method, target, fields, pieces)

    def _try(
        self, method: str, target: str, fields: Dict[str, str], pieces: Tuple[bytes, ...]
    ) -> Tuple[HTTPResponse, bytes]:
        if self._connection.sock is None:
            self._connection.connect()
        # Closed at the end, since it may hold the connection.
        with _heard(f"{method} {target}"), self._exchange(method, target, fields, pieces) as response:
            known = (_DONE, _NOT_MODIFIED) if "If-None-Match" in fields else (_DONE,)
            if response.status not in known:
                raise _refusal(f"{method} {target}", response)
            return response, _body_of(response)

    def _exchange(self, method: str, target: str, fields: Dict[str, str], pieces: Tuple[bytes, ...]) -> HTTPResponse:
        """Sends a request, and reads the head of the response. A node that takes no more of it may still respond."""
        link, broken = self._connection, None
        link.putrequest(method, target, skip_host=True, skip_accept_encoding=True)
        length = {"Content-Length": str(sum(map(len, pieces)))} if pieces else {}
        for name, value in {**self._fields, **fields, **length}.items():
            link.putheader(name, value)
        try:
            link.endheaders()
            for piece in pieces:
                link.send(piece)
        except ConnectionError as error:
            broken = error
        try:
            return link.getresponse()
        except (OSError, HTTPException):
            if broken:
                raise broken from None
            raise


@contextmanager
def met(url: str, token: Optional[str], timeout: Optional[float]) -> Iterator[Node]:
    """The node at a URL, for a meeting. What is raised inside tells the URL, where it tells nothing else."""
    node = Node(url, token, timeout)
    try:
        yield node
    except RdsError as error:
        if error.given is not None or error.number > LAST_FAULT:
            raise
        raise type(error)(error.number, error.words, url) from error.__cause__
    except OSError as error:
        if error.filename is None and error.errno is not None:
            error.filename = url
        raise
    finally:
        node.close()


@contextmanager
def _heard(request: str) -> Iterator[None]:
    """What is wrong with the answer to a request is a fault, or a connection that ended."""
    try:
        yield
    except (IncompleteRead, RemoteDisconnected):
        raise ConnectionResetError(errno.ECONNRESET, "the connection ended before an answer was whole") from None
    except (RdsError, ConnectionError):
        raise
    except (HTTPException, ValueError) as error:
        raise fault(_OUT_OF_TURN, f"OutOfTurn: the answer to {request} is none of HTTP/1.1: {error!r}") from None


def _too_long() -> RdsError:
    return fault(_TOO_LONG, f"TooLong: a response of the node has more than {_LONGEST:,} bytes")


def _body_of(response: HTTPResponse) -> bytes:
    """The whole body of a response."""
    due, body = response.length, bytearray()
    if due is not None and due > _LONGEST:
        raise _too_long()
    while piece := response.read(_PIECE):
        body += piece
        if len(body) > _LONGEST:
            raise _too_long()
    if due is not None and len(body) < due:
        raise IncompleteRead(b"", due - len(body))
    return bytes(body)


def _refusal(request: str, response: HTTPResponse) -> RdsError:
    """What a request is refused by: the node's fault is the cause, where it tells one."""
    told = _object_in(response.read(_FEW))
    number, name, words = told.get("fault"), _words_in(told, "name"), _words_in(told, "text")
    cause = None
    if not words:
        words = _REFUSALS.get(response.status, "no words of a node")
    elif name and type(number) is int and 0 < number <= LAST_FAULT:
        words = f"{name}: {words}"
        cause = fault(number, words)
    refusal = fault(_PEER_ENDED, f"PeerEnded: the node refused {request}: {response.status}: {words}")
    refusal.__cause__ = cause
    return refusal


def _object_in(text: bytes) -> Dict[str, Any]:
    """The object of JSON that a text is; an empty one where it is none."""
    try:
        found = json.loads(text[:_FEW])
    except (ValueError, RecursionError):
        return {}
    return found if isinstance(found, dict) else {}


def _words_in(told: Dict[str, Any], name: str) -> str:
    """What stands under a name, where that may be shown."""
    found = told.get(name)
    return found if isinstance(found, str) and found.isprintable() and len(found) <= _WORDS else ""
