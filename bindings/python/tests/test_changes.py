"""What a node tells of its changes, as they come: one that the tests play, frame by frame, and the program's."""
import base64
import hashlib
import re
import socket
import struct
import threading
import time
from contextlib import contextmanager
from pathlib import Path
from typing import Callable, Iterator, List, Optional, Type
from urllib.request import urlopen

import pytest

from rds import Change, OutOfTurn, PeerEnded, TooLong, follow
from test_nodes import HOST, LIMIT, TOKEN, Node, file, running, told, with_the_program

__all__ = ["file"]

NEWS = b'{"turn":1,"mark":"m","paths":["apples/tags"]}'
CHANGE = Change(1, "m", ["apples/tags"])
Acts = Callable[[socket.socket], None]


def framed(payload: bytes, first: int = 0x81) -> bytes:
    """A frame as a node sends it."""
    length = bytes([len(payload)]) if len(payload) < 126 else b"\x7e" + struct.pack(">H", len(payload))
    return bytes([first]) + length + payload


def unmasked(link: socket.socket, length: int) -> bytes:
    """The first byte of a frame that comes, and its payload, of so many bytes."""
    frame = b""
    while len(frame) < 6 + length:
        frame += link.recv(6 + length - len(frame))
    assert frame[1] == 0x80 | length
    return frame[:1] + bytes(byte ^ frame[2 + at % 4] for at, byte in enumerate(frame[6:]))


@contextmanager
def played(
    act: Acts, answer: Optional[bytes] = None, key: Optional[bytes] = None, heard: Optional[List[bytes]] = None
) -> Iterator[str]:
    """The URL of a node that answers a handshake, by its own key or this one, and then does something."""

    def serve() -> None:
        link = listening.accept()[0]
        with link:
            head = b""
            while not head.endswith(b"\r\n\r\n"):
                head += link.recv(1 << 16)
            if heard is not None:
                heard.append(head)
            asked = re.search(rb"(?m)^Sec-WebSocket-Key: (\S+)\r$", head)
            assert asked
            accept = hashlib.sha1((key or asked[1]) + b"258EAFA5-E914-47DA-95CA-C5AB0DC85B11").digest()
            link.sendall(answer or b"HTTP/1.1 101 Switching Protocols\r\nConnection: Upgrade\r\nUpgrade: websocket\r\n"
                         b"Sec-WebSocket-Accept: " + base64.b64encode(accept) + b"\r\n\r\n")
            act(link)

    with socket.create_server((HOST, 0)) as listening:
        thread = threading.Thread(target=serve, daemon=True)
        thread.start()
        yield f"http://{HOST}:{listening.getsockname()[1]}"
        thread.join(LIMIT)
        assert not thread.is_alive()


def says(*frames: bytes) -> Acts:
    return lambda link: link.sendall(b"".join(frames))


def test_what_is_told_comes_out() -> None:
    heard: List[bytes] = []
    anywhere = b'{"turn":2,"mark":"n","paths":null}'
    long = b'{"turn":3,"mark":"o","paths":["' + b"x" * 200 + b'"]}'
    with played(says(framed(NEWS), framed(anywhere), framed(long)), heard=heard) as url:
        changes = follow(url, token=TOKEN)
        assert [next(changes) for _ in range(3)] == [CHANGE, Change(2, "n", None), Change(3, "o", ["x" * 200])]
        with pytest.raises(ConnectionResetError):
            next(changes)
    assert heard[0].startswith(b"GET /live HTTP/1.1\r\n")
    assert f"\r\nAuthorization: Bearer {TOKEN}\r\n".encode() in heard[0]


@pytest.mark.parametrize(
    "path, is_near",
    [("", True), ("apples", True), ("apples/tags", True), ("apples/tags/red", True), ("apple", False), ("apples/t", False)],
)
def test_paths_are_compared_by_keys(path: str, is_near: bool) -> None:
    last = b'{"turn":2,"mark":"n","paths":null}'
    with played(says(framed(NEWS), framed(last))) as url:
        assert next(follow(url, path)).turn == (1 if is_near else 2)


def test_pings_and_pieces() -> None:
    found: List[bytes] = []

    def act(link: socket.socket) -> None:
        link.sendall(framed(NEWS[:9], 0x01) + framed(b"hello", 0x89))
        found.append(unmasked(link, 5))
        link.sendall(framed(b"", 0x8A) + framed(NEWS[9:], 0x80) + framed(b"\x03\xe9", 0x88))
        found.append(unmasked(link, 2))

    with played(act) as url:
        changes = follow(url)
        assert next(changes) == CHANGE
        with pytest.raises(ConnectionResetError):
            next(changes)
    assert found == [b"\x8ahello", b"\x88\x03\xe9"]


@pytest.mark.parametrize(
    "frame, error",
    [
        (framed(b"x"), OutOfTurn),
        (framed(b"[]"), OutOfTurn),
        (framed(b'{"turn":1,"mark":"m"}'), OutOfTurn),
        (framed(b'{"turn":"1","mark":"m","paths":null}'), OutOfTurn),
        (framed(b'{"turn":1,"mark":"m","paths":[1]}'), OutOfTurn),
        (framed(NEWS, 0xC1), OutOfTurn),
        (framed(NEWS, 0x83), OutOfTurn),
        (framed(NEWS, 0x80), OutOfTurn),
        (framed(NEWS, 0x01) + framed(NEWS), OutOfTurn),
        (framed(bytes(126), 0x89), OutOfTurn),
        (framed(b"", 0x09), OutOfTurn),
        (b"\x81\x81abcdx", OutOfTurn),
        (b"\x81\x7f" + struct.pack(">Q", 1 << 40), TooLong),
        (framed(bytes(60_000), 0x01) + framed(bytes(60_000), 0x80), TooLong),
    ],
)
def test_what_is_none_of_a_node_is_refused(frame: bytes, error: Type[Exception]) -> None:
    with played(says(frame)) as url, pytest.raises(error):
        next(follow(url))


def test_a_handshake_that_is_none_is_refused() -> None:
    with played(says(), key=b"AAAAAAAAAAAAAAAAAAAAAA==") as url, pytest.raises(OutOfTurn):
        next(follow(url))
    with played(says(), answer=b"HTTP/1.1 200 OK\r\nContent-Length: 0\r\n\r\n") as url, pytest.raises(PeerEnded):
        next(follow(url))
    with played(says(), answer=b"no HTTP\r\n\r\n") as url, pytest.raises(OutOfTurn):
        next(follow(url))


# ---- The program's nodes ----


def listen(node: Node) -> None:
    """Waits until somebody listens to a node."""
    until = time.monotonic() + LIMIT
    while b"\nrds_listeners 1\n" not in urlopen(f"{node.url}/metrics", timeout=LIMIT).read():
        assert time.monotonic() < until
        time.sleep(0.01)


@with_the_program
def test_a_node_is_followed_until_it_ends(file: Path) -> None:
    seen: List[Change] = []
    ended: List[BaseException] = []

    def hear(url: str) -> None:
        try:
            for change in follow(url, "apples"):
                seen.append(change)
        except ConnectionError as error:
            ended.append(error)

    with running(file) as node:
        thread = threading.Thread(target=hear, args=(node.url,), daemon=True)
        thread.start()
        listen(node)
        for path in "apples/price", "pears/price", "apples/tags":
            told("add", node.url, path, "1")
        mark = re.search(rb'"mark":"([0-9a-f]{32})"', told("status", node.url))
        assert mark
    thread.join(LIMIT)
    assert [change.paths for change in seen] == [["apples/price"], ["apples/tags"]]
    assert seen[-1].mark == mark[1].decode() and len(ended) == 1


@with_the_program
def test_a_token_is_due(tmp_path: Path, file: Path) -> None:
    (tmp_path / "token").write_text(TOKEN)
    with running(file, "--token-file", tmp_path / "token") as node:
        with pytest.raises(PeerEnded):
            next(follow(node.url))
        with pytest.raises(PeerEnded):
            next(follow(node.url, token=TOKEN[::-1]))
