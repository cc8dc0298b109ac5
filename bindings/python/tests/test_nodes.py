"""Replicas that meet a node: one that the tests play, by hand or over another replica, and the program's."""
import hashlib
import json
import os
import re
import shutil
import socket
import struct
import subprocess
import sys
import textwrap
import threading
import time
from contextlib import contextmanager, suppress
from pathlib import Path
from typing import Callable, Dict, Iterator, List, Optional, Tuple, Type

import pytest

from node_program import NODE
from rds import (
    BadName,
    BadRoster,
    BadText,
    Beside,
    Closed,
    Exists,
    Forked,
    OutOfTurn,
    OwnAhead,
    PeerEnded,
    RdsError,
    Replaced,
    Replica,
    SameReplica,
    Synced,
    TooLong,
    WrongAsker,
    WrongGroup,
    WrongRoster,
    _nodes,
)

Pair = Tuple[Replica, Replica]

HOST = "127.0.0.1"
NAMES = ["shop", "store"]
TOKEN = "0123456789abcdef-._~"
# No wait of a test may take longer, in seconds.
LIMIT = 60.0

# The group inventory and the roster shop, store, as they stand in questions and responses (docs/FORMATS.md).
FRONT = b"\x09inventory\x00\x02\x04shop\x05store"
# The same when `north` has joined.
GROWN = b"\x09inventory\x00\x03\x04shop\x05store\x05north"
# The brief of nothing: no run, no counter row.
NOTHING = b"\x00" + bytes(4)


def tag_of(replica: Replica, front: bytes = FRONT) -> str:
    """The tag of a replica, read out of its question by the length of what is known to stand in front."""
    question, begin = replica.ask(), b"RDSB\x02" + front
    assert question.startswith(begin)
    hashed = hashlib.sha256(front + question[len(begin) + 1 :]).hexdigest()
    return f'"{hashed}-{replica.mark()}"'


# ---- Nodes that the tests play ----


def message(link: socket.socket) -> bytes:
    """A whole request or response; nothing where the other end leaves before it begins."""
    text = b""
    while b"\r\n\r\n" not in text:
        more = link.recv(1 << 16)
        if not more:
            return b""
        text += more
    head, _, body = text.partition(b"\r\n\r\n")
    found = re.search(rb"\r\ncontent-length: *(\d+)", head, re.I)
    while found and len(body) < int(found[1]):
        more = link.recv(1 << 16)
        assert more, text
        body += more
    return head + b"\r\n\r\n" + body


def response(body: bytes = b"", status: str = "200 OK", *lines: str, length: Optional[int] = None) -> bytes:
    """A response, which may tell another length than its body's."""
    told = len(body) if length is None else length
    head = [f"HTTP/1.1 {status}", *lines, *([] if status.startswith("304") else [f"Content-Length: {told}"]), "", ""]
    return "\r\n".join(head).encode() + body


DONE = response(b'{"ok":true}\n', "200 OK", "Content-Type: application/json")

Act = Callable[["Fake", socket.socket], object]


class Fake:
    """Takes calls at a port, one after the other, on a thread of its own, and notes the requests."""

    def __init__(self, act: Act) -> None:
        self._act = act
        self._listening = socket.create_server((HOST, 0))
        self.port: int = self._listening.getsockname()[1]
        self.url = f"http://{HOST}:{self.port}"
        self.requests: List[bytes] = []
        self.calls = 0
        self._thread = threading.Thread(target=self._serve, daemon=True)
        self._thread.start()

    def _serve(self) -> None:
        with suppress(OSError):
            while True:
                link = self._listening.accept()[0]
                self.calls += 1
                with suppress(OSError), link:
                    link.settimeout(LIMIT)
                    self._act(self, link)

    def request(self, link: socket.socket) -> bytes:
        """The next request; nothing where the caller has left."""
        text = message(link)
        if text:
            self.requests.append(text)
        return text

    def targets(self) -> List[str]:
        """What was asked for, in order."""
        return [it.split(b" ", 2)[1].decode() for it in self.requests]

    def __enter__(self) -> "Fake":
        return self

    def __exit__(self, *_: object) -> None:
        # Ends the wait for a call.
        self._listening.shutdown(socket.SHUT_RDWR)
        self._listening.close()
        self._thread.join(LIMIT)
        assert not self._thread.is_alive()


def says(*texts: bytes) -> Act:
    """Answers one request after the other so, and stays until the caller leaves."""

    def act(fake: Fake, link: socket.socket) -> None:
        for text in texts:
            if fake.request(link):
                link.sendall(text)
        while link.recv(1 << 16):
            pass

    return act


def says_last(text: bytes) -> Act:
    """Answers a request so, and leaves."""

    def act(fake: Fake, link: socket.socket) -> None:
        if fake.request(link):
            link.sendall(text)

    return act


def goes_on(begin: bytes, part: bytes, pause: float = 0.0) -> Act:
    """Answers a request by what has no end, with a pause after each part."""

    def act(fake: Fake, link: socket.socket) -> None:
        if fake.request(link):
            link.sendall(begin)
            while True:
                link.sendall(part)
                time.sleep(pause)

    return act


def resets(fake: Fake, link: socket.socket) -> None:
    link.setsockopt(socket.SOL_SOCKET, socket.SO_LINGER, struct.pack("ii", 1, 0))


def node_over(
    peer: Replica,
    tells_tag: bool = True,
    ends: bytes = b"",
    first: Callable[[str], object] = lambda target: None,
    front: bytes = FRONT,
) -> Act:
    """A node as docs/FORMATS.md has it, over a replica. It may tell no tag and no number, and end the connection after
    each response, with or without a word of that. `first` is called with a target before it is served."""

    def serve(request: bytes) -> bytes:
        target, body = request.split(b" ", 2)[1].decode(), request.partition(b"\r\n\r\n")[2]
        first(target)
        if target == "/ask":
            tag = tag_of(peer, front)
            question = peer.ask()
            lines = [f"ETag: {tag}", f"Rds-Replica: {question[5 + len(front)]}"] if tells_tag else []
            if tells_tag and f"\r\nIf-None-Match: {tag}\r\n".encode() in request:
                return response(b"", "304 Not Modified", *lines)
            return response(question, "200 OK", *lines)
        if target == "/answer":
            return response(peer.answer(body))
        if target == "/grow":
            try:
                peer.grow(body.decode())
            except RdsError as error:
                told = {"fault": error.number, "name": type(error).__name__, "text": "why"}
                return response(json.dumps(told).encode(), "400 Bad Request", "Content-Type: application/json")
            return DONE
        if target == "/snapshot":
            return response(bytes(peer), "200 OK", "Content-Type: application/octet-stream")
        assert target == "/take"
        size = struct.unpack(">I", body[:4])[0]
        taken = peer.take(body[4 : 4 + size], body[4 + size :])
        return response(b'{"taken":%d}\n' % taken, "200 OK", "Content-Type: application/json")

    def act(fake: Fake, link: socket.socket) -> None:
        while request := fake.request(link):
            text = serve(request)
            if ends:
                link.sendall(text.replace(b"\r\n\r\n", ends + b"\r\n\r\n", 1))
                return
            link.sendall(text)

    return act


def refuses(target: str, text: bytes, peer: Replica) -> Act:
    """A node over a replica, which answers one target so."""

    def act(fake: Fake, link: socket.socket) -> None:
        while request := fake.request(link):
            if f" {target} ".encode() in request.partition(b"\r\n")[0]:
                link.sendall(text)
            elif b" /ask " in request:
                link.sendall(response(peer.ask()))
            else:
                link.sendall(response(peer.answer(request.partition(b"\r\n\r\n")[2])))

    return act


# ---- What is said ----


def test_each_byte_of_a_meeting(pair: Pair) -> None:
    shop, store = pair
    shop["k"].set(2)
    store["t"].add("x")
    # A run from 1 that has one dot, by lengths: one dot is live. In front of the last stands whose dot it is.
    shop_brief, store_brief = b"\x01\x00\x00\x00\x01" + NOTHING, b"\x01\x01\x00\x00\x01" + NOTHING
    shop_asks, store_asks = b"RDSB\x02" + FRONT + b"\x00" + shop_brief, b"RDSB\x02" + FRONT + b"\x01" + store_brief
    one = struct.pack(">I", 1)
    dot = struct.pack(">Q", 1)
    # A key; a dot without gaps; a row of it; no counter; the row of the certificate.
    row = b"\x01" + bytes(4) + b"\x02\x04\x00\x01x"
    # A library of the later format tells its own tag in a response, in front of the answer.
    has_tag = store.answer(shop.ask()).startswith(b"RDSC")
    fronts = []
    for replica, number, brief in (shop, b"\x00", shop_brief), (store, b"\x01", store_brief):
        tag = hashlib.sha256(FRONT + brief).digest() + bytes.fromhex(replica.mark())
        fronts.append((b"RDSC\x02" if has_tag else b"RDSA\x02") + FRONT + number + (tag if has_tag else b""))
    store_answers = fronts[1] + b"\x00" + one + b"\x01t" + b"\x00\x01\x01" + dot + bytes(4)
    store_answers += one + b"\x01" + dot + row + bytes(4) + one + b"\x01\x01" + dot
    row = b"\x01" + bytes(4) + b"\x01\x03" + struct.pack(">q", 2)
    shop_answers = fronts[0] + b"\x01" + one + b"\x01k" + b"\x00\x01\x00" + dot + bytes(4)
    shop_answers += one + b"\x00" + dot + row + bytes(4) + one + b"\x01\x00" + dot
    taken = response(b'{"taken":1}\n')
    mark, hashed = shop.mark(), hashlib.sha256(FRONT + shop_brief).hexdigest()
    with Fake(says(response(store_asks), response(store_answers), taken)) as fake:
        assert shop.sync(fake.url, TOKEN) == Synced(taken=1, given=1)
        assert fake.calls == 1
    begin = f"Host: {HOST}:{fake.port}\r\nAuthorization: Bearer {TOKEN}\r\n".encode()
    given = struct.pack(">I", len(store_asks)) + store_asks + shop_answers
    assert fake.requests == [
        b"GET /ask HTTP/1.1\r\n" + begin + f'If-None-Match: "{hashed}-{mark}"\r\n\r\n'.encode(),
        b"POST /answer HTTP/1.1\r\n" + begin + b"Content-Length: %d\r\n\r\n" % len(shop_asks) + shop_asks,
        b"POST /take HTTP/1.1\r\n" + begin + b"Content-Length: %d\r\n\r\n" % len(given) + given,
    ]
    assert shop.show() == {"counters": {}, "maps": {}, "regs": {"k": [2]}, "sets": {"t": ["x"]}}


def test_the_same_tag(shop: Replica) -> None:
    hashed = hashlib.sha256(FRONT + NOTHING).hexdigest()
    with Fake(says(response(b"", "304 Not Modified", "Rds-Replica: 1"))) as fake:
        assert shop.sync(f"{fake.url}/") == Synced(0, 0)
    asked = f'Host: {HOST}:{fake.port}\r\nIf-None-Match: "{hashed}-{"0" * 32}"\r\n\r\n'
    assert fake.requests == [b"GET /ask HTTP/1.1\r\n" + asked.encode()]


@pytest.mark.parametrize("tells_tag", [True, False])
def test_both_ways(pair: Pair, tells_tag: bool) -> None:
    shop, store = pair
    shop["apples/tags"].add("red")
    store["apples"].increase(10)
    with Fake(node_over(store, tells_tag)) as fake:
        assert shop.sync(fake.url) == Synced(1, 1)
        assert shop.sync(fake.url) == Synced(0, 0)
        assert fake.targets() == ["/ask", "/answer", "/take", "/ask"]
        assert shop.show() == store.show() and shop.mark() == store.mark()
        assert shop.show()["counters"] == {"apples": 10} and shop["apples/tags"].values == ["red"]
        assert fake.calls == 2


def test_one_way(pair: Pair) -> None:
    shop, store = pair
    with Fake(node_over(store)) as fake:
        store.edit(("set", f"k/{number}", number) for number in range(5))
        assert shop.sync(fake.url) == Synced(5, 0)
        assert fake.targets() == ["/ask", "/answer"]
        shop["k/0"].clear()
        shop["n"].increase()
        # What is lacking here can't be told before, so it is asked for.
        assert shop.sync(fake.url) == Synced(0, 2)
        assert fake.targets()[2:] == ["/ask", "/answer", "/take"]
        store["k/0"].set("x")
        assert shop.sync(fake.url) == Synced(1, 0)
        assert shop.show() == store.show() and shop.mark() == store.mark()


def test_rosters_that_grow(pair: Pair) -> None:
    shop, store = pair
    with Fake(node_over(store)) as fake:
        shop.grow("north")
        assert shop.sync(fake.url) == Synced(0, 0)
        assert fake.targets() == ["/ask", "/answer", "/take"]
        assert store.status().names == ["shop", "store", "north"]
    with Replica.new("inventory", NAMES, "shop") as older:
        front = FRONT.replace(b"\x00\x02", b"\x00\x03") + b"\x05north"
        with Fake(node_over(store, front=front)) as fake:
            assert older.sync(fake.url) == Synced(0, 0)
            assert fake.targets() == ["/ask", "/answer"]
        assert older.status().names == ["shop", "store", "north"]


@pytest.mark.parametrize("ends", [b"\r\nConnection: close", b"\r\nX: it leaves without a word"])
def test_a_node_that_ends_connections(pair: Pair, ends: bytes) -> None:
    shop, store = pair
    shop["a"].set(1)
    store["b"].set(2)
    with Fake(node_over(store, ends=ends)) as fake:
        assert shop.sync(fake.url) == Synced(1, 1)
        assert fake.targets() == ["/ask", "/answer", "/take"] and fake.calls == 3
    assert shop.show() == store.show()


def test_a_long_document(pair: Pair) -> None:
    shop, store = pair
    for replica, key in (shop, "a"), (store, "b"):
        replica.edit(("set", f"{key}/{number}", "x" * 1000) for number in range(1000))
    with Fake(node_over(store)) as fake:
        assert shop.sync(fake.url) == Synced(1000, 1000)
    assert shop.show() == store.show() and shop.mark() == store.mark()
    assert len(list(shop["a"])) == len(list(shop["b"])) == 1000


# ---- Files, and threads ----


def test_what_came_is_kept_before_something_goes(tmp_path: Path) -> None:
    file = tmp_path / "shop.rds"
    kept: Dict[str, List[str]] = {}

    def note(target: str) -> None:
        with Replica.from_bytes(file.read_bytes()) as held:
            kept[target] = list(held)

    with Replica.new("inventory", NAMES, "store") as store, Replica.new("inventory", NAMES, "shop", file) as shop:
        store["b"].set(2)
        shop["a"].set(1)
        with Fake(node_over(store, first=note)) as fake:
            assert shop.sync(fake.url) == Synced(1, 1)
            assert kept == {"/ask": ["a"], "/answer": ["a"], "/take": ["a", "b"]}
            store["c"].set(3)
            assert shop.sync(fake.url) == Synced(1, 0)
            assert list(Replica.from_bytes(file.read_bytes())) == ["a", "b", "c"]
    with Replica.open(file) as shop:
        assert list(shop) == ["a", "b", "c"]


def test_a_file_that_keeps_nothing(tmp_path: Path) -> None:
    file, away = tmp_path / "shop.rds", tmp_path / "away"

    def take_away(target: str) -> None:
        if target == "/answer":
            file.rename(away)

    with Replica.new("inventory", NAMES, "store") as store, Replica.new("inventory", NAMES, "shop", file) as shop:
        store["b"].set(2)
        shop["a"].set(1)
        shop.keep()
        with Fake(node_over(store, first=take_away)) as fake:
            with pytest.raises(Replaced) as caught:
                shop.sync(fake.url)
            assert caught.value.given == str(file)
            assert fake.targets() == ["/ask", "/answer"] and list(store) == ["b"]
            shop["c"].set(3)
            with pytest.raises(Replaced):
                shop.sync(fake.url)
            assert fake.targets() == ["/ask", "/answer"]
        away.rename(file)
        with Fake(node_over(store)) as fake:
            assert shop.sync(fake.url) == Synced(0, 2)
        assert list(Replica.from_bytes(file.read_bytes())) == list(store) == ["a", "b", "c"]


def test_one_that_is_closed(shop: Replica) -> None:
    shop.close()
    with Fake(says()) as fake:
        with pytest.raises(Closed):
            shop.sync(fake.url)
        assert fake.requests == []


def test_edits_go_on_while_a_node_lets_wait(pair: Pair) -> None:
    shop, store = pair
    store["b"].set(2)
    asked, edited = threading.Event(), threading.Event()

    def wait(target: str) -> None:
        if target == "/answer":
            asked.set()
            assert edited.wait(LIMIT)

    synced: List[Synced] = []
    with Fake(node_over(store, first=wait)) as fake:
        thread = threading.Thread(target=lambda: synced.append(shop.sync(fake.url)), daemon=True)
        thread.start()
        assert asked.wait(LIMIT)
        shop["a"].set(1)
        edited.set()
        thread.join(LIMIT)
        # What was edited meanwhile isn't in the answer that was made before.
        assert synced == [Synced(1, 0)] and shop["b"].register == [2]
        assert shop.sync(fake.url) == Synced(0, 1)
    assert shop.show() == store.show()


def test_a_tag_is_of_one_moment() -> None:
    """An edit of another thread waits until a replica has told both its question and its mark."""

    threads: List[threading.Thread] = []

    class Meddled(Replica):
        def mark(self) -> str:
            threads.append(threading.Thread(target=self["n"].increase, daemon=True))
            threads[0].start()
            threads[0].join(0.2)
            return super().mark()

    with Meddled.new("inventory", NAMES, "shop") as shop, Fake(says(response(b"", "304 Not Modified"))) as fake:
        assert shop.sync(fake.url) == Synced(0, 0)
        threads[0].join(LIMIT)
        assert shop["n"].counter == 1
    hashed = hashlib.sha256(FRONT + NOTHING).hexdigest()
    assert f'\r\nIf-None-Match: "{hashed}-{"0" * 32}"\r\n'.encode() in fake.requests[0]


def test_edits_beside_meetings_are_no_fork(pair: Pair) -> None:
    shop, store = pair
    ended = threading.Event()

    def edit() -> None:
        for number in range(200):
            shop["n"].increase()
            shop["s"].add(number)
        ended.set()

    threading.Thread(target=edit, daemon=True).start()
    with Fake(node_over(store)) as fake:
        while not ended.wait(0.001):
            shop.sync(fake.url)
        shop.sync(fake.url)
    assert shop.show() == store.show() and store["n"].counter == 200 and len(store["s"].values) == 200


# ---- Who can't meet ----


def cannot_meet(kind: Type[RdsError], shop: Replica, act: Act, steps: Tuple[str, ...] = ("/ask",)) -> None:
    """A meeting has to end by a fault that tells the URL, after these steps, and the replica stays as it is."""
    before = bytes(shop)
    with Fake(act) as fake:
        with pytest.raises(kind) as caught:
            shop.sync(fake.url)
        assert type(caught.value) is kind and caught.value.given == fake.url
        assert str(caught.value).startswith(f"'{fake.url}': {kind.__name__}: ")
        assert tuple(fake.targets()) == steps
    assert bytes(shop) == before


@pytest.mark.parametrize("is_edited", [False, True])
def test_strangers(shop: Replica, is_edited: bool) -> None:
    shop["a"].set(1)
    with Replica.new("other", NAMES, "store") as other:
        cannot_meet(WrongGroup, shop, says(response(other.ask())))
    with Replica.new("inventory", ["shop", "north", "store"], "store") as other:
        cannot_meet(WrongRoster, shop, says(response(other.ask())))
    with Replica.from_bytes(bytes(shop)) as copy:
        if is_edited:
            copy["b"].set(2)
        cannot_meet(SameReplica, shop, node_over(copy))


def test_a_fork_that_is_told_at_once(pair: Pair) -> None:
    shop, store = pair
    before = bytes(shop)
    shop["k"].set(1)
    store.pull(shop)
    with Replica.from_bytes(before) as forked:
        forked["k"].set(2)
        cannot_meet(Forked, forked, node_over(store))
        # Once something is lacking, it goes over.
        forked["more"].set(3)
        with Fake(node_over(store)) as fake:
            assert forked.sync(fake.url) == Synced(0, 1)
            assert store["more"].register == [3] and store["k"].register == [1]
        cannot_meet(Forked, forked, node_over(store))


def test_a_fork_that_is_told_after_the_meeting(pair: Pair) -> None:
    shop, store = pair
    before = bytes(shop)
    shop["k"].set(1)
    store.pull(shop)
    store["more"].set(3)
    with Replica.from_bytes(before) as forked:
        forked["k"].set(2)
        with Fake(node_over(store)) as fake:
            with pytest.raises(Forked) as caught:
                forked.sync(fake.url)
            assert caught.value.given == fake.url and fake.targets() == ["/ask", "/answer"]
        assert forked["more"].register == [3]


def test_an_answer_for_another() -> None:
    a, b, c = (Replica.new("g", ["a", "b", "c"], own) for own in "abc")
    b["k"].set(1)
    cannot_meet(WrongAsker, a, says(response(b.ask()), response(b.answer(c.ask()))), ("/ask", "/answer"))


def test_one_that_is_older(pair: Pair) -> None:
    shop, store = pair
    older = bytes(shop)
    shop["k"].set(1)
    store.pull(shop)
    with Replica.from_bytes(older) as put_back:
        cannot_meet(OwnAhead, put_back, node_over(store), ("/ask", "/answer"))


def test_a_node_that_is_older(pair: Pair) -> None:
    shop, store = pair
    older = bytes(store)
    store["k"].set(1)
    shop.pull(store)
    told = b'{"fault":10,"name":"OwnAhead","text":"dot 1 of the replica\'s own isn\'t known to it"}'
    with Replica.from_bytes(older) as put_back, Fake(refuses("/take", response(told, "409 No"), put_back)) as fake:
        with pytest.raises(PeerEnded) as caught:
            shop.sync(fake.url)
        assert type(caught.value.__cause__) is OwnAhead
        words = "OwnAhead: dot 1 of the replica's own isn't known to it"
        assert str(caught.value) == f"'{fake.url}': PeerEnded: the node refused POST /take: 409: {words}"
        assert caught.value.__cause__.words == words


# ---- What refuses, and what is no node ----

FAULTS = {"WrongGroup": (19, WrongGroup), "Memory": (1, RdsError), "Device": (24, RdsError), "TooLong": (15, TooLong)}
REFUSED = [
    ("401 Unauthorized", b'{"status":401,"text":"the token is due: none"}', "401: the token is due: none"),
    ("401 Unauthorized", b"<html>", "401: a token is due"),
    ("403 Forbidden", b"the Host field has to name this machine and this port", "403: a token may be due"),
    ("404 Not Found", b'{"status":404,"text":"no such resource"}', "404: no such resource"),
    ("500 Oops", b'{"text":"a\\u001b[31mb"}', "500: no words of a node"),
    ("500 Oops", b'{"text":"%s"}' % (b"x" * 501), "500: no words of a node"),
    ("500 Oops", b"[" * 60_000, "500: no words of a node"),
    ("500 Oops", b"[1]", "500: no words of a node"),
    ("500 Oops", b'{"fault":99,"name":"Odd","text":"words"}', "500: words"),
    ("500 Oops", b'{"fault":true,"name":"Odd","text":"words"}', "500: words"),
    ("204 No Content", b"", "204: no words of a node"),
    ("101 Switching Protocols", b"", "101: no words of a node"),
    *((f"409 {name}", json.dumps({"fault": number, "name": name, "text": "why"}).encode(), f"409: {name}: why")
      for name, (number, _) in FAULTS.items()),
]


@pytest.mark.parametrize("status, body, words", REFUSED, ids=map(str, range(len(REFUSED))))
def test_refusals(shop: Replica, status: str, body: bytes, words: str) -> None:
    before = bytes(shop)
    with Fake(says(response(body, status))) as fake:
        with pytest.raises(PeerEnded) as caught:
            shop.sync(fake.url)
        assert str(caught.value) == f"'{fake.url}': PeerEnded: the node refused GET /ask: {words}"
        assert (caught.value.number, caught.value.given) == (23, fake.url)
        cause = caught.value.__cause__
        number, kind = FAULTS.get(status.split()[1], (0, None))
        assert cause is None if kind is None else type(cause) is kind and cause.number == number
        assert fake.calls == 1
    assert bytes(shop) == before


@pytest.mark.parametrize("status", ["301 Moved", "302 Found", "307 Temporary", "308 Permanent"])
@pytest.mark.parametrize("target", ["/ask", "/answer", "/take"])
def test_nobody_is_led_elsewhere(pair: Pair, status: str, target: str) -> None:
    shop, store = pair
    shop["a"].set(1)
    with Fake(node_over(store)) as elsewhere:
        leads = response(b"", status, f"Location: {elsewhere.url}{target}")
        with Fake(refuses(target, leads, store)) as fake:
            with pytest.raises(PeerEnded, match=f": {status[:3]}: ") as caught:
                shop.sync(fake.url, TOKEN)
            assert target in caught.value.words
        assert elsewhere.calls == 0


def test_a_304_that_was_not_asked_for(pair: Pair) -> None:
    shop, store = pair
    with Fake(says(response(store.ask(), "200 OK"), response(b"", "304 Not Modified"))) as fake:
        store["a"].set(1)
        shop["a"].set(1)
        with pytest.raises(PeerEnded, match="refused POST /answer: 304: "):
            shop.sync(fake.url)


def test_an_answer_to_take_that_is_none(pair: Pair) -> None:
    shop, store = pair
    shop["a"].set(1)
    for body in b"", b"taken", b'{"taken":true}', b'{"taken":-1}', b'{"taken":1.5}', b'{"took":1}', b"[1]", b"\xff":
        with Fake(refuses("/take", response(body), store)) as fake:
            with pytest.raises(OutOfTurn, match="POST /take"):
                shop.sync(fake.url)
            assert fake.targets() == ["/ask", "/answer", "/take"]


def test_what_was_taken_stays(pair: Pair) -> None:
    shop, store = pair
    shop["a"].set(1)
    store["b"].set(2)
    with Fake(refuses("/take", response(b"", "503 Busy"), store)) as fake:
        with pytest.raises(PeerEnded):
            shop.sync(fake.url)
    assert list(shop) == ["a", "b"] and list(store) == ["b"]


CHUNKED = b"HTTP/1.1 200 OK\r\nTransfer-Encoding: chunked\r\n\r\n"
LINE = b"x: " + b"y" * 1000 + b"\r\n"
STRANGE: Dict[str, Tuple[Act, Tuple[Type[BaseException], ...]]] = {
    "closes": (lambda fake, link: None, (ConnectionError,)),
    "resets": (resets, (ConnectionError,)),
    "closes after a request": (says_last(b""), (ConnectionError,)),
    "is no HTTP": (says_last(bytes(range(256)) * 20), (OutOfTurn,)),
    "is another service": (says(b"220 mail.example.org ESMTP\r\n"), (OutOfTurn,)),
    "has a line without end": (goes_on(b"HTTP/1.1 200 OK\r\nx: ", b"y" * 1000), (OutOfTurn,)),
    "has a head without end": (goes_on(b"HTTP/1.1 200 OK\r\n", LINE), (OutOfTurn,)),
    "lets go on without end": (goes_on(b"", b"HTTP/1.1 100 Continue\r\n" + LINE + b"\r\n"), (TooLong,)),
    "has a body without end": (goes_on(b"HTTP/1.1 200 OK\r\n\r\n", bytes(1000)), (TooLong,)),
    "has chunks without end": (goes_on(CHUNKED, b"3e8\r\n" + bytes(1000) + b"\r\n"), (TooLong,)),
    "has trailers without end": (goes_on(CHUNKED + b"1\r\nx\r\n0\r\n", LINE), (TooLong, OutOfTurn)),
    "has a chunk of 2^63": (says_last(CHUNKED + b"8000000000000000\r\nx"), (ConnectionError,)),
    "has a chunk of -1": (goes_on(CHUNKED + b"-1\r\n", bytes(1000)), (TooLong, OutOfTurn, ConnectionError)),
    "has a chunk of no number": (says_last(CHUNKED + b"x\r\n"), (ConnectionError,)),
    "has too long a body": (says(response(b"", length=1_000_001)), (TooLong,)),
    "tells 2^70 bytes": (says(response(b"", length=1 << 70)), (TooLong,)),
    "tells -1 bytes": (says_last(response(b"x", length=-1)), (BadText,)),
    "tells more than it has": (says_last(response(b"RDSB", length=1000)), (ConnectionError,)),
    "tells less than it has": (says(response(b"RDSB\x02" + FRONT + b"\x01" + NOTHING, length=12)), (BadText,)),
    "asks nonsense": (says(response(b"no question")), (BadText,)),
    "asks nothing": (says(response(b"")), (BadText,)),
}


@pytest.mark.parametrize("what", STRANGE)
def test_what_is_no_node(shop: Replica, what: str, monkeypatch: pytest.MonkeyPatch) -> None:
    """Each ends a meeting in time, by an error that tells the URL, and changes nothing."""
    monkeypatch.setattr(_nodes, "_LONGEST", 1_000_000)
    act, due = STRANGE[what]
    shop["a"].set(1)
    before, begun = bytes(shop), time.monotonic()
    with Fake(act) as fake:
        with pytest.raises(due) as caught:
            shop.sync(fake.url, timeout=10)
        assert fake.url in (getattr(caught.value, "given", None), getattr(caught.value, "filename", None))
        assert f"'{fake.url}'" in str(caught.value) and "None" not in str(caught.value)
        assert fake.calls == 1 and set(fake.targets()) <= {"/ask"}
    assert time.monotonic() - begun < 10
    assert bytes(shop) == before


def test_a_body_of_the_longest_text_and_more(shop: Replica) -> None:
    with Fake(says(response(b"", length=268_435_457))) as fake:
        with pytest.raises(TooLong, match="more than 268,435,456 bytes"):
            shop.sync(fake.url)
    with Fake(says_last(response(b"", length=268_435_456))) as fake:
        with pytest.raises(ConnectionError):
            shop.sync(fake.url)


def test_nobody_is_there(shop: Replica) -> None:
    with socket.create_server((HOST, 0)) as free:
        port = free.getsockname()[1]
    with pytest.raises(ConnectionRefusedError) as caught:
        shop.sync(f"http://{HOST}:{port}")
    assert caught.value.filename == f"http://{HOST}:{port}"
    with pytest.raises(OSError):
        shop.sync("http://none.invalid")


def test_one_who_takes_no_more_of_a_request(pair: Pair) -> None:
    """A node that refuses a long body, and leaves without reading it, is heard all the same."""
    shop, store = pair
    # More than a connection holds that nobody reads.
    shop.edit(("set", f"k/{number}", "x" * 1000) for number in range(20_000))
    question, answer = store.ask(), store.answer(shop.ask())

    def act(fake: Fake, link: socket.socket) -> None:
        for body in question, answer:
            fake.request(link)
            link.sendall(response(body))
        link.recv(1)
        link.sendall(response(b'{"fault":15,"name":"TooLong","text":"no"}', "413 Too Long"))
        time.sleep(0.3)

    with Fake(act) as fake:
        with pytest.raises(PeerEnded, match="refused POST /take: 413: TooLong: no") as caught:
            shop.sync(fake.url)
        assert type(caught.value.__cause__) is TooLong and fake.calls == 1


# ---- Who joins ----


def test_each_byte_of_a_joining(pair: Pair) -> None:
    _, store = pair
    store["apples"].increase(10)
    store.grow("north")
    with Fake(says(DONE, response(bytes(store)))) as fake:
        with Replica.join(fake.url, "north", token=TOKEN) as north:
            assert north.show() == store.show() and north.mark() == store.mark()
            status = north.status()
            assert (status.group, status.own, status.names) == ("inventory", "north", [*NAMES, "north"])
            with pytest.raises(Closed):
                north.keep()
        assert fake.calls == 1
    begin = f"Host: {HOST}:{fake.port}\r\nAuthorization: Bearer {TOKEN}\r\n".encode()
    assert fake.requests == [
        b"POST /grow HTTP/1.1\r\n" + begin + b"Content-Length: 5\r\n\r\nnorth",
        b"GET /snapshot HTTP/1.1\r\n" + begin + b"\r\n",
    ]


def test_one_that_joins_meets_the_node(pair: Pair, tmp_path: Path) -> None:
    shop, store = pair
    file = tmp_path / "north.rds"
    store["apples/tags"].add("red")
    shop["apples"].increase(10)
    store.pull(shop)
    with Fake(node_over(store, front=GROWN)) as fake:
        with Replica.join(f"{fake.url}/", "north", file) as north:
            assert file.read_bytes() == bytes(north) and names_in(tmp_path) == ["north.rds"]
            assert north.show() == store.show() and north.status().names == store.status().names == [*NAMES, "north"]
            assert north.sync(fake.url) == Synced(0, 0)
            assert fake.targets() == ["/grow", "/snapshot", "/ask"]
            north["k"].set(1)
            store["apples/tags"].delete("red")
            assert north.sync(fake.url) == Synced(1, 1)
            assert north.show() == store.show() and north.mark() == store.mark()
        with Replica.open(file) as north:
            assert north.status().own == "north" and north["k"].register == [1]
            assert shop.pull(north) > 0 and shop.mark() == store.mark()


def names_in(folder: Path) -> List[str]:
    return sorted(it.name for it in folder.iterdir())


def test_two_that_join(pair: Pair) -> None:
    _, store = pair
    with Fake(node_over(store)) as fake:
        with Replica.join(fake.url, "north") as north, Replica.join(fake.url, "south") as south:
            assert (north.status().own, north.status().names) == ("north", [*NAMES, "north"])
            assert (south.status().own, south.status().names) == ("south", [*NAMES, "north", "south"])
            assert (north["k"].set(1).dot, south["k"].set(2).dot) == (1, 1)
            assert (south.pull(north), north.pull(south)) == (1, 1)
            assert north.conflicts() == south.conflicts() == {"k": [1, 2]} and north.mark() == south.mark()
            assert north.status().names == south.status().names


@pytest.mark.parametrize("ends", [b"\r\nConnection: close", b"\r\nX: it leaves without a word"])
def test_joining_by_connections_that_end(pair: Pair, ends: bytes) -> None:
    _, store = pair
    store["k"].set(1)
    with Fake(node_over(store, ends=ends)) as fake:
        with Replica.join(fake.url, "north") as north:
            assert north.mark() == store.mark()
        assert fake.targets() == ["/grow", "/snapshot"] and fake.calls == 2


def test_a_name_is_told_once(pair: Pair) -> None:
    """Its answer is lost. A node that did it would refuse a second request, so none is made."""
    _, store = pair
    with Fake(says_last(b"")) as fake:
        with pytest.raises(ConnectionError) as caught:
            Replica.join(fake.url, "north")
        assert caught.value.filename == fake.url and fake.targets() == ["/grow"]

    def act(fake: Fake, link: socket.socket) -> None:
        if not fake.requests:
            fake.request(link)
            link.sendall(response(bytes(store)))
        fake.request(link)

    with Fake(act) as fake, _nodes.met(fake.url, None, LIMIT) as node:
        assert node.snapshot() == bytes(store)
        with pytest.raises(ConnectionError):
            node.grow(b"north")
        assert fake.targets() == ["/snapshot", "/grow"]


def test_a_long_document_is_joined(pair: Pair, tmp_path: Path) -> None:
    _, store = pair
    store.edit(("set", f"k/{number}", "x" * 1000) for number in range(5000))
    with Fake(node_over(store)) as fake, Replica.join(fake.url, "north", tmp_path / "north.rds") as north:
        assert north.mark() == store.mark() and len(list(north["k"])) == 5000
        with Replica.from_bytes((tmp_path / "north.rds").read_bytes()) as held:
            assert bytes(held) == bytes(north)


def cannot_join(kind: Type[RdsError], act: Act, folder: Path, own: str = "north") -> BaseException:
    """Nobody joins: a fault tells the URL, no file is left, and what was opened is closed."""
    opened: List[Replica] = []

    class Noted(Replica):
        def __init__(self) -> None:
            super().__init__()
            opened.append(self)

    with Fake(act) as fake:
        with pytest.raises(kind) as caught:
            Noted.join(fake.url, own, folder / "north.rds")
        assert caught.value.given == fake.url
    for it in opened:
        with pytest.raises(Closed):
            it.status()
    assert names_in(folder) == []
    return caught.value


NO_NAMES = [("shop", BadRoster), ("store", BadRoster), ("North", BadName), ("", BadName), ("n" * 17, BadName)]


@pytest.mark.parametrize("name, kind", NO_NAMES)
def test_names_that_a_node_refuses(pair: Pair, tmp_path: Path, name: str, kind: Type[RdsError]) -> None:
    _, store = pair
    error = cannot_join(PeerEnded, node_over(store), tmp_path, name)
    assert str(error).endswith(f": PeerEnded: the node refused POST /grow: 400: {kind.__name__}: why")
    assert type(error.__cause__) is kind and store.status().names == NAMES


def test_a_roster_that_is_full(tmp_path: Path) -> None:
    names = [f"n{number}" for number in range(255)]
    with Replica.new("inventory", names, "n0") as peer, Fake(node_over(peer)) as fake:
        with Replica.join(fake.url, "north") as north:
            assert north.status().names == [*names, "north"]
            assert north["k"].set(1).dot == 1 and peer.pull(north) == 1
        error = cannot_join(PeerEnded, node_over(peer), tmp_path, "south")
        assert type(error.__cause__) is BadRoster and len(peer.status().names) == 256


def test_an_older_node(tmp_path: Path) -> None:
    none = response(b'{"status":404,"text":"no such resource"}', "404 Not Found")
    for act, request in (says(none), "POST /grow"), (says(DONE, none), "GET /snapshot"):
        error = cannot_join(PeerEnded, act, tmp_path)
        assert f"refused {request}: 404: no such resource" in str(error) and error.__cause__ is None


def test_a_node_of_another_group() -> None:
    """Whatever group the node tells, of that the new replica is."""
    with Replica.new('ü"\\', ["a", "north", "b"], "b") as other:
        other["k"].set("ü")
        with Fake(says(DONE, response(bytes(other)))) as fake, Replica.join(fake.url, "north") as north:
            assert north.status()[:3] == ('ü"\\', "north", ["a", "north", "b"])
            assert north.show() == other.show() and north.mark() == other.mark()


@pytest.mark.parametrize("body", [b"", b"grown", b'{"ok":false}', b'{"ok":1}', b'{"taken":1}', b"[true]", b"\xff"])
def test_an_answer_to_grow_that_is_none(tmp_path: Path, body: bytes) -> None:
    assert "POST /grow" in str(cannot_join(OutOfTurn, says(response(body)), tmp_path))


@pytest.mark.parametrize("text", [b"", b"RDS", b"no snapshot", b'{"ok":true}\n'])
def test_a_snapshot_that_is_none(tmp_path: Path, text: bytes) -> None:
    cannot_join(BadText, says(DONE, response(text)), tmp_path)


def test_a_snapshot_that_was_cut(pair: Pair, tmp_path: Path) -> None:
    _, store = pair
    store.grow("north")
    store["k"].set(1)
    cannot_join(BadText, says(DONE, response(bytes(store)[: -69 - 1])), tmp_path)


def test_a_snapshot_of_another_checksum(pair: Pair, tmp_path: Path) -> None:
    _, store = pair
    store.grow("north")
    store["k"].set(1)
    cannot_join(BadText, says(DONE, response(bytes(store).replace(b"k", b"j", 1))), tmp_path)


def test_a_snapshot_without_the_name(pair: Pair, tmp_path: Path) -> None:
    _, store = pair
    store["k"].set(1)
    assert "no place for 'north'" in str(cannot_join(OutOfTurn, says(DONE, response(bytes(store))), tmp_path))


def test_a_snapshot_that_has_another_of_the_name(pair: Pair, tmp_path: Path) -> None:
    _, store = pair
    store.grow("north")
    with Replica.new("inventory", [*NAMES, "north"], "north") as other:
        cannot_join(OutOfTurn, says(DONE, response(bytes(other))), tmp_path)
        other["k"].set(1)
        store.pull(other)
        cannot_join(OwnAhead, says(DONE, response(bytes(store))), tmp_path)


def test_a_snapshot_that_is_too_long(pair: Pair, tmp_path: Path, monkeypatch: pytest.MonkeyPatch) -> None:
    _, store = pair
    monkeypatch.setattr(_nodes, "_LONGEST", 1000)
    store.grow("north")
    store["k"].set("x" * 1000)
    cannot_join(TooLong, says(DONE, response(bytes(store))), tmp_path)


def test_something_is_at_the_path(tmp_path: Path) -> None:
    """It is told before the node is asked for anything."""
    (tmp_path / "file").write_text("x")
    (tmp_path / "link").symlink_to("nowhere")
    before = names_in(tmp_path)
    kinds: List[Tuple[str, Type[BaseException]]] = [("file", Exists), ("link", Exists), (".", Exists)]
    kinds += [("a.new", Beside), ("none/a", FileNotFoundError), ("file/a", NotADirectoryError), ("a/", OSError)]
    with Fake(says()) as fake:
        for name, kind in kinds:
            path = f"{tmp_path}/{name}"
            with pytest.raises(kind) as caught:
                Replica.join(fake.url, "north", path)
            assert type(caught.value) is kind or kind is OSError
            assert path in (getattr(caught.value, "given", None), getattr(caught.value, "filename", None))
        with pytest.raises(FileNotFoundError):
            Replica.join(fake.url, "north", "")
        with pytest.raises(ValueError):
            Replica.join(fake.url, "north", f"{tmp_path}/a\0")
        assert fake.calls == 0
    assert names_in(tmp_path) == before and (tmp_path / "file").read_text() == "x"


def test_a_folder_that_takes_no_file(tmp_path: Path) -> None:
    tmp_path.chmod(0o500)
    try:
        if os.access(tmp_path, os.W_OK):
            pytest.skip("this user may write anywhere")
        with Fake(says()) as fake, pytest.raises(PermissionError) as caught:
            Replica.join(fake.url, "north", tmp_path / "north.rds")
        assert caught.value.filename == str(tmp_path / "north.rds") and fake.calls == 0
    finally:
        tmp_path.chmod(0o700)


def test_a_path_that_is_taken_meanwhile(pair: Pair, tmp_path: Path) -> None:
    _, store = pair
    file = tmp_path / "north.rds"
    with Fake(node_over(store, first=lambda target: file.write_text("x"))) as fake:
        with pytest.raises(Exists) as caught:
            Replica.join(fake.url, "north", file)
        assert caught.value.given == str(file) and fake.targets() == ["/grow", "/snapshot"]
    assert names_in(tmp_path) == ["north.rds"] and file.read_text() == "x"


def test_a_new_file_that_may_not_last(pair: Pair, tmp_path: Path) -> None:
    """The folder of the file can't be synced: the file is there, and the call says so."""
    _, store = pair
    source, library = Path(__file__).with_name("unsynced.c"), tmp_path / "unsynced.so"
    if subprocess.run(["cc", "-shared", "-fPIC", "-o", str(library), str(source), "-ldl"]).returncode:
        pytest.skip("there is no C compiler")
    means = {**os.environ, "LD_PRELOAD": str(library), "PYTHONPATH": os.pathsep.join(filter(None, sys.path))}
    code = "import sys, rds; rds.Replica.join(sys.argv[1], 'north', sys.argv[2])"
    with Fake(node_over(store)) as fake:
        words = [sys.executable, "-c", code, fake.url, str(tmp_path / "north.rds")]
        ran = subprocess.run(words, env=means, capture_output=True, text=True)
    assert ran.returncode == 1 and "Unsure: it is written, and may not last" in ran.stderr
    with Replica.open(tmp_path / "north.rds") as north:
        assert north.status().own == "north" and north.mark() == store.mark()


def test_words_by_which_nobody_joins(tmp_path: Path) -> None:
    (tmp_path / "file").touch()
    for path in None, tmp_path / "file":
        with pytest.raises(ValueError, match="is no node, as http://127.0.0.1:7780 is"):
            Replica.join("http://h:1/x", "north", path)
        with pytest.raises(ValueError, match="a token is 16 to 128 of "):
            Replica.join("http://h:1", "north", path, "x")
        with pytest.raises(ValueError, match="a timeout is "):
            Replica.join("http://h:1", "north", path, timeout=0)


def test_nobody_is_there_to_join(tmp_path: Path) -> None:
    with socket.create_server((HOST, 0)) as free:
        url = f"http://{HOST}:{free.getsockname()[1]}"
    with pytest.raises(ConnectionRefusedError) as caught:
        Replica.join(url, "north", tmp_path / "north.rds")
    assert caught.value.filename == url
    with Fake(says(DONE, b"")) as fake:
        with pytest.raises(TimeoutError) as late:
            Replica.join(fake.url, "north", tmp_path / "north.rds", timeout=1)
        assert late.value.filename == fake.url and fake.targets() == ["/grow", "/snapshot"]
    assert names_in(tmp_path) == []


# ---- How long it takes ----

SLOW: Dict[str, Tuple[Act, float, str]] = {
    "is silent": (says(), 1.0, "nothing went or came for 1 s"),
    "drips its body": (goes_on(response(b"", length=100_000), b"x", 0.05), 3.0, r"no more than \d+ bytes .* in 3 s"),
    "drips its head": (goes_on(b"HTTP/1.1 200 OK\r\nx: ", b"x", 0.05), 3.0, r"no more than \d+ bytes .* in 3 s"),
}


@pytest.mark.parametrize("what", SLOW)
def test_a_node_that_lets_wait(shop: Replica, what: str, monkeypatch: pytest.MonkeyPatch) -> None:
    """A wait for a byte takes a second at the most here, and all of them three times as long."""
    monkeypatch.setattr(_nodes, "_WAITS", 3)
    act, seconds, words = SLOW[what]
    with Fake(act) as fake:
        begun = time.monotonic()
        with pytest.raises(TimeoutError) as caught:
            shop.sync(fake.url, timeout=1)
        assert seconds <= time.monotonic() - begun < seconds + 5
        assert caught.value.filename == fake.url
        assert re.fullmatch(rf"\[Errno 110\] {words}: '{fake.url}'", str(caught.value))


@pytest.mark.parametrize("timeout", [1.0, None])
def test_a_long_body_may_take_longer(shop: Replica, timeout: Optional[float], monkeypatch: pytest.MonkeyPatch) -> None:
    """Where each kilobyte adds a timeout, and no wait is that long, any time may pass."""
    monkeypatch.setattr(_nodes, "_PORTION", 1000)
    monkeypatch.setattr(_nodes, "_WAITS", 1)

    def act(fake: Fake, link: socket.socket) -> None:
        fake.request(link)
        link.sendall(response(b"", length=100_000))
        for _ in range(100):
            link.sendall(bytes(1000))
            time.sleep(0.02)

    with Fake(act) as fake:
        begun = time.monotonic()
        with pytest.raises(BadText):
            shop.sync(fake.url, timeout=timeout)
        assert time.monotonic() - begun > 1.9


# ---- What may be given ----

URLS = ["", "h", "http://", "http:///", "http://h:", "http://h:0", "http://h:65536", "http://h:1/x", "http://h:1//"]
URLS += ["http://u@h:1", "http://u:p@h:1", "https://h:1", "HTTP://h:1", "http://h:1?x", "http://h:1#x", "http://h:1\n"]
URLS += ["http://h\r\nX: y", "http://h h", "http://ü", "http://::1", "http://[::1", "http://[h]", "http://h:１"]


@pytest.mark.parametrize("url", URLS)
def test_words_that_name_no_node(shop: Replica, url: str) -> None:
    with pytest.raises(ValueError, match="is no node, as http://127.0.0.1:7780 is"):
        shop.sync(url)


NO_TOKENS = ["", "x" * 15, "x" * 129, TOKEN + "\n", TOKEN + "\r\nX: y", TOKEN + " ", "ü" * 16, "\0" * 16]


@pytest.mark.parametrize("token", NO_TOKENS)
def test_tokens_that_are_none(shop: Replica, token: str) -> None:
    with Fake(says()) as fake:
        with pytest.raises(ValueError, match="a token is 16 to 128 of ") as caught:
            shop.sync(fake.url, token)
        assert fake.calls == 0
    assert not token or token not in str(caught.value)


@pytest.mark.parametrize("timeout", [0, -1, float("nan"), float("inf")])
def test_timeouts_that_are_none(shop: Replica, timeout: float) -> None:
    with pytest.raises(ValueError, match="a timeout is "):
        shop.sync("http://127.0.0.1:1", timeout=timeout)


def test_how_a_node_may_be_named(shop: Replica) -> None:
    found = []
    for url in "http://h", "http://h/", "http://h-1.example_x:80", "http://[::1]:7780/", "http://[::ffff:127.0.0.1]":
        node = _nodes.Node(url, None, None)
        found.append((node._fields["Host"], node._connection.host, node._connection.port))
    assert found == [
        ("h", "h", 80),
        ("h", "h", 80),
        ("h-1.example_x:80", "h-1.example_x", 80),
        ("[::1]:7780", "::1", 7780),
        ("[::ffff:127.0.0.1]", "::ffff:127.0.0.1", 80),
    ]


def test_an_address_of_the_sixth_version(shop: Replica) -> None:
    try:
        listening = socket.create_server(("::1", 0), family=socket.AF_INET6)
    except OSError:
        pytest.skip("this machine has no ::1")
    port = listening.getsockname()[1]
    found: List[bytes] = []

    def serve() -> None:
        with listening.accept()[0] as link:
            found.append(message(link))
            link.sendall(response(b"", "304 Not Modified"))
            link.recv(1)

    thread = threading.Thread(target=serve, daemon=True)
    thread.start()
    with listening:
        assert shop.sync(f"http://[::1]:{port}") == Synced(0, 0)
        thread.join(LIMIT)
    assert found[0].startswith(f"GET /ask HTTP/1.1\r\nHost: [::1]:{port}\r\n".encode())


# ---- The program's nodes ----

with_the_program = pytest.mark.skipif(not NODE.exists(), reason=f"{NODE} isn't there, nor is RDS_NODE set")


def told(*words: object, given: bytes = b"") -> bytes:
    """What a command of the program writes."""
    ran = subprocess.run([str(NODE), *map(str, words)], input=given, capture_output=True, timeout=LIMIT)
    assert ran.returncode == 0, ran
    return ran.stdout


class Node:
    """A node that runs on a file."""

    def __init__(self, file: Path, *words: object) -> None:
        self.file = file
        note = file.with_name(f"{file.name}.told")
        with open(note, "wb") as errors:
            words = (NODE, "run", file, "--http", f"{HOST}:0", *words)
            self.child = subprocess.Popen([*map(str, words)], stdout=subprocess.DEVNULL, stderr=errors)
        until = time.monotonic() + LIMIT
        while not (found := re.search(r"^listening on http://[^:]+:(\d+)/$", note.read_text(), re.M)):
            assert self.child.poll() is None and time.monotonic() < until, note.read_text()
            time.sleep(0.01)
        self.port = int(found[1])
        self.url = f"http://{HOST}:{self.port}"

    def kill(self) -> None:
        self.child.kill()
        self.child.wait(LIMIT)


@contextmanager
def running(file: Path, *words: object) -> Iterator[Node]:
    """A node that runs until the end, and until then."""
    node = Node(file, *words)
    try:
        yield node
        assert node.child.poll() is None
    finally:
        node.kill()


@pytest.fixture
def file(tmp_path: Path) -> Path:
    """The file of the replica `store`, which has an element."""
    told("init", tmp_path / "store.rds", "inventory", "store", *NAMES)
    told("add", tmp_path / "store.rds", "apples/tags", '"red"')
    return tmp_path / "store.rds"


def are_equal(shop: Replica, file: Path) -> None:
    """The replica and the file have one document, and one mark."""
    assert json.loads(told("show", file)) == shop.show()
    assert json.loads(told("status", file))["mark"] == shop.mark()


@with_the_program
def test_a_node_and_a_replica_get_equal(shop: Replica, file: Path) -> None:
    shop["apples"].increase(10)
    with running(file) as node:
        assert shop.sync(node.url) == Synced(1, 1)
        assert shop.show()["maps"] == {"apples": {"maps": {}, "regs": {}, "sets": {"tags": ["red"]}}}
        are_equal(shop, file)
        assert shop.sync(node.url) == shop.sync(f"http://localhost:{node.port}/") == Synced(0, 0)
        shop["apples/tags"].delete("red")
        assert shop.sync(node.url) == Synced(0, 1)
        are_equal(shop, file)
        shop.grow("north")
        assert shop.sync(node.url) == Synced(0, 0)
    assert json.loads(told("status", file))["names"] == ["shop", "store", "north"]
    with pytest.raises(ConnectionRefusedError):
        shop.sync(node.url)


@with_the_program
def test_a_thousand_edits_each_way(tmp_path: Path, file: Path) -> None:
    lines = [f'["set","b/n{number}",{number}]' for number in range(1000)]
    told("edit", file, given="\n".join(lines).encode())
    with Replica.new("inventory", NAMES, "shop", tmp_path / "shop.rds") as shop, running(file) as node:
        shop.edit(("set", f"a/n{number}", number) for number in range(1000))
        assert shop.sync(node.url, timeout=LIMIT) == Synced(1001, 1000)
        are_equal(shop, file)
    with Replica.open(tmp_path / "shop.rds") as shop:
        are_equal(shop, file)
        due = {f"n{number}": [number] for number in range(1000)}
        assert shop["a"].show()["regs"] == shop["b"].show()["regs"] == due


@with_the_program
def test_a_node_with_a_token(shop: Replica, file: Path) -> None:
    secret = file.with_name("token")
    secret.write_text(f"{TOKEN}\n")
    with running(file, "--token-file", secret) as node:
        for token in None, TOKEN[::-1]:
            with pytest.raises(PeerEnded, match="refused GET /ask: 401: the token is due"):
                shop.sync(node.url, token)
        assert list(shop) == []
        assert shop.sync(node.url, TOKEN) == Synced(1, 0)
        are_equal(shop, file)


@with_the_program
def test_who_cannot_meet_a_node(file: Path, tmp_path: Path) -> None:
    shutil.copy(file, tmp_path / "copy.rds")
    with running(file) as node:
        with Replica.open(tmp_path / "copy.rds") as copy:
            cannot_sync(SameReplica, copy, node)
            copy["b"].set(1)
            cannot_sync(SameReplica, copy, node)
        with Replica.new("other", NAMES, "shop") as other:
            cannot_sync(WrongGroup, other, node)
        with Replica.new("inventory", ["shop", "north", "store"], "shop") as apart:
            cannot_sync(WrongRoster, apart, node)


def cannot_sync(kind: Type[RdsError], replica: Replica, node: Node) -> None:
    before = bytes(replica)
    with pytest.raises(kind) as caught:
        replica.sync(node.url)
    assert caught.value.given == node.url and bytes(replica) == before


@with_the_program
def test_forks_of_a_node(shop: Replica, file: Path) -> None:
    older = file.read_bytes()
    told("set", file, "k", "1")
    with running(file) as node:
        assert shop.sync(node.url) == Synced(2, 0)
    file.write_bytes(older)
    told("set", file, "k", "2")
    with running(file) as node:
        cannot_sync(Forked, shop, node)
    told("set", file, "more", "3")
    with running(file) as node:
        with pytest.raises(Forked):
            shop.sync(node.url)
        assert shop["more"].register == [3] and shop["k"].register == [1]
        shop["n"].increase()
        assert shop.sync(node.url) == Synced(0, 1)


@with_the_program
def test_a_node_whose_file_is_a_backup(shop: Replica, file: Path) -> None:
    older = file.read_bytes()
    told("set", file, "k", "1")
    with running(file) as node:
        assert shop.sync(node.url) == Synced(2, 0)
    file.write_bytes(older)
    with running(file) as node:
        with pytest.raises(PeerEnded, match="refused POST /take: 409: OwnAhead: ") as caught:
            shop.sync(node.url)
        assert type(caught.value.__cause__) is OwnAhead


@with_the_program
@pytest.mark.parametrize("target", ["/ask", "/answer", "/take"])
def test_a_node_that_is_killed(file: Path, tmp_path: Path, target: str) -> None:
    """The node dies as a request comes. Both files are sound, and get equal when it is back."""
    secret = tmp_path / "token"
    secret.write_text(TOKEN)
    node = Node(file, "--token-file", secret)

    def relay(fake: Fake, link: socket.socket) -> None:
        while request := fake.request(link):
            if f" {target} ".encode() in request.partition(b"\r\n")[0]:
                node.kill()
            with socket.create_connection((HOST, node.port), LIMIT) as there:
                there.sendall(request)
                link.sendall(message(there))

    try:
        with Replica.new("inventory", NAMES, "shop", tmp_path / "shop.rds") as shop, Fake(relay) as fake:
            shop["a"].set(1)
            with pytest.raises(ConnectionError):
                shop.sync(fake.url, TOKEN, timeout=LIMIT)
        due = ["a", "apples"] if target == "/take" else ["a"]
        with Replica.open(tmp_path / "shop.rds") as shop:
            assert list(shop) == due and json.loads(told("show", file))["regs"] == {}
            with running(file, "--token-file", secret) as again:
                assert shop.sync(again.url, TOKEN) == Synced(1 - len(due) // 2, 1)
            are_equal(shop, file)
    finally:
        node.kill()


@with_the_program
def test_one_joins_a_node(file: Path, tmp_path: Path) -> None:
    told("inc", file, "apples", "10")
    with running(file) as node:
        with Replica.join(node.url, "north", tmp_path / "north.rds") as north:
            assert json.loads(told("status", file))["names"] == north.status().names == [*NAMES, "north"]
            are_equal(north, file)
            assert north.sync(node.url) == Synced(0, 0)
            north["k"].set(1)
            assert north.sync(node.url) == Synced(0, 1)
            are_equal(north, file)
        for name, kind in ("north", BadRoster), ("store", BadRoster), ("North", BadName), ("n" * 17, BadName):
            with pytest.raises(PeerEnded, match=f"refused POST /grow: 400: {kind.__name__}: ") as caught:
                Replica.join(node.url, name, tmp_path / "none.rds")
            assert type(caught.value.__cause__) is kind
        assert not (tmp_path / "none.rds").exists()
        with pytest.raises(Exists):
            Replica.join(node.url, "south", tmp_path / "north.rds")
    assert json.loads(told("status", file))["names"] == [*NAMES, "north"]
    with Replica.open(tmp_path / "north.rds") as north:
        are_equal(north, file)


@with_the_program
def test_a_name_lasts_at_a_node_that_is_killed(file: Path) -> None:
    node = Node(file)
    try:
        with _nodes.met(node.url, None, LIMIT) as said:
            said.grow(b"north")
    finally:
        node.kill()
    assert json.loads(told("status", file))["names"] == [*NAMES, "north"]


@with_the_program
def test_many_join_a_node_at_once(file: Path) -> None:
    """Four take each name. One of them gets it, and all that joined have one document in the end."""
    joined: List[Replica] = []
    refused: List[BaseException] = []

    def join(url: str, name: str) -> None:
        try:
            joined.append(Replica.join(url, name, timeout=LIMIT))
        except PeerEnded as error:
            refused.append(error)

    with running(file) as node:
        names = [f"n{number}" for number in range(5)]
        threads = [threading.Thread(target=join, args=(node.url, name), daemon=True) for name in names * 4]
        for thread in threads:
            thread.start()
        for thread in threads:
            thread.join(LIMIT)
        assert sorted(it.status().own for it in joined) == names
        assert len(refused) == 15 and all(type(it.__cause__) is BadRoster for it in refused)
        for it in joined:
            it["k"].set(it.status().own)
            assert it.sync(node.url).given == 1
        for it in joined:
            it.sync(node.url)
            are_equal(it, file)
            assert set(it["k"].register) == set(names) and sorted(it.status().names) == sorted([*NAMES, *names])
            it.close()


@with_the_program
def test_one_joins_by_a_token(file: Path, tmp_path: Path) -> None:
    secret = tmp_path / "token"
    secret.write_text(TOKEN)
    with running(file, "--token-file", secret) as node:
        for token in None, TOKEN[::-1]:
            with pytest.raises(PeerEnded, match="refused POST /grow: 401: the token is due"):
                Replica.join(node.url, "north", tmp_path / "north.rds", token)
        assert not (tmp_path / "north.rds").exists()
        with Replica.join(node.url, "north", tmp_path / "north.rds", TOKEN) as north:
            assert north.sync(node.url, TOKEN) == Synced(0, 0)
            are_equal(north, file)


@with_the_program
def test_the_page_of_the_bindings(tmp_path: Path, file: Path) -> None:
    """The example of bindings/README.md runs, and meets a node."""
    page = (Path(__file__).parents[3] / "bindings" / "README.md").read_text()
    (shown,) = re.findall(r"^    from rds import .*\n(?:(?:    .*)?\n)+", page, re.M)
    told("init", tmp_path / "shop.rds", "inventory", "shop", *NAMES)
    told("set", file, "k", "1")
    with running(file) as node:
        code = textwrap.dedent(shown).replace("http://127.0.0.1:7780", node.url)
        assert f'shop.sync("{node.url}")' in code
        means = {**os.environ, "PYTHONPATH": os.pathsep.join(filter(None, sys.path))}
        ran = subprocess.run([sys.executable, "-c", code], cwd=tmp_path, env=means, capture_output=True, text=True)
        assert ran.returncode == 0, ran
        # The node has an element and a register by then; it lacks an element and a counter.
        assert ran.stdout.splitlines()[-1] == "Synced(taken=2, given=2)"
    with Replica.open(tmp_path / "shop.rds") as shop:
        are_equal(shop, file)
        assert shop["k"].register == [1] and shop["apples"].counter == 10
