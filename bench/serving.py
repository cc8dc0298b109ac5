"""A node that runs, `PROGRAM run FILE --http ADDR`, and clients of it: what bench/node is made of."""
import base64
import collections
import contextlib
import hashlib
import json
import pathlib
import random
import re
import select
import signal
import socket
import struct
import subprocess
import time

HOST = "127.0.0.1"
TOKEN = "0123456789abcdef-._~"
KEY = base64.b64encode(bytes(16)).decode()
UPGRADE = ["Connection: Upgrade", "Upgrade: websocket", "Sec-WebSocket-Version: 13", f"Sec-WebSocket-Key: {KEY}"]
# The number of the user and the group 'nobody'.
NOBODY = 65_534
# No answer, and no start, may take longer.
LIMIT = 60
# The first byte of a ping (RFC 6455).
PING = 0x89
LENGTH = re.compile(rb"\r\ncontent-length: *(\d+)", re.I)

Answer = collections.namedtuple("Answer", "status headers body")


class Wrong(Exception):
    """Something isn't as due."""


class Ended(Wrong):
    """A connection ended within an answer."""


def want(holds, otherwise):
    if not holds:
        raise Wrong(otherwise)


class Noted:
    """Notes what isn't as due, and goes on."""

    def __init__(self):
        self.problems = []

    def __enter__(self):
        return self

    def __exit__(self, kind, error, trace):
        if isinstance(error, (Wrong, OSError)):
            self.problems.append(f"{error}" if isinstance(error, Wrong) else f"{type(error).__name__}: {error}")
            return True

    def end(self):
        want(not self.problems, "\n  ".join(self.problems))


def each_of(parts, asked, folder):
    """Tries each part in a folder of its own. What isn't as due in one is noted, and the others are tried."""
    noted, said = Noted(), []
    for part in parts:
        with noted:
            said.append(part(asked, pathlib.Path(folder) / part.__name__))
    noted.end()
    return ";\n  ".join(said)


def soon(holds, otherwise, seconds=10, pause=0.05):
    """Waits until something holds, and gives how many seconds that took."""
    begun = time.monotonic()
    while not holds():
        if time.monotonic() - begun > seconds:
            raise Wrong(f"{otherwise() if callable(otherwise) else otherwise}, after {seconds} s")
        time.sleep(pause)
    return time.monotonic() - begun


def free_port():
    """A free port, and none that the system gives to who calls: a node that is killed finds it free again."""
    while True:
        with contextlib.suppress(OSError), socket.socket() as free:
            free.bind((HOST, random.randrange(20_000, 30_000)))
            return free.getsockname()[1]


class Node:
    """A node on a file in a folder, which is started and killed as often as one wants."""

    def __init__(self, program, folder, token=None, own="a", names="ab"):
        self.program, self.folder, self.token, self.own = program, pathlib.Path(folder), token, own
        self.folder.mkdir(exist_ok=True)
        self.words = []
        if token:
            (self.folder / "token").write_text(f"{token}\n")
            self.words = ["--token-file", "token"]
        self.told("init", "a.rds", "g", own, *names)
        self.port, self.child = free_port(), None
        # What it does with peers may take so many times as long as is due.
        self.slow = 1

    def meets(self, *ports, every=None, host=HOST):
        """Names its peers, by their ports, and how often it asks them."""
        for port in ports:
            self.words += ["--peer", f"{host}:{port}"]
        if every:
            self.words += ["--every", f"{every}"]

    def told(self, *words, given=b""):
        """What a command answers, which has to end with status 0."""
        means = {"cwd": self.folder, "input": given, "stdout": subprocess.PIPE, "timeout": LIMIT}
        ran = subprocess.run([self.program, *words], **means)
        want(ran.returncode == 0, f"{words} ends with status {ran.returncode}: {ran.stdout[:200]}")
        return ran.stdout

    def begin(self, **means):
        words = [self.program, "run", "a.rds", "--http", f"{HOST}:{self.port}", *self.words]
        with open(self.folder / "errors", "wb") as errors:
            means = {"cwd": self.folder, "stdin": subprocess.DEVNULL, "stdout": errors, "stderr": errors} | means
            self.child = subprocess.Popen(words, **means)

    def said(self):
        return (self.folder / "errors").read_text(errors="replace")

    def start(self, **means):
        """Starts it, and tells after how many seconds it says that it serves."""
        begun = time.perf_counter()
        self.begin(**means)
        while f"listening on http://{HOST}:{self.port}/\n" not in self.said():
            want(self.child.poll() is None, f"the node ends with {self.child.returncode} at its start: {self.said()}")
            want(time.perf_counter() - begun < LIMIT, f"the node doesn't serve within {LIMIT} s: {self.said()}")
            time.sleep(0.001)
        return time.perf_counter() - begun

    def text(self, method, target, body=None, *lines):
        """A request, with the token where there is one, unless its lines say other."""
        given = {line.partition(":")[0].lower() for line in lines}
        head = [f"{method} {target} HTTP/1.1"]
        if "host" not in given:
            head.append(f"Host: {HOST}:{self.port}")
        if self.token and not given & {"authorization", "cookie"}:
            head.append(f"Authorization: Bearer {self.token}")
        if body is not None and not given & {"content-length", "transfer-encoding"}:
            head.append(f"Content-Length: {len(body)}")
        return "\r\n".join([*head, *lines, "", ""]).encode() + (body or b"")

    def link(self):
        return Link(socket.create_connection((HOST, self.port), LIMIT))

    def answer(self, *request):
        """What a client of its own is answered."""
        with self.link() as link:
            return link.answer(self.text(*request), request[0] == "HEAD")

    def document(self):
        return json.loads(self.answer("GET", "/doc").body)

    def status(self):
        return json.loads(self.answer("GET", "/status").body)

    def standing(self, port):
        """What /status says of the peer at this port."""
        named = [peer for peer in self.status()["peers"]["each"] if peer["name"] == f"{HOST}:{port}"]
        return named[0] if named else {"met": None, "ago": None, "why": None}

    def stands(self, port, met, *words):
        """Waits until /status says of a peer whether it is met, and why not, in these words. It is a second behind."""

        def is_due():
            peer = self.standing(port)
            return peer["met"] is met and all(word in (peer["why"] or "") for word in words)

        soon(is_due, lambda: f"of a peer /status tells {self.standing(port)}", 10 * self.slow)

    def shown(self):
        return json.loads(self.told("show", "a.rds"))

    def count(self, name):
        """A number of /metrics."""
        text = self.answer("GET", "/metrics").body.decode()
        found = re.search(rf"^{name} (\d+)$", text, re.M)
        want(found, f"/metrics has no {name}: {text[:300]!r}")
        return int(found[1])

    def peak(self):
        """The most memory that it had at once, in MB."""
        status = pathlib.Path(f"/proc/{self.child.pid}/status").read_text()
        return int(re.search(r"VmHWM:\s+(\d+)", status)[1]) * 1024 / 1e6

    def worked(self):
        """The processor time that it has taken, in seconds, by the clock that Linux keeps of each process."""
        return time.clock_gettime(~self.child.pid << 3 | 2)


def end_of(text, is_head=False):
    """Where the first answer in these bytes ends, or 0 where it isn't whole. There is no body behind a 304."""
    head = text.find(b"\r\n\r\n") + 4
    if head < 4:
        return 0
    length = LENGTH.search(text, 0, head)
    has_body = length and not is_head and text[9:12] != b"304"
    end = head + (int(length[1]) if has_body else 0)
    return end if end <= len(text) else 0


def end_of_frame(text):
    """Where the payload of the first frame in these bytes begins and ends, or None where it isn't whole."""
    if len(text) < 2:
        return None
    begin = {126: 4, 127: 10}.get(text[1], 2)
    if len(text) < begin:
        return None
    end = begin + (int.from_bytes(text[2:begin], "big") if begin > 2 else text[1])
    return (begin, end) if end <= len(text) else None


class Link:
    """A connection, and what came behind the last whole answer."""

    def __init__(self, open_socket):
        self.socket, self.rest = open_socket, b""

    def __enter__(self):
        return self

    def __exit__(self, *_):
        self.socket.close()

    def answer(self, request=b"", is_head=False):
        """Sends a request, and gives the next whole answer."""
        if request:
            self.socket.sendall(request)
        while not (end := end_of(self.rest, is_head)):
            more = self.socket.recv(1 << 18)
            if not more:
                raise Ended(f"a connection ends within an answer to {request[:200]!r}: {self.rest[:200]!r}")
            self.rest += more
        head, _, body = self.rest[:end].partition(b"\r\n\r\n")
        self.rest = self.rest[end:]
        first, *lines = head.decode("latin-1").split("\r\n")
        want(re.match(r"HTTP/1\.[01] \d{3} ", first), f"an answer begins {first!r}")
        headers = {name.lower(): value.strip() for name, _, value in (line.partition(":") for line in lines)}
        return Answer(int(first[9:12]), headers, body)

    def frame(self, seconds, is_ping_due=False):
        """The next frame of a WebSocket, its first byte and its payload; None where none comes. A ping, which a node
        sends where it is quiet, is left aside unless it is due."""
        self.socket.settimeout(seconds)
        with contextlib.suppress(TimeoutError, ConnectionError):
            while True:
                while not (place := end_of_frame(self.rest)):
                    more = self.socket.recv(1 << 16)
                    if not more:
                        return None
                    self.rest += more
                begin, end = place
                first, payload, self.rest = self.rest[0], self.rest[begin:end], self.rest[end:]
                if first != PING or is_ping_due:
                    return first, payload
        return None

    def is_ended(self, seconds):
        """Whether the peer ends it within so many seconds, whatever it sends before."""
        until = time.monotonic() + seconds
        try:
            while (left := until - time.monotonic()) > 0:
                self.socket.settimeout(left)
                if not self.socket.recv(1 << 16):
                    return True
        except TimeoutError:
            return False
        except ConnectionError:
            return True
        return False


@contextlib.contextmanager
def running(node, **means):
    """Starts a node, which has to live until it is killed at the end."""
    try:
        node.start(**means)
        yield node
    except Exception as error:
        if node.child and node.child.poll() is not None:
            how = f"with {node.child.poll()}, {node.said()[-500:]!r}, beside {error!r}"
            raise Wrong(f"the node ended by itself, {how}") from error
        raise
    else:
        killed(node.child)
    finally:
        if node.child:
            node.child.kill()


def killed(child):
    """Kills it by -9, before which it has to live."""
    child.kill()
    status = child.wait()
    want(status == -signal.SIGKILL, f"the node ended by itself, with {status}")


def is_served(node):
    with contextlib.suppress(OSError, Ended):
        return node.answer("GET", "/status").status == 200
    return False


def edit(link, node, number, path="k"):
    """One edit, which has to be done."""
    answer = link.answer(node.text("POST", "/edits", b'["set","%s/n%d",%d]' % (path.encode(), number, number)))
    is_done = answer.status == 200 and b'"dot":["%s",' % node.own.encode() in answer.body
    want(is_done, f"an edit is answered {answer}")


def at(took, part):
    """The time in milliseconds that this part of them took at the most."""
    return sorted(took)[int(part * (len(took) - 1))] * 1000


def drive(port, clients, requests, heard, seconds, end_of=end_of):
    """Clients that each send a request when they have the answer to their last: what each took."""
    poll, links, took = select.epoll(), {}, []
    for _ in range(clients):
        link = socket.create_connection((HOST, port))
        link.setsockopt(socket.IPPROTO_TCP, socket.TCP_NODELAY, 1)
        poll.register(link, select.EPOLLIN)
        links[link.fileno()] = [link, b"", 0.0, 0]
    until = time.perf_counter() + seconds
    for state in links.values():
        state[2], (state[3], text) = time.perf_counter(), next(requests)
        state[0].send(text)
    while links and (now := time.perf_counter()) < until:
        for place, _ in poll.poll(1):
            state = links[place]
            link, rest, sent, number = state
            try:
                more = link.recv(1 << 16)
                if more and (end := end_of(rest + more)):
                    now = time.perf_counter()
                    took.append(now - sent)
                    heard(number, rest + more)
                    state[1], state[2], (state[3], text) = (rest + more)[end:], now, next(requests)
                    link.send(text)
                    continue
                state[1] += more
            except ConnectionError:
                more = b""
            if not more:
                poll.unregister(place)
                links.pop(place)[0].close()
    for link, *_ in links.values():
        link.close()
    poll.close()
    return took


def frame_of(payload=b"", opcode=1, first=0x80, mask=b"abcd", length=None):
    """A frame as a client sends it; its first byte's flags, its mask and the length that it tells may be wrong."""
    length = len(payload) if length is None else length
    told = bytes([length]) if length < 126 else b"\x7e" + struct.pack(">H", length & 0xFFFF)
    if length >= 1 << 16:
        told = b"\x7f" + struct.pack(">Q", length)
    masked = bytes(byte ^ mask[at % 4] for at, byte in enumerate(payload)) if mask else payload
    return bytes([first | opcode, told[0] | (0x80 if mask else 0)]) + told[1:] + mask + masked


def listener(node, room=None):
    """A WebSocket that listens; one that has little room for what it doesn't read, where that is said."""
    opened = socket.socket()
    if room:
        opened.setsockopt(socket.IPPROTO_TCP, socket.TCP_MAXSEG, room)
        opened.setsockopt(socket.SOL_SOCKET, socket.SO_RCVBUF, room)
    opened.settimeout(LIMIT)
    opened.connect((HOST, node.port))
    link, key = Link(opened), base64.b64encode(random.randbytes(16))
    lines = "Upgrade: websocket", "Connection: keep-alive, Upgrade", "Sec-WebSocket-Version: 13"
    answer = link.answer(node.text("GET", "/live", None, *lines, f"Sec-WebSocket-Key: {key.decode()}"))
    due = base64.b64encode(hashlib.sha1(key + b"258EAFA5-E914-47DA-95CA-C5AB0DC85B11").digest()).decode()
    found = answer.headers.get("sec-websocket-accept")
    want((answer.status, found) == (101, due), f"GET /live is answered {answer}, where {due} is due")
    return link


def are_equal(nodes, seconds=10):
    """Waits until all show one document under one mark: how many seconds that took, and the document."""
    states = lambda: {(node.answer("GET", "/doc").body, node.status()["mark"]) for node in nodes}
    found = []

    def holds():
        found[:] = states()
        return len(found) == 1

    differ = lambda: f"{len(found)} documents and marks of {len(nodes)} nodes differ"
    took = soon(holds, differ, seconds * max(node.slow for node in nodes))
    return took, json.loads(found[0][0])
