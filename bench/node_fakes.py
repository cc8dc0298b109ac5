"""What isn't a node, at the address of a peer: each takes calls, and answers them in a way of its own."""
import contextlib
import multiprocessing
import random
import socket
import struct
import time

from serving import HOST, LENGTH

# A fake keeps a connection for so many seconds at the most.
STAY = 60


def asked(link):
    """Reads a whole request, and gives its first line; nothing where the caller leaves."""
    text = b""
    while (head := text.find(b"\r\n\r\n") + 4) < 4 or len(text) < head + length_in(text[:head]):
        more = link.recv(1 << 16)
        if not more:
            return b""
        text += more
    return text.partition(b"\r\n")[0]


def length_in(head):
    found = LENGTH.search(head)
    return int(found[1]) if found else 0


def response(body, length=None, status=b"200 OK", kind=b"application/octet-stream"):
    """A response, which may tell another length than that of its body."""
    length = b"%d" % len(body) if length is None else length
    return b"HTTP/1.1 %s\r\nContent-Type: %s\r\nContent-Length: %s\r\n\r\n" % (status, kind, length) + body


def says(text):
    """Answers each request so."""
    def act(link):
        while asked(link):
            link.sendall(text)
    return act


def blurts(text):
    """Answers before it was asked."""
    def act(link):
        link.sendall(text)
        silent(link)
    return act


def says_last(text):
    """Answers a request so, and leaves."""
    def act(link):
        if asked(link):
            link.sendall(text)
            link.shutdown(socket.SHUT_WR)
            link.recv(1)
    return act


def goes_on(begin, part, pause=0):
    """Answers a request by what has no end, with a pause in seconds after each part."""
    def act(link):
        if asked(link):
            link.sendall(begin)
            while True:
                link.sendall(part)
                time.sleep(pause)
    return act


def by_target(**texts):
    """Answers each request by its target, and another by 404."""
    def act(link):
        while first := asked(link):
            target = first.split()[1].decode().strip("/")
            link.sendall(texts.get(target, response(b"", status=b"404 Not Found")))
    return act


def silent(link):
    """Takes all, and says nothing."""
    while link.recv(1 << 16):
        pass


def resets(link):
    link.setsockopt(socket.SOL_SOCKET, socket.SO_LINGER, struct.pack("ii", 1, 0))


def drips(link):
    """A body of a byte each 50 ms."""
    if asked(link):
        link.sendall(response(b"", length=b"100000"))
        while True:
            link.sendall(b"x")
            time.sleep(0.05)


def fakes_of(question, answer, slow=1):
    """Each fake by its name. A replica of the group asks the question, and the answer is made for another replica.

    An unproved program lets go of a long body a byte at a time. So where it is slow, that without end comes
    slowly."""
    chunk, pause = b"10000\r\n" + bytes(1 << 16) + b"\r\n", 0.02 if slow > 1 else 0
    chunked = b"HTTP/1.1 200 OK\r\nTransfer-Encoding: chunked\r\n\r\n"
    taken = response(b'{"taken":0}\n')
    return {
        "is silent": silent,
        "closes": lambda link: None,
        "resets": resets,
        "closes after a request": asked,
        "is no HTTP": says_last(random.Random(7).randbytes(5_000)),
        "is another service": says(b"220 mail.example.org ESMTP\r\n"),
        "has no length": says_last(b"HTTP/1.1 200 OK\r\n\r\nwhat stands here ends with the connection"),
        "ends early": says_last(response(b"x" * 10, length=b"1000")),
        "tells two lengths": says(b"HTTP/1.1 200 OK\r\nContent-Length: 4\r\nContent-Length: 5\r\n\r\nxxxxx"),
        "says more than its length": says(response(b"x" * 1000, length=b"4")),
        "tells 2^40 bytes": says(response(b"", length=b"%d" % (1 << 40))),
        "tells 2^70 bytes": says(response(b"", length=b"%d" % (1 << 70))),
        "tells -1 bytes": says(response(b"", length=b"-1")),
        "sends a body without end": goes_on(chunked, chunk, pause),
        "sends a head without end": goes_on(b"HTTP/1.1 200 OK\r\n", b"x: " + b"y" * 1_000 + b"\r\n"),
        "drips": drips,
        "asks nonsense": says(response(b"no question")),
        "answers nothing": says(response(b"")),
        "is lost": says(response(b"", status=b"404 Not Found")),
        "leads elsewhere": says(response(b"", status=b"302 Found\r\nLocation: http://127.0.0.1:1/")),
        "answers nonsense": by_target(ask=response(question), answer=response(b"RDSC" + bytes(40)), take=taken),
        "answers another": by_target(ask=response(question), answer=response(answer), take=taken),
        "fails": by_target(ask=response(question), answer=response(b"", status=b"500 Oops"), take=taken),
    }


def take_calls(listening, act, calls):
    """Takes one call after the other, and counts them."""
    while True:
        link = listening.accept()[0]
        calls.value += 1
        link.settimeout(STAY)
        with contextlib.suppress(OSError), link:
            act(link)


class Fake:
    """A process that takes calls at a port, until it is ended."""

    def __init__(self, act):
        context = multiprocessing.get_context("fork")
        listening = socket.create_server((HOST, 0))
        self.port, self.count = listening.getsockname()[1], context.Value("i", 0)
        self.child = context.Process(target=take_calls, args=(listening, act, self.count), daemon=True)
        self.child.start()
        listening.close()

    def __enter__(self):
        return self

    def __exit__(self, *_):
        self.child.kill()
        self.child.join()

    def calls(self):
        return self.count.value
