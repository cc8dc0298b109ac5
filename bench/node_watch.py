"""Commands that follow a node, by `watch http://HOST:PORT`: what they print, and what ends them."""
import base64
import hashlib
import os
import re
import socket
import struct
import subprocess
import threading

from node_fakes import Fake, asked as first_line, response, says
from node_visits import at, nodes_of
from serving import HOST, LIMIT, TOKEN, killed, listener, running, soon, want

# After so many seconds a node that says nothing is given up, and so many more may pass.
QUIET = 60
GRACE = 20
# Edits of one request each, and which of the paths below are near to what they change.
CHANGES = [
    (b'["set","apples/price",3]', {"", "apples", "apples/price"}),
    (b'["add","apples/tags","red"]\n["inc","n",2]', {"", "apples", "n"}),
    (b'["set","apple",1]', {"", "apple"}),
    (b'["set","apples/price/more",1]', {"", "apples", "apples/price"}),
    (b'["clear","apples"]', {"", "apples", "apples/price"}),
    (b'["set","a \\"b\\"/\\u00fc",1]', {"", 'a "b"'}),
    (b"\n".join(b'["set","l/n%03d",1]' % n for n in range(101)), {"", "apples", "apples/price", "apple", "n", 'a "b"'}),
]
PATHS = ["", "apples", "apples/price", "apple", "n", 'a "b"']


class Following:
    """A command that follows a node, of which the output is read as it comes."""

    def __init__(self, node, place, *rest, token=None, output=None):
        known = {name: value for name, value in os.environ.items() if name != "RDS_TOKEN_FILE"}
        known |= {"RDS_TOKEN_FILE": token} if token else {}
        self.words = ["watch", place, *rest]
        means = {"cwd": node.folder, "env": known, "stdin": subprocess.DEVNULL, "stderr": subprocess.PIPE}
        self.child = subprocess.Popen([node.program, *self.words], stdout=output or subprocess.PIPE, **means)

    def __enter__(self):
        return self

    def __exit__(self, *_):
        self.child.kill()
        self.child.communicate()

    def line(self):
        return self.child.stdout.readline()

    def comes_to(self, fault, *notes, seconds=LIMIT):
        """It has to end so, by the line of a fault and with these words on standard error."""
        written, errors = self.child.communicate(timeout=seconds)
        is_due = self.child.returncode == (2 if b"27" in fault else 1) and written == fault
        is_due = is_due and all(note in errors.decode() for note in notes)
        found = f"{self.child.returncode}, {written}, {errors}"
        want(is_due, f"{self.words} comes to {found}, where {fault} and {notes} are due")


def listen(node, count):
    """Waits until so many listen to a node."""
    listening = lambda: node.count("rds_listeners")
    soon(lambda: listening() == count, lambda: f"{listening()} of {count} listen", LIMIT)


def try_lines(asked, folder):
    """What a listener hears is printed, a line each: of any path, or of those that are near to one. A kill ends it."""
    node = nodes_of(asked, folder, "a")[0]
    node.start()
    try:
        watches = {path: Following(node, at(node.port), *([path] if path else [])) for path in PATHS}
        heard = listener(node)
        listen(node, len(PATHS) + 1)
        for lines, near in CHANGES:
            node.answer("POST", "/edits", lines)
            text = heard.frame(LIMIT)[1]
            for path in near:
                line = watches[path].line()
                want(line == text + b"\n", f"watch of '{path}' prints {line}, where {text} is due")
    finally:
        killed(node.child)
    ended = f"peer {HOST}:{node.port}: lost: it ended the connection\n"
    for watch in watches.values():
        with watch:
            watch.comes_to(b"fault 23: PeerEnded\n", ended)
    heard.socket.close()
    return f"{len(PATHS)} print what {len(CHANGES)} edits change, and end with the node"


def try_output(asked, folder):
    """An output that can't be written ends it by the next line."""
    node = nodes_of(asked, folder, "a")[0]
    with running(node), open("/dev/full", "wb") as full:
        with Following(node, at(node.port), output=full) as watch:
            listen(node, 1)
            node.answer("POST", "/edits", b'["set","x",1]')
            errors = watch.child.communicate(timeout=LIMIT)[1]
            want(watch.child.returncode == 1 and errors.count(b"\n") == 1 and b"No space left" in errors,
                 f"watch with a full output comes to {watch.child.returncode}, {errors}")
    return "a full output ends it"


def try_words(asked, folder):
    """Tokens, what names no node, and paths that are none."""
    node = nodes_of(asked, folder, "a", TOKEN)[0]
    (node.folder / "wrong").write_text(TOKEN[::-1])
    (node.folder / "short").write_text("short")
    refusals = [
        ((), None, b"fault 23: PeerEnded\n", "refused: 401: the token is due: none or a wrong one was given\n"),
        ((), "wrong", b"fault 23: PeerEnded\n", "refused: 401"),
        (("x",), "short", b"fault 27: Usage\n", "short holds no token"),
        (("x", "--token-file", "none"), "token", b"fault 24: Device\n", "cannot read none"),
        (("x//y", "--token-file", "none"), None, b"fault 3: BadKey\n", "'x//y' isn't 1 to 8 keys"),
        (("1/2/3/4/5/6/7/8/9",), None, b"fault 4: BadPath\n", "isn't 1 to 8 keys"),
    ]
    with running(node):
        for rest, token, due, note in refusals:
            with Following(node, at(node.port), *rest, token=token) as watch:
                watch.comes_to(due, note)
        shown = Following(node, at(node.port), "x", "--token-file", "token", token="wrong")
        with shown, Following(node, f"{at(node.port)}/", token="token") as named:
            listen(node, 2)
            node.answer("POST", "/edits", b'["set","x",1]')
            want(shown.line() == named.line() != b"", "two that know the token print other lines")
    with Following(node, at(node.port)) as watch:
        watch.comes_to(b"fault 24: Device\n", "Connection refused")
    for place in "a.rds", "-", "", "https://h:1":
        with Following(node, place) as watch:
            watch.comes_to(b"fault 27: Usage\n", f"'{place}' is no node, as http://127.0.0.1:7780 is\n")
    for place in "", "/", "h", "h:", "h:0", "h:1/x", "u@h:1":
        with Following(node, f"http://{place}") as watch:
            watch.comes_to(b"fault 27: Usage\n", "is no host and port")
    return "a node's token is due, and words are judged"


def sent(payload, opcode=1, first=0x80):
    """A frame as a server sends it."""
    length = bytes([len(payload)]) if len(payload) < 126 else b"\x7e" + struct.pack(">H", len(payload))
    return bytes([first | opcode]) + length + payload


def hands_over(*frames, key=None, field=b"", then=None):
    """Takes a handshake, sends these frames, and does what follows. The key that it accepts may be another."""
    def act(link):
        head = b""
        while not head.endswith(b"\r\n\r\n"):
            more = link.recv(1 << 16)
            if not more:
                return
            head += more
        asked = key or re.search(rb"(?i)sec-websocket-key: (\S+)", head)[1]
        accept = base64.b64encode(hashlib.sha1(asked + b"258EAFA5-E914-47DA-95CA-C5AB0DC85B11").digest())
        link.sendall(b"HTTP/1.1 101 Switching Protocols\r\nUpgrade: websocket\r\nConnection: Upgrade\r\n"
                     b"Sec-WebSocket-Accept: " + accept + b"\r\n" + field + b"\r\n" + b"".join(frames))
        if then:
            then(link)
        else:
            while link.recv(1 << 16):
                pass
    return act


def pongs(link):
    """Sends a ping, and then news: the ping's own payload, where that is answered by a pong with a mask."""
    link.sendall(sent(b"hello", 9))
    frame = b""
    while len(frame) < 11:
        more = link.recv(11 - len(frame))
        if not more:
            return
        frame += more
    payload = bytes(byte ^ frame[2 + at % 4] for at, byte in enumerate(frame[6:]))
    is_pong = frame[:2] == b"\x8a\x85" and payload == b"hello" and frame[2:6] != bytes(4)
    link.sendall(sent(b'{"paths":null,"is":%s}' % (b"true" if is_pong else b"false")))


NEWS = b'{"turn":1,"mark":"m","paths":["x"]}'
# What is no node: what it does, what is printed before, and the fault and the words that are due.
FAKES = [
    (says(response(b"<!doctype html>", kind=b"text/html")), b"fault 22: OutOfTurn\n", "is no node"),
    (says(response(b'{"status":426,"text":"no (1)"}', status=b"426 Upgrade Required")), b"fault 23: PeerEnded\n",
     "refused: 426: no (1)\n"),
    (says(response(b"", status=b"404 Not Found")), b"fault 23: PeerEnded\n", "refused: 404\n"),
    (says(b"no HTTP\r\n\r\n"), b"fault 22: OutOfTurn\n", "is no HTTP/1.1"),
    (first_line, b"fault 23: PeerEnded\n", "it ended the connection"),
    (hands_over(key=b"AAAAAAAAAAAAAAAAAAAAAA=="), b"fault 22: OutOfTurn\n", "is no node"),
    (hands_over(field=b"Sec-WebSocket-Extensions: permessage-deflate\r\n"), b"fault 22: OutOfTurn\n", "is no node"),
    (hands_over(sent(b"x"), then=lambda link: None), b"fault 22: OutOfTurn\n", "is no node"),
    (hands_over(sent(b'{"turn":1}')), b"fault 22: OutOfTurn\n", "is no node"),
    (hands_over(sent(b'{"paths":\n["x"]}')), b"fault 22: OutOfTurn\n", "is no node"),
    (hands_over(sent(NEWS), sent(b"\xff")), NEWS + b"\nfault 22: OutOfTurn\n", "is no WebSocket"),
    (hands_over(sent(NEWS), b"\x83\x00"), NEWS + b"\nfault 22: OutOfTurn\n", "is no WebSocket"),
    (hands_over(b"\x81\x81abcdx"), b"fault 22: OutOfTurn\n", "is no WebSocket"),
    (hands_over(b"\x81\x7f" + struct.pack(">Q", 1 << 40)), b"fault 15: TooLong\n", "is too long"),
    (hands_over(sent(NEWS[:9], first=0), sent(b"", 9), sent(NEWS[9:], 0), sent(struct.pack(">H", 1001), 8)),
     NEWS + b"\nfault 23: PeerEnded\n", "it ended the connection"),
    (hands_over(then=pongs), b'{"paths":null,"is":true}\nfault 23: PeerEnded\n', "it ended the connection"),
]


def try_none(asked, folder):
    """What is no node, or breaks the protocol, and one that says nothing any more."""
    node = nodes_of(asked, folder, "a")[0]
    # A fake of node_fakes.py ends a connection sooner.
    with socket.create_server((HOST, 0)) as silent, Following(node, at(silent.getsockname()[1])) as still:
        threading.Thread(target=lambda: hands_over(sent(NEWS))(silent.accept()[0]), daemon=True).start()
        for act, due, note in FAKES:
            with Fake(act) as fake, Following(node, at(fake.port)) as watch:
                watch.comes_to(due, note)
        still.comes_to(NEWS + b"\nfault 24: Device\n", "nothing or too little in 60 seconds", seconds=QUIET + GRACE)
    return f"{len(FAKES)} of what is no node are refused, and one that is silent is given up"


PARTS = [try_lines, try_output, try_words, try_none]


def try_watch(asked, folder):
    return "; ".join([part(asked, folder / part.__name__) for part in PARTS])
