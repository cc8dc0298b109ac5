"""Clients, files and peers over slow links: whoever goes on is waited for."""
import concurrent.futures
import contextlib
import json
import socket
import subprocess
import threading
import time

from serving import HOST, TOKEN, Node, free_port, is_served, running, want

# Bytes a second of the links, and of a client that is too slow for a request.
SPEED = 32_768
TOO_SLOW = 500
# So many seconds are enough for what takes one or two minutes.
MOST = 240
# How many entries are given over such a link, and how many make an answer that no system takes at once.
GIVEN = 20_000
ALL = 60_000


def lines(count, width):
    """Edits of so many registers, with values of so many letters."""
    return b"".join(b'["set","k%d/n%d","%s"]\n' % (n % 100, n, b"v" * width) for n in range(count))


def pump(source, target, speed=SPEED):
    """Hands on what comes, at so many bytes a second."""
    with contextlib.suppress(OSError):
        while piece := source.recv(speed // 16):
            target.sendall(piece)
            time.sleep(len(piece) / speed)
        target.shutdown(socket.SHUT_WR)


def small(link):
    """A socket that takes little at once."""
    link.setsockopt(socket.SOL_SOCKET, socket.SO_RCVBUF, 8_192)
    link.setsockopt(socket.SOL_SOCKET, socket.SO_SNDBUF, 8_192)
    return link


@contextlib.contextmanager
def relayed(port):
    """The port of a slow link to this one."""
    with small(socket.create_server((HOST, free_port()))) as door:

        def serve():
            with contextlib.suppress(OSError):
                while True:
                    near, far = door.accept()[0], small(socket.socket())
                    far.connect((HOST, port))
                    for ends in (near, far), (far, near):
                        threading.Thread(target=pump, args=ends, daemon=True).start()

        threading.Thread(target=serve, daemon=True).start()
        yield door.getsockname()[1]


def say_much(node):
    """A body that comes for a minute is taken."""
    body = lines(GIVEN, 64)
    with node.link() as link:
        request = node.text("POST", "/edits", body)
        for at in range(0, len(request), SPEED):
            link.socket.sendall(request[at:at + SPEED])
            time.sleep(1)
        answer = link.answer()
    done = answer.body.count(b'"killed":')
    want((answer.status, done) == (200, GIVEN), f"a slow body is answered {answer.status}, with {done} edits")


def say_little(node):
    """One that hardly comes is given up: after how many seconds."""
    begun = time.monotonic()
    with node.link() as link:
        link.socket.sendall(node.text("POST", "/edits", None, "Content-Length: 1000000"))
        with contextlib.suppress(ConnectionError):
            while time.monotonic() - begun < 90:
                link.socket.sendall(b" " * TOO_SLOW)
                if link.is_ended(1):
                    break
    seconds = time.monotonic() - begun
    want(28 < seconds < 50, f"a request of {TOO_SLOW} bytes a second ends after {seconds:.0f} s")


def read_slowly(node):
    """An answer that is read at half of that speed for a minute, and then at once, is whole."""
    with small(socket.socket()) as link:
        link.connect((HOST, node.port))
        link.sendall(node.text("GET", "/doc", None, "Connection: close"))
        text, begun = b"", time.monotonic()
        while time.monotonic() - begun < 60:
            text += link.recv(SPEED // 4)
            time.sleep(0.5)
        while piece := link.recv(1 << 16):
            text += piece
    head, _, body = text.partition(b"\r\n\r\n")
    want(head.startswith(b"HTTP/1.1 200 "), f"a slow reader gets {head[:100]!r}")
    json.loads(body)


def edited(program, folder, own):
    """A node of a group of five whose file has much that no other has, which isn't started."""
    node = Node(program, folder, TOKEN, own, "abcde")
    node.told("edit", "a.rds", given=lines(GIVEN, 64))
    return node


def give_by_file(node, port, folder):
    """A file gives much over a slow link."""
    given = edited(node.program, folder, "b")
    # The system takes all of it at once, so the answer is waited for until it is through.
    words = [given.program, "sync", "a.rds", f"http://{HOST}:{port}", "--token-file", "token", "--timeout", f"{MOST}"]
    ran = subprocess.run(words, cwd=given.folder, stdout=subprocess.PIPE, timeout=MOST)
    told = ran.returncode, ran.stdout
    want(told == (0, b'{"taken":0}\n'), f"a file that meets a node over a slow link is told {told}")


def give_by_node(node, port, folder):
    """A node gives much over a slow link."""
    giving = edited(node.program, folder, "c")
    giving.meets(port)
    with running(giving):
        until = time.monotonic() + MOST
        while node.count("rds_takes_total") < 2 and time.monotonic() < until:
            want(is_served(giving), "the node that gives isn't served")
            time.sleep(1)
    want(node.count("rds_takes_total") >= 2, f"a node gives nothing over a slow link: {giving.said()}")


def try_slow(asked, folder):
    node = Node(asked.program, folder / "a", TOKEN, names="abcde")
    node.told("edit", "a.rds", given=lines(ALL, 96))
    hub = Node(asked.program, folder / "hub", TOKEN, names="abcde")
    with running(node), running(hub), relayed(hub.port) as port, concurrent.futures.ThreadPoolExecutor() as pool:
        trials = [
            pool.submit(say_much, node),
            pool.submit(say_little, node),
            pool.submit(read_slowly, node),
            pool.submit(give_by_file, hub, port, folder / "b"),
            pool.submit(give_by_node, hub, port, folder / "c"),
        ]
        for trial in trials:
            trial.result()
    return f"whoever goes on at {SPEED} bytes a second was waited for"
