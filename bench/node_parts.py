"""A node's file, whole and in parts, by hand and by `init --from` over a link that breaks."""
import contextlib
import re
import socket
import subprocess
import threading

from serving import HOST, TOKEN, Node, free_port, running, want

# How many entries the file has, and after how many bytes of an answer each connection is cut.
ENTRIES = 20_000
CUT = 200_000
# Where a part begins that a request asks for.
FROM = re.compile(rb"\r\nrange: bytes=(\d+)-\r\n", re.IGNORECASE)


def lines(count):
    return b"".join(b'["set","k%d/n%d",%d]\n' % (n % 100, n, n) for n in range(count))


def ask_by_hand(node):
    """The tag of a file, which a part is asked for by; and what is asked for otherwise, which gives the whole."""
    whole = node.answer("GET", "/snapshot")
    tag, size = whole.headers.get("etag", ""), len(whole.body)
    want(whole.status == 200 and len(tag) == 34, f"a file is answered {whole.status} with the tag {tag}")
    again = node.answer("GET", "/snapshot", None, f"If-None-Match: {tag}")
    want((again.status, again.body) == (304, b""), f"a file that is known is answered {again.status}")
    for first in (0, 1, 7, size // 2, size - 1):
        for kept in ([], [f"If-Range: {tag}"]):
            part = node.answer("GET", "/snapshot", None, f"Range: bytes={first}-", *kept)
            said = part.status, part.headers.get("content-range"), part.headers.get("etag")
            due = 206, f"bytes {first}-{size - 1}/{size}", tag
            want(said == due and part.body == whole.body[first:], f"bytes={first}- {kept} is answered {said}")
    others = [
        [f"Range: bytes={size}-"],
        ["Range: bytes=0-4"],
        ["Range: bytes=-4"],
        ["Range: bytes=0-,5-"],
        ["Range: bytes= 0-"],
        ["Range: lines=0-"],
        ["Range: bytes=99999999999999999999-"],
        ["Range: bytes=5-", 'If-Range: "0123456789abcdef0123456789abcdef"'],
        ["Range: bytes=5-", f"If-Range: W/{tag}"],
    ]
    for asked in others:
        answer = node.answer("GET", "/snapshot", None, *asked)
        want((answer.status, answer.body) == (200, whole.body), f"{asked} is answered {answer.status}")
    node.answer("PUT", "/value/k0/n0", b"7")
    changed = node.answer("GET", "/snapshot", None, "Range: bytes=5-", f"If-Range: {tag}")
    said = changed.status, changed.headers["etag"] != tag
    want(said == (200, True), f"a file that changed is answered {said}")


def hand_on(source, target, most, seen):
    """Hands on what comes, up to so many bytes, and then ends both ways at once."""
    with contextlib.suppress(OSError):
        while most and (piece := source.recv(min(most, 1 << 16))):
            most -= len(piece)
            seen(piece)
            target.sendall(piece)
    for end in source, target:
        with contextlib.suppress(OSError):
            end.shutdown(socket.SHUT_RDWR)


@contextlib.contextmanager
def cutting(port):
    """The port of a link to this one that cuts each connection, and the heads of the requests that came over it."""
    heads = []
    with socket.create_server((HOST, free_port())) as door:

        def serve():
            with contextlib.suppress(OSError):
                while True:
                    near, far = door.accept()[0], socket.create_connection((HOST, port))
                    there = near, far, 1 << 30, heads.append
                    back = far, near, CUT, lambda _: None
                    for ends in there, back:
                        threading.Thread(target=hand_on, args=ends, daemon=True).start()

        threading.Thread(target=serve, daemon=True).start()
        yield door.getsockname()[1], heads


def made_over(node, port, name, folder):
    """A file that is made of a node over a link."""
    words = [node.program, "init", f"{name}.rds", "--from", f"http://{HOST}:{port}", name]
    means = {"cwd": folder, "stdout": subprocess.PIPE, "stderr": subprocess.PIPE, "timeout": 120}
    ran = subprocess.run(words, env={"RDS_TOKEN_FILE": "token"}, **means)
    want(ran.returncode == 0, f"a file over a link that breaks: {ran.returncode} {ran.stdout[:200]} {ran.stderr[:300]}")
    return (folder / f"{name}.rds").read_bytes()


def fetch_over_breaks(node):
    """A new replica is made though each connection is cut: each asks for what is left."""
    with cutting(node.port) as (port, heads):
        made = made_over(node, port, "b", node.folder)
    due = made_over(node, node.port, "c", node.folder)
    want(len(made) == len(due), f"a file over a link that breaks has {len(made)} bytes, where {len(due)} are due")
    firsts = [int(found[1]) if (found := FROM.search(head)) else 0 for head in heads]
    want(len(firsts) > 2 and firsts == sorted(set(firsts)), f"the parts that are asked for begin at {firsts}")
    return len(firsts)


def try_parts(asked, folder):
    node = Node(asked.program, folder / "a", TOKEN, names="abc")
    node.told("edit", "a.rds", given=lines(ENTRIES))
    with running(node):
        parts = fetch_over_breaks(node)
        ask_by_hand(node)
    return f"a file was fetched in {parts} parts over a link that cuts each after {CUT} bytes; ranges are as due"
