"""Strangers to a node: clients that are slow, wrong or many, while a good one is served."""
import contextlib
import itertools
import json
import multiprocessing
import pathlib
import random
import resource
import socket
import struct
import time
from concurrent.futures import ThreadPoolExecutor

from serving import HOST, LIMIT, TOKEN, UPGRADE, Ended, Node, Wrong
from serving import at, edit, frame_of, is_served, listener, running, soon, want

# Statuses that mangled requests may be answered with.
STATUSES = {100, 101, 200, 204, 400, 401, 403, 404, 405, 409, 411, 413, 414, 417, 426, 431, 501, 505}
# What mangled requests look at.
PATHS = ["", "doc", "doc/good/n1", "value/good/n1?x", "here/%C3%A9", "conflicts", "metrics", "status", "ask"]
# Bytes that mangled requests get somewhere.
NASTY = [
    *(b"\r\n", b"\n", b"\r", b"\0", b"\xff", b" ", b":", b"\r\n\r\n", b"%", b"%2", b"%00", b"%2F", b"//", b"{"),
    *(b"\r\nContent-Length: %d" % length for length in (-1, 0, 5, 1 << 63, 1 << 64)),
    *(b"\r\nTransfer-Encoding: " + coding for coding in (b"chunked", b"gzip, chunked", b"chunked, chunked")),
    *(b"\r\nConnection: close", b"\r\nUpgrade: h2c", b"\r\nHost: x", b"\r\nExpect: 100-continue"),
    *(b"\r\nCookie: rds_1=", b"\r\n folded", b"\r\n" + b"a" * 20_000, b"\r\na: b" * 200, b"x" * 70_000),
    *(b"[" * 40_000, b'"\\ud800"'),
]


def bases(node):
    """Requests that are mangled. No line of theirs is near to one that edits."""
    question = node.told("ask", "a.rds")
    lines = b'["sot","g//od",{}]\n[]\n["inc"]\n{"a":[1.5e300,"\\ud83d"]}\n'
    yield from (node.text("GET", f"/{path}") for path in PATHS)
    yield node.text("GET", "/live", None, *UPGRADE) + frame_of(b"hello") + frame_of(b"", 9)
    yield node.text("POST", "/edits", lines)
    chunks = b"%x\r\n%s\r\n0\r\n\r\n" % (len(lines), lines)
    yield node.text("POST", "/edits", None, "Transfer-Encoding: chunked") + chunks
    yield node.text("POST", "/answer", question)
    yield node.text("POST", "/take", struct.pack(">I", len(question)) + question + b"RDSC" + bytes(40))
    yield node.text("POST", "/login", TOKEN.encode())
    yield node.text("GET", "/doc") * 3 + node.text("HEAD", "/status")


def mangled(chance, texts):
    """A request, or some, with up to three changes."""
    text = bytearray(chance.choice(texts))
    for _ in range(chance.randrange(4)):
        at = chance.randrange(len(text) + 1)
        upto = min(len(text), at + chance.choice([1, 1, 2, 8, 100]))
        match chance.randrange(5):
            case 0:
                del text[at:upto]
            case 1:
                text[at:at] = text[at:upto] * chance.choice([1, 1, 100])
            case 2:
                text[at:upto] = chance.randbytes(upto - at)
            case 3:
                text[at:at] = chance.choice(NASTY)
            case 4:
                text[at:upto] = bytes(byte ^ 1 << chance.randrange(8) for byte in text[at:upto])
    return bytes(text)


def say_mangled(node, seed, text):
    """Sends it in pieces or cut, and leaves in one of several ways. What is answered has to be answers."""
    chance = random.Random(seed)
    text = text if chance.random() < 0.7 else text[: chance.randrange(len(text) + 1)]
    cuts = sorted(chance.randrange(len(text) + 1) for _ in range(chance.choice([0, 0, 0, 1, 3])))
    leaves = chance.choice(["at once", "by reset", "reading", "having said all"])
    with contextlib.suppress(OSError, Ended), node.link() as link:
        for begin, end in itertools.pairwise([0, *cuts, len(text)]):
            link.socket.sendall(text[begin:end])
            time.sleep(chance.choice([0, 0.002]))
        if leaves == "by reset":
            link.socket.setsockopt(socket.SOL_SOCKET, socket.SO_LINGER, struct.pack("ii", 1, 0))
        elif leaves == "having said all":
            link.socket.shutdown(socket.SHUT_WR)
        link.socket.settimeout(0.1)
        reads = leaves in ("reading", "having said all") and b"HEAD" not in text
        while reads and (status := link.answer().status) != 101:
            want(status in STATUSES, f"{text!r} is answered with status {status}")


def judge_refused(node):
    """Requests that are refused, each over a connection of its own, and the statuses that are due."""
    post = lambda *lines: node.text("POST", "/edits", None, *lines)
    live = lambda *lines: node.text("GET", "/live", None, *lines)
    without_host = node.text("GET", "/doc", None, "X-Host: y")
    refused = {
        "a head of 20 kB": (431, node.text("GET", "/doc", None, "x: " + "y" * 20_000)),
        "70 fields": (431, node.text("GET", "/doc", None, *["a: b"] * 70)),
        "a target of 20 kB": (414, node.text("GET", "/doc/" + "x" * 20_000)),
        "a body of 70 MB": (413, post("Content-Length: 70000000")),
        "a body of 2^63 bytes": (413, post(f"Content-Length: {1 << 63}")),
        "edits of 524,289 lines": (413, node.text("POST", "/edits", b"\n" * 524_288)),
        "edits of 64,000,000 lines": (413, node.text("POST", "/edits", b"\n" * 64_000_000)),
        "two lengths": (400, post("Content-Length: 2", "Content-Length: 3") + b"[]\n"),
        "a length below 0": (400, post("Content-Length: -1")),
        "a coding": (501, post("Transfer-Encoding: gzip, chunked")),
        "a chunk without a length": (400, post("Transfer-Encoding: chunked") + b"oops\r\n\r\n"),
        "two hosts": (400, node.text("GET", "/doc", None, f"Host: {HOST}:{node.port}", "Host: example.org")),
        "no host": (400, without_host.replace(f"Host: {HOST}:{node.port}\r\n".encode(), b"", 1)),
        "no version": (400, b"GET /doc\r\n\r\n"),
        "TLS": (400, bytes.fromhex("16030100310100002d0303") + bytes(39) + b"\r\n\r\n"),
        "no upgrade": (426, live()),
        "no key": (426, live(*UPGRADE[:3])),
        "another version": (426, live(*UPGRADE[:2], "Sec-WebSocket-Version: 8", UPGRADE[3])),
    }
    for what, (due, text) in refused.items():
        with node.link() as link:
            status = link.answer(text).status
            want(status == due, f"{what} is answered {status}, where {due} is due")


def judge_lies(node):
    """Edits whose bodies are cut, or have another length than they say: none may be done."""
    line, chunked = b'["set","lie",1]\n', node.text("POST", "/edits", None, "Transfer-Encoding: chunked")
    lies = {
        "a body that ends early": node.text("POST", "/edits", line, f"Content-Length: {len(line) + 1}"),
        "a body without its last chunk": chunked + b"10\r\n%s\r\n" % line,
        "a chunk that ends early": chunked + b"11\r\n%s\r\n0\r\n\r\n" % line,
        "a chunk that goes on": chunked + b"f\r\n%s\r\n0\r\n\r\n" % line,
        "a head that ends early": node.text("POST", "/edits", line)[: -len(line) - 2],
    }
    for what, text in lies.items():
        with node.link() as link:
            link.socket.sendall(text)
            link.socket.shutdown(socket.SHUT_WR)
            answer = link.answer()
            is_due = answer.status == 400 and link.is_ended(10)
            want(is_due, f"{what} is answered {answer}, where 400 and an end are due")
    with node.link() as link:
        statuses = [link.answer(node.text("POST", "/edits", line, "Content-Length: 4")).status, link.answer().status]
        want(statuses == [400, 400], f"a body that goes on is answered {statuses}")


def crawl(node):
    """300 clients that send a byte a second, of a head or of a body: how many stay after 40 s."""
    texts = node.text("GET", "/doc")[:-2] + b"x: ", node.text("POST", "/edits", None, "Content-Length: 1000000")
    links = [node.link().socket for _ in range(300)]
    for link, text in zip(links, itertools.cycle(texts)):
        link.sendall(text)
    until = time.monotonic() + 40
    while links and time.monotonic() < until:
        time.sleep(1)
        links = [link for link in links if not has_ended(link, b"a")]
    for link in links:
        link.close()
    return len(links)


def has_ended(link, text=b""):
    """Whether the peer has ended a connection; sends some more where it hasn't, and closes it where it has."""
    link.setblocking(False)
    try:
        while link.recv(1 << 16):
            pass
    except BlockingIOError:
        with contextlib.suppress(ConnectionError, BlockingIOError):
            link.send(text)
            return False
    except ConnectionError:
        pass
    link.close()
    return True


# So many connections a node has at once.
PLACES = 1_024


def judge_crowd(node, count=1_100, most=PLACES):
    """More connections at once than are allowed: those above are ended."""
    links = [node.link().socket for _ in range(count)]
    left = lambda: sum(not has_ended(link) for link in links if link.fileno() >= 0)
    soon(lambda: left() <= most, f"of {count} connections more than {most} stay")
    few = left()
    for link in links:
        link.close()
    soon(lambda: is_served(node), f"a new client isn't served once {count} connections have gone")
    return few


# So many descriptors a node may have where they are few, and so many edits it has to do then. Each has so many bytes
# that FILE is written anew now and then.
DESCRIPTORS = 1_024
EDITS, BYTES = 60, 1_000


def are_served(node, beside, count=10, seconds=15):
    """New clients, one after the other, none of which may wait until those that say nothing are overdue."""
    for _ in range(count):
        begun = time.monotonic()
        is_due = is_served(node) and time.monotonic() - begun < seconds
        want(is_due, f"a new client isn't served beside {beside}")


def judge_given_up(node, links, least, most, what):
    """Of these connections so many have to be ended, all of them of the older half. Who made others wait rests, and
    counts from when it was woken. A node that is unproved has many of those, and isn't judged."""
    if node.slow > 1:
        return
    among = len(links) // 2
    ended = [has_ended(link.socket) for link in links]
    told = f"{sum(ended)} are ended, {sum(ended[:among])} of them of the first {among}"
    is_due = least <= sum(ended) <= most and not any(ended[among:])
    want(is_due, f"of {len(links):,} connections that {what} {told}, where {least} to {most} of these are due")


def try_places(asked, folder):
    """Where all places are taken a new client gets that of the oldest that has asked nothing, then of who has been
    quiet for longest, and then of who has begun a request. Who hears of changes keeps its place, and where all do none
    is served."""
    node = Node(asked.program, folder, TOKEN)
    node.slow = asked.slow
    with running(node), contextlib.ExitStack() as stack:
        opened = lambda links: [stack.enter_context(link) for link in links]
        kept, live = opened([node.link(), listener(node)])
        edit(kept, node, 1)
        want(live.frame(LIMIT), "a listener hears nothing")
        silent = opened(node.link() for _ in range(PLACES // 2))
        are_served(node, f"{len(silent)} silent connections", 1)
        silent += opened(node.link() for _ in range(PLACES // 2 + 100))
        are_served(node, f"{len(silent):,} silent connections")
        judge_given_up(node, silent, 103, 113, "say nothing")
        quiet = []
        for number in range(PLACES - 2):
            quiet += opened([node.link()])
            for link in [quiet[-1], kept][: 1 + (number % 100 == 0)]:
                want(link.answer(node.text("GET", "/status")).status == 200, "one of many isn't served")
        stay = sum(link.socket.fileno() >= 0 and not has_ended(link.socket) for link in silent)
        want(node.slow > 1 or not stay, f"{stay} silent connections stay beside {len(quiet):,} that have asked")
        # Those rest no more then that made others wait.
        time.sleep(1)
        edit(kept, node, 2)
        are_served(node, f"{len(quiet):,} connections that are quiet")
        judge_given_up(node, quiet, 1, 10, "are quiet")
        want(live.frame(LIMIT), "a listener hears nothing beside quiet connections")
        begun = [link for link in quiet if link.socket.fileno() >= 0 and not has_ended(link.socket, b"G")]
        while len(begun) < PLACES - 2:
            begun += opened([node.link()])
            want(begun[-1].answer(node.text("GET", "/status")).status == 200, "one of many isn't served")
            begun[-1].socket.sendall(b"G")
        kept.socket.sendall(b"G")
        time.sleep(1)
        are_served(node, f"{len(begun):,} connections that have begun a request")
        judge_given_up(node, begun, 1, 10, "have begun a request")
        listeners = opened(listener(node) for _ in range(PLACES - 1))
        with node.link() as link:
            want(not is_served(node) and link.is_ended(LIMIT), f"one more is served than {PLACES:,} listeners")
        listeners.pop().socket.close()
        soon(lambda: is_served(node), "a new client isn't served once a listener has gone")
        with node.link() as link:
            edit(link, node, 3)
        want(all(each.frame(LIMIT) for each in [live, *listeners]), "a listener hears nothing")
    return f"new clients are served where all {PLACES:,} places are taken"


def try_few(asked, folder):
    """More idle connections than a node may have descriptors: edits are kept, also where FILE is written anew."""
    node, limits = Node(asked.program, folder), (DESCRIPTORS, DESCRIPTORS)
    files, held = set(), set()
    with running(node, preexec_fn=lambda: resource.setrlimit(resource.RLIMIT_NOFILE, limits)), node.link() as link:
        edit(link, node, 0)
        idle = [node.link().socket for _ in range(1_100)]
        time.sleep(1.5)
        for number in range(EDITS):
            text = b'["set","few/n%d","%s"]' % (number, b"x" * BYTES)
            answer = link.answer(node.text("POST", "/edits", text))
            want(b'"dot":["a",' in answer.body, f"beside {len(idle)} idle connections an edit is answered {answer}")
            files.add((node.folder / "a.rds").stat().st_ino)
            held.add(len(list(pathlib.Path(f"/proc/{node.child.pid}/fd").iterdir())))
        want(max(held) > DESCRIPTORS - 50, f"beside {len(idle)} idle connections a node has {max(held)} descriptors")
        want(len(files) > 1, f"{EDITS} edits of {BYTES} bytes are all appended")
        are_served(node, f"{len(idle)} idle connections, of {DESCRIPTORS} descriptors")
        edit(link, node, 1)
        for each in idle:
            each.close()
        soon(lambda: is_served(node), "a new client isn't served once all others have gone")
        document = node.document()
    want(len(document["maps"]["few"]["regs"]) == EDITS, f"of {EDITS} edits the document has {document}")
    want(node.shown() == document, "show of the file differs from /doc")
    return f"{EDITS} edits beside {len(idle):,} idle connections, of {DESCRIPTORS:,} descriptors"


def serve_good(node, over, pipe):
    """A client that edits and reads what it has set until all is over: how long each edit took, and what went wrong."""
    took, problem = [], None
    try:
        with node.link() as link:
            while not over.is_set():
                begun, number = time.perf_counter(), len(took) + 1
                edit(link, node, number, "good")
                took.append(time.perf_counter() - begun)
                answer = link.answer(node.text("GET", f"/value/good/n{number}"))
                want(json.loads(answer.body)["reg"] == [number], f"what was set to {number} is {answer}")
                time.sleep(0.005)
    except (Wrong, OSError, ValueError) as error:
        problem = f"a good client fails: {error}"
    pipe.send((took, problem))


def bother(node, chance, count):
    """Lets strangers come while a good client is served."""
    context = multiprocessing.get_context("fork")
    over, (near, far) = context.Event(), context.Pipe()
    good = context.Process(target=serve_good, args=(node, over, far))
    good.start()
    try:
        texts = list(bases(node))
        with ThreadPoolExecutor(33) as pool:
            crawling = pool.submit(crawl, node)
            says = [pool.submit(say_mangled, node, chance.random(), mangled(chance, texts)) for _ in range(count)]
            for each in says:
                each.result()
            judge_refused(node)
            judge_lies(node)
            crowd = judge_crowd(node)
            left = crawling.result()
        want(not left, f"{left} of 300 clients that send a byte a second stay after 40 s")
    finally:
        over.set()
        took, problem = near.recv()
        good.join()
    want(not problem, problem)
    good = {"maps": {}, "regs": {f"n{it + 1}": [it + 1] for it in range(len(took))}, "sets": {}}
    due = {"counters": {}, "maps": {"good": good}, "regs": {}, "sets": {}}
    want(node.document() == due, "the document has other than the good client's edits")
    worked = node.worked()
    time.sleep(1)
    want(node.worked() - worked < 0.2, f"a node at rest works {node.worked() - worked} s in a second")
    times = f"p99 {at(took, 0.99):.1f} ms, longest {max(took) * 1000:.1f} ms"
    return f"{len(took):,} good edits ({times}), {crowd:,} of 1,100 at once, {node.peak():.0f} MB"


def try_strangers(asked, folder):
    chance, told = random.Random(asked.seed), []
    for place, token in ("open", None), ("shut", TOKEN):
        with running(Node(asked.program, folder / place, token)) as node:
            told.append(bother(node, chance, asked.strangers))
    few, places = try_few(asked, folder / "few"), try_places(asked, folder / "places")
    return f"without a token {told[0]}; with one {told[1]}; {few}; {places}"
