"""Clients that ask for all of a large document, again and again, while others edit it."""
import contextlib
import multiprocessing
import random
import socket
import time

from serving import HOST, LENGTH, LIMIT, Node, at, drive, running, soon, want

# How many others edit.
OTHERS = 16


@contextlib.contextmanager
def asking_for_all(node, request, clients=1):
    """Processes that send a request again and again, each over one connection: how many answers they got."""
    context = multiprocessing.get_context("fork")
    counts = [context.Value("i", 0) for _ in range(clients)]
    children = [context.Process(target=ask_for_all, args=(node.port, request, it), daemon=True) for it in counts]
    for child in children:
        child.start()
    try:
        soon(lambda: all(it.value for it in counts), "a client that asks for all gets no answer", LIMIT)
        for count in counts:
            count.value = 0
        yield lambda: sum(it.value for it in counts)
    finally:
        for child in children:
            child.kill()


def ask_for_all(port, request, count):
    room = bytearray(1 << 20)
    with socket.create_connection((HOST, port)) as link:
        while True:
            link.sendall(request)
            head = b""
            while b"\r\n\r\n" not in head:
                head += link.recv(1 << 16)
            left = head.find(b"\r\n\r\n") + 4 + int(LENGTH.search(head)[1]) - len(head)
            while left:
                left -= link.recv_into(room, min(left, len(room)))
            count.value += 1


def is_done(number, text):
    want(text.startswith(b"HTTP/1.1 200 ") and b'{"dot":["a",' in text, f"an edit is answered {text!r}")


def edits(node, chance):
    while True:
        line = b'["set","k%d/v",%d]\n' % (chance.random() * 100_000, chance.random() * 1e9)
        yield 0, node.text("POST", "/edits", line)


def load_entries(node, entries):
    """Edits of 5,000 lines a request, by one client."""
    lines = [b'["set","k%d/n%d",%d]\n' % (number % 1_000, number, number) for number in range(entries)]
    with node.link() as link:
        for first in range(0, entries, 5_000):
            link.answer(node.text("POST", "/edits", b"".join(lines[first : first + 5_000])))


def judge(node, chance, clients, seconds):
    """Edits of others beside so many clients that ask for all: what is said of them."""
    request, begun = node.text("GET", "/doc"), time.perf_counter()
    with asking_for_all(node, request) as answers:
        alone = time.perf_counter()
        soon(lambda: answers() >= 3, "a client that asks for all is hardly answered", LIMIT)
        alone = (time.perf_counter() - alone) / answers()
    with asking_for_all(node, request, clients) as answers:
        begun, before = time.perf_counter(), answers()
        took = drive(node.port, OTHERS, edits(node, chance), is_done, max(seconds, 15 * alone))
        count, spent = answers() - before, time.perf_counter() - begun
    share = count * alone / spent
    what = f"beside {clients} of {alone * 1000:.0f} ms each: {len(took) / spent:,.0f} edits a second"
    said = f"{what}, p99 {at(took, 0.99):.1f} ms, longest {max(took) * 1000:.0f} ms, {share:.0%} for who asks for all"
    want(count, f"who asks for all gets nothing {said}")
    want(share < 0.5, f"who asks for all has more than half of the time {said}")
    want(at(took, 0.99) < 20 + 500 * alone, f"others wait for who asks for all {said}")
    want(max(took) < 0.2 + 3 * alone, f"others wait more than once {said}")
    return said


# So many ask for all at once.
AT_ONCE = 64


def judge_burst(node, chance):
    """An edit that comes behind many who ask for all, each over a connection of its own, waits for few of them."""
    request, begun = node.text("GET", "/doc"), time.perf_counter()
    node.answer("GET", "/doc")
    alone = time.perf_counter() - begun
    with contextlib.ExitStack() as stack, node.link() as link:
        links = [stack.enter_context(node.link()) for _ in range(AT_ONCE)]
        for each in links:
            each.socket.sendall(request)
        took = []
        for _, (_, edit) in zip(range(8), edits(node, chance)):
            begun = time.perf_counter()
            want(link.answer(edit).status == 200, "an edit is refused")
            took.append(time.perf_counter() - begun)
    said = f"behind {AT_ONCE} of {alone * 1000:.0f} ms: longest edit {max(took) * 1000:.0f} ms"
    want(max(took) < 0.2 + 4 * alone, f"an edit waits for many who ask for all {said}")
    return said


def try_greedy(asked, folder):
    node, chance = Node(asked.program, folder), random.Random(asked.seed)
    with running(node):
        load_entries(node, asked.entries)
        said = [judge(node, chance, clients, asked.seconds) for clients in (1, 4)]
        said.append(judge_burst(node, chance))
    return "; ".join(said)
