"""What two nodes say to each other when they meet: nothing new, something new on one side, and two that are forked."""
import contextlib
import random
import re
import shutil
import socket
import threading
import time

from serving import HOST, LIMIT, TOKEN, running, soon, want

# A meeting of two equal nodes may take so many bytes each way, and so many milliseconds of each one's processor.
BYTES = 500
WORK = 1.0
# An edit at each of a hub and the nodes that name it may take so many bytes of one of these, both ways.
MOST_SCATTERED = 6_000
ELEMENTS = 10_000
# So many such meetings are measured.
MEETINGS = 20
# So many lines are edited by a request: an unproved program takes some seconds for them, where 30 are the most.
LINES = 500


class Relay:
    """A port that leads to another, and notes what goes through it each way."""

    def __init__(self, port):
        self.there, self.asked, self.answered = port, bytearray(), bytearray()
        self.listening = socket.create_server((HOST, 0))
        self.port = self.listening.getsockname()[1]
        threading.Thread(target=self.take, daemon=True).start()

    def take(self):
        with contextlib.suppress(OSError):
            while True:
                here = self.listening.accept()[0]
                there = socket.create_connection((HOST, self.there), LIMIT)
                for way in (here, there, self.asked), (there, here, self.answered):
                    threading.Thread(target=self.carry, args=way, daemon=True).start()

    @staticmethod
    def carry(begin, end, noted):
        with contextlib.suppress(OSError):
            while text := begin.recv(1 << 18):
                noted += text
                end.sendall(text)
            end.shutdown(socket.SHUT_WR)

    def requests(self):
        """What was asked, in order, and the status of each answer; and forgets them. `tag` is the tag of /ask alone."""
        asked = re.findall(rb"(GET|HEAD|POST) (/\w+) HTTP/1\.1\r\n", bytes(self.asked))
        told = re.findall(rb"HTTP/1\.1 (\d{3}) ", bytes(self.answered))
        self.forget()
        names = ["tag" if method == b"HEAD" else target.decode() for method, target in asked]
        return [f"{name} {status.decode()}" for name, status in zip(names, told)]

    def is_quiet(self):
        """Whether what was said last is that the peer has nothing new; and forgets it."""
        return self.requests()[-1:] in (["/ask 304"], ["tag 304"])

    def forget(self):
        self.asked.clear()
        self.answered.clear()


def try_one_sided(make, asked, folder):
    """Of two nodes one has something: nothing is asked, or given, that the other lacks nothing of."""
    a, b = make(asked, folder, "ab", TOKEN)
    relay = Relay(b.port)
    a.meets(relay.port, every=1)
    with running(b), running(a):
        quiet = lambda: soon(relay.is_quiet, "two nodes don't come to rest", 10 * a.slow)
        ends = lambda: relay.answered.endswith(b"\r\n\r\n") and b" 304 " in relay.answered
        quiet()
        for here, steps in (a, ["/push 200"]), (b, ["tag 200", "/pull 200"]):
            quiet()
            edit_at(here, f"only/{here.own}", here.own)
            soon(lambda: value_at(a, f"only/{here.own}") == value_at(b, f"only/{here.own}"), "an edit doesn't come", 10)
            soon(ends, "two nodes don't come to rest", 10 * a.slow)
            found = [step for step in relay.requests() if step != "tag 304"]
            want(found == steps, f"where {here.own} alone has something the steps are {found}, and {steps} are due")
        quiet()
        edit_at(b, "both/b", "b")
        edit_at(a, "both/a", "a")
        soon(lambda: value_at(a, "both/b") == value_at(b, "both/b"), "an edit doesn't come", 10 * a.slow)
        soon(lambda: value_at(a, "both/a") == value_at(b, "both/a"), "an edit doesn't come", 10 * a.slow)
        want(a.document() == b.document(), "two nodes that have met differ")
        soon(ends, "two nodes don't come to rest", 10)
        found, steps = [step for step in relay.requests() if step != "tag 304"], ["tag 200", "/pull 200", "/push 200"]
        want(found == steps, f"where both have something the steps are {found}, and {steps} are due")
    return "where one side alone has something, one step is made"


def try_scattered(make, asked, folder):
    """A hub and two nodes that name it, with many entries of which three in ten were deleted: what edits take."""
    hub, *others = nodes = make(asked, folder, "abc", TOKEN)
    chosen = random.Random(asked.seed)
    dead = chosen.sample(range(ELEMENTS), ELEMENTS * 3 // 10)
    lines = [f'["add","s{number % 100}",{number}]\n' for number in range(ELEMENTS)]
    lines += [f'["del","s{number % 100}",{number}]\n' for number in dead]
    hub.told("edit", "a.rds", given="".join(lines).encode())
    relays = [Relay(hub.port) for _ in others]
    for node, relay in zip(others, relays):
        node.meets(relay.port, every=1)
    with contextlib.ExitStack() as stack:
        for node in nodes:
            stack.enter_context(running(node))
        level = lambda: len({node.status()["mark"] for node in nodes}) == 1
        quiet = lambda: level() and all([relay.is_quiet() for relay in relays])
        soon(quiet, "a hub and its nodes don't get equal", LIMIT * hub.slow, 1)
        took = []
        for round in range(len(nodes) + 1):
            for relay in relays:
                relay.forget()
            edited = nodes if round == len(nodes) else [nodes[round]]
            for node in edited:
                edit_at(node, f"only/{node.own}", f"{round}")
            soon(level, "a hub and its nodes don't get equal", 20 * hub.slow)
            size = max(len(relay.asked) + len(relay.answered) for relay in relays)
            steps = [step for relay in relays for step in relay.requests()]
            want("/ask 200" not in steps, f"nodes that were level send questions: {steps}")
            want(size <= MOST_SCATTERED, f"edits at {len(edited)} of {len(nodes)} nodes take {size} bytes")
            took.append(size)
    return f"of {ELEMENTS:,} elements, three in ten dead: an edit goes over in at most {max(took[:-1])} bytes both ways"


def edit_at(node, path, value):
    answer = node.answer("POST", "/edits", f'["set","{path}","{value}"]\n'.encode())
    want(answer.status == 200 and b"dot" in answer.body, f"an edit is answered {answer}")


def value_at(node, path):
    return node.answer("GET", f"/value/{path}").body


def load(node, entries):
    """Edits a node until it has so many entries."""
    lines = [b'["set","k%d/n%d",%d]\n' % (number % 1_000, number, number) for number in range(entries)]
    with node.link() as link:
        for first in range(0, entries, LINES):
            link.answer(node.text("POST", "/edits", b"".join(lines[first : first + LINES])))
    want(node.count("rds_live_entries") == entries, f"{node.own} hasn't got {entries} entries")


def try_idle(make, asked, folder):
    """Two nodes with many entries that are equal: what a meeting takes."""
    a, b = make(asked, folder, "ab", TOKEN)
    relay = Relay(b.port)
    a.meets(relay.port, every=1)
    with running(b), running(a):
        load(a, asked.entries)
        equal = lambda: a.status()["mark"] == b.status()["mark"]
        soon(equal, "two nodes don't get equal", LIMIT * a.slow)
        soon(relay.is_quiet, "two equal nodes don't come to rest", 30 * a.slow, 1)
        before, begun = [node.worked() for node in (a, b)], time.monotonic()
        relay.forget()
        time.sleep(MEETINGS * 1.0)
        work = [1000 * (node.worked() - worked) for node, worked in zip((a, b), before)]
        size, steps = (len(relay.asked), len(relay.answered)), relay.requests()
        count = len(steps)
        want(set(steps) <= {"tag 304", "/ask 304"}, f"two equal nodes make the steps {set(steps)}")
        want(count >= MEETINGS / 2, f"two equal nodes meet {count} times in {time.monotonic() - begun:.0f} s")
    told = f"{size[0] / count:.0f} and {size[1] / count:.0f} bytes, {work[0] / count:.2f} and {work[1] / count:.2f} ms"
    want(max(size) <= BYTES * count, f"a meeting of two equal nodes takes {told}")
    want(max(work) <= WORK * count * a.slow, f"a meeting of two equal nodes takes {told}")
    return f"a meeting of two equal nodes of {asked.entries:,} entries takes {told} of processor"


def forked(make, asked, folder, token=None):
    """Three nodes. A backup of the first was put back and edited as often, once the second had met it."""
    a, b, c = nodes = make(asked, folder, "abc", token)
    shutil.copy(a.folder / "a.rds", a.folder / "backup")
    a.told("set", "a.rds", "fork/x", "1")
    b.told("take", "a.rds", "question", "-", given=answer_between(a, b))
    (a.folder / "backup").rename(a.folder / "a.rds")
    a.told("set", "a.rds", "fork/x", "2")
    return nodes


def answer_between(giver, taker):
    """What one file answers the question of another, which is left beside that."""
    question = taker.told("ask", "a.rds")
    (taker.folder / "question").write_bytes(question)
    return giver.told("answer", "a.rds", given=question)


def lines_of(node, port):
    """What a node has said of a peer, but for what it said before that began."""
    begin = f"peer {HOST}:{port}: "
    lines = [line.removeprefix(begin) for line in node.said().splitlines() if line.startswith(begin)]
    return [line for line in lines if not line.startswith("lost: Connection refused")]


def are_counted(nodes, due):
    """Waits until each has so many peers that are named, met and forked."""
    counts = lambda: [tuple(node.count(f"rds_peers{kind}") for kind in ("", "_met", "_forked")) for node in nodes]
    otherwise = lambda: f"of the peers that are named, met and forked are counted {counts()}, and {due} is due"
    soon(lambda: counts() == due, otherwise, 10 * nodes[0].slow)


def try_told_fork(make, asked, folder):
    """Two nodes that have seen the same and hold different entries, and a third that meets one of them."""
    a, b, c = nodes = forked(make, asked, folder)
    a.meets(b.port, every=1)
    b.meets(a.port, c.port, every=1)
    c.meets(b.port, every=1)
    slow = a.slow
    with running(a), running(b), running(c):
        due = [(1, 0, 1), (2, 1, 1), (1, 1, 0)]
        are_counted(nodes, due)
        told = [node.status()["peers"] for node in nodes]
        counts = [tuple(peers[word] for word in ("named", "met", "forked")) for peers in told]
        want(counts == due, f"of their peers /status tells {told}")
        for node, port in (a, b.port), (b, a.port):
            node.stands(port, False, "28 Forked")
            soon(lambda: node.status()["callers"]["forked"], "of a fork that calls nothing is told", 10 * slow)
        b.stands(c.port, True)
        want(not c.status()["callers"]["forked"], "of a peer that calls and is met a fork is told")
        want(all(node.count("rds_peer_refusals_total") for node in (a, b)), "a fork isn't counted as a refusal")
        values = [value_at(node, "fork/x") for node in (a, b, c)]
        want(values[0] != values[1] == values[2], f"a fork changes what stands there: {values}")
        for number, node in enumerate((a, b, c, a, b)):
            edit_at(node, f"more/n{number}", node.own)
            same = lambda: len({value_at(each, f"more/n{number}") for each in nodes}) == 1
            soon(same, f"an edit at {node.own} doesn't come to all beside a fork", 10 * slow)
        time.sleep(2.5)
        are_counted(nodes, due)
        for node, port in (a, b.port), (b, a.port):
            lines = lines_of(node, port)
            want(len(lines) == 1 and "28 Forked" in lines[0], f"of a fork is told {lines}")
        b.answer("POST", "/edits", b'["clear","fork"]\n')
        are_counted(nodes, [(1, 1, 0), (2, 2, 0), (1, 1, 0)])
        want(a.document() == b.document() == c.document(), "nodes that are met again differ")
        for node, port in (a, b.port), (b, a.port):
            lines = lines_of(node, port)
            want(len(lines) == 2 and lines[1] == "met", f"of a fork that was settled is told {lines}")
            node.stands(port, True, "28 Forked")
    return "a fork that no delta shows is told by 28 at both ends, once, and ends once nothing differs"
