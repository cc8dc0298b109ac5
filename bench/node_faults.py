"""A node whose n-th call on files and sockets or request for memory fails, or that ends at such a call, for every n."""
import collections
import contextlib
import itertools
import os
import pathlib
import random
import shutil
import subprocess

from serving import LIMIT, Ended, Node, Wrong, are_equal, is_served, listener, running, soon, want

HERE = pathlib.Path(__file__).resolve().parent
# What is failed, and how a node may end by itself then: its status, and a line that it has to write.
KINDS = {
    "device": (1, ["fault 24: Device\n", "fault 29: Unsure\n"]),
    "memory": (1, ["fault 1: Memory\n", "fault 24: Device\n"]),
    **dict.fromkeys(["before", "after", "half"], (99, [""])),
}


class Sent:
    """The edits that were sent to a node, but for those that it refused, and those that it acknowledged."""

    def __init__(self):
        self.numbers, self.sent, self.acknowledged = itertools.count(1), set(), set()

    def edit(self, node, link):
        number = next(self.numbers)
        self.sent.add(number)
        answer = link.answer(node.text("POST", "/edits", b'["set","k/n%d",%d]\n' % (number, number)))
        if answer.status == 200 and b'"dot":["a",' in answer.body:
            self.acknowledged.add(number)
        else:
            is_refused = answer.status in (503, 507) or b'"name":"Memory"' in answer.body
            want(is_refused, f"an edit is answered {answer}")
            self.sent.remove(number)

    def judge(self, document, told):
        """Compares what the file shows with what was sent and acknowledged, and with what a peer was told."""
        found, known = numbers_in(document), numbers_in(told)
        lost, more = self.acknowledged - found, found - self.sent
        want(not lost, f"edits {lost} were acknowledged, and are lost")
        want(not more, f"edits {more} weren't sent, or were refused")
        want(known <= found, f"edits {known - found} were told to a peer, and are lost")


def numbers_in(document):
    return {int(name[1:]) for name in document["maps"].get("k", {"regs": {}})["regs"]}


def ask(node, sent):
    """Some requests by two clients, twice, and a third who listens. Each may be dropped."""
    for _ in range(2):
        with contextlib.suppress(OSError, Ended), node.link() as link, node.link() as other:
            sent.edit(node, link)
            with contextlib.suppress(OSError, Wrong), listener(node):
                sent.edit(node, other)
                for target in "/", "/doc", "/metrics":
                    other.answer(node.text("GET", target))
                sent.edit(node, link)


def once(node, peer, failing, kind, number):
    """Runs a node so, beside a peer: what failed, and whether it went on."""
    status, lines = KINDS[kind]
    sent, told = Sent(), node.folder / "told"
    with open(told, "wb") as file:
        fail = {"LD_PRELOAD": failing, "FAIL_KIND": kind, "FAIL_AT": f"{number}", "FAIL_TOLD": f"{file.fileno()}"}
        node.begin(env={**os.environ, **fail}, pass_fds=[file.fileno()])
    has_ended = lambda: node.child.poll() is not None
    # Where the line can't be written that says so, the node serves all the same, at a port that nobody knows.
    is_untold = lambda: "standard error" in told.read_text()
    soon(lambda: "listening on" in node.said() or has_ended() or is_untold(), "the node doesn't serve")
    if is_untold() and "listening on" not in node.said():
        node.child.kill()
        node.child.wait()
        return told.read_text(), True
    ask(node, sent)
    # The first of these may be what meets the failure.
    goes_on = is_served(node) or is_served(node)
    if not goes_on:
        soon(has_ended, f"a node that doesn't serve any more, after call {number}, doesn't end")
        is_due = node.child.wait() == status and any(line in node.said() for line in lines)
        how = f"{node.child.poll()}: {node.said()[-300:]!r}"
        want(is_due, f"call {number}, {told.read_text()}: the node ends with {how}")
    node.child.kill()
    node.child.wait()
    shown = node.shown()
    sent.judge(shown, peer.document())
    with running(node):
        document = are_equal([node, peer])[1]
    want(document == shown, f"call {number}, {told.read_text()}: show differs from /doc")
    return told.read_text(), goes_on


def try_faults(asked, folder):
    failing, counts = folder / "failing.so", collections.Counter()
    subprocess.run(["cc", "-shared", "-fPIC", "-o", failing, HERE / "failing.c", "-ldl"], check=True, timeout=LIMIT)
    for kind in KINDS:
        for number in itertools.count(random.Random(asked.seed).randrange(asked.part) + 1, asked.part):
            node, peer = Node(asked.program, folder / "node"), Node(asked.program, folder / "peer", own="b")
            node.meets(peer.port)
            peer.meets(node.port)
            with running(peer):
                name, goes_on = once(node, peer, failing, kind, number)
            for folder_of in node.folder, peer.folder:
                shutil.rmtree(folder_of)
            if not name:
                break
            counts[kind, "goes on" if goes_on else "ends"] += 1
    return ", ".join(f"{kind}: {count} {how}" for (kind, how), count in counts.items())
