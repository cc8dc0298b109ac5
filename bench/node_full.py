"""A node whose disk is full: looks are answered and changes refused, until there is room, and nothing is lost."""
import collections
import contextlib
import ctypes
import itertools
import json
import os
import resource
import signal
import subprocess
import threading
import time

from serving import HOST, LIMIT, Ended, Node, are_equal, drive, each_of, listener, running, soon, want

# A text so long that few of them fill what is left of a page.
LONG = "x" * 1_000
# What a change is answered that can't be kept.
REFUSAL = (b'{"fault":24,"name":"Device","text":"reading, writing or another call of the system failed"}')
BEGINS = "a.rds: can't be written: changes are refused until it can, and looks are answered\n"
ENDS = "a.rds: was written again: changes are done from here on\n"
# Of linux/sched.h and linux/mount.h.
CLONE_NEWNS, MS_REC, MS_PRIVATE, MNT_DETACH = 0x20000, 0x4000, 0x40000, 2


class SmallDisk:
    """A file system in memory with a megabyte, that this process and what it starts see alone."""

    def __init__(self, folder):
        self.folder, self.libc = folder, ctypes.CDLL(None, use_errno=True)
        folder.mkdir()
        self.call("unshare", CLONE_NEWNS)
        self.call("mount", b"none", b"/", None, MS_REC | MS_PRIVATE, None)
        self.call("mount", b"rds", os.fsencode(folder), b"tmpfs", 0, b"size=1m")

    def call(self, name, *words):
        if getattr(self.libc, name)(*words):
            raise OSError(ctypes.get_errno(), f"{name} fails")

    def fill(self, _node):
        with contextlib.suppress(OSError), open(self.folder / "ballast", "ab", 0) as ballast:
            while ballast.write(bytes(4_096)):
                pass

    def clear(self, _node):
        (self.folder / "ballast").unlink()

    def end(self):
        self.call("umount2", os.fsencode(self.folder), MNT_DETACH)


class SmallFiles:
    """A limit of how long the files are that a node writes."""

    def __init__(self, folder):
        folder.mkdir()

    def fill(self, node):
        self.limit(node, (node.folder / "a.rds").stat().st_size + 100)

    def clear(self, node):
        self.limit(node, resource.RLIM_INFINITY)

    @staticmethod
    def limit(node, most):
        resource.prlimit(node.child.pid, resource.RLIMIT_FSIZE, (most, resource.RLIM_INFINITY))

    def end(self):
        pass


class SmallNode(Node):
    """A node on a small disk, and what it says elsewhere. It heeds no signal that it passed a limit."""

    def begin(self, **means):
        heedless = {"restore_signals": False, "preexec_fn": lambda: signal.signal(signal.SIGXFSZ, signal.SIG_IGN)}
        with open(self.place(), "wb") as errors:
            super().begin(**{"stdout": errors, "stderr": errors} | heedless | means)

    def place(self):
        return self.folder.with_name("said")

    def said(self):
        return self.place().read_text(errors="replace")


@contextlib.contextmanager
def on_small_disk(asked, folder):
    """A disk that can be filled, a small one where this process may mount one, and a node on it."""
    folder.mkdir()
    try:
        disk = SmallDisk(folder / "small")
    except OSError:
        (folder / "small").rmdir()
        disk = SmallFiles(folder / "small")
    try:
        yield disk, SmallNode(asked.program, folder / "small")
    finally:
        disk.end()


class Edits:
    """The edits that were sent, each with a text, by their numbers: those that were acknowledged, and those that were
    refused."""

    def __init__(self, text=LONG):
        self.numbers, self.text, self.done, self.refused = itertools.count(1), text.encode(), set(), set()

    def requests(self, node):
        for number in self.numbers:
            yield number, node.text("POST", "/edits", b'["set","k/n%d","%s"]' % (number, self.text))

    def heard(self, number, text):
        is_done, is_refused = b'"dot":["a",' in text, text.startswith(b"HTTP/1.1 507 ") and text.endswith(REFUSAL)
        want(is_done != is_refused, f"an edit is answered {text[:300]!r}")
        (self.done if is_done else self.refused).add(number)
        return is_done

    def one(self, node):
        """Sends one over a connection of its own. Answers whether it was done."""
        number, text = next(self.requests(node))
        with node.link() as link:
            answer = link.answer(text)
            return self.heard(number, b"HTTP/1.1 %d \r\n\r\n" % answer.status + answer.body)

    def judge(self, node, document):
        found = found_in(document)
        want(found == self.done, f"{node.own} lacks {sorted(self.done - found)}, and has {sorted(found - self.done)}")

    def until(self, node, is_done, seconds=LIMIT):
        """Sends one after the other until one is done, or isn't."""
        soon(lambda: self.one(node) == is_done, f"no edit is {'done' if is_done else 'refused'}", seconds, 0.02)


# A request of each kind that may change the document.
CHANGES = [
    ("POST", "/edits", b'["inc","n",1]'),
    ("POST", "/edits/x", b'["inc","n",1]'),
    ("PUT", "/value/x", b"1"),
    ("POST", "/grow", b"c"),
    ("POST", "/take", b""),
    ("POST", "/push", b""),
]


def found_in(document):
    return {int(name[1:]) for name in document["maps"]["k"]["regs"]}


def judge_refusals(node):
    """What a node answers while its disk is full."""
    with node.link() as link:
        for request in CHANGES:
            answer = link.answer(node.text(*request))
            wait = answer.headers.get("retry-after", "")
            is_due = (answer.status, answer.body) == (507, REFUSAL) and wait.isdigit() and 1 <= int(wait) <= 60
            want(is_due, f"{request} is answered {answer}")
        for target in "/", "/doc", "/status", "/conflicts", "/ask", "/snapshot", "/metrics":
            want(link.answer(node.text("GET", target)).status == 200, f"{target} isn't answered while the disk is full")
        question = node.told("ask", "b.rds")
        want(link.answer(node.text("POST", "/answer", question)).status == 200, "a question isn't answered")
    means = {"capture_output": True, "text": True, "timeout": LIMIT}
    ran = subprocess.run([node.program, "inc", f"http://{HOST}:{node.port}", "n", "1"], **means)
    is_due = (ran.returncode, ran.stdout) == (1, "fault 24: Device\n") and "refused: 507: 24 Device" in ran.stderr
    want(is_due, f"a command is answered {ran}")
    told = node.status()["unwritable"], node.count("rds_unwritable")
    want(told == (True, 1), f"a node whose disk is full tells {told}")


def try_one(asked, folder):
    """One that edits, one that looks and one that listens, while the disk fills, is full, and has room again."""
    with on_small_disk(asked, folder) as (disk, node):
        sent, has_log = Edits(), isinstance(disk, SmallDisk)
        node.words += ["--log"] * has_log
        node.told("init", "b.rds", "g", "b", "a", "b")
        with running(node), node.link() as looking, listener(node) as hears:
            for _ in range(10):
                want(sent.one(node), "an edit isn't done where there is room")
            for _ in range(2):
                fills(node, sent, disk, looking, hears)
            want(node.said().count(BEGINS) == node.said().count(ENDS) == 2, f"the node says {node.said()[-2000:]}")
            counts = {node.count("rds_edits_total"), *[node.said().count(" POST /edits 200 ")] * has_log}
            want(counts == {len(sent.done)}, f"of {len(sent.done)} edits that were done, {counts} are told")
        sent.judge(node, node.shown())
        with running(node):
            sent.judge(node, node.document())
            want(sent.one(node), "a node that starts again refuses an edit")
        by = "a full disk" if has_log else "a limit of files"
        return f"by {by} {len(sent.refused):,} edits are refused, and {len(sent.done)} done, none of which is lost"


def fills(node, sent, disk, looking, hears):
    """The disk is filled, and has room again."""
    while hears.frame(0.1):
        pass
    disk.fill(node)
    sent.until(node, False)
    while hears.frame(0.1):
        pass
    sent.judge(node, json.loads(looking.answer(node.text("GET", "/doc")).body))
    judge_refusals(node)
    before, begun = (node.folder / "a.rds").read_bytes(), time.monotonic()
    tries = node.said().count("cannot write a.rds: ")
    while time.monotonic() < begun + 4:
        want(not sent.one(node), "an edit is done on a full disk")
        sent.judge(node, json.loads(looking.answer(node.text("GET", "/doc")).body))
        time.sleep(0.01)
    tries = node.said().count("cannot write a.rds: ") - tries
    want(tries < 4, f"in 4 s a full disk is tried {tries} times")
    want(hears.frame(0.1) is None, "a listener hears of an edit that was refused")
    want((node.folder / "a.rds").read_bytes().startswith(before[:1_000]), "the file has changed")
    disk.clear(node)
    sent.until(node, True)
    want(hears.frame(5) is not None, "a listener hears nothing of an edit that was done")
    told = node.status()["unwritable"], node.count("rds_unwritable")
    want(told == (False, 0), f"a node whose disk has room again tells {told}")
    sent.judge(node, json.loads(looking.answer(node.text("GET", "/doc")).body))


def try_many(asked, folder):
    """Sixteen clients that edit while the disk fills and has room again, again and again, and one that looks."""
    with on_small_disk(asked, folder) as (disk, node):
        sent = Edits("x")
        with running(node):
            with looking_at(node) as looks:
                for _ in range(3):
                    drive(node.port, 16, sent.requests(node), sent.heard, 0.1)
                    disk.fill(node)
                    drive(node.port, 16, sent.requests(node), sent.heard, 3)
                    sent.until(node, False)
                    disk.clear(node)
                    sent.until(node, True)
            shown = node.document()
        want(node.shown() == shown, "a node that was killed shows something else than its file")
        found = found_in(shown)
        want(sent.done <= found, f"edits {sorted(sent.done - found)} are lost")
        want(not sent.refused & found, f"edits {sorted(sent.refused & found)} were refused, and are there")
        want({200} <= set(looks) <= {200, 503} and looks.count(503) <= 6, f"looks: {collections.Counter(looks)}")
    figures = f"{len(sent.refused):,} edits are refused and {len(sent.done):,} done, {looks.count(503)} of"
    return f"of 16 clients {figures} {len(looks):,} looks put off"


@contextlib.contextmanager
def looking_at(node):
    """Looks at the document again and again meanwhile, each time over a connection of its own: the statuses."""
    looks, is_over = [], threading.Event()

    def look():
        while not is_over.is_set():
            with contextlib.suppress(OSError, Ended):
                looks.append(node.answer("GET", "/doc").status)

    looker = threading.Thread(target=look)
    looker.start()
    try:
        yield looks
    finally:
        is_over.set()
        looker.join()


def try_pipe(asked, folder):
    """Requests behind one another: the first that came to nothing is answered so, and the connection ends."""
    with on_small_disk(asked, folder) as (disk, node):
        sent = Edits()
        with running(node):
            want(sent.one(node), "an edit isn't done where there is room")
            disk.fill(node)
            sent.until(node, False)
            time.sleep(1.1)
            number, text = next(sent.requests(node))
            with node.link() as link, node.link() as other:
                link.socket.sendall(text + node.text("GET", "/doc") + text)
                answer = link.answer()
                is_due = (answer.status, answer.body) == (507, REFUSAL) and answer.headers.get("connection") == "close"
                want(is_due and not link.rest and link.is_ended(LIMIT), f"the first of three is answered {answer}")
                sent.refused.add(number)
                sent.judge(node, json.loads(other.answer(node.text("GET", "/doc")).body))
            time.sleep(2.1)
            number, text = next(sent.requests(node))
            with node.link() as link:
                link.socket.sendall(node.text("GET", "/doc") + text)
                statuses = [link.answer().status]
                with contextlib.suppress(Ended):
                    statuses.append(link.answer().status)
                want(statuses in ([503], [200, 507]), f"a look and an edit are answered {statuses}")
                sent.refused.add(number)
            sent.judge(node, node.document())
    return "of requests behind one another the first is refused"


def try_peer(asked, folder):
    """A peer brings nothing to a full disk, hears of nothing that was refused, and brings all once there is room."""
    with on_small_disk(asked, folder) as (disk, node):
        peer, sent = Node(asked.program, folder / "peer", own="b"), Edits()
        node.meets(peer.port, every=1)
        peer.meets(node.port, every=1)
        with running(node), running(peer):
            want(sent.one(node), "an edit isn't done where there is room")
            are_equal([node, peer])
            disk.fill(node)
            sent.until(node, False)
            lines = b"\n".join(b'["set","p/n%d","%s"]' % (n, LONG.encode()) for n in range(10))
            want(peer.answer("POST", "/edits", lines).status == 200, "a peer refuses an edit")
            until = time.monotonic() + 6
            while time.monotonic() < until:
                sent.judge(node, node.document())
                want(found_in(peer.document()) <= sent.done, "a peer has heard of an edit that was refused")
                time.sleep(0.1)
            sent.judge(peer, peer.document())
            want("p" not in node.document()["maps"], "a full disk has taken what a peer brings")
            disk.clear(node)
            _, document = are_equal([node, peer], 90)
            want(len(document["maps"]["p"]["regs"]) == 10, f"what a peer brings is lost: {document['maps'].keys()}")
            sent.judge(node, document)
            want(sent.one(node), "an edit isn't done after a peer brought something")
            are_equal([node, peer])
            tries = node.said().count("cannot write a.rds: ")
        want(node.shown() == peer.shown(), "files of peers differ")
    return f"a peer brings what it has once there is room, after {tries} tries"


def try_lost(asked, folder):
    """A node whose file was written over ends, and leaves it as it is: what it held stands beside it."""
    folder.mkdir()
    for what in "an older one", "no file of rds":
        with on_small_disk(asked, folder / what) as (disk, node):
            sent, file = Edits("x"), node.folder / "a.rds"
            node.start()
            want(sent.one(node), "an edit isn't done where there is room")
            older = file.read_bytes() if what == "an older one" else b"no file of rds"
            for _ in range(4):
                want(sent.one(node), "an edit isn't done where there is room")
            disk.fill(node)
            disk.clear(node)
            file.write_bytes(older)
            is_left_by(node, sent, older)
    return "one whose file isn't what it was ends, and leaves what it held"


def is_left_by(node, sent, there):
    """A node ends at its next edit, leaves what is there as it is, and has left what it held beside it."""
    number, text = next(sent.requests(node))
    with contextlib.suppress(OSError, Ended), node.link() as link:
        want(link.answer(text).status == 0, "an edit is answered")
    status, said = node.child.wait(LIMIT), node.said()
    ends = "a.rds: what it held is in a.rds.left\nfault 24: Device\n"
    is_due = status == 1 and said.endswith(ends) and (node.folder / "a.rds").read_bytes() == there
    want(is_due, f"where its file was written over a node ends with {status}: {said}")
    node.begin()
    status, said = node.child.wait(LIMIT), node.said()
    is_due = status == 1 and said.startswith("a.rds.left: is what a node held") and said.endswith("fault 24: Device\n")
    want(is_due, f"beside a.rds.left a node ends with {status}: {said}")
    (node.folder / "a.rds.left").rename(node.folder / "a.rds")
    found = found_in(node.shown())
    want(sent.done <= found <= sent.done | {number}, f"of {sorted(sent.done)} a.rds.left has {sorted(found)}")


def try_full(asked, folder):
    return each_of([try_one, try_many, try_pipe, try_peer, try_lost], asked, folder)
