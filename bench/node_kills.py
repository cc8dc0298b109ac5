"""Nodes that are killed by -9 while clients edit: what was acknowledged is there, and nothing that wasn't sent."""
import contextlib
import itertools
import json
import os
import random
import shutil
import threading
import time
from concurrent.futures import ThreadPoolExecutor

from serving import LIMIT, NOBODY, Ended, Node, are_equal, drive, edit, killed, running, soon, want


class Model:
    """What a document may hold, numbers that were sent, and what it has to: those that were acknowledged."""

    def __init__(self):
        self.numbers, self.sent, self.acknowledged, self.dots = itertools.count(1), set(), set(), set()
        self.base, self.count = 0, 0

    def requests(self, node):
        """Edits: registers, elements of a set and a counter."""
        for number in self.numbers:
            verb, place, value = self.edit_of(number)
            self.sent.add(number)
            yield number, node.text("POST", "/edits", json.dumps([verb, place, value]).encode())

    @staticmethod
    def edit_of(number):
        return [("inc", "n", 1), ("add", "s", number), ("set", f"k{number % 97}/n{number}", number)][min(number % 8, 2)]

    def heard(self, number, text):
        want(text.startswith(b"HTTP/1.1 200 "), f"an edit is answered {text!r}")
        dot = json.loads(text.partition(b"\r\n\r\n")[2])["dot"]
        is_due = (dot is None) == (number % 8 == 0) and str(dot) not in self.dots
        want(is_due, f"edit {number} is answered with the dot {dot}")
        self.dots |= {str(dot)} - {"None"}
        self.acknowledged.add(number)
        self.count += 1

    def judge(self, document):
        """Compares what a node has found. From here on that is what was acknowledged, and no other was sent."""
        incs = lambda numbers: sum(number % 8 == 0 for number in numbers)
        found = set(document["sets"].get("s", []))
        for key, below in document["maps"].items():
            for name, values in below["regs"].items():
                want(values == [int(name[1:])] and key == f"k{values[0] % 97}", f"at {key}/{name} stands {values}")
                found.add(values[0])
        kept = {number for number in self.acknowledged if number % 8}
        lost, more, sum_of = kept - found, found - self.sent, document["counters"].get("n", 0)
        want(not lost, f"{len(lost)} edits that were acknowledged are lost: {sorted(lost)[:9]}")
        want(not more, f"nobody sent {sorted(more)[:9]}")
        least, most = self.base + incs(self.acknowledged), self.base + incs(self.sent)
        want(least <= sum_of <= most, f"the counter is {sum_of}, and at least {least}, at most {most} are due")
        self.base, self.sent, self.acknowledged = sum_of, set(found), set(found)


def kill_soon(child, model, seconds, waits):
    """Kills it by -9 after a while, or a while after the next edit is acknowledged."""
    was, until = model.count, time.monotonic() + LIMIT
    while waits and model.count == was and time.monotonic() < until:
        time.sleep(0.001)
    time.sleep(seconds)
    child.kill()


def try_kill(asked, folder):
    node, model, chance = Node(asked.program, folder), Model(), random.Random(asked.seed)
    with running(node):
        for turn in range(asked.rounds):
            killer = threading.Thread(target=kill_soon, args=(node.child, model, chance.uniform(0, 0.7), turn % 3))
            killer.start()
            with contextlib.suppress(ConnectionError):
                drive(node.port, 16, model.requests(node), model.heard, LIMIT)
            killer.join()
            killed(node.child)
            if turn % 2:
                node.begin()
                time.sleep(chance.uniform(0, 0.05))
                killed(node.child)
            shown = node.shown()
            node.start()
            document = node.document()
            want(document == shown, f"a node that starts again shows other than the file before, in turn {turn}")
            model.judge(document)
    want(model.count or asked.rounds < 2, "no edit was acknowledged before a kill")
    done = f"{asked.rounds} kills, {model.count:,} edits acknowledged, none lost, none found that wasn't sent"
    return f"{done}; {try_put(asked, folder / 'put')}"


# What others do to the file of a node, and the group of what they put there: 'g' is the node's own, as after one edit.
PUTS = {
    "another group's file is moved to it": (os.rename, "other"),
    "another group's file is copied over it": (shutil.copyfile, "other"),
    "a backup is moved to it": (os.rename, "g"),
    "a backup is copied over it": (shutil.copyfile, "g"),
}
# Edits that are appended as a record, and that have FILE written anew.
FEW = b'["set","more/n0",0]'
MANY = b"\n".join(b'["set","more/n%d","%s"]' % (number, b"x" * 1_000) for number in range(40))


def try_put(asked, folder):
    """What others put in the place of a node's file: the node acknowledges nothing more, and that file stays whole."""
    folder.mkdir()
    for number, ((what, (put, group)), lines) in enumerate(itertools.product(PUTS.items(), [FEW, MANY])):
        node = Node(asked.program, folder / f"{number}")
        node.told("init", "other.rds", "other", "a", "a")
        node.start()
        with node.link() as link:
            edit(link, node, 1)
            shutil.copyfile(node.folder / "a.rds", node.folder / "backup")
            edit(link, node, 2)
            put(node.folder / ("backup" if group == "g" else "other.rds"), node.folder / "a.rds")
            held = (node.folder / "a.rds").read_bytes()
            with contextlib.suppress(ConnectionError, Ended):
                answer = link.answer(node.text("POST", "/edits", lines))
                want(b'"dot":["a",' not in answer.body, f"where {what} an edit is answered {answer}")
        status, said = node.child.wait(LIMIT), node.said()
        is_due = status == 1 and said.endswith("fault 24: Device\n") and "and is left as it is\n" in said
        want(is_due, f"where {what} a node ends with status {status}: {said}")
        want((node.folder / "a.rds").read_bytes() == held, f"where {what} a node writes to it")
        with running(node):
            found, shown = node.status()["group"], node.document()["maps"]
            due = {"k": {"maps": {}, "regs": {"n1": [1]}, "sets": {}}} if group == "g" else {}
            want((found, shown) == (group, due), f"where {what} the next start has the group {found} with {shown}")
    done = f"{number + 1} files that others put in a node's place stay whole"
    return f"{done}; {try_gone(asked, folder / 'gone')}"


# What others do to a node's file so that it has another name, and none at its path.
MOVES = {
    "a file is moved": os.rename,
    "a file is moved to another folder": lambda file, _: os.rename(file, file.parent / "folder" / "there"),
    "a file is linked and its name removed": lambda file, there: (os.link(file, there), os.remove(file)),
}


def try_gone(asked, folder):
    """A node whose file was moved acknowledges nothing more, and makes no file in its place; one that was removed is
    made again."""
    folder.mkdir()
    for number, ((what, move), lines) in enumerate(itertools.product(MOVES.items(), [FEW, MANY])):
        node = Node(asked.program, folder / f"{number}")
        file, there = node.folder / "a.rds", node.folder / "there"
        (node.folder / "folder").mkdir()
        node.start()
        with node.link() as link:
            edit(link, node, 1)
            edit(link, node, 2)
            held = file.read_bytes()
            move(file, there)
            with contextlib.suppress(ConnectionError, Ended):
                answer = link.answer(node.text("POST", "/edits", lines))
                want(b'"dot":["a",' not in answer.body, f"where {what} an edit is answered {answer}")
        status, said = node.child.wait(LIMIT), node.said()
        due = "a.rds: has another name by now, and is left as it is\n"
        want(status == 1 and said.endswith("fault 24: Device\n") and said.count(due) == 1,
             f"where {what} a node ends with status {status}: {said}")
        there = there if there.exists() else node.folder / "folder" / "there"
        want(not file.exists() and there.read_bytes() == held, f"where {what} a node writes to it, or anew")
        want(not (node.folder / "a.rds.new").exists(), f"where {what} a node leaves a.rds.new")
        os.rename(there, file)
        with running(node):
            want(node.document()["maps"]["k"]["regs"] == {"n1": [1], "n2": [2]}, f"where {what} edits are lost")
    done = f"so do {number + 1} that were moved from it"
    return f"{done}; {try_removed(asked, folder / 'removed')}"


def try_removed(asked, folder):
    """The file of a node that was removed is made again by the next edit, with all that it held."""
    for lines in FEW, MANY:
        node = Node(asked.program, folder)
        file = folder / "a.rds"
        with running(node):
            with node.link() as link:
                edit(link, node, 1)
                file.unlink()
                answer = link.answer(node.text("POST", "/edits", lines))
                count = answer.body.count(b'"dot":["a",')
                want((answer.status, count) == (200, lines.count(b"\n") + 1), f"an edit is answered {answer}")
                edit(link, node, 2)
        maps = node.shown()["maps"]
        found = len(maps["more"]["regs"]), maps["k"]["regs"]
        want(found == (count, {"n1": [1], "n2": [2]}), f"a file that was removed, and made again, shows {found}")
        shutil.rmtree(folder)
    return f"one that was removed is made again; {try_narrow(asked, folder)}"


# So many times MANY are sent to a node that can't write its file anew. A record of them has some 41,000 bytes. So the
# second is the first that has no room. FILE then takes records up to twice the length that it has, and the fourth is
# tried again.
TIMES = 5
TRIED = 2


def try_narrow(asked, folder):
    """A node that can't write its file anew appends what it acknowledges, and tries again each time the file has twice
    the length. It writes it anew once that can be done."""
    node, file = Node(asked.program, folder), folder / "a.rds"
    inode, sent = file.stat().st_ino, 0

    def edits(count):
        """Edits of which each time some 41,000 bytes are kept."""
        for number in range(sent, sent + count):
            answer = node.answer("POST", "/edits", MANY.replace(b"more", b"m%02d" % number))
            want(answer.status == 200 and answer.body.count(b'"dot":["a",') == 40, f"edits are answered {answer}")
        return sent + count

    def judge(document):
        found = {key: len(below["regs"]) for key, below in document["maps"].items()}
        want(found == {f"m{number:02}": 40 for number in range(sent)}, f"{file} shows {found} after {sent} edits")

    # What can't be removed, as a file that was left behind is.
    (folder / "a.rds.new").mkdir()
    with running(node):
        sent = edits(TIMES)
        told = node.said().count("cannot make a.rds.new: ")
        want(told == TRIED, f"a node tells {told} times, and not {TRIED}, why a.rds.new isn't made: {node.said()}")
    with running(node):
        judge(node.document())
        sent = edits(1)
        length = file.stat().st_size
        want(file.stat().st_ino == inode, f"{file} isn't the file that edits were appended to")
    (folder / "a.rds.new").rmdir()
    with running(node):
        judge(node.document())
        sent = edits(1)
        want(file.stat().st_ino != inode, f"{file} isn't written anew once it can be")
    judge(node.shown())
    status = json.loads(node.told("status", "a.rds"))
    want(status["snapshot"] == file.stat().st_size, f"{file} isn't written anew once it can be: {status}")
    done = f"one that can't be written anew takes {length:,} bytes"
    return f"{done}; {try_owner(asked, folder / 'owner')}"


def try_owner(asked, folder):
    """A file that is written anew keeps its mode, and where root does it its owner and group."""
    node, file = Node(asked.program, folder), folder / "a.rds"
    if os.geteuid() == 0:
        os.chown(file, NOBODY, NOBODY)
    file.chmod(0o640)
    rights = lambda: (file.stat().st_uid, file.stat().st_gid, file.stat().st_mode)
    due, here, there = rights(), set(), set()
    lines = [MANY.replace(b"more", b"m%d" % number) for number in range(10)]
    for text in lines:
        node.told("edit", "a.rds", given=text)
        here.add(file.stat().st_ino)
        want(rights() == due, f"edits leave {file} with {rights()}, where {due} is due")
    with running(node):
        for text in lines:
            node.answer("POST", "/edits", text)
            there.add(file.stat().st_ino)
            want(rights() == due, f"a node leaves {file} with {rights()}, where {due} is due")
    want(min(len(here), len(there)) > 1, f"{file} wasn't written anew: {here}, {there}")
    return "owner, group and mode stay where it is written anew"


# For how long three nodes are under load around each kill, in seconds, and by how many clients each.
ROUND = 1.0
EACH = 5


def load(node, model):
    """Clients of one node, for a round. Those of one that is killed leave early."""
    with contextlib.suppress(ConnectionError):
        drive(node.port, EACH, model.requests(node), model.heard, ROUND)


def kill_and_start(node, chance, twice):
    """Kills a node under load, and its next start too where that is said, and starts it again."""
    time.sleep(chance.uniform(0.05, ROUND * 0.9))
    killed(node.child)
    if twice:
        node.begin()
        time.sleep(chance.uniform(0, 0.05))
        killed(node.child)
    time.sleep(chance.uniform(0, 0.3))
    node.start()


def kill_one(nodes, model, chance, twice):
    """Three nodes are edited at once, and one of them is killed meanwhile."""
    with ThreadPoolExecutor(len(nodes)) as pool:
        loads = [pool.submit(load, node, model) for node in nodes]
        kill_and_start(chance.choice(nodes), chance, twice)
        for each in loads:
            each.result()


def try_kill3(asked, folder):
    """Three nodes that name one another, edited all at once, one of which is killed in each round."""
    nodes = [Node(asked.program, folder / own, own=own, names="abc") for own in "abc"]
    for node in nodes:
        node.meets(*(other.port for other in nodes if other is not node))
    model, chance = Model(), random.Random(asked.seed)
    with contextlib.ExitStack() as running_all:
        for node in nodes:
            running_all.enter_context(running(node))
        for turn in range(asked.rounds):
            kill_one(nodes, model, chance, turn % 3 == 2)
        took, document = are_equal(nodes, LIMIT)
        model.judge(document)
        for node in nodes:
            soon(lambda: node.count("rds_peers_met") == 2, f"the peers of {node.own} aren't met again", LIMIT)
    for node in nodes:
        want(node.shown() == document, f"show of {node.own}'s file differs from what the three nodes have")
    owns = {dot.split("'")[1] for dot in model.dots}
    want(owns == set("abc") or asked.rounds < 3, f"edits were acknowledged by {sorted(owns)} alone")
    done = f"{model.count:,} edits acknowledged, none lost, none found that wasn't sent"
    return f"{asked.rounds} kills of one of three nodes, {done}; equal {took:.1f} s after the last"
