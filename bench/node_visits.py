"""Files that meet a node, by `sync FILE http://HOST:PORT`: what goes over, who is refused, and what is wrong."""
import shutil
import subprocess
import time

from node_fakes import Fake, by_target, fakes_of, response, silent
from node_meetings import Relay, answer_between, forked
from serving import HOST, LIMIT, TOKEN, Node, Noted, each_of, running, want

# A meeting with what is no node may take so many seconds, by --timeout 1.
PATIENCE = 20
# How many times a meeting is killed.
KILLS = 20

NONE = b'{"taken":0}\n'


def nodes_of(asked, folder, names, token=None):
    """Nodes of one group, each in a folder of its own. The first letter of its name is its replica's."""
    folder.mkdir()
    nodes = [Node(asked.program, folder / name, token, name[0], "abc") for name in names]
    for node in nodes:
        node.slow = asked.slow
    return nodes


def visit(file, address, *options):
    """What a file's meeting with a node at an address comes to: the status, and what is written."""
    words = [file.program, "sync", "a.rds", address, *options]
    ran = subprocess.run(words, cwd=file.folder, capture_output=True, timeout=LIMIT * file.slow)
    return ran.returncode, ran.stdout, ran.stderr.decode()


def at(port):
    return f"http://{HOST}:{port}"


def comes_to(file, address, options, status, written, *notes):
    """A meeting that has to come to this, with these words on standard error."""
    found = visit(file, address, *options)
    is_due = found[:2] == (status, written) and all(note in found[2] for note in notes)
    due = f"{status}, {written} and {notes} are due"
    want(is_due, f"'sync a.rds {address}{''.join(f' {word}' for word in options)}' comes to {found}, where {due}")


def are_level(file, node):
    """The file and the node have one document."""
    want(file.shown() == node.document(), f"{file.own} and the node {node.own} differ after they have met")


# ---- What goes over ----


def try_both_ways(asked, folder):
    """Something goes over each way, and then nothing, and no step but one is made."""
    node, file = nodes_of(asked, folder, "ab")
    node.told("set", "a.rds", "title", '"one"')
    file.told("add", "a.rds", "set", '"b"')
    file.told("inc", "a.rds", "count", "2")
    with running(node):
        relay = Relay(node.port)
        comes_to(file, at(node.port), [], 0, b'{"taken":1}\n')
        are_level(file, node)
        for host in HOST, "localhost":
            for end in "", "/":
                comes_to(file, f"http://{host}:{node.port}{end}", [], 0, NONE)
        node.answer("POST", "/edits", b'["set","k/1",1]\n["set","k/2",2]\n')
        comes_to(file, at(node.port), [], 0, b'{"taken":2}\n')
        file.told("set", "a.rds", "k/3", "3")
        comes_to(file, at(node.port), ["--timeout", "0"], 0, NONE)
        are_level(file, node)
        comes_to(file, at(relay.port), ["--timeout", "5"], 1, b"fault 23: PeerEnded\n", "refused: 403")
        want(relay.requests() == ["/ask 403"], "a node is asked again where it refuses")
    comes_to(file, at(node.port), [], 1, b"fault 24: Device\n", f"peer {HOST}:{node.port}: lost: Connection refused")
    return "what each lacks goes over, and nothing else"


def try_tokens(asked, folder):
    """A node that asks for a token."""
    node, file = nodes_of(asked, folder, "ab", TOKEN)
    node.told("set", "a.rds", "title", '"one"')
    for name, text in ("wrong", TOKEN[::-1]), ("short", "x"), ("line", f"{TOKEN}\n\n"):
        (file.folder / name).write_text(text)
    with running(node):
        relay = Relay(node.port)
        refused = 1, b"fault 23: PeerEnded\n", "refused: 401"
        comes_to(file, at(node.port), [], *refused)
        comes_to(file, at(node.port), ["--token-file", "wrong"], *refused)
        for name in "short", "line":
            comes_to(file, at(node.port), ["--token-file", name], 2, b"fault 27: Usage\n", f"{name} holds no token")
        comes_to(file, at(node.port), ["--token-file", "none"], 1, b"fault 24: Device\n", "cannot read none")
        want(file.shown() != node.document(), "a file without the token has met a node")
        comes_to(file, at(relay.port), ["--token-file=token"], 0, b'{"taken":1}\n')
        due = ["/ask 200", "/answer 200", "/take 200", "/ask 304"]
        found = relay.requests()
        want(found == due, f"the steps of a meeting are {found}, where {due} are due")
        are_level(file, node)
        comes_to(file, at(relay.port), ["--token-file=token"], 0, NONE)
        want(relay.requests() == ["/ask 304"], "a file that is level makes more than a step")
    return "a node's token is due"


def try_words(asked, folder):
    """Words that name no node, and a file that isn't there."""
    node, file = nodes_of(asked, folder, "ab")
    usage = 2, b"fault 27: Usage\n"
    for place in "", "/", "h", "h:", "h:0", "h:1/x", "h:1//", "u@h:1":
        comes_to(file, f"http://{place}", [], *usage, "is no host and port")
    comes_to(file, f"{HOST}:{node.port}", ["--token-file", "token"], *usage, "--token-file is for a node alone")
    comes_to(file, at(node.port), ["--timeout", "x"], *usage, "--timeout 'x' is no whole number")
    comes_to(file, "http://none.invalid:1", [], 1, b"fault 24: Device\n", "cannot find the peer none.invalid:1")
    (file.folder / "a.rds").unlink()
    comes_to(file, at(node.port), [], 1, b"fault 24: Device\n", "a.rds")
    (file.folder / "a.rds").write_bytes(b"no file of rds")
    comes_to(file, at(node.port), [], 1, b"fault 13: Bad\n", "a.rds")
    return "words that name no node are refused"


# ---- Who can't meet ----


def try_strange(asked, folder):
    """A copy of the node's file, a file of another group, one whose roster has grown apart, and one that a node has."""
    node, copy, other, apart = nodes_of(asked, folder, ["a", "a-copy", "b", "c"])
    shutil.copy(node.folder / "a.rds", copy.folder / "a.rds")
    for file, words in (other, ["h", "b", "a", "b", "c"]), (apart, ["g", "c", "a", "c"]):
        file.told("init", "x.rds", *words)
        (file.folder / "x.rds").rename(file.folder / "a.rds")
    with running(node):
        for edited in False, True:
            comes_to(copy, at(node.port), [], 1, b"fault 21: SameReplica\n", "21 SameReplica")
            copy.told("set", "a.rds", "k", "1")
        comes_to(node, at(node.port), [], 1, b"fault 21: SameReplica\n", "21 SameReplica")
        comes_to(other, at(node.port), [], 1, b"fault 19: WrongGroup\n", "19 WrongGroup")
        comes_to(apart, at(node.port), [], 1, b"fault 20: WrongRoster\n", "20 WrongRoster")
        want(node.document()["regs"] == {}, "a node has taken of a file that it can't meet")
    return "a copy, another group and another roster are refused"


def try_held(asked, folder):
    """A file that a node of its own has, and another that is edited while the node lets it wait."""
    node, file, free = nodes_of(asked, folder, "abc")
    node.told("set", "a.rds", "title", '"one"')
    with running(node), running(file):
        comes_to(file, at(node.port), [], 1, b"fault 24: Device\n", "a.rds", f"http://{HOST}:{file.port}/")
        want(file.document()["regs"] == {}, "a file that a node has was changed")
    with Fake(silent) as fake:
        words = [free.program, "sync", "a.rds", at(fake.port), "--timeout", "5"]
        with subprocess.Popen(words, cwd=free.folder, stdout=subprocess.PIPE, stderr=subprocess.PIPE) as waiting:
            time.sleep(0.5 * asked.slow)
            begun = time.monotonic()
            free.told("set", "a.rds", "k", "1")
            took = time.monotonic() - begun
            want(took < 2 * asked.slow, f"a file is edited in {took:.1f} s while a node lets it wait")
            want(waiting.poll() is None, "a file doesn't wait for a node")
            waiting.kill()
    return "a file isn't locked while it waits"


def try_forks(asked, folder):
    """Two that have seen the same and hold different entries, and the same where each lacks something besides."""
    a, b, c = forked(lambda asked, folder, names, token: nodes_of(asked, folder, names, token), asked, folder)
    with running(a):
        comes_to(b, at(a.port), [], 1, b"fault 28: Forked\n", "28 Forked")
        b.told("set", "a.rds", "b", "1")
        a.answer("POST", "/edits", b'["set","a/1",1]\n["set","a/2",1]\n')
        comes_to(b, at(a.port), [], 1, b'{"taken":2}\nfault 28: Forked\n', "28 Forked")
        comes_to(b, at(a.port), [], 1, b"fault 28: Forked\n", "28 Forked")
        want(b.shown()["maps"]["a"] == a.document()["maps"]["a"], "edits don't go by a fork")
        b.told("clear", "a.rds", "fork")
        comes_to(b, at(a.port), [], 0, NONE)
        are_level(b, a)
    return "a fork is told by 28, before or after edits go by it"


# ---- What is no node, and what ends ----


def try_wrong(asked, folder):
    """What isn't a node: each ends the meeting by a fault, in time, and leaves the file as it was."""
    file, other, third = nodes_of(asked, folder, "abc")
    for each in file, other, third:
        each.told("set", "a.rds", f"k/{each.own}", "1")
    question, answer = third.told("ask", "a.rds"), answer_between(third, other)
    held, noted, longest = (file.folder / "a.rds").read_bytes(), Noted(), 0.0
    for what, act in fakes_of(question, answer, asked.slow).items():
        if what == "sends a body without end" and asked.slow > 1:
            continue
        with noted, Fake(act) as fake:
            begun = time.monotonic()
            status, written, notes = visit(file, at(fake.port), "--timeout", "1")
            took = time.monotonic() - begun
            longest = max(longest, took)
            found = f"a meeting with what {what} comes to {status}, {written}, {notes!r} in {took:.1f} s"
            want(status == 1 and written.startswith(b"fault ") and written.count(b"\n") == 1, found)
            want(notes.count("\n") == 1 and took < PATIENCE * asked.slow, found)
            want((file.folder / "a.rds").read_bytes() == held, f"what {what} changes a file")
    noted.end()
    return f"what is no node is told, the last after {longest:.1f} s"


def try_ended(asked, folder):
    """A node that ends once it has answered: what was taken stays, and is told before the fault."""
    node, file = nodes_of(asked, folder, "ab")
    node.told("set", "a.rds", "title", '"one"')
    answer, question = answer_between(node, file), node.told("ask", "a.rds")
    before = {"ask": response(question), "answer": response(answer)}
    with Fake(by_target(**before)) as fake:
        comes_to(file, at(fake.port), [], 1, b'{"taken":1}\nfault 23: PeerEnded\n', "refused: 404")
    told = b'{"fault":10,"name":"OwnAhead","text":"..."}'
    before["answer"] = response(answer_between(node, file))
    with Fake(by_target(**before, take=response(told, status=b"409 Conflict"))) as fake:
        due = b'{"taken":0}\nfault 23: PeerEnded\n'
        comes_to(file, at(fake.port), [], 1, due, "refused: 409: 10 OwnAhead")
    want(file.shown()["regs"] == {"title": ["one"]}, "what was taken is lost where the node ends")
    return "what was taken stays where the node ends"


def try_kills(asked, folder):
    """The file's command, or the node, is killed at random moments: both hold what they did, and meet then."""
    node, file = nodes_of(asked, folder, "ab")
    for number in range(KILLS):
        node.told("set", "a.rds", f"k/a{number}", "1")
        file.told("set", "a.rds", f"k/b{number}", "1")
        with running(node):
            words = [file.program, "sync", "a.rds", at(node.port)]
            with subprocess.Popen(words, cwd=file.folder, stdout=subprocess.DEVNULL, stderr=subprocess.DEVNULL) as ran:
                time.sleep(0.002 * number * asked.slow)
                (ran if number % 2 else node.child).kill()
                ran.wait(LIMIT * asked.slow)
            if number % 2 == 0:
                node.child.wait()
                node.start()
            status, written, notes = visit(file, at(node.port))
            want(status == 0, f"after a kill a file and a node come to {status}, {written}, {notes}")
            are_level(file, node)
    count = len(file.shown()["maps"]["k"]["regs"])
    want(count == 2 * KILLS, f"after {KILLS} kills there are {count} registers, where {2 * KILLS} are due")
    return f"{KILLS} kills lose nothing"


def try_many(asked, folder):
    """Many entries go over, each way."""
    node, file, third = nodes_of(asked, folder, "abc")
    lines = [b'["set","k%d/n%d",%d]\n' % (number % 1_000, number, number) for number in range(asked.entries)]
    for first in range(0, asked.entries, 10_000):
        file.told("edit", "a.rds", given=b"".join(lines[first : first + 10_000]))
    took = []
    with running(node):
        for each, written in (file, NONE), (third, b'{"taken":%d}\n' % asked.entries):
            begun = time.monotonic()
            comes_to(each, at(node.port), [], 0, written)
            took.append(time.monotonic() - begun)
        want(third.shown() == file.shown(), "many entries that went by a node differ")
    return f"{asked.entries:,} entries get to a node in {took[0]:.1f} s, and from it in {took[1]:.1f} s"


PARTS = [try_both_ways, try_tokens, try_words, try_strange, try_held, try_forks, try_wrong, try_ended, try_kills]
PARTS += [try_many]


def try_sync(asked, folder):
    return each_of(PARTS, asked, folder)
