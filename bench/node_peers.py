"""Nodes that meet one another as peers: how soon edits get there, and peers that are shut, wrong, forked or gone."""
import contextlib
import itertools
import json
import os
import pathlib
import re
import shutil
import threading
import time

from node_fakes import Fake, fakes_of
from node_meetings import try_idle, try_one_sided, try_scattered, try_told_fork
from serving import HOST, LIMIT, TOKEN, Node, Noted, Wrong, are_equal, at, drive, each_of, running, soon, want

# An edit that is told at once may take so many seconds, and one for which a peer asks by itself every second.
AT_ONCE = 1
EVERY_SECOND = 3
# A read of a node whose peers are wrong may take so many milliseconds.
READ = 100
# A peer that says nothing, or less than 1 kB, is given up after so many seconds.
PATIENCE = 30
# A peer that can't be met is called again after so many seconds at the most. Before that it is away for so many.
LONGEST_REST, AWAY = 8, 16
# How many exchanges a second there may be: one 20 ms after each change.
RATE = 50


# ---- What is done and told ----


def put(node, number):
    """Sets a register, which has to be done."""
    answer = node.answer("POST", "/edits", b'["set","k/n%d",%d]' % (number, number))
    is_done = answer.status == 200 and b'"dot":["%s",' % node.own.encode() in answer.body
    want(is_done, f"an edit is answered {answer}")


def shows(node, number):
    return json.loads(node.answer("GET", f"/value/k/n{number}").body)["reg"] == [number]


def arrives(node, number, seconds):
    """Waits until a node shows what was set at another: how many seconds that took."""
    return soon(lambda: shows(node, number), f"edit {number} isn't seen at {node.own}", seconds * node.slow, 0.002)


def told(node, port):
    """What a node has said of a peer, each line."""
    begin = f"peer {HOST}:{port}: "
    return [line.removeprefix(begin) for line in node.said().splitlines() if line.startswith(begin)]


def tells(node, port, words, seconds=10):
    """Waits until what a node has said of a peer last has these words."""
    has = lambda: (told(node, port) or [""])[-1]
    otherwise = lambda: f"of a peer {words} is due, and told is {has()!r}"
    soon(lambda: all(word in has() for word in words), otherwise, seconds * node.slow)


def are_met(node, count, seconds=10):
    """Waits until so many peers of a node are met."""
    met = lambda: node.count("rds_peers_met")
    otherwise = lambda: f"{node.own} has met {met()} peers, where {count} are due"
    soon(lambda: met() == count, otherwise, seconds * node.slow)


@contextlib.contextmanager
def all_running(*nodes):
    with contextlib.ExitStack() as stack:
        for node in nodes:
            stack.enter_context(running(node))
        yield


def nodes_of(asked, folder, names, token=None):
    """Nodes of one group, each in a folder of its own. The first letter of its name is its replica's."""
    folder.mkdir()
    nodes = [Node(asked.program, folder / name, token, name[0], "abc") for name in names]
    for node in nodes:
        node.slow = asked.slow
    return nodes


def exchanges(node):
    return node.count("rds_peer_exchanges_total")


# ---- Peers that are as due ----


def try_both(asked, folder):
    """Two nodes that name each other, and meet after changes alone."""
    a, b = nodes = nodes_of(asked, folder, "ab")
    a.meets(b.port, every=3_600)
    b.meets(a.port, every=3_600)
    with all_running(*nodes):
        for node, other in (a, b), (b, a):
            are_met(node, 1)
            tells(node, other.port, ["met"])
        took = []
        for number in range(1, 41):
            here, there = (a, b) if number % 2 else (b, a)
            put(here, number)
            took.append(arrives(there, number, AT_ONCE))
        are_equal(nodes)
        rest(nodes)
        crowd(nodes)
        for node, other in (a, b), (b, a):
            lines = told(node, other.port)
            want(lines[-1:] == ["met"] and len(lines) < 3, f"two nodes that met once say {lines}")
    return f"an edit gets to a peer in {at(took, 0.5):.0f} ms, the longest {max(took) * 1000:.0f} ms"


def rest(nodes):
    """Nodes that are equal do nothing."""
    time.sleep(0.5)
    before = [(exchanges(node), node.worked()) for node in nodes]
    time.sleep(2)
    for node, (count, worked) in zip(nodes, before):
        more, work = exchanges(node) - count, node.worked() - worked
        is_due = more <= 1 and work < 0.2 * node.slow
        want(is_due, f"{node.own} makes {more} exchanges in 2 s at rest, and works {work:.2f} s")


def crowd(nodes):
    """Edits under load are told together: not an exchange for each."""
    counts = [exchanges(node) for node in nodes]
    numbers = iter(range(1_000, 1_000_000))
    texts = (nodes[0].text("POST", "/edits", b'["set","k/n%d",%d]' % (number, number)) for number in numbers)
    begun = time.monotonic()
    done = len(drive(nodes[0].port, 8, ((0, text) for text in texts), lambda number, text: None, 2))
    are_equal(nodes)
    most = RATE * (time.monotonic() - begun) + 5
    for node, count in zip(nodes, counts):
        more = exchanges(node) - count
        want(more <= most, f"{node.own} makes {more} exchanges for {done} edits, where {most:.0f} are the most")
    want(done > 100 / nodes[0].slow, f"a node under load answers {done} edits in 2 s")


def try_one_way(asked, folder):
    """One of two nodes names the other."""
    a, b = nodes = nodes_of(asked, folder, "ab")
    a.meets(b.port, every=1)
    with all_running(*nodes):
        are_met(a, 1)
        took = {a: [], b: []}
        for number in range(1, 7):
            here, there, most = (a, b, AT_ONCE) if number % 2 else (b, a, EVERY_SECOND)
            put(here, number)
            took[here].append(arrives(there, number, most))
        are_equal(nodes)
        counts = [(node.count("rds_peers"), node.count("rds_peers_met")) for node in nodes]
        want(counts == [(1, 1), (0, 0)], f"of one peer that is named, and none, {counts} are counted")
    return f"where one names the other, {max(took[a]) * 1000:.0f} ms there and {max(took[b]):.1f} s back at the most"


def try_ring(asked, folder):
    """Three nodes, each of which names the next, by the name of this machine."""
    nodes = nodes_of(asked, folder, "abc")
    for node, following in zip(nodes, nodes[1:] + nodes[:1]):
        node.meets(following.port, every=1, host="localhost")
    with all_running(*nodes):
        for node in nodes:
            are_met(node, 1)
        for number in range(1, 301):
            put(nodes[number % 3], number)
        took, document = are_equal(nodes)
        regs = document["maps"]["k"]["regs"]
        due = {f"n{number}": [number] for number in range(1, 301)}
        want(regs == due, f"three nodes have {len(regs)} of 300 edits, or others")
        for node in nodes:
            answer = node.answer("POST", "/edits", b'["inc","n",1]\n["set","title","%s"]\n' % node.own.encode())
            want(answer.status == 200, f"edits are answered {answer}")
        document = are_equal(nodes)[1]
        want(document["counters"] == {"n": 3}, f"three nodes count {document['counters']}")
    return f"three in a ring are equal {took:.1f} s after 300 edits"


def try_token(asked, folder):
    """A peer that has another token, and then the right one."""
    a, b = nodes = nodes_of(asked, folder, "ab", TOKEN)
    change_token(b, TOKEN[::-1])
    a.meets(b.port, every=1)
    with contextlib.ExitStack() as stack:
        with running(b):
            stack.enter_context(running(a))
            tells(a, b.port, ["refused", "401"])
            a.stands(b.port, False, "refused: 401: the token is due: none or a wrong one was given")
            want(a.standing(b.port)["ago"] is None, "a peer that was never met is said to be")
            put(a, 1)
            soon(lambda: a.count("rds_peer_refusals_total") > 1, "a peer that refuses isn't asked again", 10 * a.slow)
            counts = a.count("rds_peers_met"), shows(b, 1), len(told(a, b.port))
            want(counts == (0, False, 1), f"a peer that refuses is met, has an edit, and is told of {counts} times")
        change_token(b, TOKEN)
        with running(b):
            took = arrives(b, 1, LIMIT)
            are_equal(nodes)
            tells(a, b.port, ["met"])
            are_met(a, 1)
            a.stands(b.port, True)
            want(a.standing(b.port)["ago"] < 10 * a.slow, f"a peer that is met is said to be {a.standing(b.port)}")
    return f"another token is refused, and the right one lets in after {took:.1f} s"


def try_join(asked, folder):
    """A replica joins two nodes that meet: the one takes its name, and it is made of the other."""
    a, b = nodes_of(asked, folder, "ab")
    new = Node(asked.program, folder / "d", own="d", names="d")
    new.slow = asked.slow
    (new.folder / "a.rds").unlink()
    a.meets(b.port, every=1)
    new.meets(b.port, every=1)
    with all_running(a, b):
        are_met(a, 1)
        put(a, 1)
        put(b, 2)
        are_equal([a, b])
        mark = a.status()["mark"]
        new.told("grow", f"http://{HOST}:{a.port}", "d")
        names = lambda node: node.status()["names"]
        took = soon(lambda: names(b) == [*"abcd"], "a name isn't known at a peer", AT_ONCE * a.slow, 0.002)
        marks = [node.status()["mark"] for node in (a, b)]
        want(marks == [mark] * 2, f"two nodes that learn a name have the marks {marks}, where {mark} is due")
        new.told("init", "a.rds", "--from", f"http://{HOST}:{b.port}", "d")
        with running(new):
            for number, node in (3, new), (4, a), (5, b):
                put(node, number)
            document = are_equal([a, b, new])[1]
            due = {f"n{number}": [number] for number in range(1, 6)}
            want(document["maps"]["k"]["regs"] == due, f"two nodes and a new one have {document}")
            want(names(new) == names(a) == [*"abcd"], f"a new node has the names {names(new)}")
            tells(a, b.port, ["met"])
            tells(new, b.port, ["met"])
    return f"a new name gets to a peer in {took * 1000:.0f} ms, and its node meets the others"


def change_token(node, token):
    node.token = token
    (node.folder / "token").write_text(f"{token}\n")


# ---- Peers that are wrong, forked or gone ----


def try_wrong(asked, folder):
    """A node with many peers that are wrong, and one that is as due."""
    a, b, c = nodes_of(asked, folder, "abc")
    put_in(c, 0)
    answer = c.told("answer", "a.rds", given=b.told("ask", "a.rds"))
    fakes = fakes_of(c.told("ask", "a.rds"), answer, asked.slow)
    with contextlib.ExitStack() as stack:
        fakes = {what: stack.enter_context(Fake(act)) for what, act in fakes.items()}
        a.meets(*(fake.port for fake in fakes.values()), b.port, every=1)
        b.meets(a.port)
        stack.enter_context(all_running(a, b))
        are_met(a, 1)
        took, there = serve(a, b, PATIENCE + 6)
        are_equal([a, b])
        judge_told(a, fakes)
        tells(a, b.port, ["met"])
        counts = a.count("rds_peers"), a.count("rds_peers_met")
        want(counts == (len(fakes) + 1, 1), f"of {len(fakes) + 1} peers, one of which is as due, {counts} are counted")
        peak = a.peak()
    reads = f"{len(took):,} reads (p99 {at(took, 0.99):.1f} ms, longest {max(took) * 1000:.0f} ms)"
    want(at(took, 0.99) < READ * asked.slow, f"beside wrong peers a node answers {reads}")
    want(peak < 1_000, f"beside wrong peers a node takes {peak:.0f} MB")
    good = f"an edit gets to a good one in {at(there, 0.5):.0f} ms, the longest {max(there) * 1000:.0f} ms"
    return f"beside {len(fakes)} wrong peers {reads}, {good}; {peak:.0f} MB"


def serve(a, b, seconds):
    """Reads at a node for a while, and sees edits come to another, both ways: how long each took."""
    until, there, problems = time.monotonic() + seconds, [], []

    def follow():
        try:
            while time.monotonic() < until:
                number = len(there) + 1
                here, other = (a, b) if number % 2 else (b, a)
                put(here, number)
                there.append(arrives(other, number, 10))
                time.sleep(0.5)
        except (Wrong, OSError) as error:
            problems.append(f"beside wrong peers a good one fails: {error}")

    following = threading.Thread(target=follow)
    following.start()
    took = []
    with a.link() as link:
        while time.monotonic() < until:
            begun = time.perf_counter()
            answer = link.answer(a.text("GET", "/value/k/n1"))
            took.append(time.perf_counter() - begun)
            want(answer.status == 200, f"a read beside wrong peers is answered {answer}")
            time.sleep(0.005)
    following.join()
    want(not problems, "".join(problems))
    want(len(there) > 5, f"beside wrong peers {len(there)} edits get to a good one")
    return took, there


def judge_told(a, fakes):
    """Each wrong peer was called, and told of: no line twice, and none that it is met."""
    noted, endless = Noted(), ["sends a body without end"] * (a.slow > 1)
    for what, fake in fakes.items():
        lines, calls = told(a, fake.port), fake.calls()
        with noted:
            want(calls > (what not in ["is silent", "drips", *endless]), f"a peer that {what} is called {calls} times")
            want(lines or what in endless, f"of a peer that {what} nothing is told")
            want("met" not in lines, f"a peer that {what} is told to be met: {lines}")
            again = any(line == following for line, following in itertools.pairwise(lines))
            want(not again and len(lines) < 10, f"of a peer that {what} is told again and again: {lines}")
    noted.end()


def try_fork(asked, folder):
    """Copies of a file that run as nodes of their own: one that meets the original, one that meets its peer, and one
    that the peer meets.

    The first was edited as often as the original, so that both have seen the same dots."""
    a, b, copy, older, met = nodes_of(asked, folder, ["a", "b", "a-copy", "a-older", "a-met"])
    put_in(a, 1)
    for node in copy, older, met:
        shutil.copy(a.folder / "a.rds", node.folder / "a.rds")
    put_in(a, 2)
    put_in(copy, 3)
    put_in(a, 4)
    put_in(copy, 5)
    a.meets(b.port)
    copy.meets(a.port, every=1)
    older.meets(b.port, every=1)
    b.meets(met.port, every=1)
    with all_running(a, b, copy, older, met):
        arrives(b, 2, 10)
        tells(copy, a.port, ["21", "SameReplica"])
        tells(older, b.port, ["10", "OwnAhead"])
        tells(b, met.port, ["10", "OwnAhead"])
        copy.stands(a.port, False, "brings what is refused: 21 SameReplica")
        older.stands(b.port, False, "brings what is refused: 10 OwnAhead")
        b.stands(met.port, False, "refused: 409: 10 OwnAhead")
        behind = [(node.status()["behind"], node.count("rds_behind")) for node in (a, b, copy, older, met)]
        due = [(False, 0)] * 3 + [(True, 1)] * 2
        want(behind == due, f"nodes of which the last two are behind say so by {behind}")
        for node in copy, older:
            counts = node.count("rds_peer_refusals_total"), node.count("rds_peers_met")
            want(counts[0] and not counts[1], f"a fork is refused and met {counts} times")
            want(node.answer("GET", "/doc").status == 200, "a fork doesn't serve")
        put(copy, 6)
        refuses_edits(older)
        refuses_edits(met)
        put(a, 7)
        arrives(b, 7, AT_ONCE)
        want(not shows(a, 3) and not shows(b, 6), "an edit of a fork has come to others")
    return "a fork is told by itself (21) and goes on; one behind its peers is told (10), and refuses edits"


def refuses_edits(node):
    """A node whose file is older than what its replica has sent takes no edit, says so once, and does all else."""
    due = b'{"fault":10,"name":"OwnAhead","text":"the file is older than what its replica has sent"}'
    before = (node.folder / "a.rds").read_bytes()
    line = b'["set","k/n6",6]\n'
    edits = [("POST /edits", line), ("POST /edits", b""), ("POST /edits/k/n6", line), ("PUT /value/k/n6", b"6")]
    for asked, body in [*edits, ("POST /grow", b"d")]:
        answer = node.answer(*asked.split(), body)
        want((answer.status, answer.body) == (409, due), f"a node that is behind answers {asked} by {answer}")
    want((node.folder / "a.rds").read_bytes() == before, "a node that is behind has changed its file")
    want(shows(node, 1) and not shows(node, 6), "a node that is behind doesn't show what it has")
    begin = "a.rds: is older than what its replica has sent, and edits are refused from here on: "
    lines = [line for line in node.said().splitlines() if line.startswith(begin)]
    want(len(lines) == 1, f"a node that is behind says {lines}")


def put_in(node, number):
    """Sets a register in a file that no node has."""
    node.told("set", "a.rds", f"k/n{number}", f"{number}")


def try_gone(asked, folder):
    """A peer that begins later, and one that is killed and begins again."""
    a, b = nodes_of(asked, folder, "ab")
    a.meets(b.port)
    with running(a):
        tells(a, b.port, ["lost"])
        a.stands(b.port, False, "lost: Connection refused")
        put(a, 1)
        took = []
        for number in 1, 3:
            with running(b):
                took.append(arrives(b, number, 20))
                are_met(a, 1)
                put(a, number + 1)
                arrives(b, number + 1, AT_ONCE)
            put(a, number + 2)
            tells(a, b.port, ["lost"])
            are_met(a, 0)
        lines = [line.partition(":")[0] for line in told(a, b.port)]
        want(lines == ["lost", "met", "lost", "met", "lost"], f"of a peer that comes and goes is told {lines}")
    return f"a peer that begins is met {took[0]:.1f} s after that, and {took[1]:.1f} s after it was killed"


def try_away(asked, folder):
    """A peer that was away for a while, and was called after 1, 2, 4 and 8 s, is met within 8 s."""
    a, b = nodes_of(asked, folder, "ab")
    a.meets(b.port, every=1)
    with running(a):
        tells(a, b.port, ["lost"])
        put(a, 1)
        time.sleep(AWAY)
        with running(b):
            took = arrives(b, 1, LONGEST_REST + 1)
            are_met(a, 1)
    return f"a peer that begins after {AWAY} s is met {took:.1f} s after that"


def try_unfound(asked, folder):
    """A peer whose name isn't found, then elsewhere, and then found, by a table of hosts of the node's own."""
    if os.geteuid():
        return "a name that isn't found isn't tried, but by root"
    a, b = nodes_of(asked, folder, "ab", TOKEN)
    hosts, known, program = folder / "hosts", pathlib.Path("/etc/hosts").read_text(), folder / "program"
    hosts.write_text(known)
    begin = f"mount --bind {hosts} /etc/hosts && exec {a.program}"
    program.write_text(f'#!/bin/sh\nexec unshare -m sh -c \'{begin} "$@"\' sh "$@"\n')
    program.chmod(0o755)
    a.program = f"{program}"
    a.meets(b.port, every=1, host="peer.invalid")
    with all_running(a, b):
        lines = lambda: re.findall(rf"^peer peer\.invalid:{b.port}: (.*)$", a.said(), re.M)
        want(len(lines()) == 1 and lines()[0].startswith("lost: "), f"of a name that isn't found is told {lines()}")
        put(a, 1)
        hosts.write_text(f"{known}\n127.0.0.9 peer.invalid\n")
        time.sleep(2.5)
        hosts.write_text(f"{known}\n{HOST} peer.invalid\n")
        took = arrives(b, 1, 20)
        are_met(a, 1)
        want(lines()[1:] == ["met"], f"of a name that is found again is told {lines()}")
    return f"a peer whose name isn't found, and then elsewhere, is met {took:.1f} s after it is found"


def meeting(part):
    """A part that gets its nodes by `nodes_of`."""
    named = lambda asked, folder: part(nodes_of, asked, folder)
    named.__name__ = part.__name__
    return named


MEETINGS = [meeting(part) for part in (try_one_sided, try_scattered, try_told_fork, try_idle)]
PARTS = [try_both, try_one_way, try_ring, try_token, try_join, try_fork, *MEETINGS, try_gone, try_away]
PARTS += [try_unfound, try_wrong]


def try_peers(asked, folder):
    return each_of(PARTS, asked, folder)
