"""A plain model of documents: docs/MODEL.md in a few lines of Python, over sets and dictionaries.

`bench/random`, `bench/records`, `bench/power` and others compare the program with it. What stands beside it is of
docs/FORMATS.md: `plain_texts.py` has texts, `plain_files.py` files with records, `plain_sessions.py` sessions. All four
are written from these two pages alone.
"""
import collections
import re

GREATEST = 281_474_976_710_655
NAMES = {2: "BadName", 3: "BadKey", 4: "BadPath", 5: "BadScalar", 6: "BadRoster", 8: "CounterFull", 9: "Conflict"}
NAMES |= {10: "OwnAhead", 11: "WrongAsker", 12: "Cut", 13: "Bad", 14: "Extra", 17: "BadCertificate"}
NAMES |= {18: "WrongVersion", 19: "WrongGroup", 20: "WrongRoster", 21: "SameReplica", 22: "OutOfTurn"}
NAMES |= {23: "PeerEnded", 25: "BadLine", 26: "NoSuch", 27: "Usage", 28: "Forked", 29: "Unsure"}
REGISTER, ELEMENT = 1, 2


class Refused(Exception):
    """The fault by its number."""

    @property
    def number(self):
        return self.args[0]


def refuse_if(is_so, number):
    if is_so:
        raise Refused(number)


def line_of(number):
    return f"fault {number}: {NAMES[number]}\n"


# An entry is (path, kind, scalar), and a scalar (tag, value), so that both are in the order of docs/MODEL.md.
class State:
    """The life of each dot that is seen, None where it is dead, and the two numbers of each counter and replica."""

    def __init__(self, lives=(), numbers=()):
        self.lives, self.numbers = dict(lives), {at: pair for at, pair in dict(numbers).items() if pair != (0, 0)}

    def __eq__(self, other):
        return (self.lives, self.numbers) == (other.lives, other.numbers)

    def live(self):
        return {dot: entry for dot, entry in self.lives.items() if entry}

    def digest(self):
        return {dot: 1 + (entry is None) for dot, entry in self.lives.items()}, self.numbers

    def least(self, digest):
        """What is above a digest."""
        ranks, numbers = digest
        lives = {dot: entry for dot, entry in self.lives.items() if 1 + (entry is None) > ranks.get(dot, 0)}
        above = lambda mine, other: tuple(number * (number > theirs) for number, theirs in zip(mine, other))
        return State(lives, {at: above(pair, numbers.get(at, (0, 0))) for at, pair in self.numbers.items()})

    def joined(self, other):
        return State(self.lives, self.numbers).join(other)

    def join(self, other):
        """Joins this very state with another."""
        for dot, entry in other.lives.items():
            mine = self.lives.get(dot, entry)
            refuse_if(mine and entry and mine != entry, 9)
            self.lives[dot] = mine and entry
        for at, pair in other.numbers.items():
            self.numbers[at] = tuple(map(max, pair, self.numbers.get(at, (0, 0))))
        return self

    def size(self):
        return len(self.lives) + sum((number > 0) for pair in self.numbers.values() for number in pair)


# Marks: docs/MODEL.md.
def mixed(mark, words):
    """A mark, its halves, with words of 64 bits mixed in."""
    for word in words:
        product = (mark[0] ^ word) * 0x9E3779B97F4A7C15
        mark = mark[1] ^ product >> 64, product % 2**64
    return mark


def words_of(text):
    """How many bytes a text has, these eight at a time, and the last eight."""
    text = text.encode()
    eights = [text[at : at + 8] for at in range(0, len(text) - 7, 8)]
    return [len(text), *(int.from_bytes(it, "big") for it in [*eights, text[-8:]])]


def live_words(dot, entry):
    path, kind, (tag, value) = entry
    said = {3: lambda: [value % 2**64], 4: lambda: words_of(value)}.get(tag, list)
    return [*dot, len(path), *(word for key in path for word in words_of(key)), kind, tag, *said()]


def mark_of(state):
    """The mark of a state, 32 hex digits."""
    rows = [(0x243F6A8885A308D3, live_words(*row)) for row in state.live().items()]
    rows += [(0x13198A2E03707344, [*words_of(key), replica, *pair]) for (key, replica), pair in state.numbers.items()]
    marks = [mixed((first, 0), words + [0] * 5) for first, words in rows]
    return "".join(f"{sum(halves) % 2**64:016x}" for halves in zip(*marks, (0, 0)))


Replica = collections.namedtuple("Replica", "group names own state")


def longer(first, second):
    """The longer of two rosters, of which one begins the other."""
    few, many = sorted((first, second), key=len)
    refuse_if(many[: len(few)] != few, 20)
    return many


def grown(replica, names):
    """A replica whose roster has these names behind its own."""
    refuse_if(any(not re.fullmatch("[a-z][a-z0-9-]{0,15}", name) for name in names), 2)
    names = replica.names + names
    refuse_if(len(names) > 256 or len(set(names)) < len(names), 6)
    return replica._replace(names=names)


def taken(replica, delta, names):
    """A replica that takes a delta and the longer roster, unless the delta has something of its own that it lacks."""
    own, state, names = replica.own, replica.state, longer(replica.names, names)
    refuse_if(any(dot[0] == own and dot not in state.lives for dot in delta.lives), 10)
    for at, pair in delta.numbers.items():
        refuse_if(at[1] == own and any(a > b for a, b in zip(pair, state.numbers.get(at, (0, 0)))), 10)
    return replica._replace(names=names, state=state.joined(delta))


def lacks(replica, digest, is_own):
    """Whether a replica lacks something of a digest: of its own, or of the others."""
    ranks, numbers = digest
    mine, counts = replica.state.digest()
    behind = any((dot[0] == replica.own) == is_own and rank > mine.get(dot, 0) for dot, rank in ranks.items())
    pairs = ((pair, counts.get(at, (0, 0))) for at, pair in numbers.items() if (at[1] == replica.own) == is_own)
    return behind or any(theirs > number for pair, own in pairs for theirs, number in zip(pair, own))


def taken_by_text(replica, asked, delta, names):
    """A replica that takes the answer to what it asked once."""
    few, many = sorted((replica.names, asked.names), key=len)
    refuse_if(asked.own != replica.own or many[: len(few)] != few, 11)
    refuse_if(lacks(replica, asked.state.digest(), True), 10)
    refuse_if(lacks(replica, asked.state.digest(), False), 11)
    return taken(replica, delta, names)


def begun(replica, name):
    """The replica of this name, which begins with all that another has seen."""
    refuse_if(not re.fullmatch("[a-z][a-z0-9-]{0,15}", name), 2)
    refuse_if(name not in replica.names, 26)
    own, state = replica.names.index(name), replica.state
    refuse_if(own == replica.own, 21)
    refuse_if(any(dot[0] == own for dot in state.lives) or any(at[1] == own for at in state.numbers), 21)
    return replica._replace(own=own)


def edited(replica, verb, path, scalar=None, amount=0):
    """An edit's replica and answer."""
    state, own = replica.state, replica.own
    if verb in ("inc", "dec"):
        at = path[0], own
        pair = list(state.numbers.get(at, (0, 0)))
        pair[verb == "dec"] += amount
        refuse_if(max(pair) > GREATEST, 8)
        return replica._replace(state=State(state.lives, state.numbers | {at: tuple(pair)})), (None, 0)
    covers = {
        "set": lambda entry: entry[:2] == (path, REGISTER),
        "add": lambda entry: entry == (path, ELEMENT, scalar),
        "del": lambda entry: entry == (path, ELEMENT, scalar),
        "clear": lambda entry: entry[0][: len(path)] == path,
    }[verb]
    killed = [dot for dot, entry in state.live().items() if covers(entry)]
    lives = state.lives | dict.fromkeys(killed)
    dot = None
    if verb in ("set", "add"):
        dot = own, 1 + max((seq for replica, seq in lives if replica == own), default=0)
        lives[dot] = path, REGISTER if verb == "set" else ELEMENT, scalar
    return replica._replace(state=State(lives, state.numbers)), (dot, len(killed))


def joined(first, second):
    """What `join` makes of two replicas."""
    refuse_if(first.group != second.group, 19)
    return first._replace(names=longer(first.names, second.names), state=first.state.joined(second.state))


def differ(state, other):
    """A dot is live in both, with different entries."""
    live = other.live()
    return any(live.get(dot, entry) != entry for dot, entry in state.live().items())


def view(state, path):
    """What stands at a path, as lists of pairs in their order."""
    maps, leaves = set(), {REGISTER: {}, ELEMENT: {}}
    for at, kind, scalar in state.live().values():
        if at[: len(path)] == path and len(at) > len(path) + 1:
            maps.add(at[len(path)])
        elif at[:-1] == path:
            leaves[kind].setdefault(at[-1], set()).add(scalar)
    shown = lambda sets: [(key, [value for _, value in sorted(sets[key])]) for key in sorted(sets)]
    parts = [("maps", [(key, view(state, (*path, key))) for key in sorted(maps)])]
    return parts + [("regs", shown(leaves[REGISTER])), ("sets", shown(leaves[ELEMENT]))]


def document(state, path):
    if path:
        return view(state, path)
    values = collections.Counter()
    for (key, _), (ups, downs) in state.numbers.items():
        values[key] += ups - downs
    return [("counters", sorted(values.items()))] + view(state, path)
