"""Texts of the plain model: docs/FORMATS.md in a few lines of Python.

Snapshots, digests, questions and answers are read and written, in both formats; where none is named it is format 2.
"""
import collections
import hashlib
import re

from plain_model import GREATEST, REGISTER, Refused, Replica, State, longer, mark_of, refuse_if

# The greatest packed number.
MOST_PACKED = 2**49 - 1

# More dots than these are not held as a set here: of such a text only the decoding is compared.
MANY = 100_000


class TooMany(Exception):
    """A text of more dots than the model holds."""


def number(value, size):
    return value.to_bytes(size, "big")


def piece(text, size=1):
    text = text if isinstance(text, bytes) else text.encode()
    return number(len(text), size) + text


def many(size, parts):
    parts = list(parts)
    return number(len(parts), size) + b"".join(parts)


def runs_of(numbers):
    """The maximal runs of a set of numbers."""
    runs = []
    for each in sorted(numbers):
        if runs and runs[-1][1] + 1 == each:
            runs[-1] = runs[-1][0], each
        else:
            runs.append((each, each))
    return runs


def tops_of(dots):
    """Each replica's top and gaps."""
    of = collections.defaultdict(set)
    for replica, seq in dots:
        of[replica].add(seq)
    return {replica: top_of(runs_of(of[replica])) for replica in sorted(of)}


def top_of(runs):
    ends = [0] + [last for _, last in runs]
    return ends[-1], [(end + 1, first - 1) for end, (first, _) in zip(ends, runs) if first > end + 1]


def tops_text(of):
    gap_text = lambda gap: number(gap[0], 8) + number(gap[1], 8)
    rows = (number(replica, 1) + number(top, 8) + many(4, map(gap_text, gaps)) for replica, (top, gaps) in of.items())
    return many(2, rows)


def dots_text(dots):
    return tops_text(tops_of(dots))


def scalar_text(scalar):
    tag, value = scalar
    bodies = {3: lambda: value.to_bytes(8, "big", signed=True), 4: lambda: piece(value, 2)}
    return number(tag, 1) + bodies.get(tag, bytes)()


def entry_text(entry, key_text):
    path, kind, scalar = entry
    return many(1, map(key_text, path)) + number(kind, 1) + scalar_text(scalar)


def dot_text(dot):
    return number(dot[0], 1) + number(dot[1], 8)


def count_rows(numbers):
    return sorted(numbers.items(), key=lambda row: (row[0][0].encode(), row[0][1]))


def counts_text(numbers, key_text=piece):
    pair_text = lambda ups, downs: number(ups, 8) + number(downs, 8)
    rows = count_rows(numbers)
    return many(4, (key_text(key) + number(replica, 1) + pair_text(*pair) for (key, replica), pair in rows))


def parts_text(seen, live, numbers, format=2):
    """The text of a state whose dots are tops and gaps."""
    table = {}
    if format == 2:
        used = [key for _, (path, _, _) in sorted(live.items()) for key in path]
        used += [key for (key, _), _ in count_rows(numbers)]
        table = {key: place for place, key in enumerate(dict.fromkeys(used))}
    key_text = piece if format == 1 else lambda key: number(table[key], 4)
    rows = many(4, (dot_text(dot) + entry_text(entry, key_text) for dot, entry in sorted(live.items())))
    return many(4, map(piece, table)) * (format == 2) + tops_text(seen) + rows + counts_text(numbers, key_text)


def state_text(state, format=2):
    return parts_text(tops_of(state.lives), state.live(), state.numbers, format)


def who_text(replica):
    return piece(replica.group) + many(2, map(piece, replica.names)) + number(replica.own, 1)


def snapshot_text(replica, format=2):
    return b"RDS%d" % format + who_text(replica) + state_text(replica.state, format)


def hello_text(replica, version=2):
    return number(version, 1) + who_text(replica)


def digest_text(digest):
    ranks, numbers = digest
    return dots_text(ranks) + dots_text(dot for dot, rank in ranks.items() if rank == 1) + counts_text(numbers)


def packed(value):
    """Seven bits a byte, the lowest first."""
    return bytes([value]) if value < 128 else bytes([128 + value % 128]) + packed(value // 128)


def packed_value(scalar):
    """The tag of a scalar in a packed row, and what follows its keys."""
    tag, value = scalar
    if tag == 4:
        return 3, packed(len(value.encode())) + value.encode()
    if tag < 3:
        return tag, b""
    for tag, count in (4, value), (5, -1 - value):
        if 0 <= count <= MOST_PACKED:
            return tag, packed(count)
    return 6, value.to_bytes(8, "big", signed=True)


def packed_row_text(last, dot, entry, table):
    path, kind, scalar = entry
    tag, payload = packed_value(scalar)
    step = packed(dot[1] - last[1]) if dot[0] == last[0] else bytes([0, dot[0]]) + packed(dot[1])
    head = len(path) - 1 + 8 * (kind - REGISTER) + 16 * tag
    return step + bytes([head]) + b"".join(packed(table[key]) for key in path) + payload


def packed_lives_text(live, table):
    """Live rows in few bytes: each dot is told from the one before, and each key is its packed number in a table.

    >>> true, text = (2, True), lambda value: (4, value)
    >>> packed_lives_text({}, {}).hex()
    '00'

    Three rows: a distance, a head of two keys and `true`; one of an element and -1; another replica, and a text.

    >>> rows = {(0, 1): (("m", "k"), 1, true), (0, 3): (("m",), 2, (3, -1)), (2, 200): (("k", "m"), 1, text("é"))}
    >>> packed_lives_text(rows, {"m": 0, "k": 1}).hex(" ")
    '03 01 21 00 01 02 58 00 00 00 02 c8 01 31 01 00 02 c3 a9'

    The whole numbers that are packed and that aren't, and a null whose distance takes two bytes.

    >>> ints = {1: 2**49 - 1, 2: 2**49, 3: -(2**49), 4: -(2**49) - 1}
    >>> rows = {(1, seq): (("n",), 1, (3, value)) for seq, value in ints.items()} | {(1, 300): (("n",), 1, (0, None))}
    >>> packed_lives_text(rows, {"n": 0}).hex(" ")[:53]
    '05 00 01 01 40 00 ff ff ff ff ff ff 7f 01 60 00 00 02'
    >>> packed_lives_text(rows, {"n": 0}).hex(" ")[54:]
    '00 00 00 00 00 00 01 50 00 ff ff ff ff ff ff 7f 01 60 00 ff fd ff ff ff ff ff ff a8 02 00 00'
    """
    rows = sorted(live.items())
    lasts = [(0, 0)] + [dot for dot, _ in rows]
    return packed(len(rows)) + b"".join(packed_row_text(last, *row, table) for last, row in zip(lasts, rows))


def packed_gaps_text(gaps):
    ends = [0] + [last for _, last in gaps]
    return b"".join(packed(first - end) + packed(last - first) for end, (first, last) in zip(ends, gaps))


def packed_tops_text(of):
    """Dots in few bytes: for each replica its top, and each gap as its distance from the end of the one before.

    >>> packed_tops_text({}).hex()
    '00'

    Three replicas: one without gaps, one with two, and one whose single dot has a number of two bytes.

    >>> packed_tops_text({0: (3, []), 2: (9, [(1, 2), (5, 7)]), 255: (200, [(1, 199)])}).hex(" ")
    '03 00 03 00 02 09 02 01 01 03 02 ff c8 01 01 01 c6 01'
    """
    rows = (bytes([at]) + packed(top) + packed(len(gaps)) + packed_gaps_text(gaps) for at, (top, gaps) in of.items())
    return packed(len(of)) + b"".join(rows)


def shared(before, key):
    """How many bytes two keys have in common before they differ."""
    pairs = enumerate(zip(before, key))
    return next((place for place, (own, other) in pairs if own != other), min(len(before), len(key)))


def packed_table_text(keys):
    """A table in few bytes: each key as how many bytes it shares with the front of the one before, and the others.

    >>> packed_table_text([]).hex()
    '00'

    Keys that share two bytes, none, a whole key, and a byte of a letter of two.

    >>> packed_table_text(["m10", "m12", "k", "kk", "\u00e9", "\u00e8"]).hex(" ")
    '06 00 03 6d 31 30 02 01 32 00 01 6b 01 01 6b 00 02 c3 a9 01 01 a8'
    """
    keys = [key.encode() for key in keys]
    text = packed(len(keys))
    for before, key in zip([b""] + keys, keys):
        count = shared(before, key)
        text += bytes([count]) + piece(key[count:])
    return text


def packed_counts_text(numbers, table):
    """Rows of counters in few bytes, each with the number of its key in a table.

    >>> packed_counts_text({}, {}).hex()
    '00'
    >>> packed_counts_text({("b", 0): (0, 1), ("a", 2): (300, 0), ("a", 1): (1, 2)}, {"b": 0, "a": 1}).hex(" ")
    '03 01 01 01 02 01 02 ac 02 00 00 00 00 01'
    """
    row_text = lambda key, at, pair: packed(table[key]) + bytes([at]) + b"".join(map(packed, pair))
    return packed(len(numbers)) + b"".join(row_text(*place, pair) for place, pair in count_rows(numbers))


def packed_parts_text(seen, live, numbers):
    """A state in few bytes: the table of its keys, its dots, its live rows and its numbers."""
    used = [key for _, (path, _, _) in sorted(live.items()) for key in path]
    used += [key for (key, _), _ in count_rows(numbers)]
    table = {key: place for place, key in enumerate(dict.fromkeys(used))}
    counts = packed_counts_text(numbers, table)
    return packed_table_text(table) + packed_tops_text(seen) + packed_lives_text(live, table) + counts


def lives_text(lives):
    """The shorter of the lengths of stretches, live first, and bits."""
    lengths = [0]
    is_live = True
    for each in lives:
        if each != is_live:
            lengths.append(0)
            is_live = each
        lengths[-1] += 1
    by_lengths = b"".join(map(packed, lengths))
    by_bits = bytes(sum(bit << place for place, bit in enumerate(lives[at : at + 8])) for at in range(0, len(lives), 8))
    return b"\0" + by_lengths if len(by_lengths) <= len(by_bits) else b"\1" + by_bits


def brief_text(digest):
    ranks, numbers = digest
    text = b""
    for of in sorted({replica for replica, _ in ranks}):
        for first, last in runs_of(seq for replica, seq in ranks if replica == of):
            lives = [ranks[of, seq] == 1 for seq in range(first, last + 1)]
            text += packed(first) + bytes([of]) + packed(last - first) + lives_text(lives)
    return text + b"\0" + counts_text(numbers)


def certificate(delta, digest):
    """The rows that a delta has against a digest, each as its bytes."""
    ranks, numbers = digest
    rows = [(dot, b"\1" + dot_text(dot)) for dot in delta.live()]
    dead = collections.defaultdict(set)
    for (replica, seq), entry in delta.lives.items():
        if entry is None:
            dead[replica, ranks.get((replica, seq), 0)].add(seq)
    for (replica, rank), seqs in dead.items():
        for first, last in runs_of(seqs):
            rows.append(((replica, first), b"\2" + dot_text((replica, first)) + number(last, 8) + number(rank, 1)))
    rows = [row for _, row in sorted(rows)]
    for (key, replica), pair in sorted(delta.numbers.items()):
        for kind, (sent, theirs) in enumerate(zip(pair, numbers.get((key, replica), (0, 0)))):
            if sent:
                rows.append(b"\3" + piece(key) + bytes([replica, kind + 1]) + number(sent, 8) + number(theirs, 8))
    return rows


def answer_text(asker, delta, digest, format=2):
    return number(asker, 1) + state_text(delta, format) + many(4, certificate(delta, digest))


def question_text(replica):
    return b"RDSB" + hello_text(replica) + brief_text(replica.state.digest())


def tag_of(replica):
    """What a replica has seen, by a hash, and what it holds, by a mark."""
    told = who_text(replica)[:-1] + brief_text(replica.state.digest())
    return hashlib.sha256(told).digest(), bytes.fromhex(mark_of(replica.state))


def are_forked(tag, other):
    """What was seen is the same, and what is held isn't."""
    return tag[0] == other[0] and tag[1] != other[1]


def response_text(replica, asked):
    """What a replica responds to another's question, in the format that it is asked in."""
    longer(asked.names, replica.names)
    refuse_if(asked.own == replica.own, 21)
    digest = asked.state.digest()
    answer = answer_text(asked.own, replica.state.least(digest), digest)
    return b"RDSC" + hello_text(replica) + b"".join(tag_of(replica)) + answer


class Reader:
    """A text, from the left."""

    def __init__(self, text):
        self.text, self.at = text, 0

    def bytes(self, size):
        refuse_if(len(self.text) - self.at < size, 12)
        self.at += size
        return self.text[self.at - size : self.at]

    def number(self, size, least=0, most=None):
        value = int.from_bytes(self.bytes(size), "big")
        refuse_if(value < least or most is not None and value > most, 13)
        return value

    def utf8(self, size):
        try:
            return self.bytes(size).decode()
        except UnicodeDecodeError:
            raise Refused(13)

    def key(self):
        key = self.utf8(self.number(1, 1, 64))
        refuse_if("/" in key, 13)
        return key

    def name(self):
        name = self.bytes(self.number(1, 1, 16))
        refuse_if(not re.fullmatch(rb"[a-z][a-z0-9-]*", name), 13)
        return name.decode()

    def many(self, size, part):
        """Parts, each of which is told the one before."""
        parts = [None]
        for _ in range(self.number(size)):
            parts.append(part(parts[-1]))
        return parts[1:]

    def ascending(self, part, before):
        refuse_if(before is not None and part <= before, 13)
        return part

    def roster(self):
        names = []
        for _ in range(self.number(2, 1, 256)):
            name = self.name()
            refuse_if(name in names, 13)
            names.append(name)
        return names

    def end(self):
        refuse_if(self.at < len(self.text), 14)


class Parts(Reader):
    """A text that speaks of so many replicas."""

    def __init__(self, text, count):
        super().__init__(text)
        self.count = count

    def replica(self):
        return self.number(1, 0, self.count - 1)

    def gaps(self, top):
        gaps = []
        for _ in range(self.number(4)):
            first = self.number(8, gaps[-1][1] + 2 if gaps else 1)
            gaps.append((first, self.number(8, first, top - 1)))
        return gaps

    def dots(self):
        """Each replica's top and gaps."""
        of = {}
        for _ in range(self.number(2)):
            replica = self.ascending(self.replica(), max(of, default=None))
            top = self.number(8, 1, GREATEST)
            of[replica] = top, self.gaps(top)
        return of

    def dot(self):
        replica, seq = self.number(1), self.number(8)
        refuse_if(replica >= self.count or not 1 <= seq <= GREATEST, 13)
        return replica, seq

    def scalar(self):
        tag = self.number(1, 0, 4)
        if tag == 3:
            return tag, int.from_bytes(self.bytes(8), "big", signed=True)
        return tag, self.utf8(self.number(2, 0, 1024)) if tag == 4 else {0: None, 1: False, 2: True}[tag]

    def entry(self, key):
        path = tuple(key() for _ in range(self.number(1, 1, 8)))
        return path, self.number(1, 1, 2), self.scalar()

    def live_row(self, before, seen, key):
        dot = self.ascending(self.dot(), before and before[0])
        refuse_if(not has_seen(seen, dot), 13)
        return dot, self.entry(key)

    def count_row(self, before, key_of):
        key, replica = key_of(), self.number(1)
        at = self.ascending((key.encode(), replica), before and (before[0][0].encode(), before[0][1]))
        refuse_if(replica >= self.count, 13)
        pair = self.number(8, 0, GREATEST), self.number(8, 0, GREATEST)
        refuse_if(pair == (0, 0), 13)
        return (key, at[1]), pair

    def counts(self, key=None):
        return dict(self.many(4, lambda before: self.count_row(before, key or self.key)))

    def state(self, format=2):
        """Dots, live rows and numbers, as they are written."""
        table = Table(self) if format == 2 else None
        key = table.key if table else self.key
        seen = self.dots()
        live = dict(self.many(4, lambda before: self.live_row(before, seen, key)))
        numbers = self.counts(key)
        refuse_if(table and table.used != table.keys, 13)
        return seen, live, numbers

    def digest(self):
        seen, live = self.dots(), self.dots()
        refuse_if(not are_within(live, seen), 13)
        live, numbers = set_of(live), self.counts()
        return {dot: 2 - (dot in live) for dot in set_of(seen)}, numbers

    def packed(self):
        """A number below 2**49, in as few bytes as hold it."""
        value, place, byte = 0, 0, 128
        while byte >= 128:
            refuse_if(place == 49, 13)
            byte = self.number(1)
            value += byte % 128 << place
            place += 7
        refuse_if(byte == 0 and place > 7, 13)
        return value

    def packed_value(self, tag):
        if tag == 3:
            size = self.packed()
            refuse_if(size > 1024, 13)
            return 4, self.utf8(size)
        if tag in (4, 5):
            count = self.packed()
            return 3, count if tag == 4 else -1 - count
        if tag == 6:
            value = int.from_bytes(self.bytes(8), "big", signed=True)
            refuse_if(-1 - MOST_PACKED <= value <= MOST_PACKED, 13)
            return 3, value
        return tag, {0: None, 1: False, 2: True}[tag]

    def packed_row(self, last, seen, key):
        replica, step = last[0], self.packed()
        seq = last[1] + step
        if step == 0:
            replica = self.number(1, last[0] + 1)
            seq = self.packed()
        refuse_if(not (1 <= seq <= GREATEST and has_seen(seen, (replica, seq))), 13)
        head = self.number(1, 0, 111)
        path = tuple(key() for _ in range(head % 8 + 1))
        return (replica, seq), (path, REGISTER + head // 8 % 2, self.packed_value(head // 16))

    def packed_lives(self, seen, table):
        """Live rows as `packed_lives_text` has them, of dots that were seen, by the numbers of a table.

        >>> table = Table(Parts(many(4, [piece("m"), piece("k")]), 3))
        >>> def read(text, seen={0: (3, []), 2: (200, [(1, 199)])}):
        ...     try:
        ...         table.reader = Parts(bytes.fromhex(text), 3)
        ...         return table.reader.packed_lives(seen, table)
        ...     except Refused as refused:
        ...         return refused.number
        >>> read("00"), read("01 02 08 01")
        ({}, {(0, 2): (('k',), 2, (0, None))})

        What is cut, a head of no tag, a key outside the table, a whole number that could be packed, a dot that wasn't
        seen, one of a replica that isn't above the one before, and a number with a last 0.

        >>> [read(text) for text in ["01 02 08", "01 02 70 00", "01 02 00 02", "01 02 60 00" + 8 * "00"]]
        [12, 13, 13, 13]
        >>> [read(text) for text in ["01 04 00 00", "01 00 00 01 00 00", "01 82 00 00 00"]]
        [13, 13, 13]
        """
        rows, last = {}, (0, 0)
        count = self.packed()
        refuse_if(count >= 2**32, 13)
        for _ in range(count):
            last, entry = self.packed_row(last, seen, table.packed_key)
            rows[last] = entry
        return rows

    def packed_dots(self):
        """Each replica's top and gaps, as `packed_tops_text` has them.

        >>> def read(text):
        ...     try:
        ...         return Parts(bytes.fromhex(text), 3).packed_dots()
        ...     except Refused as refused:
        ...         return refused.number
        >>> read("00"), read("02 00 03 00 02 09 02 01 01 03 02")
        ({}, {0: (3, []), 2: (9, [(1, 2), (5, 7)])})

        What is cut, a replica past the roster, one that comes twice, a top of 0, a gap at 0, one that the gap before
        touches, one that ends at the top, and a number with a last 0.

        >>> [read(text) for text in ["01 00 03", "01 03 03 00", "02 00 03 00 00 03 00", "01 00 00 00"]]
        [12, 13, 13, 13]
        >>> [read(text) for text in ["01 00 09 01 00 00", "01 00 09 02 01 00 01 00", "01 00 09 01 01 08", "81 00"]]
        [13, 13, 13, 13]
        """
        of = {}
        count = self.packed()
        refuse_if(count >= 2**32, 13)
        for _ in range(count):
            replica = self.ascending(self.replica(), max(of, default=None))
            top = self.packed()
            refuse_if(not 1 <= top <= GREATEST, 13)
            size = self.packed()
            refuse_if(size >= 2**32, 13)
            of[replica] = top, self.packed_gaps(top, size)
        return of

    def packed_gaps(self, top, size):
        gaps = []
        for _ in range(size):
            end = gaps[-1][1] if gaps else 0
            first = end + self.packed()
            refuse_if(first < (end + 2 if gaps else 1), 13)
            last = first + self.packed()
            refuse_if(last >= top, 13)
            gaps.append((first, last))
        return gaps

    def packed_table(self):
        """The keys of a table, as `packed_table_text` has them.

        >>> def read(text):
        ...     try:
        ...         return Parts(bytes.fromhex(text), 3).packed_table()
        ...     except Refused as refused:
        ...         return refused.number
        >>> read("00"), read("03 00 02 6d 31 01 01 32 02 00")
        ([], 13)
        >>> read("04 00 02 6d 31 01 01 32 01 00 00 02 c3 a9"), read("02 00 02 c3 a9 01 01 a8")
        (['m1', 'm2', 'm', '\u00e9'], ['\u00e9', '\u00e8'])

        What is cut, a front of the first key, a longer front than the key before, a shorter one than they share, no
        key, a key of 65 bytes, one with '/', one that isn't UTF-8, and one that stands twice.

        >>> [read(text) for text in ["01 00 01", "01 01 01 6d", "02 00 01 6d 02 01 6d", "02 00 01 6d 00 02 6d 6d"]]
        [12, 13, 13, 13]
        >>> [read(text) for text in ["01 00 00", "01 00 41", "01 00 01 2f", "01 00 01 c3", "02 00 01 6d 01 00"]]
        [13, 13, 13, 13, 13]
        """
        keys, before = [], b""
        known = set()
        count = self.packed()
        refuse_if(count >= 2**32, 13)
        for _ in range(count):
            front = self.number(1, 0, len(before))
            size = self.number(1)
            refuse_if(not 1 <= front + size <= 64, 13)
            key = before[:front] + self.bytes(size)
            refuse_if(shared(before, key) != front or b"/" in key or key in known, 13)
            try:
                keys.append(key.decode())
            except UnicodeDecodeError:
                raise Refused(13)
            known.add(key)
            before = key
        return keys

    def packed_counts(self, table):
        """Rows of counters, as `packed_counts_text` has them, by the numbers of a table.

        >>> table = Table(Parts(many(4, [piece("b"), piece("a")]), 3))
        >>> def read(text):
        ...     try:
        ...         table.reader = Parts(bytes.fromhex(text), 3)
        ...         return table.reader.packed_counts(table)
        ...     except Refused as refused:
        ...         return refused.number
        >>> read("00"), read("02 01 02 ac 02 00 00 00 00 01")
        ({}, {('a', 2): (300, 0), ('b', 0): (0, 1)})

        What is cut, a key outside the table, a replica past the roster, two numbers of 0, one above the limit, and rows
        out of order.

        >>> [read(text) for text in ["01 01 02 01", "01 02 00 01 00", "01 00 03 01 00", "01 00 00 00 00"]]
        [12, 13, 13, 13]
        >>> [read(text) for text in ["01 00 00 80 80 80 80 80 80 40 00", "02 00 00 00 01 01 02 01 00"]]
        [13, 13]
        """
        rows, before = {}, None
        count = self.packed()
        refuse_if(count >= 2**32, 13)
        for _ in range(count):
            key, replica = table.packed_key(), self.number(1)
            before = self.ascending((key.encode(), replica), before)
            refuse_if(replica >= self.count, 13)
            pair = self.packed(), self.packed()
            refuse_if(max(pair) > GREATEST or pair == (0, 0), 13)
            rows[key, replica] = pair
        return rows

    def packed_state(self):
        """Dots, live rows and numbers, as `packed_parts_text` has them.

        >>> live = {(0, 1): (("m", "k1"), 1, (2, True)), (1, 7): (("m", "k2"), 2, (3, -5))}
        >>> parts = {0: (3, []), 1: (7, [(1, 6)])}, live, {("hits", 1): (4, 2), ("k1", 0): (0, 9)}
        >>> Parts(packed_parts_text(*parts), 2).packed_state() == parts
        True
        """
        table = Table(self, self.packed_table())
        seen = self.packed_dots()
        live = self.packed_lives(seen, table)
        numbers = self.packed_counts(table)
        refuse_if(table.used != table.keys, 13)
        return seen, live, numbers

    def lives(self, size):
        """Whether each of so many dots is live."""
        if self.number(1, 0, 1):
            bits = int.from_bytes(self.bytes((size + 7) // 8), "little")
            refuse_if(bits >> size, 13)
            lengths = [1] * min(size, MANY + 1)
            are_live = [bits >> place & 1 for place in range(len(lengths))]
        else:
            lengths, left = [], size
            while left:
                lengths.append(self.packed())
                refuse_if(lengths[-1] == 0 and len(lengths) > 1 or lengths[-1] > left, 13)
                left -= lengths[-1]
            are_live = [place % 2 == 0 for place in range(len(lengths))]
        if size > MANY:
            raise TooMany
        return [bool(is_live) for length, is_live in zip(lengths, are_live) for _ in range(length)]

    def brief(self):
        """A digest by its brief. What ends inside one is bad too."""
        ranks, before = {}, (-1, 0)
        try:
            while first := self.packed():
                replica, size = self.replica(), self.packed() + 1
                refuse_if(replica < before[0] or replica == before[0] and first < before[1] + 2, 13)
                refuse_if(first + size - 1 > GREATEST, 13)
                at = self.at
                lives = self.lives(size)
                refuse_if(self.text[at : self.at] != lives_text(lives), 13)
                before = replica, first + size - 1
                ranks |= {(replica, first + place): 2 - is_live for place, is_live in enumerate(lives)}
            return ranks, self.counts()
        except Refused:
            raise Refused(13)

    def certificate_row(self, _):
        at, tag = self.at, self.number(1, 1, 3)
        if tag == 1:
            self.dot()
        elif tag == 2:
            self.number(8, self.dot()[1], GREATEST)
            self.number(1, 0, 1)
        else:
            self.key(), self.replica(), self.number(1, 1, 2)
            self.number(8, 0, GREATEST), self.number(8, 0, GREATEST)
        return self.text[at : self.at]


class Table:
    """The keys of a text, and those that were used so far, in the order of first use."""

    def __init__(self, reader, keys=None):
        self.reader, self.keys, self.used = reader, keys, []
        if keys is None:
            self.keys = self.read()
        self.met = set()

    def read(self):
        """The keys of a text of format 2."""
        keys, known = [], set()
        for _ in range(self.reader.number(4)):
            key = self.reader.key()
            refuse_if(key in known, 13)
            known.add(key)
            keys.append(key)
        return keys

    def key(self):
        return self.key_of(self.reader.number(4))

    def packed_key(self):
        return self.key_of(self.reader.packed())

    def key_of(self, place):
        refuse_if(place >= len(self.keys), 13)
        if place not in self.met:
            self.met.add(place)
            self.used.append(self.keys[place])
        return self.keys[place]


def has_seen(seen, dot):
    top, gaps = seen.get(dot[0], (0, []))
    return dot[1] <= top and not any(first <= dot[1] <= last for first, last in gaps)


def runs_in(of):
    """The runs of dots that are written as tops and gaps."""
    for replica, (top, gaps) in of.items():
        begins = [1] + [last + 1 for _, last in gaps]
        for first, last in zip(begins, [first - 1 for first, _ in gaps] + [top]):
            if first <= last:
                yield replica, first, last


def are_within(of, seen):
    runs = list(runs_in(seen))
    is_within = lambda replica, first, last: any(r == replica and f <= first and last <= l for r, f, l in runs)
    return all(is_within(*run) for run in runs_in(of))


def set_of(of):
    if sum(last - first + 1 for _, first, last in runs_in(of)) > MANY:
        raise TooMany
    return {(replica, seq) for replica, first, last in runs_in(of) for seq in range(first, last + 1)}


def state_of(seen, live, numbers):
    return State(dict.fromkeys(set_of(seen)) | live, numbers)


def who(reader):
    """A group, a roster and the own number."""
    group, names = reader.key(), reader.roster()
    return group, names, reader.number(1, 0, len(names) - 1)


def read_front(text):
    """Who the snapshot of either format is of that begins a text, the parts of its state, and its length."""
    reader = Reader(text)
    format = {b"RDS1": 1, b"RDS2": 2}.get(reader.bytes(4))
    refuse_if(format is None, 13)
    is_of = who(reader)
    parts = Parts(text[reader.at :], len(is_of[1]))
    return is_of, parts.state(format), reader.at + parts.at


def read_parts(text):
    """Who a snapshot of either format is of, and the parts of its state."""
    is_of, state, length = read_front(text)
    refuse_if(length < len(text), 14)
    return is_of, state


def read_snapshot(text):
    """The replica of a text; that it is one is judged before it is held."""
    is_of, state = read_parts(text)
    return Replica(*is_of, state_of(*state))


def written_anew(text):
    """What is written of the replica of a text, which isn't held."""
    is_of, state = read_parts(text)
    return b"RDS2" + who_text(Replica(*is_of, None)) + parts_text(*state)
