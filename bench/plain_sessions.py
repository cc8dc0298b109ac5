"""Sessions of the plain model, as docs/FORMATS.md has them: what each side says, and what it takes, in each version."""
import hashlib

from plain_model import Refused, longer, mark_of, refuse_if
from plain_texts import Parts, Reader, answer_text, brief_text, certificate, digest_text, hello_text, piece, state_of
from plain_texts import who

HELLO, DIGEST, DELTA, BYE, HASH = 1, 2, 3, 4, 5
# The bye that tells of a fault; 5 for those that aren't here.
BYES = {18: 1, 19: 2, 20: 3, 21: 4}


def format_of(version):
    """The format in which a session of a version has its deltas."""
    return min(version, 2)


def hash_of(digest):
    """By which a session says a digest from version 4 on."""
    return hashlib.sha256(digest_text(digest)).digest()


def whole_text(digest, version):
    """By which a session says it whole."""
    return b"\2" + (brief_text(digest) if version == 5 else digest_text(digest))


def behind_text(digest, other, version):
    """By which a session says it to one whose own is known: in version 5 what is wanted of that, with its dots that are
    lacking here as dead ones, and those that live here and are dead there as live ones."""
    if version < 5:
        return whole_text(digest, version)
    (ranks, numbers), theirs = digest, other[0]
    wanted = {dot: 2 for dot in theirs if dot not in ranks}
    wanted |= {dot: 1 for dot, rank in ranks.items() if rank == 1 and theirs.get(dot) == 2}
    return whole_text((wanted, numbers), version)


def heard_behind(digest, said, version):
    """What one that has said this digest takes what is said behind it for."""
    if version < 5:
        return said
    wanted, numbers = said
    lacked = {dot for dot, rank in wanted.items() if rank == 2}
    ranks = {dot: rank for dot, rank in digest[0].items() if dot not in lacked}
    return ranks | {dot: 1 for dot, rank in wanted.items() if rank == 1}, numbers


def done_text(state, version):
    """The last message of a side that holds this by then: a bye 0, and from version 3 on the mark behind it."""
    return b"\4\0" + (bytes.fromhex(mark_of(state)) if version >= 3 else b"")


def message(body, sizes=()):
    """A message in chunks of these sizes, and the last of at most 16,384 bytes."""
    chunks, sizes = [], list(sizes)
    while body:
        size = sizes.pop(0) if sizes else 16_384
        chunks.append(piece(body[:size], 2))
        body = body[size:]
    return b"".join(chunks) + b"\0\0"


class Course:
    """A session of a replica as the server, or as a client that says a version: what it says where a whole stream
    comes, what it received, and the fault that it ends by."""

    def __init__(self, replica, stream, says=None):
        self.replica, self.digest, self.received = replica, replica.state.digest(), None
        self.waits = [HELLO, DIGEST, DELTA, BYE]
        self.names, self.version, self.says, self.missed = replica.names, None, says, False
        self.said = b"" if says is None else self.opening(says, says >= 4)
        self.fault, self.is_bye = 23, False
        try:
            self.hear(stream)
        except Refused as refused:
            self.fault = refused.number
            if not self.is_bye:
                self.said += message(bytes([BYE, BYES.get(self.fault, 5)]))

    def hear(self, stream):
        reader, body = Reader(stream), b""
        while self.waits:
            if len(stream) - reader.at < 2:
                return
            size = reader.number(2)
            if len(stream) - reader.at < size:
                return
            body += reader.bytes(size)
            if not size:
                self.judge(body)
                body = b""
        self.fault = None

    def judge(self, body):
        refuse_if(not body, 12)
        kind, body = body[0], body[1:]
        refuse_if(kind not in (HELLO, DIGEST, DELTA, BYE, HASH), 13)
        if kind == BYE:
            return self.judge_bye(body)
        if kind == HASH:
            return self.judge_hash(body)
        refuse_if(kind != self.waits[0], 22)
        {HELLO: self.judge_hello, DIGEST: self.judge_digest, DELTA: self.judge_delta}[kind](body)
        self.waits.pop(0)

    def judge_bye(self, body):
        refuse_if(not body, 12)
        refuse_if(body[0] > 6, 13)
        code, mark = body[0], body[1:]
        size = 16 * (code == 0 and self.version in (3, 4, 5) and self.waits == [BYE])
        refuse_if(len(mark) < size, 12)
        refuse_if(len(mark) > size, 14)
        self.is_bye = code > 0
        refuse_if(self.is_bye, {1: 18, 2: 19, 3: 20, 4: 21}.get(code, 23))
        refuse_if(self.waits != [BYE], 22)
        self.waits = []
        done = self.done()
        if self.says is None:
            self.said += message(done)
        # The own bye is said, and nothing more: what was received stays.
        self.is_bye = True
        refuse_if(mark != done[2:], 28)

    def judge_hello(self, body):
        reader = Reader(body)
        self.version = reader.number(1)
        refuse_if(self.version not in ((1, 2, 3, 4, 5) if self.says is None else (self.says,)), 18)
        group, names, own = who(reader)
        reader.end()
        refuse_if(group != self.replica.group, 19)
        self.names = longer(self.replica.names, names)
        refuse_if(own == self.replica.own, 21)
        self.peer = own

    def judge_hash(self, body):
        refuse_if(self.version not in (4, 5) or self.waits[0] != DIGEST or self.missed, 13)
        refuse_if(len(body) < 32, 12)
        refuse_if(len(body) > 32, 14)
        if body == hash_of(self.digest):
            self.waits.pop(0)
            return self.answer_digest(self.digest, True)
        self.missed = True
        whole = lambda: message(whole_text(self.digest, self.version))
        self.said += self.opening(self.version, False) if self.says is None else whole()

    def judge_digest(self, body):
        parts = Parts(body, len(self.names))
        digest = parts.brief() if self.version == 5 else parts.digest()
        parts.end()
        self.answer_digest(heard_behind(self.digest, digest, self.version) if self.missed else digest, False)

    def answer_digest(self, theirs, is_shared):
        """A digest came, and if it is the own one it did so by its hash."""
        self.theirs = theirs
        if self.says is None:
            self.said += b"" if self.missed else self.opening(self.version, is_shared)
            self.said += self.delta()
        elif self.version >= 4 and not self.missed and not is_shared:
            self.said += message(behind_text(self.digest, theirs, self.version))

    def judge_delta(self, body):
        parts = Parts(body, len(self.names))
        asker, state = parts.replica(), parts.state(format_of(self.version))
        rows = parts.many(4, parts.certificate_row)
        parts.end()
        refuse_if(asker != self.replica.own, 11)
        delta = state_of(*state)
        is_above = delta == delta.least(self.digest)
        refuse_if(not is_above or rows != certificate(delta, self.digest), 17)
        self.received = delta
        if self.says is not None:
            self.said += self.delta() + message(self.done())

    def opening(self, version, is_hashed):
        own = b"\5" + hash_of(self.digest) if is_hashed else whole_text(self.digest, version)
        return message(b"\1" + hello_text(self.replica, version)) + message(own)

    def delta(self):
        """What the peer lacks."""
        least = self.replica.state.least(self.theirs)
        return message(b"\3" + answer_text(self.peer, least, self.theirs, format_of(self.version)))

    def done(self):
        return done_text(self.replica.state.joined(self.received), self.version)


def stream_of(client, server, delta=None, asker=None, version=2):
    """The messages that a client of a version says to a server, and with them this delta in place of its own. The mark
    is that of what the client has then."""
    own, digest = client.state.digest(), server.state.digest()
    held = client.state.joined(server.state.least(own))
    delta = client.state.least(digest) if delta is None else delta
    asker = server.own if asker is None else asker
    texts = [b"\1" + hello_text(client, version)]
    if version >= 4:
        texts.append(b"\5" + hash_of(own))
    if version < 4:
        texts.append(whole_text(own, version))
    elif own != digest:
        texts.append(behind_text(own, digest, version))
    return texts + [b"\3" + answer_text(asker, delta, digest, format_of(version)), done_text(held, version)]
