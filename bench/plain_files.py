"""Files of the plain model, as docs/FORMATS.md has them: a snapshot, the record of its checksum in those that are
written now, records of changes, and perhaps a torn end.
"""
import collections
import hashlib

from plain_model import Refused, Replica, refuse_if
from plain_texts import Parts, Reader, number, read_front, snapshot_text, state_of, state_text, who, who_text

# The most bytes of a record's payload, how many stand before it, how long records may always be before a file is
# written anew, and how many bytes the record of a snapshot's checksum has.
MOST, HEAD, FEW, SUM = 65_536, 36, 65_536, 69
# The most bytes that are read to tell that no record begins at any place of a torn end.
SCAN = 536_870_912


class Damaged(Refused):
    """Behind the records that end at this byte stands what is no torn end, or a record that doesn't fit."""

    def __init__(self, at):
        super().__init__(13, at)
        self.at = at


# What a file holds, and in bytes where its snapshot ends, with that record where it has one, and its last whole record,
# and how long it is.
File = collections.namedtuple("File", "replica snapshot whole length")


def change_text(own, delta, grown=None):
    """A delta; with it comes the replica whose roster is the longer one, where it grows."""
    return (b"\1" if grown is None else b"\2" + who_text(grown)) + state_text(delta)


def record(payload):
    return number(len(payload), 4) + hashlib.sha256(payload).digest() + payload


def summed(snapshot):
    """A snapshot, and the record of its checksum."""
    return snapshot + record(b"\3" + hashlib.sha256(snapshot).digest())


def file_text(replica, format=2):
    """A new file; the program writes format 2."""
    return summed(snapshot_text(replica, format))


def front_end(text, snapshot):
    """Where the snapshot of so many bytes that begins a file ends, with the record of its checksum where that stands
    behind it. Where no record does, the end of the file may not be such a record that begins inside of the snapshot."""
    payload = record_at(text, snapshot)
    if payload is None:
        is_inside = snapshot < len(text) < snapshot + SUM <= len(text) + snapshot
        last = record_at(text, len(text) - SUM) if is_inside else None
        refuse_if(last is not None and len(last) == SUM - HEAD and last[:1] == b"\3", 13)
    if payload is None or payload[:1] != b"\3":
        return snapshot
    refuse_if(payload[1:] != hashlib.sha256(text[:snapshot]).digest(), 13)
    return snapshot + SUM


def record_at(text, at):
    """The payload of the whole record that begins at a byte, if one does."""
    size = int.from_bytes(text[at : at + 4], "big")
    payload = text[at + HEAD : at + HEAD + size]
    is_there = size <= MOST and at + HEAD + size <= len(text)
    return payload if is_there and hashlib.sha256(payload).digest() == text[at + 4 : at + HEAD] else None


def claims_in(rest):
    """Where records seem to begin in these bytes, by the lengths that stand there, and where each would end."""
    for at in range(len(rest) - HEAD + 1):
        size = int.from_bytes(rest[at : at + 4], "big")
        if size <= MOST and at + HEAD + size <= len(rest):
            yield at, at + HEAD + size


def is_torn(rest):
    """Whether bytes behind whole records may be what is left of one more."""
    if len(rest) > MOST + HEAD or sum(end - at for at, end in claims_in(rest)) > SCAN:
        return False
    return all(record_at(rest, at) is None for at, _ in claims_in(rest))


def with_change(replica, payload):
    """A replica that a record's change is joined to, which fits it."""
    kind, names = payload[:1], replica.names
    reader = Reader(payload[1:])
    refuse_if(kind not in (b"\1", b"\2"), 13)
    if kind == b"\2":
        group, names, own = who(reader)
        refuse_if((group, own, names[: len(replica.names)]) != (replica.group, replica.own, replica.names), 13)
    parts = Parts(payload[1 + reader.at :], len(names))
    delta = state_of(*parts.state())
    parts.end()
    return replica._replace(names=names, state=replica.state.join(delta))


def read_file(text):
    """What a file holds: its snapshot, and each whole record of a change behind it joined to that."""
    is_of, state, length = read_front(text)
    snapshot = front_end(text, length)
    replica, at = Replica(*is_of, state_of(*state)), snapshot
    while (payload := record_at(text, at)) is not None:
        try:
            replica = with_change(replica, payload)
        except Refused:
            raise Damaged(at)
        at += HEAD + len(payload)
    if not is_torn(text[at:]):
        raise Damaged(at)
    return File(replica, snapshot, at, len(text))


def told_torn(path, file):
    """What people are told where a file of this path has a torn end."""
    if file.whole == file.length:
        return ""
    passed = f"passes over {file.length - file.whole} bytes from byte {file.whole} on"
    return f"{path}: {passed}: no whole record, as a crash or a cut copy leaves\n"


def appended(text, payload):
    """A file with one more record, in place of a torn end. It is None where the file is to be written anew."""
    file = read_file(text)
    records = file.whole - file.snapshot + HEAD + len(payload)
    if text[:4] != b"RDS2" or len(payload) > MOST or records > max(file.snapshot, FEW):
        return None
    return text[: file.whole] + record(payload)
