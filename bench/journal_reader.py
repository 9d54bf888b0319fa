#!/usr/bin/env python3
"""Prints each record of a journal file, one a line, and then how the file ends.

Usage: bench/journal_reader.py [FILE]. Without a name it reads warm.journal. It only reads.
The status is 0 where the file is a journal, 1 where it is none or holds a bad record, and 2 where
it can't be read."""
import sys
import uuid

MAGIC = b"WARMJNL1"
EMPTY_BYTES, MAX_BYTES = 9, 1 << 26
OPEN_GATE = b"\x01"
NAME_BYTES = frozenset(b"abcdefghijklmnopqrstuvwxyz0123456789-")
MIGRATION = [("mig", "word")]
# The kinds from 1 on, each with its fields.
KINDS = [
    ("PlanMade", [("plan", "word"), ("name", "name"), ("interval", "word"), ("vms", "words")]),
    ("MigrationStarted", MIGRATION + [("plan", "word"), ("vm", "word"), ("disks", "word")]),
    ("Chosen", MIGRATION + [("way", "byte"), ("at", "long")]),
    ("SnapTaken", MIGRATION + [("snap", "word"), ("mark", "long")]),
    ("IdsStored", MIGRATION + [("ids", "ids")]),
    ("VolumesMade", MIGRATION),
    ("CheckpointAdded", MIGRATION + [("previous", "word"), ("current", "word"), ("last", "flag")]),
    ("StageBegun", MIGRATION + [("disk", "word")]),
    ("StageDone", MIGRATION + [("disk", "word"), ("written", "long")]),
    ("Paused", MIGRATION + [("at", "long")]),
    ("SnapRemoved", MIGRATION + [("snap", "word")]),
    ("CutoverSet", [("plan", "word"), ("has", "flag"), ("at", "long")]),
    ("PowerStored", MIGRATION + [("on", "flag")]),
    ("PoweredOff", MIGRATION),
    ("OffSeen", MIGRATION + [("off", "flag")]),
    ("FinalSnapTaken", MIGRATION + [("snap", "word"), ("mark", "long"), ("place", "long")]),
    ("CancelAsked", MIGRATION),
    ("Ended", MIGRATION + [("how", "byte"), ("place", "long")]),
]
# What a kind owes besides the ranges of its fields.
RULES = {
    "PlanMade": lambda fields: 1 <= fields["interval"] <= 10_080,
    "Chosen": lambda fields: fields["way"] <= 2,
    "CutoverSet": lambda fields: fields["has"] or fields["at"] == 0,
    "FinalSnapTaken": lambda fields: fields["place"] < fields["mark"],
    "Ended": lambda fields: fields["how"] <= 3 and (fields["how"] == 0 or fields["place"] == 0),
}


class Bad(Exception):
    """The bytes are no record."""


class Body:
    """The bytes of a record, taken from the front."""

    def __init__(self, data):
        self.data, self.at = data, 0

    def take(self, count):
        if count > len(self.data) - self.at:
            raise Bad
        self.at += count
        return self.data[self.at - count : self.at]

    def number(self, size):
        return int.from_bytes(self.take(size), "big")

    def byte(self):
        return self.number(1)

    def word(self):
        return self.number(4)

    def long(self):
        return self.number(8)

    def flag(self):
        value = self.byte()
        if value > 1:
            raise Bad
        return value == 1

    def name(self):
        text = self.take(self.byte())
        if not 1 <= len(text) <= 32 or not NAME_BYTES.issuperset(text):
            raise Bad
        return text.decode()

    def words(self):
        return [self.word() for _ in range(self.count(4))]

    def ids(self):
        return [(self.number(16), self.long()) for _ in range(self.count(24))]

    def count(self, size):
        """How many items of that size follow. A count that there are no bytes for is refused."""
        count = self.word()
        if count * size > len(self.data) - self.at:
            raise Bad
        return count


def record_of(data):
    """The kind and the fields of a record's bytes."""
    body = Body(data)
    kind = body.byte()
    if not 1 <= kind <= len(KINDS):
        raise Bad
    name, fields_of = KINDS[kind - 1]
    fields = {field: getattr(body, form)() for field, form in fields_of}
    if body.at != len(data) or not RULES.get(name, lambda fields: True)(fields):
        raise Bad
    return name, fields


class Journal:
    """The records of a file: iterating gives each one that stands, as its kind and its fields.
    After the last one `ending` says how the file ends:
    `short`: at most 9 bytes, which are an empty journal; `closed`: by a closed gate;
    `bad`: the next record is none, or isn't whole; `foreign`: it is no journal.
    `count` is how many stand, `unread` how many bytes are behind the closed gate, which don't."""

    def __init__(self, data):
        self.data, self.ending, self.count, self.unread = data, "", 0, 0

    def __iter__(self):
        if len(self.data) <= EMPTY_BYTES:
            self.ending = "short"
        elif len(self.data) > MAX_BYTES or not self.data.startswith(MAGIC):
            self.ending = "foreign"
        else:
            yield from self.standing()

    def standing(self):
        at = len(MAGIC)
        while self.data[at : at + 1] == OPEN_GATE:
            try:
                behind = at + 5 + Body(self.data[at + 1 : at + 5]).word()
                if behind > len(self.data):
                    raise Bad
                read = record_of(self.data[at + 5 : behind])
            except Bad:
                break
            self.count += 1
            yield read
            at = behind
        gate = self.data[at : at + 1]
        self.ending = "bad" if gate in (b"", OPEN_GATE) else "closed"
        self.unread = len(self.data) - at - 1 if self.ending == "closed" else 0


def shown(value):
    """A field as it is printed: an identifier as its UUID, a slash and its number."""
    if isinstance(value, list):
        return "[" + ",".join(map(shown, value)) + "]"
    if isinstance(value, tuple):
        return f"{uuid.UUID(int=value[0])}/{value[1]}"
    return str(value).lower() if isinstance(value, bool) else str(value)


def ending_of(journal):
    """How the file ends, in a line."""
    if journal.ending == "short":
        return f"no records: a file of at most {EMPTY_BYTES} bytes is an empty journal"
    if journal.ending == "foreign":
        return f"not a journal: it doesn't begin with {MAGIC.decode()}, or is longer than 64 MiB"
    if journal.ending == "bad":
        return f"bad record: number {journal.count + 1} is no record, or isn't whole"
    behind = f"; {journal.unread} bytes behind it don't stand" if journal.unread else ""
    return f"{journal.count} records, then a closed gate{behind}"


def main():
    name = sys.argv[1] if len(sys.argv) > 1 else "warm.journal"
    try:
        with open(name, "rb") as file:
            journal = Journal(file.read(MAX_BYTES + 1))
    except OSError as error:
        print(f"{name}: {error.strerror}", file=sys.stderr)
        return 2
    for number, (kind, fields) in enumerate(journal, 1):
        print(number, kind, *(f"{field}={shown(value)}" for field, value in fields.items()))
    print(ending_of(journal))
    return 1 if journal.ending in ("foreign", "bad") else 0


if __name__ == "__main__":
    sys.exit(main())
