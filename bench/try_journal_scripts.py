#!/usr/bin/env python3
"""Tries journal_reader.py and the judges of kill.py on journals that are made up here.

Usage: bench/try_journal_scripts.py. The bytes of records are those of the format's table."""
import unittest

from journal_reader import MAGIC, Bad, Journal, ending_of, record_of
from kill import FRESH, Line, differs_after_kill, differs_after_start

# A body of each kind, in order of the kinds, with the record that it is.
BODIES = [
    ("01000000010270310000003c000000020000000100000002",
     ("PlanMade", {"plan": 1, "name": "p1", "interval": 60, "vms": [1, 2]})),
    ("0200000001000000020000000300000004",
     ("MigrationStarted", {"mig": 1, "plan": 2, "vm": 3, "disks": 4})),
    ("03000000010200000000663212a0", ("Chosen", {"mig": 1, "way": 2, "at": 1714557600})),
    ("0400000001000000020000000000000003", ("SnapTaken", {"mig": 1, "snap": 2, "mark": 3})),
    ("0500000001000000010000000a0000000300000000000000000000000000000002",
     ("IdsStored", {"mig": 1, "ids": [((10 << 96) + (3 << 64), 2)]})),
    ("0600000001", ("VolumesMade", {"mig": 1})),
    ("0700000001000000000000000201",
     ("CheckpointAdded", {"mig": 1, "previous": 0, "current": 2, "last": True})),
    ("08000000010000000f", ("StageBegun", {"mig": 1, "disk": 15})),
    ("0900000001000000000000000000000100", ("StageDone", {"mig": 1, "disk": 0, "written": 256})),
    ("0a0000000200000000663212a0", ("Paused", {"mig": 2, "at": 1714557600})),
    ("0b0000000100000002", ("SnapRemoved", {"mig": 1, "snap": 2})),
    ("0c00000001000000000000000000", ("CutoverSet", {"plan": 1, "has": False, "at": 0})),
    ("0d0000000101", ("PowerStored", {"mig": 1, "on": True})),
    ("0e00000001", ("PoweredOff", {"mig": 1})),
    ("0f0000000100", ("OffSeen", {"mig": 1, "off": False})),
    ("10000000010000000300000000000000090000000000000008",
     ("FinalSnapTaken", {"mig": 1, "snap": 3, "mark": 9, "place": 8})),
    ("1100000001", ("CancelAsked", {"mig": 1})),
    ("1200000001000000000000000008", ("Ended", {"mig": 1, "how": 0, "place": 8})),
]
# No kind, unknown ones, a field that is cut, a byte left over, a flag of 2, broken rules, a list
# that is cut.
OTHERS = """00 1300000001 11000001 110000000100 0d0000000102 0300000001030000000000000000
    0c00000001000000000000000001 10000000010000000300000000000000080000000000000008
    1200000001010000000000000008 1200000001040000000000000000
    01000000010250310000003c0000000100000001 0100000001027031000027610000000100000001
    0500000001000000020000000a0000000300000000000000000000000000000002""".split()
PLAN, STARTED, SET = (bytes.fromhex(BODIES[kind - 1][0]) for kind in (1, 2, 12))
LINES = [
    Line("host", []),
    Line("plan", [record_of(PLAN)]),
    Line("start", [record_of(STARTED), record_of(STARTED)]),
    Line("cutover", [record_of(SET)]),
]


def cells(*bodies):
    return b"".join(b"\x01" + len(body).to_bytes(4, "big") + body for body in bodies)


def journal(*bodies, behind=b""):
    return MAGIC + cells(*bodies) + b"\x00" + behind


def ending(data):
    read = Journal(data)
    for _ in read:
        pass
    return read.count, read.ending, read.unread


class Reader(unittest.TestCase):
    def test_each_kind_is_read(self):
        for body, wanted in BODIES:
            self.assertEqual(record_of(bytes.fromhex(body)), wanted)

    def test_other_bytes_are_no_record(self):
        for body in ["", *OTHERS]:
            with self.assertRaises(Bad, msg=body):
                record_of(bytes.fromhex(body))

    def test_a_file_ends_in_one_of_four_ways(self):
        whole = journal(SET)
        for data, wanted in [
            (b"", (0, "short", 0)),
            (b"012345678", (0, "short", 0)),
            (b"0123456789", (0, "foreign", 0)),
            (MAGIC + b"\x00\x01", (0, "closed", 1)),
            (whole, (1, "closed", 0)),
            (journal(PLAN, SET, behind=b"abc"), (2, "closed", 3)),
            (whole[:-1] + b"\x07", (1, "closed", 0)),
            (whole[:-1], (1, "bad", 0)),
            (whole[:-1] + b"\x01", (1, "bad", 0)),
            (MAGIC + cells(PLAN, b""), (1, "bad", 0)),
            (journal(PLAN, SET[:-1], SET), (1, "bad", 0)),
            (MAGIC + b"\x01\x00\x00\x00\x06" + whole[13:], (0, "bad", 0)),
        ]:
            self.assertEqual(ending(data), wanted, data.hex())

    def test_the_ending_is_told(self):
        read = Journal(journal(PLAN, SET, behind=b"abc"))
        list(read)
        wanted = "2 records, then a closed gate; 3 bytes behind it don't stand"
        self.assertEqual(ending_of(read), wanted)


class Judges(unittest.TestCase):
    def assert_kill(self, replied, data, wanted):
        why = differs_after_kill(LINES, replied, data)
        self.assertEqual(why and why.split(" ", 3)[:3], wanted and wanted.split(), why)

    def test_what_a_kill_may_leave(self):
        for replied, data in [
            (0, b""),
            (0, FRESH[:4]),
            (1, FRESH),
            (1, journal(PLAN)),
            (1, journal(behind=b"\x00\x00")),
            (2, journal(PLAN)),
            (2, journal(PLAN, STARTED)),
            (2, journal(PLAN, STARTED, STARTED, behind=cells(SET)[1:])),
            (4, journal(PLAN, STARTED, STARTED, SET)),
        ]:
            self.assert_kill(replied, data, None)

    def test_what_a_kill_may_not_leave(self):
        for replied, data, wanted in [
            (2, b"", "record 1 is"),
            (3, journal(PLAN, STARTED), "record 3 is"),
            (1, journal(PLAN, STARTED), "record 2 is"),
            (2, journal(PLAN, SET), "record 2 is"),
            (2, MAGIC + cells(PLAN, SET[:-1]), "bad record: number"),
            (2, b"0123456789", "not a journal:"),
        ]:
            self.assert_kill(replied, data, wanted)

    def test_the_next_start(self):
        torn = journal(PLAN, behind=b"\x00\x00")
        for data, status, after, is_right in [
            (torn, 5, torn, True),
            (torn, 5, journal(PLAN), False),
            (torn, 0, torn, False),
            (b"", 0, FRESH, True),
            (FRESH[:4], 0, FRESH, True),
            (FRESH + b"\x00", 0, FRESH, True),
            (FRESH + b"\x00", 0, FRESH + b"\x00", False),
            (FRESH, 5, FRESH, False),
        ]:
            why = differs_after_start(data, status, after)
            self.assertEqual(why is None, is_right, why)


if __name__ == "__main__":
    unittest.main()
