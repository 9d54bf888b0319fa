#!/usr/bin/env python3
"""Kills the program at random moments, and judges the journal that it leaves and the next start.

Usage: bench/kill.py PROGRAM [ROUNDS [SEED]]. Without a number there are 200 rounds.
Each round starts the program in a fresh folder below the current one, gives it lines that make
hosts, machines, plans, starts and cutovers, and kills it by signal 9. docs/JOURNAL.md says what is
judged. The folder of a round that differs is kept. The status is 0 where none does."""
import datetime
import os
import pathlib
import random
import shutil
import signal
import subprocess
import sys
import tempfile
import time
from dataclasses import dataclass

from journal_reader import EMPTY_BYTES, MAGIC, Journal, ending_of

JOURNAL = "warm.journal"
FRESH = MAGIC + b"\x00"
PLANS = 12
# The status of a program that refuses its journal.
STRANGE_JOURNAL = 5


@dataclass
class Line:
    """A command, and the records that are in the journal before it is answered."""

    text: str
    records: list


def machine_lines(number, disks):
    sizes = ",".join(["128"] * disks)
    yield Line(f'{{"cmd":"vm","name":"m{number}","host":"h","disks":[{sizes}]}}', [])
    yield Line(f'{{"cmd":"enable","vm":"m{number}"}}', [])
    yield Line(f'{{"cmd":"snapshot","vm":"m{number}"}}', [])
    yield Line(f'{{"cmd":"remove","vm":"m{number}","snapshot":1}}', [])


def cutover_line(dice, plan):
    if dice.random() < 0.5:
        record = ("CutoverSet", {"plan": plan, "has": False, "at": 0})
        return Line(f'{{"cmd":"cutover","plan":"p{plan}"}}', [record])
    at = dice.randrange(1_700_000_000, 1_800_000_000)
    moment = datetime.datetime.fromtimestamp(at, datetime.timezone.utc)
    text = moment.strftime("%Y-%m-%dT%H:%M:%SZ")
    record = ("CutoverSet", {"plan": plan, "has": True, "at": at})
    return Line(f'{{"cmd":"cutover","plan":"p{plan}","at":"{text}"}}', [record])


def plan_lines(dice, plan, disks_of, first_migration):
    """The plan of these machines, its start, and some cutovers."""
    interval = dice.randint(1, 10_080)
    names = ",".join(f'"m{number}"' for number in disks_of)
    fields = {"plan": plan, "name": f"p{plan}", "interval": interval, "vms": list(disks_of)}
    text = f'{{"cmd":"plan","name":"p{plan}","vms":[{names}],"interval":{interval}}}'
    yield Line(text, [("PlanMade", fields)])
    started = [
        ("MigrationStarted", {"mig": mig, "plan": plan, "vm": number, "disks": disks})
        for mig, (number, disks) in enumerate(disks_of.items(), first_migration)
    ]
    yield Line(f'{{"cmd":"start","plan":"p{plan}"}}', started)
    for _ in range(dice.randint(1, 4)):
        yield cutover_line(dice, plan)


def stream(dice, plans=PLANS):
    """Lines none of which is refused."""
    yield Line('{"cmd":"host","name":"h"}', [])
    machines = 0
    for plan in range(1, plans + 1):
        first = machines + 1
        machines += dice.randint(1, 4)
        disks_of = {number: dice.randint(1, 3) for number in range(first, machines + 1)}
        for number, disks in disks_of.items():
            yield from machine_lines(number, disks)
        yield from plan_lines(dice, plan, disks_of, first)


def records_of(lines):
    return [record for line in lines for record in line.records]


def differs_after_kill(lines, replied, data):
    """What is wrong with the bytes of a journal after so many lines were answered, or None. Each
    record of an answered line has to stand, and at most those of the next line besides."""
    journal = Journal(data)
    found = list(journal)
    if journal.ending in ("bad", "foreign"):
        return ending_of(journal)
    owed, most = records_of(lines[:replied]), records_of(lines[: replied + 1])
    for number, (stands, wanted) in enumerate(zip(found, most), 1):
        if stands != wanted:
            return f"record {number} is {stands}, and not {wanted}"
    if len(found) < len(owed):
        return f"record {len(found) + 1} is lost: the reply to {owed[len(found)]} was read"
    if len(found) > len(most):
        return f"record {len(most) + 1} is of no line so far: {found[len(most)]}"
    return None


def differs_after_start(data, status, after):
    """What is wrong with the next start on the bytes of a journal, or None. The machines aren't
    kept, so records that name one are refused, and the file is left as it was. Any other file is
    opened: it ends behind its first closed gate."""
    journal = Journal(data)
    named = any("vm" in fields or "vms" in fields for _, fields in journal)
    opened = data[: len(data) - journal.unread] if journal.ending == "closed" else FRESH
    wanted, left = (STRANGE_JOURNAL, data) if named else (0, opened)
    if status != wanted:
        return f"the next start ends by status {status}, and not {wanted}"
    if after != left:
        return f"the next start leaves {len(after)} bytes in place of {len(left)}, or others"
    return None


class Folder:
    """A fresh folder below the current one, with the program's input beside its journal."""

    def __init__(self, program, lines):
        self.program = program
        self.path = pathlib.Path(tempfile.mkdtemp(prefix="kill.", dir="."))
        (self.path / "lines").write_text("".join(line.text + "\n" for line in lines))

    def start(self, source, replies):
        with open(source, "rb") as lines, open(self.path / replies, "wb") as output:
            return subprocess.Popen([self.program], stdin=lines, stdout=output, cwd=self.path)

    def run(self, seconds=None):
        """Gives the lines to the program, and kills it after so many seconds. Its status, which is
        the negative number of the signal that ended it, and the replies."""
        process = self.start(self.path / "lines", "replies")
        if seconds is not None:
            time.sleep(seconds)
            process.kill()
        status = process.wait()
        return status, (self.path / "replies").read_bytes().split(b"\n")[:-1]

    def run_on_nothing(self):
        """The status of the program that is given no line, and how many bytes it writes."""
        status = self.start(os.devnull, "second").wait()
        return status, (self.path / "second").stat().st_size

    def journal(self):
        """The bytes of the journal. A file that isn't there yet has none."""
        path = self.path / JOURNAL
        return path.read_bytes() if path.exists() else b""

    def remove(self):
        shutil.rmtree(self.path)


def refused(lines, replies):
    """The first line that was refused, or None. None may be, or its records are others."""
    for line, reply in zip(lines, replies):
        if b'"ok":true' not in reply:
            return f"{line.text} is answered {reply.decode()}"
    return None


def whole_run(program, lines):
    """The seconds of a run that isn't killed. It ends the script where that run differs."""
    folder = Folder(program, lines)
    begin = time.perf_counter()
    status, replies = folder.run()
    seconds = time.perf_counter() - begin
    data, kept = folder.journal(), (folder.path / JOURNAL).exists()
    folder.remove()
    why = refused(lines, replies)
    if why is None and (status != 0 or len(replies) != len(lines)):
        why = f"status {status}, and {len(replies)} replies to {len(lines)} lines"
    if why is None and not kept:
        why = f"there is no {JOURNAL}: the program keeps no journal"
    if why is None:
        why = differs_after_kill(lines, len(lines), data)
    if why is not None:
        sys.exit(f"a run that isn't killed: {why}")
    return seconds


def kill_once(program, lines, seconds):
    """The number of replies, whether the journal has a torn end, and what differs or None."""
    folder = Folder(program, lines)
    status, replies = folder.run(seconds)
    data = folder.journal()
    why = refused(lines, replies) or differs_after_kill(lines, len(replies), data)
    if why is None and status != -signal.SIGKILL and (status != 0 or len(replies) != len(lines)):
        why = f"it ended by itself, by status {status} after {len(replies)} replies"
    if why is None:
        status, written = folder.run_on_nothing()
        why = differs_after_start(data, status, folder.journal())
        if why is None and written > 0:
            why = f"the next start writes {written} bytes"
    if why is None:
        folder.remove()
        return len(replies), is_torn(data), None
    (folder.path / "journal.killed").write_bytes(data)
    return len(replies), is_torn(data), f"{folder.path}: {why}"


def is_torn(data):
    """Whether bytes were written that don't stand, as a kill within an append leaves them."""
    journal = Journal(data)
    for _ in journal:
        pass
    return journal.unread > 0 or (journal.ending == "short" and 0 < len(data) < EMPTY_BYTES)


def main():
    if not 2 <= len(sys.argv) <= 4:
        sys.exit(__doc__)
    program = os.path.abspath(sys.argv[1])
    rounds = int(sys.argv[2]) if len(sys.argv) > 2 else 200
    seed = int(sys.argv[3]) if len(sys.argv) > 3 else random.randrange(1 << 32)
    dice = random.Random(seed)
    lines = list(stream(dice))
    seconds = whole_run(program, lines)
    print(f"seed {seed}: {len(lines)} lines, {len(records_of(lines))} records, {seconds:.2f} s")
    answered, torn, differing = [], 0, 0
    for number in range(1, rounds + 1):
        lines = list(stream(dice))
        replied, is_cut, why = kill_once(program, lines, dice.uniform(0, seconds))
        answered.append(replied / len(lines))
        torn += is_cut
        if why is not None:
            differing += 1
            print(f"round {number}, killed after {replied} replies: {why}")
    share = 100 * sum(answered) / max(1, len(answered))
    print(f"{rounds} kills, after {share:.0f} % of the lines on average, {torn} within an append")
    print(f"{differing} differ")
    return 1 if differing else 0


if __name__ == "__main__":
    sys.exit(main())
