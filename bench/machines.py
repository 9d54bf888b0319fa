#!/usr/bin/env python3
"""Measures the built program on commands of machines: lines a second, each with its reply, and bytes of memory for
each sector that is written, from the process's peak.

Usage: bench/machines.py [LINES]. It needs Linux and the built program (./warm_migrate </dev/null), and at least 100 lines.
The program is pinned to core 0, and started in a folder of its own, without a journal. The least of twelve runs counts,
since a shared machine may be slow for a while. The first number of a row is with lines from a file and replies to a
file; the second with a pipe at either end, whose other ends are a `cat` each on other cores, so that each reply wakes
its reader."""
import itertools
import os
import pathlib
import random
import subprocess
import sys
import tempfile
import time

PROGRAM = pathlib.Path(__file__).resolve().parent.parent / "crates/migrate_main/out/migrate_main"
LINES = int(sys.argv[1]) if len(sys.argv) > 1 else 200_000
TURNS = 12
LOGGED = 1 << 16
HOST = '{"cmd":"host","name":"h"}\n'


def vm(number, sectors):
    return f'{{"cmd":"vm","name":"a{number}","host":"h","disks":[{sectors}]}}\n'


def enable(number):
    return f'{{"cmd":"enable","vm":"a{number}"}}\n'


def write(number, first, count):
    return f'{{"cmd":"write","vm":"a{number}","disk":0,"first":{first},"count":{count},"fill":1}}\n'


def snapshot(number):
    return f'{{"cmd":"snapshot","vm":"a{number}"}}\n'


def pinned():
    os.sched_setaffinity(0, {0})


def elsewhere():
    os.sched_setaffinity(0, set(range(1, os.cpu_count())) or {0})


def start(stdin, stdout, folder):
    """The program, and what else has to end."""
    return subprocess.Popen([PROGRAM], stdin=stdin, stdout=stdout, cwd=folder, preexec_fn=pinned), []


def start_piped(stdin, stdout, folder):
    feeder = subprocess.Popen(["cat"], stdin=stdin, stdout=subprocess.PIPE, preexec_fn=elsewhere)
    drain = subprocess.Popen(["cat"], stdin=subprocess.PIPE, stdout=stdout, preexec_fn=elsewhere)
    process = subprocess.Popen([PROGRAM], stdin=feeder.stdout, stdout=drain.stdin, cwd=folder, preexec_fn=pinned)
    feeder.stdout.close()
    drain.stdin.close()
    return process, [feeder, drain]


def run(lines, begin=start):
    """Seconds from the first line to the end, and the peak of resident memory in bytes."""
    with (
        tempfile.TemporaryFile() as stdin,
        tempfile.TemporaryFile() as stdout,
        tempfile.TemporaryDirectory() as folder,
    ):
        count = 0
        for line in lines:
            stdin.write(line.encode())
            count += 1
        stdin.seek(0)
        first = time.perf_counter()
        process, others = begin(stdin, stdout, folder)
        _, status, usage = os.wait4(process.pid, 0)
        seconds = time.perf_counter() - first
        for other in others:
            other.wait()
        stdout.seek(0)
        replies = stdout.read().splitlines()
    refused = sum(b'"ok":false' in reply for reply in replies)
    if status != 0 or refused or len(replies) != count:
        sys.exit(f"bench: status {status}, {len(replies)} replies to {count} lines, {refused} refused")
    return seconds, usage.ru_maxrss * 1024


def least(lines, begin):
    """The least seconds of some runs, since others on the machine can only add to them."""
    return min(run(lines, begin)[0] for _ in range(TURNS))


def rate(first_lines, lines, begin):
    return len(lines) / (least(first_lines + lines, begin) - least(first_lines, begin))


def measure(name, first_lines, lines):
    """Lines a second, without the time of what has to be there first."""
    filed, piped = (rate(first_lines, lines, begin) for begin in (start, start_piped))
    print(f"{name}: {filed:,.0f} a second, by pipes {piped:,.0f} ({len(lines)} lines)", flush=True)


def in_blocks(each, shuffled):
    """As many sectors as a log may have, so many in each of the blocks that they meet, in ascending order or in none."""
    sectors = [block * 128 + at * 128 // each for block in range(LOGGED // each) for at in range(each)]
    if shuffled:
        random.Random(1).shuffle(sectors)
    return sectors


def measure_writes(name, count, scattered=False):
    """One machine after another takes as many sectors as its log may have, in a disk of 2^20 sectors. Scattered writes go
    over all blocks of the disk, in no order, with tracking enabled and a live snapshot."""
    each = LOGGED // count
    machines = -(-LINES // each) if count == 1 else 64
    most = min(LINES, machines * each)
    fleet = [HOST] + [vm(number, 1 << 20) for number in range(machines)]
    if scattered:
        fleet += [line for number in range(machines) for line in (enable(number), snapshot(number))]
    step = 7919 * 16 if scattered else count * 3
    lines = [write(i // each, (i % each * step) % ((1 << 20) - count), count) for i in range(most)]
    measure(name, fleet, lines)


def measure_shuffled():
    """The same, each machine in whole blocks, whose sectors come in no order."""
    sectors = in_blocks(128, True)
    machines = -(-LINES // LOGGED)
    fleet = [HOST] + [vm(number, 1 << 20) for number in range(machines)]
    lines = [write(i // LOGGED, sectors[i % LOGGED], 1) for i in range(LINES)]
    measure("write of 1 sector, whole blocks in no order", fleet, lines)


def measure_showing():
    one = [HOST, vm(0, 1 << 20), write(0, 5, 1), snapshot(0)]
    many = [HOST, vm(0, 1 << 20)] + [write(0, block * 256, 1) for block in range(1024)] + [snapshot(0)]
    query = '{"cmd":"query","vm":"a0","snapshot":1,"disk":0,"since":"*","start":0}\n'
    read = '{"cmd":"read","vm":"a0","disk":0,"first":5,"count":1}\n'
    measure("query of 1 area", one, [query] * LINES)
    measure("query of 1,024 areas", many, [query] * (LINES // 100))
    measure("read of 1 sector", one, [read] * LINES)


def peak(machines, sectors):
    """The peak where each of so many machines took a write of each of the sectors."""
    fleet = [HOST] + [vm(number, 1 << 23) for number in range(machines)]
    lines = (write(number, sector, 1) for number in range(machines) for sector in sectors)
    return run(itertools.chain(fleet, lines))[1]


def measure_memory():
    """Full logs: so many sectors a block, in ascending order and in none. What the program takes besides, and what this one
    had when it started it, stands in the peak with fewer machines too."""
    for each in (1, 2, 3, 4, 8, 32, 128):
        found = []
        for shuffled in (False, True):
            sectors = in_blocks(each, shuffled)
            found.append((peak(4, sectors) - peak(2, sectors)) / (2 * len(sectors)))
        ascending, in_no_order = found
        print(f"memory, {each} a block: {ascending:,.0f} bytes a written sector, in no order {in_no_order:,.0f}", flush=True)


if LINES < 100:
    sys.exit("bench: at least 100 lines")
measure_memory()
measure_writes("write of 1 sector", 1)
measure_writes("write of 1 sector, scattered and tracked", 1, scattered=True)
measure_shuffled()
measure_writes("write of 128 sectors", 128)
measure_showing()
