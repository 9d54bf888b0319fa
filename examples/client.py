#!/usr/bin/env python3
"""Drives the program by pipes: writes a disk here and there, and pages through what was written.

Usage: examples/client.py [PROGRAM]. The program is ./warm_migrate of this repository if none is named. It runs in a folder of
its own, since it keeps its journal in the folder that it is started in."""
import json
import pathlib
import subprocess
import sys
import tempfile

program = pathlib.Path(sys.argv[1] if len(sys.argv) > 1 else pathlib.Path(__file__).parent.parent / "warm_migrate").resolve()
folder = tempfile.TemporaryDirectory()
process = subprocess.Popen([program], stdin=subprocess.PIPE, stdout=subprocess.PIPE, text=True, cwd=folder.name)


def ask(cmd, **members):
    """Sends one line and waits for its reply, which is whole before the next line is read."""
    print(json.dumps({"cmd": cmd, **members}), file=process.stdin, flush=True)
    reply = json.loads(process.stdout.readline())
    assert reply["ok"], reply
    return reply


ask("host", name="h")
ask("vm", name="a", host="h", disks=[1 << 20])
for block in range(0, 5000, 2):
    ask("write", vm="a", disk=0, first=block * 128, count=1, fill=block % 256)
snapshot, start = ask("snapshot", vm="a")["snapshot"], 0
while start < 512 << 20:
    page = ask("query", vm="a", snapshot=snapshot, disk=0, since="*", start=start)
    start = page["start"] + page["length"]
    print(f"{len(page['areas'])} areas up to byte {start}")
ask("quit")
sys.exit(process.wait())
