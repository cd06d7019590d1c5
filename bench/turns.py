"""Runs `rds` and a program that does the same work by turns, and prints the ratios of their medians:
python3 bench/turns.py COUNT ROUNDS RDS PEER < SCRIPT

The times are those of whole processes, by the clock. SCRIPT is a file with COUNT datagrams. PEER's word is the transport, inproc or tcp. All
have to print the same report, but `rds play`, which prints a transcript too and stands in no ratio. The memory of a process is counted from
that of this one, some 10 MiB."""
import hashlib
import os
import statistics
import subprocess
import sys
import tempfile
import time

count, rounds, rds, peer = int(sys.argv[1]), int(sys.argv[2]), sys.argv[3], sys.argv[4]
COMMANDS = {
    "rds run": [rds, "run"],
    "zmq inproc": [peer, "inproc"],
    "rds run --wire tcp": [rds, "run", "--wire", "tcp"],
    "zmq tcp": [peer, "tcp"],
    "rds play": [rds, "play"],
}
RATIOS = [("rds run", "zmq inproc"), ("rds run --wire tcp", "zmq tcp")]
OTHER_TEXT = "rds play"


def digest(printed):
    """Stands for what a file has. Not all of it is read at once, since that would count as memory of the next process."""
    printed.seek(0)
    found = hashlib.sha256()
    while piece := printed.read(65536):
        found.update(piece)
    return found.hexdigest()


def run(name):
    """Seconds by the clock, kibibytes of memory at most, and the digest of what was printed."""
    sys.stdin.seek(0)
    with tempfile.TemporaryFile() as printed:
        begun = time.monotonic()
        process = subprocess.Popen(COMMANDS[name], stdin=sys.stdin, stdout=printed)
        _, status, used = os.wait4(process.pid, 0)
        wall = time.monotonic() - begun
        process.returncode = os.waitstatus_to_exitcode(status)
        if process.returncode != 0:
            sys.exit(f"{name} ended with status {process.returncode}")
        return wall, used.ru_maxrss, digest(printed)


walls, memory, report = {name: [] for name in COMMANDS}, {}, None
for _ in range(rounds):
    for name in COMMANDS:
        wall, memory[name], text = run(name)
        walls[name].append(wall)
        if name != OTHER_TEXT:
            report = report or text
            if text != report:
                sys.exit(f"{name} printed another report than the first run")
medians = {name: statistics.median(walls[name]) for name in COMMANDS}
for name in COMMANDS:
    print(f"{count} datagrams, {name}: {medians[name] * 1e9 / count:.0f} ns and {memory[name] * 1024 // count} bytes of memory each")
for ours, other in RATIOS:
    print(f"{count} datagrams, {ours} / {other}: {medians[ours] / medians[other]:.2f}, the medians of {rounds}")
