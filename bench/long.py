"""Watches the memory of many runs: python3 bench/long.py RDS MINUTES

Each run of `rds` is a process of its own, which tells the most resident memory that it had. For each size of script the median of the last half
of the runs may be at most a twentieth above that of the first half. One run of each kind is made under valgrind."""

import os
import statistics
import subprocess
import sys
import time

SIZES = (10_000, 30_000, 60_000)
KINDS = (
    (["play"], "examples/retransmission.rds"),
    (["play"], "examples/congestion.rds"),
    (["run"], "examples/three_hosts.rds"),
    (["run", "--wire", "tcp"], "examples/hello.rds"),
    (["gen", "200", "7"], "examples/hello.rds"),
    (["play", "x"], "examples/hello.rds"),
    (["play"], "/dev/null"),
)


def script(size):
    """A script of two hosts with so many sends each, and some cuts."""
    lines = ["hosts 2", "bind A 4000 16777216 16777216", "bind B 4001 16777216 16777216"]
    for number in range(size):
        lines += [f"send A 4000 B 4001 t:{number:06}", f"send B 4001 A 4000 f:{number % 300}"]
        if number % (size // 5) == size // 10:
            lines.append("cut A B")
    return ("\n".join(lines) + "\n").encode()


def most_memory(program, text):
    """Returns the status of a run over TCP, and the most memory that it had, in KiB."""
    process = subprocess.Popen([program, "run", "--wire", "tcp"], stdin=subprocess.PIPE, stdout=subprocess.DEVNULL)
    process.stdin.write(text)
    process.stdin.close()
    _, status, used = os.wait4(process.pid, 0)
    process.returncode = os.waitstatus_to_exitcode(status)
    return process.returncode, used.ru_maxrss


def many_processes(program, size, seconds):
    """Runs the script of one size again and again, and returns whether the runs took no more memory later than at first."""
    text, most, end = script(size), [], time.monotonic() + seconds
    while len(most) < 4 or time.monotonic() < end:
        status, memory = most_memory(program, text)
        if status:
            print(f"{size} sends each way: status {status}")
            return False
        most.append(memory)
    first, last = (statistics.median(half) for half in (most[: len(most) // 2], most[len(most) // 2 :]))
    print(f"{size} sends each way: {len(most)} runs: half of the first ones took {first:.0f} KiB, of the last ones {last:.0f} KiB, and none more than {max(most)}", flush=True)
    return last <= first * 1.05


def valgrind(program, words, path):
    """Runs one kind under valgrind, and returns whether it found no error and no block in use at the end."""
    checks = ["valgrind", "--quiet", "--leak-check=full", "--show-leak-kinds=all", "--errors-for-leak-kinds=all", "--error-exitcode=99"]
    with open(path, "rb") as source:
        done = subprocess.run([*checks, program, *words], stdin=source, capture_output=True, timeout=600)
    is_right = done.returncode != 99 and not done.stderr
    print(f"valgrind: {' '.join(words)} < {path}: status {done.returncode}{'' if is_right else ', ' + done.stderr[-400:].decode()}", flush=True)
    return is_right


def main(program, minutes):
    seconds = float(minutes) * 60 / len(SIZES)
    right = [many_processes(program, size, seconds) for size in SIZES]
    right += [valgrind(program, *kind) for kind in KINDS]
    print(f"{len(right)} things watched: {right.count(False)} of them wrong")
    return 1 if False in right else 0


if __name__ == "__main__":
    if len(sys.argv) != 3:
        sys.exit(__doc__)
    sys.exit(main(*sys.argv[1:]))
