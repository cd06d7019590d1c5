"""Watches one process that makes runs: python3 bench/again.py PROGRAM MINUTES

The process makes a round of runs for each byte that it is given, and answers by a line. After each round its resident memory, its open files and its
threads are looked up. The median memory of the last tenth of the rounds may be at most a hundredth above that of the second tenth, the first one being
that in which it grows to what it needs; the others have to be what they were after the first round."""

import os
import statistics
import subprocess
import sys
import time

PAGE = os.sysconf("SC_PAGE_SIZE")
RIGHT = "play 0, memory 0, tcp 0, generated 0\n"

# TCP keeps the number of a port that was closed for a minute, so that more rounds a second would use up all of them.
LEAST_SECONDS = 0.02


def resident(process):
    """Returns the resident memory of a process, in KiB."""
    with open(f"/proc/{process}/statm", encoding="ascii") as file:
        return int(file.read().split()[1]) * PAGE // 1024


def held(process):
    """Returns how many files and threads a process has."""
    return tuple(len(os.listdir(f"/proc/{process}/{kind}")) for kind in ("fd", "task"))


def make_round(process):
    """Has the process make a round, and returns its line."""
    process.stdin.write(b".")
    return process.stdout.readline().decode()


def watch(process, seconds):
    """Has a process make rounds for so many seconds, 20 at least, and returns whether each was right and nothing grew."""
    end, memory, first = time.monotonic() + seconds, [], None
    while len(memory) < 20 or time.monotonic() < end:
        begin = time.monotonic()
        line = make_round(process)
        if line != RIGHT:
            print(f"round {len(memory) + 1}: {line!r}")
            return False
        first = first or held(process.pid)
        memory.append(resident(process.pid))
        time.sleep(max(0, begin + LEAST_SECONDS - time.monotonic()))
    return tell(memory, first, held(process.pid))


def tell(memory, first, last):
    """Writes what was found, and returns whether nothing grew."""
    tenths = [memory[len(memory) * at // 10 : len(memory) * (at + 1) // 10] for at in range(10)]
    medians = [statistics.median(tenth) for tenth in tenths]
    print("resident memory by tenths of the rounds, in KiB:", *(f"{median:.0f}" for median in medians))
    print(f"{len(memory)} rounds: files and threads {first} after the first one, {last} after the last")
    return medians[-1] <= medians[1] * 1.01 and first == last


def main(program, minutes):
    process = subprocess.Popen([program, "again"], stdin=subprocess.PIPE, stdout=subprocess.PIPE, bufsize=0)
    is_right = watch(process, float(minutes) * 60)
    process.stdin.close()
    status = process.wait(timeout=60)
    print("nothing grew" if is_right and status == 0 else f"wrong: status {status}")
    return 0 if is_right and status == 0 else 1


if __name__ == "__main__":
    if len(sys.argv) != 3:
        sys.exit(__doc__)
    sys.exit(main(*sys.argv[1:]))
