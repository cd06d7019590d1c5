"""Runs a program three times and prints the shortest times for each of COUNT datagrams: python3 bench/timed.py COUNT PROGRAM WORD .. < INPUT

The times hold the whole process. INPUT is a file, which each run reads from its beginning, and what it prints is thrown away."""
import resource
import subprocess
import sys
import time

count, words = int(sys.argv[1]), sys.argv[2:]
shortest = None
for _ in range(3):
    sys.stdin.seek(0)
    begun, used = time.monotonic(), resource.getrusage(resource.RUSAGE_CHILDREN)
    subprocess.run(words, stdin=sys.stdin, stdout=subprocess.DEVNULL, check=True)
    wall, after = time.monotonic() - begun, resource.getrusage(resource.RUSAGE_CHILDREN)
    cpu = after.ru_utime + after.ru_stime - used.ru_utime - used.ru_stime
    shortest = min(shortest or (wall, cpu), (wall, cpu))
each = 1e9 / count
name = " ".join(words[1:])
print(f"{name} {count}: {shortest[0] * each:.0f} ns of wall time and {shortest[1] * each:.0f} ns of processor time a datagram,"
      f" {after.ru_maxrss // 1024} MiB at most, {after.ru_maxrss * 1024 // count} bytes each")
