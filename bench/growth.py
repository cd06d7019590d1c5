"""Plays scripts of one kind and growing length, by turns, and prints the times and the ratio of the longest to the shortest one's:
python3 bench/growth.py ROUNDS RDS SCRIPT ..

The times are the medians of ROUNDS turns of whole processes, by the clock, each less that of a script without commands."""
import statistics
import subprocess
import sys
import time

rounds, rds, scripts = int(sys.argv[1]), sys.argv[2], sys.argv[3:]


def seconds(text):
    begun = time.monotonic()
    subprocess.run([rds, "play"], input=text, stdout=subprocess.DEVNULL, check=True)
    return time.monotonic() - begun


texts = {name: open(name, "rb").read() for name in scripts}
walls = {name: [] for name in scripts}
empty = []
for _ in range(rounds):
    empty.append(seconds(b"hosts 2\n"))
    for name in scripts:
        walls[name].append(seconds(texts[name]))
medians = {name: statistics.median(walls[name]) - statistics.median(empty) for name in scripts}
for name in scripts:
    print(f"{name.rsplit('/', 1)[-1]}: {medians[name] * 1000:.0f} ms")
print(f"ratio of the last to the first: {medians[scripts[-1]] / medians[scripts[0]]:.1f}")
