#!/bin/sh
# Runs `rds gen` with so many random numbers of sends and seeds, and says whether each ended well within a minute: sh bench/many.sh [RUNS]
cd "$(dirname "$0")/.." || exit 2
. bench/program.sh
exec python3 - "$PROGRAM" "${1:-500}" <<'PY'
import random, subprocess, sys, time
program, runs = sys.argv[1], int(sys.argv[2])
chance, bad, longest = random.Random(runs), 0, 0
for _ in range(runs):
    words = [str(int(10 ** chance.uniform(0, 5))), str(chance.getrandbits(64))]
    begun = time.monotonic()
    try:
        ended = subprocess.run([program, "gen", *words], capture_output=True, timeout=60).returncode == 0
    except subprocess.TimeoutExpired:
        ended = False
    longest = max(longest, time.monotonic() - begun)
    if not ended:
        bad += 1
        print("not well:", *words)
print(f"{runs} runs, {bad} of them not well; the longest took {longest:.1f} s")
sys.exit(bad > 0)
PY
