#!/bin/sh
# Runs `rds run --wire tcp` over a loopback of its own that loses packets, while sockets are closed from outside, and says whether each
# run ended with a status and received nothing twice or out of order: sh bench/faults.sh [RUNS]. It needs nft, ss and unshare.
cd "$(dirname "$0")/.." || exit 2
. bench/program.sh
if [ -z "$INSIDE" ]; then
    exec env INSIDE=1 RDS="$PROGRAM" unshare -rn sh bench/faults.sh "$@"
fi
ip link set lo up
tc qdisc add dev lo root netem delay 1ms 1ms 2> /dev/null || echo "no netem on this machine: no packet is delayed"
nft -f - <<'NFT' || echo "no filter of packets on this machine: none is lost"
table ip faults {
    chain input {
        type filter hook input priority 0;
        numgen random mod 1000 < 5 drop
        limit rate over 40 mbytes/second drop
    }
}
NFT
exec python3 - "$PROGRAM" "${1:-200}" <<'PY'
import collections, random, re, subprocess, sys, threading, time

program, runs = sys.argv[1], int(sys.argv[2])
chance, statuses, wrong, longest = random.Random(runs), collections.Counter(), [], 0


def script():
    """A script of two to four hosts with one socket each, sends with payloads of their own, and cuts; and its sends by pair of hosts."""
    hosts = "ABCD"[: chance.randint(2, 4)]
    lines, sent = [f"hosts {len(hosts)}"] + [f"bind {h} {4000 + i} 16777216 16777216" for i, h in enumerate(hosts)], {}
    for number in range(chance.randint(100, 20_000)):
        a, b = chance.sample(hosts, 2)
        if chance.random() < 0.0005:
            lines.append(f"cut {a} {b}")
        lines.append(f"send {a} {4000 + hosts.index(a)} {b} {4000 + hosts.index(b)} t:{number:06}")
        sent.setdefault((a, b), []).append(number)
    return "\n".join(lines) + "\n", sent


def closing(ended):
    """Closes all connections of this namespace at random moments."""
    while not ended.wait(chance.uniform(0.02, 0.4)):
        subprocess.run(["ss", "-K", "-tn", "dst", "127.0.0.1"], capture_output=True)


def is_right(text, sent):
    """Whether each pair received numbers that were sent, in order and each once, and the text is whole."""
    pair, last = None, -1
    for line in text.splitlines():
        if found := re.match(r"(\w):\d+>(\w):\d+ accepted", line):
            pair, last = found.groups(), -1
        elif found := re.match(r" data=(\w+)", line):
            number = int(bytes.fromhex(found[1]))
            if number <= last or number not in sent[pair]:
                return False
            last = number
    return text.endswith("end ok\n")


for run in range(runs):
    text, sent = script()
    sent = {pair: set(numbers) for pair, numbers in sent.items()}
    ended, begun = threading.Event(), time.monotonic()
    closer = threading.Thread(target=closing, args=(ended,))
    if run % 2:
        closer.start()
    try:
        done = subprocess.run([program, "run", "--wire", "tcp"], input=text, capture_output=True, text=True, timeout=300)
        statuses[done.returncode] += 1
        if done.returncode not in (0, 5, 8) or done.returncode == 0 and not is_right(done.stdout, sent):
            wrong.append((run, done.returncode, done.stdout[:80]))
    except subprocess.TimeoutExpired:
        wrong.append((run, "no end", ""))
    ended.set()
    longest = max(longest, time.monotonic() - begun)
for it in wrong:
    print("wrong:", *it)
counts = ", ".join(f"{count} with status {status}" for status, count in sorted(statuses.items()))
print(f"{runs} runs: {counts}; {len(wrong)} of them wrong; the longest took {longest:.1f} s")
sys.exit(bool(wrong))
PY
