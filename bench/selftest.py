"""Runs scripts of many messages between eight hosts over TCP, and compares what each port pair sent with what it received:
python3 bench/selftest.py RDS [N [SEED ..]]

A chain of SHA-256 is folded over the payloads of each port pair, in their order. What the report says was taken back or found no socket is
left out of the chain of what was sent: payloads are numbered, so the report shows which ones those were, and their count has to agree.
In a network of its own (INSIDE is set) a few connections are closed from outside in each run."""

import collections
import hashlib
import os
import random
import re
import subprocess
import sys
import threading
import time

HOSTS = "ABCDEFGH"
PORTS = (4000, 4001, 4002)
CUTS = 12
BUFFER = 16_777_216
TEXT = 16_000_000
GROUP = re.compile(
    r"(\w:\d+>\w:\d+) accepted (\d+) received (\d+) unread (\d+) dropped (\d+) port0 (\d+) cancelled (\d+) pending (\d+)$"
)


def numbered(chance, number, longest):
    """Returns a payload that no other message of its port pair has: its number, and some bytes at random."""
    return number.to_bytes(4, "big") + chance.randbytes(chance.randint(0, longest))


def made(chance, count):
    """Returns a script of so many messages, and the payloads that each port pair sent, in their order."""
    lines = [f"hosts {len(HOSTS)}"]
    lines += [f"bind {host} {port} {BUFFER} {BUFFER}" for host in HOSTS for port in PORTS]
    sent, longest = collections.defaultdict(list), min(200, TEXT // count - 55)
    cut_at = {chance.randrange(count) for _ in range(CUTS)}
    for number in range(count):
        a, b = chance.sample(HOSTS, 2)
        # The last port of each host is bound to be closed or cancelled at times, so its messages may be taken back or dropped.
        port, other = chance.choices(PORTS, (8, 8, 1), k=2)
        payload = numbered(chance, number, longest)
        lines.append(f"send {a} {port} {b} {other} x:{payload.hex()}")
        sent[f"{a}:{port}>{b}:{other}"].append(payload)
        if number in cut_at:
            lines.append(f"cut {a} {b}")
        if chance.random() < 0.02:
            lines.append(f"recv {b} {other}")
        if chance.random() < 0.002:
            lines.append(f"cancel {a} {PORTS[-1]} {b} {chance.choice(PORTS)}")
    lines += [f"close {host} {PORTS[-1]}" for host in HOSTS if chance.random() < 0.5]
    return "\n".join(lines) + "\n", sent


def chain(payloads):
    """Folds payloads into one hash, each behind the hash of those before it."""
    folded = b""
    for payload in payloads:
        folded = hashlib.sha256(folded + payload).digest()
    return folded


def groups(text):
    """Returns the counts and the payloads received of each port pair of a report."""
    found, received = {}, None
    for line in text.splitlines():
        if group := GROUP.match(line):
            received = []
            found[group[1]] = ([int(count) for count in group.groups()[1:]], received)
        elif line.startswith(" data="):
            received.append(bytes.fromhex(line.removeprefix(" data=")) if line != " data=-" else b"")
    return found


def wrongs(text, sent):
    """Returns what a report of an ended run says that can't be, a line for each port pair."""
    found = groups(text)
    wrong = [] if text.endswith("end ok\n") else ["the report has no end"]
    wrong += [f"{pair}: nobody sent that" for pair in found if pair not in sent]
    for pair, payloads in sent.items():
        (accepted, received, unread, dropped, port0, cancelled, pending), came = found.get(pair, ([0] * 7, []))
        held = set(came)
        left_out = len(payloads) - sum(payload in held for payload in payloads)
        if accepted != len(payloads):
            wrong.append(f"{pair}: {len(payloads)} were sent and {accepted} accepted")
        elif received != len(came) or port0 or pending or left_out != unread + dropped + cancelled:
            wrong.append(f"{pair}: {left_out} didn't come, and the counts say otherwise: {found[pair][0]}")
        elif chain(payload for payload in payloads if payload in held) != chain(came):
            wrong.append(f"{pair}: the chains differ")
    return wrong


def closing(chance, ended):
    """Closes connections of this network, one at a time and at random moments, while a run goes on."""
    for _ in range(chance.randint(2, 6)):
        if ended.wait(chance.uniform(0.02, 0.15)):
            return
        listed = subprocess.run(["ss", "-Htn", "state", "established"], capture_output=True, text=True).stdout.split("\n")
        if lines := [line.split() for line in listed if line]:
            port = chance.choice(lines)[2].rpartition(":")[2]
            subprocess.run(["ss", "-K", "-tn", f"sport = :{port}"], capture_output=True)


def tried(program, seed, count):
    """Makes and runs the script of a seed, prints its line, and returns whether all was right."""
    chance = random.Random(seed)
    script, sent = made(chance, count)
    ended, begun = threading.Event(), time.monotonic()
    closer = threading.Thread(target=closing, args=(chance, ended))
    if os.environ.get("INSIDE"):
        closer.start()
    try:
        done = subprocess.run([program, "run", "--wire", "tcp"], input=script, capture_output=True, text=True, timeout=300)
        status, text = done.returncode, done.stdout
    except subprocess.TimeoutExpired:
        status, text = None, ""
    ended.set()
    spent = time.monotonic() - begun
    if status == 0:
        counts = [sum(column) for column in zip(*(counts for counts, _ in groups(text).values()))]
        wrong = wrongs(text, sent)
        came = f"{counts[1]} received, {counts[2] + counts[3]} unread or dropped, {counts[5]} cancelled"
    else:
        # Streams that were closed from outside may be used up: then the run has to say so.
        wrong = [] if status in (5, 8) and text.startswith(("wire fault", "unfinished")) else [f"it ended with status {status}"]
        came = text.strip()[:60] or "no end"
    told = "chains agree" if status == 0 and not wrong else "no chains" if not wrong else f"WRONG: {'; '.join(wrong[:3])}"
    print(f"seed {seed}: {count} messages between {len(sent)} port pairs, {came}, {told}, {spent:.1f} s", flush=True)
    return not wrong


def main(program, count="50000", *seeds):
    results = [tried(program, int(seed), int(count)) for seed in seeds or range(1, 11)]
    return 0 if all(results) else 1


if __name__ == "__main__":
    if not sys.argv[1:]:
        sys.exit(__doc__)
    sys.exit(main(*sys.argv[1:]))
