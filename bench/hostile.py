"""Tries what `rds` has to refuse: python3 bench/hostile.py RDS

Each case is a name, words, what stands on standard input, and the status and the last line that have to come, within a minute and with
nothing on standard error. It prints the cases that went otherwise, and a count."""

import resource
import subprocess
import sys

MIB = 1 << 20
USAGE = "usage: rds play | rds run [--wire memory|tcp] | rds gen N SEED"
HELLO = b"hosts 2\nbind A 4000 65536 65536\nbind B 4001 65536 65536\nsend A 4000 B 4001 t:hello\ndrain\nrecv B 4001\n"

# Words of no command, on the script HELLO.
WORDS = [
    [], [""], ["play", "x"], ["play", "--help"], ["--help"], ["-h"], ["--version"], ["PLAY"], ["play", "--", "--"], ["run", "--wire"], ["run", "--wire", "udp"],
    ["run", "--wire="], ["run", "--wire", "tcp", "--wire", "tcp"], ["run", "tcp"], ["run", "--wires", "tcp"], ["gen"], ["gen", "1"], ["gen", "0", "1"],
    ["gen", "100001", "1"], ["gen", "1", "18446744073709551616"], ["gen", "01", "1"], ["gen", "+1", "1"], ["gen", "-1", "1"], ["gen", "1", "1", "1"], ["gen", "1 ", "1"],
    [b"\xff"], [b"play\xc3"], ["p" * 100_000], ["play"] * 1_000, ["play "], [" play"], ["play", ""], ["play", "--", "x"], ["play", "-"], ["play", "--wire", "tcp"],
    ["run", ""], ["run", "--", "--"], ["run", "-w", "tcp"], ["run", "--wire", ""], ["run", "--wire", "TCP"], ["run", "--wire=tcp", "x"], ["run", "--wir", "tcp"],
    ["run", "--wire=memory", "--wire=memory"], ["run", "memory"], ["run", "--wire", "tcp", "--help"], ["gen", "", "1"], ["gen", "1", ""], ["gen", "1.0", "1"],
    ["gen", "1e3", "1"], ["gen", "0x10", "1"], ["gen", "1", "-1"], ["gen", "1", "+1"], ["gen", "1", "007"], ["gen", "4294967297", "1"], ["gen", "--wire", "tcp"],
    ["gen", "1", "1", "--wire", "tcp"], ["gen", "\u0663", "1"], ["gen", "1", "99999999999999999999999999"], ["trail"], ["audit"], ["play", "\n"], ["run\n"],
]

# Texts of scripts, with the status and the line that `play` and `run` answer.
TEXTS = [
    ("nothing", b"", 1, "bad line 0: empty"),
    ("one newline", b"\n", 1, "bad line 0: empty"),
    ("no final newline", HELLO.rstrip(b"\n"), 0, "end ok"),
    ("carriage returns", HELLO.replace(b"\n", b"\r\n"), 0, "end ok"),
    ("a carriage return within a line", HELLO.replace(b"4000 B", b"4000\rB"), 1, "bad line 4: text"),
    ("two carriage returns", b"hosts 2\r\r\n", 1, "bad line 1: text"),
    ("a zero byte", HELLO.replace(b"t:hello", b"t:hel\0o"), 1, "bad line 4: text"),
    ("a byte that is no UTF-8", HELLO + b"# \xff\n", 1, "bad line 7: text"),
    ("a letter of two bytes", HELLO + "# é\n".encode(), 1, "bad line 7: text"),
    ("16 MiB of zeros", bytes(16 * MIB), 1, "bad line 1: text"),
    ("one byte more", bytes(16 * MIB + 1), 1, "bad line 0: too large"),
    ("100 MiB of zeros", bytes(100 * MIB), 1, "bad line 0: too large"),
    ("16 MiB of newlines", b"\n" * (16 * MIB), 1, "bad line 200001: lines"),
    ("16 MiB of spaces", b" " * (16 * MIB), 1, "bad line 0: empty"),
    ("one comment of 16 MiB", b"#" * (16 * MIB), 1, "bad line 0: empty"),
    ("one word of 16 MiB", b"a" * (16 * MIB), 1, "bad line 1: command"),
    ("8 million words", b"hosts" + b" 2" * (8 * MIB - 3), 1, "bad line 1: words"),
    ("a number of a million digits", b"hosts 2\nrecv A " + b"0" * 1_000_000 + b"\n", 1, "bad line 2: number"),
    ("200,000 commands", b"hosts 2\n" + b"recv A 1\n" * 199_999, 0, "end ok"),
    ("one more", b"hosts 2\n" + b"recv A 1\n" * 200_000, 1, "bad line 200001: lines"),
    ("1,024 cuts", b"hosts 2\n" + b"cut A B\n" * 1_024, 0, "end ok"),
    ("one cut more", b"hosts 2\n" + b"cut A B\n" * 1_025, 1, "bad line 1026: cuts"),
    ("payloads of 16 MiB", b"hosts 2\n" + b"send A 1 B 2 f:2097152\n" * 8, 0, "end ok"),
    ("one byte of payload more", b"hosts 2\n" + b"send A 1 B 2 f:2097152\n" * 8 + b"send A 1 B 2 t:x\n", 1, "bad line 10: total"),
    ("a payload too long", b"hosts 2\nsend A 1 B 2 f:2097153\n", 1, "bad line 2: payload"),
    ("half a byte", b"hosts 2\nsend A 1 B 2 x:0\n", 1, "bad line 2: payload"),
]


# Texts of so many bytes, each of which is refused or read at its end. The time that they take has to grow no faster than they do.
GROWING = [
    ("zeros", lambda size: bytes(size)),
    ("newlines", lambda size: b"\n" * size),
    ("spaces and no newline", lambda size: b" " * size),
    ("one word", lambda size: b"a" * size),
    ("one comment", lambda size: b"#" * size),
    ("words", lambda size: b"hosts" + b" 2" * (size // 2 - 3)),
    ("digits", lambda size: b"hosts 2\nrecv A " + b"1" * (size - 20)),
    ("a payload", lambda size: b"hosts 2\nsend A 1 B 2 x:" + b"00" * (size // 2 - 20)),
    ("long comments", lambda size: (b"#" * 99 + b"\r\n") * (size // 101)),
    ("bytes that are no UTF-8 in the last line", lambda size: (b"#" * 99 + b"\n") * (size // 101) + b"\xc3"),
    ("a zero byte at the end", lambda size: b"#" * (size - 1) + b"\0"),
    ("sends", lambda size: b"hosts 2\n" + b"send A 1 B 2 x:%s\n" % (b"5a" * 20_000) * (size // 40_016)),
]


def limited(kind, most):
    """Returns what sets a limit of the system for a program that is to be started."""
    return lambda: resource.setrlimit(kind, (most, most))


def answer(program, words, given, before=None, **ends):
    """Runs the program, and returns its status, its last line, and what it wrote to standard error."""
    source = {} if given is None else {"input": given}
    try:
        done = subprocess.run([program, *words], **{"stdout": subprocess.PIPE, **source, **ends}, stderr=subprocess.PIPE, preexec_fn=before, timeout=60)
    except subprocess.TimeoutExpired:
        return "no end", "", b""
    lines = (done.stdout or b"").decode(errors="replace").splitlines()
    return done.returncode, lines[-1] if lines else "", done.stderr


def refusals(program):
    """Yields each case of words and of texts: its name, whether its answer was the one that has to come, and the answer."""
    for words in WORDS:
        status, line, error = answer(program, words, HELLO)
        yield f"words {str(words)[:60]}", (status, line, error) == (2, USAGE, b""), (status, line, error)
    for name, text, wanted, last in TEXTS:
        for words in (["play"], ["run"], ["run", "--wire", "memory"]):
            status, line, error = answer(program, words, text)
            yield f"{' '.join(words)}: {name}", (status, line, error) == (wanted, last, b""), (status, line[:80], error)


def processor_time(program, words, given):
    """Returns the least processor time that the program takes for this input, of three turns, in seconds."""
    least = float("inf")
    for _ in range(3):
        before = resource.getrusage(resource.RUSAGE_CHILDREN)
        answer(program, words, given)
        after = resource.getrusage(resource.RUSAGE_CHILDREN)
        least = min(least, after.ru_utime + after.ru_stime - before.ru_utime - before.ru_stime)
    return least


def growths(program):
    """Yields each text at 2 and at 16 MiB, likewise: it may take 24 times as long, which is three times its share, or twenty milliseconds."""
    for name, made in GROWING:
        for words in (["play"], ["run"]):
            small, large = (processor_time(program, words, made(size * MIB)) for size in (2, 16))
            yield f"{words[0]}: the time of 16 MiB of {name}", large <= max(0.02, 24 * small), (small, large)


def faults(program):
    """Yields each case of a source or a sink that fails, and of too little of what a run needs, likewise."""
    for words in (["play"], ["run"]):
        with open("/dev/null", "rb") as nothing:
            status, line, error = answer(program, words, None, stdin=nothing)
            yield f"{words[0]}: an empty source", (status, line, error) == (1, "bad line 0: empty", b""), (status, line, error)
        closed = subprocess.run(["sh", "-c", 'exec "$0" "$@" <&-', program, *words], capture_output=True, timeout=60)
        yield f"{words[0]}: no source", (closed.returncode, closed.stdout) == (3, b"read fault\n"), (closed.returncode, closed.stdout)
        folder = subprocess.run(["sh", "-c", 'exec "$0" "$@" < /', program, *words], capture_output=True, timeout=60)
        yield f"{words[0]}: a folder as source", (folder.returncode, folder.stdout) == (3, b"read fault\n"), (folder.returncode, folder.stdout)
        with open("/dev/full", "wb") as full:
            status, _, error = answer(program, words, HELLO, stdout=full)
            yield f"{words[0]}: a sink without room", (status, error) == (4, b""), (status, error)
        none = subprocess.run(["sh", "-c", 'exec "$0" "$@" >&-', program, *words], input=HELLO, stderr=subprocess.PIPE, timeout=60)
        yield f"{words[0]}: no sink", (none.returncode, none.stderr) == (4, b""), (none.returncode, none.stderr)
    for most in (4, 5, 6, 8, 12, 16, 24):
        status, line, error = answer(program, ["run", "--wire", "tcp"], HELLO, limited(resource.RLIMIT_NOFILE, most))
        right = (status, line) == (0, "end ok") or status == 5 and line.startswith("wire fault A B ") or (status, line) == (6, "")
        yield f"run --wire tcp: {most} open files", right and not error, (status, line, error)
    for mebibytes in (12, 16, 24, 32, 48, 64, 96, 128, 192, 256):
        for words in (["play"], ["run"], ["run", "--wire", "tcp"], ["gen", "1000", "7"]):
            status, line, error = answer(program, words, HELLO, limited(resource.RLIMIT_AS, mebibytes * MIB))
            right = (status, line) in ((0, "end ok"), (6, "")) or status == 5 and line.startswith("wire fault ")
            yield f"{' '.join(words)}: {mebibytes} MiB of memory", right and not error, (status, line, error)


def main(program):
    count = wrong = 0
    for part in (refusals, growths, faults):
        for name, right, got in part(program):
            count += 1
            wrong += not right
            if not right:
                print(f"wrong: {name}: {got}", flush=True)
    print(f"{count} cases: {wrong} of them wrong")
    return 1 if wrong else 0


if __name__ == "__main__":
    if len(sys.argv) != 2:
        sys.exit(__doc__)
    sys.exit(main(sys.argv[1]))
