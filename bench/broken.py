"""Lets calls of the system go wrong below `rds`: python3 bench/broken.py RDS FAULT_SO

Each case is the words of a command, and what goes wrong (bench/peers/fault.c). The answer has to be a status with its text, and it has to come
within LIMIT seconds (120). A line for each kind of case says how many there were, and how many ended with which status."""

import collections
import os
import re
import resource
import shutil
import subprocess
import sys
import tempfile

LIMIT = int(os.environ.get("LIMIT", "120"))
EVER = 1 << 40
NOBODY = 65_534
EINTR, EIO, EAGAIN, EMFILE, ENOSPC, EPIPE, ECONNRESET, ECONNREFUSED = 4, 5, 11, 24, 28, 32, 104, 111

PAYLOAD = re.compile(rb"=([0-9a-f]*)$", re.MULTILINE)

BINDS = "hosts 2\nbind A 4000 65536 65536\nbind B 4001 65536 65536\n"
HELLO = BINDS + "send A 4000 B 4001 t:hello\ndrain\nrecv B 4001\n"
# Both hosts send, more than one piece of bytes, and one stream is cut.
BOTH = BINDS + "".join(f"send A 4000 B 4001 f:{n}\nsend B 4001 A 4000 f:{n}\n" for n in range(40)) + "cut A B\nsend A 4000 B 4001 t:last\n"

PLAY, RUN, TCP = ["play"], ["run"], ["run", "--wire", "tcp"]
SCRIPTS = {"hello": HELLO.encode(), "both": BOTH.encode()}


class Tried:
    """Runs the program, and keeps what came of each kind of case."""

    def __init__(self, program, shim):
        self.program, self.shim, self.room = program, shim, tempfile.mkdtemp()
        self.came, self.wrong = collections.defaultdict(collections.Counter), 0
        self.whole = {}

    def run(self, words, script, fault="", before=None, **more):
        """Returns the status, the text and what stands on standard error, and how many calls were counted."""
        count = f"{self.room}/count"
        named = {"LD_PRELOAD": self.shim, "FAULT": fault, "FAULT_COUNT": count} if fault else {}
        try:
            done = subprocess.run(
                [self.program, *words], input=SCRIPTS[script], capture_output=True, timeout=LIMIT, env={**os.environ, **named}, preexec_fn=before, **more
            )
            status, text, error = done.returncode, done.stdout, done.stderr
        except subprocess.TimeoutExpired as late:
            status, text, error = "no end", late.stdout or b"", b""
        calls = int.from_bytes(open(count, "rb").read(), sys.byteorder) if fault and os.path.exists(count) else 0
        return status, text, error, calls

    def text_of(self, words, script):
        """The whole text where nothing goes wrong. That of a run over TCP is the one of a run in memory."""
        words = words[:1]
        if (words[0], script) not in self.whole:
            self.whole[words[0], script] = self.run(words, script)[1]
        return self.whole[words[0], script]

    def is_right(self, words, script, fault, status, text):
        """Whether docs/COMMAND.md tells such an answer. No checksum covers payloads, so a changed one may come."""
        whole, line = self.text_of(words, script), text.decode(errors="replace")
        if " changed " in fault:
            whole, text = (PAYLOAD.sub(lambda it: b"=" + b"." * len(it[1]), it) for it in (whole, text))
        wire = words == TCP and (status == 5 and line.startswith("wire fault A B after k=") or status == 8 and line.startswith("unfinished "))
        return {
            0: text == whole,
            3: text == b"read fault\n",
            4: whole.startswith(text) and text != whole,
            6: text == b"",
        }.get(status, wire and line.count("\n") == 1)

    def case(self, kind, words, script, fault, allowed, **more):
        """Tries one case, which may end with one of these statuses."""
        status, text, error, _ = self.run(words, script, fault, **more)
        self.came[kind][status] += 1
        if status not in allowed or not self.is_right(words, script, fault, status, text) or error:
            self.wrong += 1
            print(f"wrong: {kind}: {' '.join(words)} on {script}, {fault}: status {status}, {text[-80:]!r}, {error[-200:]!r}", flush=True)

    def calls(self, words, script, call):
        """How many of these calls there are where none goes wrong."""
        return self.run(words, script, f"{call} none {EVER} {EVER}")[3]

    def each(self, kind, words, script, call, what, allowed, most=64):
        """Lets each of these calls go wrong in turn, or `most` of them, and then all of them."""
        count = self.calls(words, script, call)
        step = max(1, count // most)
        for at in range(1, count + 1, step):
            self.case(kind, words, script, f"{call} {what} {at} {at}", allowed)
        return count

    def tell(self):
        for kind, statuses in self.came.items():
            said = ", ".join(f"{count} with status {status}" for status, count in sorted(statuses.items(), key=str))
            print(f"{kind}: {sum(statuses.values())} runs: {said}")
        print(f"{sum(sum(it.values()) for it in self.came.values())} runs: {self.wrong} of them wrong")
        shutil.rmtree(self.room)
        return 1 if self.wrong else 0


def sources_and_sinks(tried):
    for words in (PLAY, RUN, TCP):
        for script in SCRIPTS:
            tried.each("a read that fails", words, script, "read", EIO, (0, 3))
            tried.each("a write that fails", words, script, "write", ENOSPC, (0, 4))
            tried.case("reads of one byte", words, script, f"read one 1 {EVER}", (0,))
            tried.case("writes of one byte", words, script, f"write one 1 {EVER}", (0,))
        tried.case("each read fails", words, "hello", f"read {EIO} 1 {EVER}", (3,))
        tried.case("each write fails", words, "hello", f"write {ENOSPC} 1 {EVER}", (4,))


def openings(tried):
    for call, error in (
        ("socket", EMFILE),
        ("bind", EMFILE),
        ("listen", EMFILE),
        ("connect", ECONNREFUSED),
        ("accept4", EMFILE),
        ("ioctl", EIO),
        ("getsockname", EIO),
        ("setsockopt", EIO),
    ):
        if tried.each("an opening that fails", TCP, "hello", call, error, (0, 5)):
            tried.case("no opening goes well", TCP, "hello", f"{call} {error} 1 {EVER}", (0, 5))
    for at in range(1, 4):
        tried.case("a stranger connects first", TCP, "hello", f"connect stranger {at} {at}", (0, 5))
    tried.case("strangers connect first", TCP, "hello", f"connect stranger 1 {EVER}", (0, 5))


def threads(tried):
    for words, allowed in ((TCP, (0, 5)), (RUN, (0, 6))):
        tried.each("a thread that is refused", words, "hello", "pthread_create", EAGAIN, allowed)
        tried.case("all threads are refused", words, "hello", f"pthread_create {EAGAIN} 1 {EVER}", allowed)
    if os.getuid() == 0:
        for most in range(1, 24):

            def few(most=most):
                resource.setrlimit(resource.RLIMIT_NPROC, (most, most))

            tried.case("a user with few threads", TCP, "hello", "", (0, 5, 6), before=few, user=NOBODY)
    else:
        print("not root: no run of a user with few threads")


def peers(tried):
    for script in SCRIPTS:
        for what in ("garbage", "changed", "end", ECONNRESET):
            tried.each(f"a peer whose one piece is {what}", TCP, script, "recv", what, (0, 5), 40)
        for at in range(1, 9):
            for what in ("garbage", "changed", "end", ECONNRESET):
                tried.case(f"peers whose pieces from the n-th on are {what}", TCP, script, f"recv {what} {at} {EVER}", (0, 5, 8))
            for what in (EPIPE, ECONNRESET):
                tried.case(f"peers who take nothing from the n-th piece on, error {what}", TCP, script, f"send {what} {at} {EVER}", (0, 5, 8))
        tried.each("a peer who resets while it is written to", TCP, script, "send", ECONNRESET, (0, 5), 40)
        tried.case("pieces of one byte", TCP, script, f"recv one 1 {EVER}", (0,))
        tried.case("pieces of one byte written", TCP, script, f"send one 1 {EVER}", (0,))
    for at in (1, 2, 3, 5, 8):
        tried.case("peers who send nothing from the n-th piece on", TCP, "hello", f"recv nothing {at} {EVER}", (0, 5, 8))
        tried.case("half-open connections from the n-th piece on", TCP, "hello", f"send nothing {at} {EVER}", (0, 5, 8))
        tried.case("100 pieces of zeros from the n-th on", TCP, "hello", f"recv zeros {at} {at + 99}", (0, 5, 8))


def main(program, shim):
    tried = Tried(program, shim)
    for part in (sources_and_sinks, openings, threads, peers):
        part(tried)
    return tried.tell()


if __name__ == "__main__":
    if len(sys.argv) != 3:
        sys.exit(__doc__)
    sys.exit(main(*sys.argv[1:]))
