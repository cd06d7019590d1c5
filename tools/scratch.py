"""The crates of this repository as crates.txt has them, and scratch copies of some of them in which `rt` works."""

import contextlib
import os
import shutil
import signal
import subprocess
import sys
import tempfile

TOP = os.path.dirname(os.path.dirname(os.path.realpath(__file__)))


def crate_lines():
    """Returns the lines of crates.txt, without comments, by the names of their crates."""
    with open(f"{TOP}/crates.txt", encoding="utf-8") as file:
        lines = [line.partition("#")[0].strip() for line in file]
    return {line.split(":")[0].split()[0]: line for line in lines if line}


def with_those_below(names):
    """Returns these crates and each crate of the repository that they stand on."""
    lines, found, left = crate_lines(), set(), list(names)
    while left:
        name = left.pop()
        if name not in found:
            found.add(name)
            left += [it for it in lines[name].partition(":")[2].split() if it in lines]
    return found


def folder_of(name):
    return f"{TOP}/crates/{name}"


def stop(why):
    sys.exit(f"{os.path.relpath(sys.argv[0])}: {why}")


def stop_on_unknown(names):
    unknown = [name for name in names if name not in crate_lines()]
    if unknown:
        stop(f"{unknown[0]} is no crate of crates.txt")


@contextlib.contextmanager
def copied(names):
    """Gives a scratch folder with these crates, those below them, and no edits. It is removed in the end, also where this is interrupted."""
    for number in (signal.SIGTERM, signal.SIGHUP):
        signal.signal(number, lambda number, _: sys.exit(128 + number))
    lines, copied_crates = crate_lines(), with_those_below(names)
    room = tempfile.mkdtemp(prefix="rds-scratch-")
    try:
        # rt takes this for the top of a repository, wherever temporary files lie.
        os.mkdir(f"{room}/.git")
        with open(f"{room}/crates.txt", "w", encoding="utf-8") as file:
            file.writelines(f"{line}\n" for name, line in lines.items() if name in copied_crates)
        shutil.copyfile(f"{TOP}/HANDLES", f"{room}/HANDLES")
        for name in copied_crates:
            copy_crate(name, f"{room}/crates/{name}")
        yield room
    finally:
        removed(room)


def copy_crate(name, to):
    def left_out(folder, _):
        return {"out", "must-fail", "edits"} if folder == folder_of(name) else ()

    shutil.copytree(folder_of(name), to, symlinks=True, ignore=left_out)


def removed(room):
    """Removes the folder. A check that was ended a moment ago may still write there, so this looks twice."""
    shutil.rmtree(room, ignore_errors=True)
    shutil.rmtree(room, ignore_errors=True)


@contextlib.contextmanager
def started(words, room):
    """Starts the command in the scratch folder, and ends it where this is interrupted."""
    how = {"stdin": subprocess.DEVNULL, "stdout": subprocess.PIPE, "stderr": subprocess.STDOUT}
    try:
        child = subprocess.Popen(words, cwd=room, text=True, errors="replace", **how)
    except FileNotFoundError:
        stop(f"{words[0]}, the command of the kit of Rattle, isn't on this machine's PATH")
    try:
        yield child
    finally:
        if child.poll() is None:
            child.terminate()
        child.stdout.close()
        child.wait()
