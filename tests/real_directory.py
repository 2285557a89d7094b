#!/usr/bin/env python3
"""Runs two programs on one folder: the second is refused by the first's lock and touches nothing, and goes on
from the log of the first once that has ended. Where strace is there, sees too which files the program syncs,
and that a reply waits for the sync of its log.

Exits 0 where all holds. Skipped where the toolchain, which builds the program, is missing.
"""

import os
import re
import shutil
import subprocess
import sys
import tempfile

ROOT = os.path.dirname(os.path.dirname(os.path.abspath(__file__)))
PROGRAM = os.path.join(ROOT, "modhost")
LOG = "appendonly.aof"
FAULT = (3, b"", b"modhost: directory fault\n")

SET_A = b"*3\r\n$3\r\nSET\r\n$1\r\na\r\n$1\r\n1\r\n"
SET_B = b"*3\r\n$3\r\nSET\r\n$1\r\nb\r\n$1\r\n2\r\n"
# The key a, due since 1970.
DUE_A = SET_A + b"*3\r\n$9\r\nPEXPIREAT\r\n$1\r\na\r\n$4\r\n1000\r\n"


def begin(folder):
    return subprocess.Popen(
        [PROGRAM, "pipe", folder], stdin=subprocess.PIPE, stdout=subprocess.PIPE, stderr=subprocess.PIPE
    )


def run(folder, sent):
    done = subprocess.run([PROGRAM, "pipe", folder], input=sent, capture_output=True, timeout=60)
    return done.returncode, done.stdout, done.stderr


def content(folder):
    with open(os.path.join(folder, LOG), "rb") as file:
        return file.read()


def serve(program, request, reply):
    """Sends a request and waits for its reply."""
    program.stdin.write(request)
    program.stdin.flush()
    told = program.stdout.read(len(reply))
    return None if told == reply else f"the reply is {told!r} instead of {reply!r}"


def two_programs(folder):
    first = begin(folder)
    try:
        wrong = serve(first, b"SET a 1\n", b"+OK\r\n")
        if wrong:
            return wrong
        # The second reaches the folder by a link.
        link = folder + ".link"
        os.symlink(folder, link)
        second = run(link, b"SET b 2\n")
        os.unlink(link)
        if second != FAULT:
            return f"the second program ends with {second}"
        if content(folder) != SET_A or os.listdir(folder) != [LOG]:
            return f"the second program left {os.listdir(folder)} and the log {content(folder)!r}"
        wrong = serve(first, b"SET b 2\n", b"+OK\r\n")
        if wrong:
            return wrong
        first.stdin.close()
        if first.wait(60) != 0 or content(folder) != SET_A + SET_B:
            return f"the first program ends with {first.returncode} and the log {content(folder)!r}"
    finally:
        first.kill()
        first.wait()
    third = run(folder, b"GET b\n")
    return None if third == (0, b"$1\r\n2\r\n", b"") else f"the third program ends with {third}"


def killed(folder):
    """The lock goes with the process, however that ends."""
    first = begin(folder)
    wrong = serve(first, b"SET a 1\n", b"+OK\r\n")
    first.kill()
    first.wait()
    if wrong:
        return wrong
    second = run(folder, b"GET a\n")
    return None if second == (0, b"$1\r\n1\r\n", b"") else f"the program after it ends with {second}"


def late_folder(folder):
    """A folder that is missing, then a file, and then there."""
    os.rmdir(folder)
    ends = [run(folder, b"PING\n")]
    with open(folder, "wb"):
        ends.append(run(folder, b"PING\n"))
    os.unlink(folder)
    os.mkdir(folder)
    ends.append(run(folder, b"PING\n"))
    return None if ends == [FAULT, FAULT, (0, b"+PONG\r\n", b"")] else f"the programs end with {ends}"


def can_trace():
    if not shutil.which("strace"):
        return False
    return subprocess.run(["strace", "-o", os.devnull, "true"], capture_output=True, check=False).returncode == 0


def calls(folder, sent):
    """What a run asks of the system about the folder, and its writes to standard output, in short words."""
    trace = folder + ".trace"
    wanted = "openat,write,ftruncate,fsync,fdatasync,flock,rename"
    subprocess.run(
        ["strace", "-f", "-y", "-o", trace, "-e", f"trace={wanted}", PROGRAM, "pipe", folder],
        input=sent, stdout=subprocess.DEVNULL, stderr=subprocess.DEVNULL, timeout=60, check=False,
    )
    with open(trace, encoding="latin-1") as file:
        lines = file.read().splitlines()
    os.unlink(trace)
    found = []
    for line in lines:
        call = re.search(r"(\w+)\(", line).group(1) if "(" in line else ""
        if call == "write" and "write(1</dev/null" in line:
            found.append("reply")
        elif folder + "/" + LOG in line and call != "openat":
            found.append(f"{call} log")
        elif folder + "/" + LOG in line and "O_TRUNC" in line:
            found.append("make log")
        elif re.search(rf"\(\d+<{re.escape(folder)}>", line):
            found.append(f"{call} folder")
    return found


NEW_LOG = ["flock folder", "make log", "fsync log", "fsync folder"]
REPLY = ["write log", "fdatasync log", "reply"]
OLD_LOG = ["flock folder", "fdatasync log", "fsync folder"]
TORN_LOG = ["flock folder", "fdatasync log", "ftruncate log", "fdatasync log", "fsync folder"]


def syncs(folder):
    # What is added to the log before a run, what is sent, and the calls.
    runs = [
        (b"", b"SET a 1\n", NEW_LOG + REPLY),
        (b"", b"SET a 1\n", OLD_LOG + REPLY),
        (b"", b"GET a\n", OLD_LOG + ["reply"]),
        (b"", b"RPUSH l x\nHSET h f v\nLLEN l\n", OLD_LOG + 2 * REPLY + ["reply"]),
        # A key that is due goes first, and one sync makes both changes safe.
        (DUE_A, b"GET a\n", OLD_LOG + REPLY),
        (DUE_A, b"SET b 2\n", OLD_LOG + ["write log"] + REPLY),
        (b"*2\r\n", b"SET a 1\n", TORN_LOG + REPLY),
    ]
    for added, sent, wanted in runs:
        if added:
            with open(os.path.join(folder, LOG), "ab") as log:
                log.write(added)
        found = calls(folder, sent)
        if found != wanted:
            return f"at {sent!r} the calls are {found} instead of {wanted}"
    return None


def link_syncs(folder):
    """A log that is a link: the folder of the file that it names is synced too."""
    far = folder + ".far"
    os.mkdir(far)
    os.symlink(os.path.join(far, "log"), os.path.join(folder, LOG))
    trace = folder + ".trace"
    subprocess.run(
        ["strace", "-f", "-y", "-o", trace, "-e", "trace=fsync", PROGRAM, "pipe", folder],
        input=b"SET a 1\n", stdout=subprocess.DEVNULL, stderr=subprocess.DEVNULL, timeout=60, check=False,
    )
    with open(trace, encoding="latin-1") as file:
        synced = re.findall(r"fsync\(\d+<([^>]*)>", file.read())
    os.unlink(trace)
    shutil.rmtree(far)
    wanted = [os.path.join(far, "log"), far, folder]
    return None if synced == wanted else f"the synced files are {synced} instead of {wanted}"


def main():
    if not shutil.which("rt"):
        print("skipped, for want of the toolchain: tests/real_directory.py")
        return 0
    # Proves the program first where that is due.
    subprocess.run([PROGRAM, "prove"], check=True)
    traced = [syncs, link_syncs] if can_trace() else []
    if not traced:
        print("skipped in tests/real_directory.py, for want of strace: which files are synced")
    for check in [two_programs, killed, late_folder] + traced:
        with tempfile.TemporaryDirectory() as place:
            folder = os.path.join(os.path.realpath(place), "data")
            os.mkdir(folder)
            wrong = check(folder)
        if wrong:
            print(f"tests/real_directory.py: {check.__name__}: {wrong}")
            return 1
    print(f"tests/real_directory.py: {3 + len(traced)} checks hold")
    return 0


if __name__ == "__main__":
    sys.exit(main())
