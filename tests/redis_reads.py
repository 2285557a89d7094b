#!/usr/bin/env python3
"""Has the program write a log by one request or more of every command that changes keys, starts redis-server on a
copy of the folder, and asks both for every key: its type, its value and the moment at which it is due.

Exits 0 where both tell the same. Skipped where the toolchain, which builds the program, or redis-server is missing.
"""

import os
import shutil
import socket
import subprocess
import sys
import tempfile
import time

PROGRAM = os.path.join(os.path.dirname(os.path.dirname(os.path.abspath(__file__))), "modhost")
LOG = "appendonly.aof"
SECONDS = 30

# A moment in the year 2100, and how far apart two answers of what is left until then may be: milliseconds.
LATE, SLACK = b"4102444800000", 10_000

WRITES = [
    b"SET s one", b"SET other value NX", b"SETNX t v", b"GETSET s two", b"APPEND s three", b"SETRANGE s 8 xyz",
    b"INCR n", b"DECR n", b"INCRBY n 10", b"DECRBY n 30", b"MSET a 1 b \xff\x00\r\n",
    b"LPUSH l 1 2 3", b"RPUSH l 4 5 6 4", b"LPOP l", b"RPOP l", b"LSET l 0 zero", b"LTRIM l 0 3", b"LREM l 1 5",
    b"RPUSH gone x", b"LPOP gone",
    b"HSET h f 1 g 2", b"HMSET h i 3", b"HSETNX h j x", b"HDEL h g", b"HINCRBY h f 5",
    b"HSET empty f v", b"HDEL empty f",
    b"DEL a absent", b"RENAME b c", b"EXPIRE s 1000000", b"PEXPIREAT c " + LATE, b"PEXPIREAT t " + LATE, b"PERSIST t",
    b"RPUSH due x", b"PEXPIREAT due 1000", b"SET renewed 1", b"EXPIRE renewed 1000", b"SET renewed 2",
    b"RENAME c moved",
]

KEYS = [b"s", b"other", b"t", b"n", b"a", b"b", b"l", b"gone", b"h", b"empty", b"c", b"due", b"renewed", b"moved"]

# How the value of a key of a type is asked for.
VALUES = {b"string": [b"GET"], b"list": [b"LRANGE", b"0", b"-1"], b"hash": [b"HGETALL"]}


def request(*words):
    return b"*%d\r\n" % len(words) + b"".join(b"$%d\r\n%s\r\n" % (len(word), word) for word in words)


def next_reply(stream):
    """The next reply of a stream: bytes, a number, None, or a list of these; an error stops the check."""
    line = stream.readline()
    mark, rest = line[:1], line[1:-2]
    if mark == b"+":
        return rest
    if mark == b":":
        return int(rest)
    if mark == b"$":
        return None if rest == b"-1" else stream.read(int(rest) + 2)[:-2]
    if mark == b"*":
        return [next_reply(stream) for _ in range(int(rest))]
    raise ValueError(f"the reply is {line!r}")


class Ours:
    """The program over a folder."""

    def __init__(self, folder):
        self.program = subprocess.Popen([PROGRAM, "pipe", folder], stdin=subprocess.PIPE, stdout=subprocess.PIPE)

    def ask(self, *words):
        self.program.stdin.write(request(*words))
        self.program.stdin.flush()
        return next_reply(self.program.stdout)

    def close(self):
        self.program.stdin.close()
        status = self.program.wait(SECONDS)
        self.program.stdout.close()
        return None if status == 0 else f"the program ends with {status}"


class Theirs:
    """redis-server over a folder."""

    def __init__(self, folder):
        path = os.path.join(folder, "redis.sock")
        self.server = subprocess.Popen(
            ["redis-server", "--port", "0", "--unixsocket", path, "--save", "", "--appendonly", "yes",
             "--appendfilename", LOG, "--dir", folder],
            stdout=subprocess.PIPE, stderr=subprocess.STDOUT,
        )
        self.socket = None
        told = []
        for line in self.server.stdout:
            told.append(line)
            if b"eady to accept connections" in line:
                break
        else:
            self.server.wait(SECONDS)
            raise ValueError("redis-server ended: " + b"".join(told).decode(errors="replace"))
        self.socket = socket.socket(socket.AF_UNIX)
        self.socket.settimeout(SECONDS)
        self.socket.connect(path)
        self.replies = self.socket.makefile("rb")

    def ask(self, *words):
        self.socket.sendall(request(*words))
        return next_reply(self.replies)

    def close(self):
        if self.socket:
            self.replies.close()
            self.socket.close()
        self.server.terminate()
        self.server.communicate(timeout=SECONDS)


def shown(host, key):
    """The type of a key, its value, and the moment at which it is due, or -1 or -2."""
    kind = host.ask(b"TYPE", key)
    value = None
    if kind in VALUES:
        name, *rest = VALUES[kind]
        value = host.ask(name, key, *rest)
    if kind == b"hash":
        # A hash has no order for a Redis.
        value = dict(zip(value[::2], value[1::2]))
    left = host.ask(b"PTTL", key)
    return kind, value, left if left < 0 else left + time.time_ns() // 1_000_000


def differs(ours, theirs):
    return ours[:2] != theirs[:2] or abs(ours[2] - theirs[2]) > SLACK


def compare(ours, theirs):
    """What the two tell differently, or None."""
    counts = ours.ask(b"DBSIZE"), theirs.ask(b"DBSIZE")
    if counts[0] != counts[1]:
        return f"the program has {counts[0]} keys, and redis-server {counts[1]}"
    for key in KEYS:
        one, other = shown(ours, key), shown(theirs, key)
        if differs(one, other):
            return f"{key!r} is {one} for the program, and {other} for redis-server"
    return None


def check(folder, copy):
    """What is wrong, or None."""
    ours, theirs = Ours(folder), None
    try:
        for text in WRITES:
            # The words have no space in them.
            ours.ask(*text.split(b" "))
        shutil.copyfile(os.path.join(folder, LOG), os.path.join(copy, LOG))
        theirs = Theirs(copy)
        return compare(ours, theirs) or ours.close()
    except (OSError, ValueError) as wrong:
        return str(wrong)
    finally:
        ours.program.kill()
        ours.program.wait()
        if theirs:
            theirs.close()


def main():
    for tool, name in (("rt", "the toolchain"), ("redis-server", "redis-server")):
        if not shutil.which(tool):
            print(f"skipped, for want of {name}: tests/redis_reads.py")
            return 0
    # Proves the program first where that is due.
    subprocess.run([PROGRAM, "prove"], check=True)
    with tempfile.TemporaryDirectory() as folder, tempfile.TemporaryDirectory() as copy:
        wrong = check(folder, copy)
    if wrong:
        print(f"tests/redis_reads.py: {wrong}")
        return 1
    print(f"tests/redis_reads.py: redis-server reads {len(WRITES)} changes as the program does")
    return 0


if __name__ == "__main__":
    sys.exit(main())
