#!/usr/bin/env python3
"""Sends the program streams of requests, whole and byte by byte, and compares the replies, the fault line and
the words that the log got with a table: how requests are spelled, what is skipped, and every kind of bad place.

Exits 0 where all holds. Skipped where the toolchain, which builds the program, is missing.
"""

import os
import shutil
import subprocess
import sys
import tempfile

PROGRAM = os.path.join(os.path.dirname(os.path.dirname(os.path.abspath(__file__))), "modhost")
LOG = "appendonly.aof"

# The number of each kind of bad request, and the text of its error.
KINDS = {
    "MultibulkLength": (1, b"invalid multibulk length"),
    "BulkLength": (2, b"invalid bulk length"),
    "ExpectedDollar": (3, b"expected '$', got '%c'"),
    "LineTooLong": (4, b"line too long"),
    "NoLineEnd": (5, b"line end expected"),
    "Quote": (6, b"quoted inline words are not served"),
}

LONG = b"1" * 65_535


def multibulk(*words):
    return b"*%d\r\n" % len(words) + b"".join(b"$%d\r\n%b\r\n" % (len(word), word) for word in words)


# What is sent; the words of each request in it that changes a key; the replies; and how the input ends: None, the
# number of bytes that are left, or the kind of a bad request, its offset and maybe the byte that it names.
ROWS = [
    (multibulk(b"SET", b"k", b"a\r\nb"), [(b"SET", b"k", b"a\r\nb")], b"+OK\r\n", None),
    (multibulk(b"SET", b"", b""), [(b"SET", b"", b"")], b"+OK\r\n", None),
    (multibulk(b"RPUSH", b"l", b"", b"\r\n", b"*1"), [(b"RPUSH", b"l", b"", b"\r\n", b"*1")], b":3\r\n", None),
    (multibulk(b"hset", b"h", b"", b"", b"$", b"\x00"), [(b"HSET", b"h", b"", b"", b"$", b"\x00")], b":2\r\n", None),
    (b"*0\r\n*-1\r\n\r\nPING\n", [], b"+PONG\r\n", None),
    (b"*-9223372036854775808\r\n*1\r\n$4\r\nping\r\n", [], b"+PONG\r\n", None),
    (b"\tSET  key\t1\t\r\n \r\n\n SET a 2 \n", [(b"SET", b"key", b"1"), (b"SET", b"a", b"2")], b"+OK\r\n+OK\r\n", None),
    (b"X\r\r\n", [], b"-ERR unknown command 'X?'\r\n", None),
    (b"QUIT\n*x\r\n", [], b"+OK\r\n", None),
    (b"PING", [], b"", 4),
    (b"PING\r", [], b"", 5),
    (b"PING\n*2\r\n$3\r\nGET\r\n$1", [], b"+PONG\r\n", 15),
    (b"*", [], b"", 1),
    (b"*1\r", [], b"", 3),
    (b"*1\r\n$0\r\n", [], b"", 8),
    (b"*1\r\n$0\r\n\r", [], b"", 9),
    (b"say \"hi\"", [], b"", 8),
    (b"*" + LONG, [], b"", 65_536),
    (b"1" + LONG, [], b"", 65_536),
    (b"*3\r\n$3\r\nSET\r\n$1\r\nk\r\n$536870913\r\n", [], b"", ("BulkLength", 20)),
    (b"*1048577\r\n", [], b"", ("MultibulkLength", 0)),
    (b"*01\r\n", [], b"", ("MultibulkLength", 0)),
    (b"*-0\r\n", [], b"", ("MultibulkLength", 0)),
    (b"*-01\r\n", [], b"", ("MultibulkLength", 0)),
    (b"*+1\r\n", [], b"", ("MultibulkLength", 0)),
    (b"*\r\n", [], b"", ("MultibulkLength", 0)),
    (b"*-\r\n", [], b"", ("MultibulkLength", 0)),
    (b"*1 \r\n", [], b"", ("MultibulkLength", 0)),
    (b"*9223372036854775808\r\n", [], b"", ("MultibulkLength", 0)),
    (b"*-9223372036854775809\r\n", [], b"", ("MultibulkLength", 0)),
    (b"*18446744073709551617\r\n", [], b"", ("MultibulkLength", 0)),
    (b"*" + LONG + b"\r\n", [], b"", ("MultibulkLength", 0)),
    (b"*01\rX", [], b"", ("NoLineEnd", 4)),
    (b"*1\rX", [], b"", ("NoLineEnd", 3)),
    (b"*1\r\r\n", [], b"", ("NoLineEnd", 3)),
    (b"*1\r\n$-1\r\n", [], b"", ("BulkLength", 4)),
    (b"*1\r\n$\r\n", [], b"", ("BulkLength", 4)),
    (b"*1\r\n$00\r\n", [], b"", ("BulkLength", 4)),
    (b"*1\r\n$9223372036854775807\r\n", [], b"", ("BulkLength", 4)),
    (b"*1\r\n$3\r$", [], b"", ("NoLineEnd", 7)),
    (b"*1\r\n+", [], b"", ("ExpectedDollar", 4, b"+")),
    (b"*1\r\n\r\n", [], b"", ("ExpectedDollar", 4, b"?")),
    (b"*2\r\n$3\r\nSET\r\n*", [], b"", ("ExpectedDollar", 13, b"*")),
    (b"*1\r\n$3\r\nSETX\n", [], b"", ("NoLineEnd", 11)),
    (b"*1\r\n$3\r\nSET\rX", [], b"", ("NoLineEnd", 12)),
    (b"*1\r\n$0\r\n\n", [], b"", ("NoLineEnd", 8)),
    (b"say \"hi\"\n", [], b"", ("Quote", 4)),
    (b"it's \"so\"\n", [], b"", ("Quote", 2)),
    (b"PING\n\n*0\r\n*2\r\n$4\r\nECHO\r\n!", [], b"+PONG\r\n", ("ExpectedDollar", 24, b"!")),
    (b"*1\r\n$4\r\nPING\r\n \n*a\r\n", [], b"+PONG\r\n", ("MultibulkLength", 16)),
    (b"*1\r\n$4\r\nPING\r\n*-1\r\n*1\r\r", [], b"+PONG\r\n", ("NoLineEnd", 22)),
    (b"*1\r\n$4\r\nPING\r\n\r\na'\n", [], b"+PONG\r\n", ("Quote", 17)),
    (b"*1\r\n$" + LONG + b"1", [], b"", ("LineTooLong", 4)),
    (b"*" + LONG + b"1", [], b"", ("LineTooLong", 0)),
    (b"\n'" + LONG + b"1", [], b"", ("LineTooLong", 1)),
    (b"\n'" + LONG + b"\n", [], b"", ("Quote", 1)),
]


def ending(end):
    """The status, the last error and the fault line of an end."""
    if end is None:
        return 0, b"", b""
    if isinstance(end, int):
        return 8, b"", b"modhost: cut off after %d bytes\n" % end
    kind, offset = end[0], end[1]
    number, text = KINDS[kind]
    if len(end) == 3:
        text = text % end[2]
    return 7, b"-ERR Protocol error: %b\r\n" % text, b"modhost: protocol error %d at %d\n" % (number, offset)


def run(folder, sent, size):
    """A run to which the bytes are sent in pieces of this size."""
    program = subprocess.Popen(
        [PROGRAM, "pipe", folder], stdin=subprocess.PIPE, stdout=subprocess.PIPE, stderr=subprocess.PIPE
    )
    try:
        for place in range(0, len(sent), size):
            program.stdin.write(sent[place : place + size])
            program.stdin.flush()
    except BrokenPipeError:
        pass
    try:
        out, line = program.communicate(timeout=60)
    except BrokenPipeError:
        out, line = program.stdout.read(), program.stderr.read()
    return program.wait(timeout=60), out, line


def wrong(sent, changes, replies, end, size):
    """What is wrong with the run of a row, or None."""
    status, error, line = ending(end)
    with tempfile.TemporaryDirectory() as folder:
        done = run(folder, sent, size)
        if done != (status, replies + error, line):
            return f"the run ends with {done[0]}, {done[1]!r} and {done[2]!r}"
        with open(os.path.join(folder, LOG), "rb") as file:
            held = file.read()
    log = b"".join(multibulk(*words) for words in changes)
    return None if held == log else f"the log is {held!r} instead of {log!r}"


def main():
    if not shutil.which("rt"):
        print("skipped, for want of the toolchain: tests/requests.py")
        return 0
    # Proves the program first where that is due.
    subprocess.run([PROGRAM, "prove"], check=True)
    for sent, changes, replies, end in ROWS:
        for size in (len(sent), 1) if len(sent) < 100 else (len(sent), 4_096):
            told = wrong(sent, changes, replies, end, size)
            if told is not None:
                print(f"tests/requests.py: {sent[:60]!r} in pieces of {size}: {told}")
                return 1
    return 0


if __name__ == "__main__":
    sys.exit(main())
