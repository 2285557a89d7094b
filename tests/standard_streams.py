#!/usr/bin/env python3
"""Talks to the program through pipes: each reply has to come before the next request is sent, and its unit to
be in the log by then; a key has to go at its moment; and QUIT has to end the run while the input is still open.

Exits 0 where all holds. Skipped where the toolchain, which builds the program, is missing.
"""

import os
import select
import shutil
import subprocess
import sys
import tempfile
import time

PROGRAM = os.path.join(os.path.dirname(os.path.dirname(os.path.abspath(__file__))), "modhost")
SECONDS = 30

SET = b"*3\r\n$3\r\nSET\r\n$1\r\na\r\n$1\r\n1\r\n"
RPUSH = b"*3\r\n$5\r\nRPUSH\r\n$1\r\nl\r\n$1\r\nx\r\n"
HSET = b"*4\r\n$4\r\nHSET\r\n$1\r\nh\r\n$1\r\nf\r\n$1\r\nv\r\n"
DEL = b"*2\r\n$3\r\nDEL\r\n$1\r\na\r\n"

# What is sent, the reply that has to come, and the log that stands by then.
STEPS = [
    (b"*1\r\n$4\r\nPING\r\n", b"+PONG\r\n", b""),
    (b"SET a 1\r\n", b"+OK\r\n", SET),
    (b"GET a\n", b"$1\r\n1\r\n", SET),
    (DEL, b":1\r\n", SET + DEL),
    (b"frob\n", b"-ERR unknown command 'frob'\r\n", SET + DEL),
    (b"RPUSH l x\n", b":1\r\n", SET + DEL + RPUSH),
    (b"LRANGE l 0 -1\n", b"*1\r\n$1\r\nx\r\n", SET + DEL + RPUSH),
    (b"HSET h f v\n", b":1\r\n", SET + DEL + RPUSH + HSET),
    (b"QUIT\n", b"+OK\r\n", SET + DEL + RPUSH + HSET),
]

# A key that is due a second later: what is sent, and its reply, before that moment and after it.
BEFORE = [(b"SET a 1\n", b"+OK\r\n"), (b"EXPIRE a 1\n", b":1\r\n"), (b"GET a\n", b"$1\r\n1\r\n")]
AFTER = [(b"GET a\n", b"$-1\r\n"), (b"TTL a\n", b":-2\r\n"), (b"QUIT\n", b"+OK\r\n")]


def reply(stream, length):
    """The next bytes of the stream, as many as the reply has; fewer where they do not come in time."""
    got = b""
    while len(got) < length and select.select([stream], [], [], SECONDS)[0]:
        piece = os.read(stream.fileno(), length - len(got))
        if not piece:
            break
        got += piece
    return got


def answered(program, sent, expected):
    """Sends this and waits for its reply. Answers what is wrong, or None."""
    program.stdin.write(sent)
    program.stdin.flush()
    got = reply(program.stdout, len(expected))
    return None if got == expected else f"to {sent!r} came {got!r} instead of {expected!r}"


def held_log(folder):
    with open(os.path.join(folder, "appendonly.aof"), "rb") as file:
        return file.read()


def ended(program):
    """What is wrong with the end of a program that was sent QUIT, or None."""
    try:
        status = program.wait(SECONDS)
    except subprocess.TimeoutExpired:
        return "QUIT does not end the run while the input is open"
    return None if status == 0 else f"the run ends with status {status}"


def talk(program, folder):
    """Sends each step and looks at its reply and at the log. Answers what is wrong, or None."""
    for sent, expected, log in STEPS:
        wrong = answered(program, sent, expected)
        if wrong:
            return wrong
        held = held_log(folder)
        if held != log:
            return f"after the reply to {sent!r} the log is {held!r} instead of {log!r}"
    return ended(program)


def outlive(program, folder):
    """A key goes at its moment while the program runs. Answers what is wrong, or None."""
    for sent, expected in BEFORE:
        wrong = answered(program, sent, expected)
        if wrong:
            return wrong
    if not held_log(folder).startswith(SET) or b"PEXPIREAT" not in held_log(folder):
        return f"before the moment the log is {held_log(folder)!r}"
    time.sleep(1.1)
    for sent, expected in AFTER:
        wrong = answered(program, sent, expected)
        if wrong:
            return wrong
    if not held_log(folder).endswith(DEL) or held_log(folder).count(DEL) != 1:
        return f"after the moment the log is {held_log(folder)!r}"
    return ended(program)


def main():
    if not shutil.which("rt"):
        print("skipped, for want of the toolchain: tests/standard_streams.py")
        return 0
    # Proves the program first where that is due.
    subprocess.run([PROGRAM, "prove"], check=True)
    for check in (talk, outlive):
        with tempfile.TemporaryDirectory() as folder:
            program = subprocess.Popen(
                [PROGRAM, "pipe", folder], stdin=subprocess.PIPE, stdout=subprocess.PIPE
            )
            try:
                wrong = check(program, folder)
            finally:
                program.kill()
                program.wait()
        if wrong:
            print(f"tests/standard_streams.py: {wrong}")
            return 1
    print(f"tests/standard_streams.py: {len(STEPS) + len(BEFORE) + len(AFTER)} replies came in time")
    return 0


if __name__ == "__main__":
    sys.exit(main())
