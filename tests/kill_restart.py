#!/usr/bin/env python3
"""Kills the program while it serves, and starts it again over what it left: the keys have to be those after the
first requests, in order, among them each whose reply came. A killed process leaves what it wrote, synced or not,
so this shows nothing of a crash of the system.

Exits 0 where all holds. Skipped where the toolchain, which builds the program, is missing.
"""

import os
import random
import shutil
import subprocess
import sys
import tempfile
import threading

PROGRAM = os.path.join(os.path.dirname(os.path.dirname(os.path.abspath(__file__))), "modhost")
ROUNDS, REQUESTS = 25, 50_000


def request(number):
    """By turns one more item of a list, and two keys that are set together."""
    turn = b"%d" % (number // 2)
    return b"RPUSH l %s\n" % turn if number % 2 == 0 else b"MSET x %s y %s\n" % (turn, turn)


def killed(folder, first, seconds):
    """How many replies come to the requests from this one on, until the program is killed."""
    with tempfile.TemporaryFile() as stdin:
        stdin.write(b"".join(request(first + number) for number in range(REQUESTS)))
        stdin.seek(0)
        program = subprocess.Popen([PROGRAM, "pipe", folder], stdin=stdin, stdout=subprocess.PIPE)
        timer = threading.Timer(seconds, program.kill)
        timer.start()
        replies = program.stdout.read()
        program.wait()
        timer.cancel()
    return replies.count(b"\r\n")


def kept(folder):
    """After how many requests the keys of a folder are as they are, or what is wrong with them."""
    asked = b"LRANGE l 0 -1\nLLEN l\nMGET x y\n"
    done = subprocess.run([PROGRAM, "pipe", folder], input=asked, stdout=subprocess.PIPE, timeout=60)
    if done.returncode != 0:
        return f"the program ends with {done.returncode}"
    lines = done.stdout.split(b"\r\n")
    length = int(lines[0][1:])
    items, (count, *pair) = lines[2 : 2 * length + 1 : 2], lines[2 * length + 1 : -1]
    if count != b":%d" % length or items != [b"%d" % number for number in range(length)]:
        return f"the list of {length} items is out of order"
    pairs = {tuple(pair_after(turns)): turns for turns in (length - 1, length)}
    turns = pairs.get(tuple(pair))
    return f"the list has {length} items, and the pair is {pair}" if turns is None else length + turns


def pair_after(turns):
    """The reply for the two keys after they were set this often."""
    if turns <= 0:
        return [b"*2", b"$-1", b"$-1"]
    value = b"%d" % (turns - 1)
    return [b"*2"] + [b"$%d" % len(value), value] * 2


def main():
    if not shutil.which("rt"):
        print("skipped, for want of the toolchain: tests/kill_restart.py")
        return 0
    # Proves the program first where that is due.
    subprocess.run([PROGRAM, "prove"], check=True)
    chance = random.Random(7)
    with tempfile.TemporaryDirectory() as folder:
        done = 0
        for number in range(ROUNDS):
            replies = killed(folder, done, chance.uniform(0.02, 0.4))
            left = kept(folder)
            if not isinstance(left, int) or left < done + replies:
                print(f"tests/kill_restart.py: round {number}, from {done} on, {replies} replies: {left}")
                return 1
            done = left
    print(f"tests/kill_restart.py: {done} requests, {ROUNDS} kills, and none was lost whose reply came")
    return 0


if __name__ == "__main__":
    sys.exit(main())
