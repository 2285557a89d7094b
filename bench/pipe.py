#!/usr/bin/env python3
"""How the cost of `modhost pipe` grows: each load against a tenth of it, and against redis-server in one run.

Prints seconds of the processor and peak memory of each load, and the ratios; the comparison is in seconds of
the clock. Needs the toolchain; redis-server and redis-cli are used where they are installed.
"""

import os
import shutil
import subprocess
import sys
import tempfile
import time

from beside import multibulk, program, shuffled


def many_words(count):
    return multibulk(b"DEL", *(b"k%03d" % (n % 1000) for n in range(count - 1)))


def pings(count):
    return multibulk(b"PING") * count


def inline_lines(count):
    return (b"GET " + b"k" * 65_531 + b"\n") * count


def long_value(size):
    return multibulk(b"PING", b"v" * size)


def gets(count):
    return multibulk(b"SET", b"k", b"v") + multibulk(b"GET", b"k") * count


def one_list(count):
    return multibulk(b"RPUSH", b"l", *(b"item:%07d" % n for n in range(count))) + multibulk(b"LLEN", b"l")


def one_hash(count):
    pairs = (word for n in shuffled(count) for word in (b"name:%07d" % n, b"v"))
    return multibulk(b"HSET", b"h", *pairs) + multibulk(b"HLEN", b"h")


def many_keys(count):
    pairs = (word for n in shuffled(count) for word in (b"k%07d" % n, b"v"))
    asked = (multibulk(b"TTL", b"k%07d" % n) for n in shuffled(count, seed=2))
    return multibulk(b"MSET", *pairs) + b"".join(asked)


# Each load with the size of the whole, and whether it is fed byte by byte, by dd.
LOADS = [
    ("one request of 500,000 words of 4 bytes", many_words, 500_000, False),
    ("one request of 1,000,000 words of 4 bytes", many_words, 1_000_000, False),
    ("500,000 requests of PING", pings, 500_000, False),
    ("1,000 inline lines of 65,536 bytes", inline_lines, 1_000, False),
    ("300,000 requests of GET", gets, 300_000, False),
    ("one list of 1,000,000 items, in one request", one_list, 1_000_000, False),
    ("one hash of 500,000 names, in one request", one_hash, 500_000, False),
    ("300,000 keys, in one request, and TTL of each", many_keys, 300_000, False),
    ("one word of 512 MiB", long_value, 536_870_912, False),
    ("byte by byte, one request of 200,000 words", many_words, 200_000, True),
    ("byte by byte, 30 inline lines of 65,536 bytes", inline_lines, 30, True),
    ("byte by byte, one word of 2 MiB", long_value, 2_097_152, True),
]


def run(program, data, bytewise=False):
    """Seconds of the clock and of the processor, and peak kilobytes, of one run over the bytes, to nowhere."""
    with tempfile.TemporaryDirectory() as folder:
        path = os.path.join(folder, "input")
        with open(path, "wb") as out:
            out.write(data)
        # A small interpreter starts it, since a child's peak counts what its parent held.
        told = subprocess.run([sys.executable, __file__, "--measure", program, path] + ["bytewise"] * bytewise,
                              stdout=subprocess.PIPE)
        if told.returncode != 0:
            sys.exit(told.returncode)
        clock, processor, kilobytes = told.stdout.split()
        return float(clock), float(processor), int(kilobytes)


def measure(program, path, bytewise):
    with open(path, "rb") as stdin:
        start = time.monotonic()
        if bytewise:
            stdin = subprocess.Popen(
                ["dd", "bs=1"], stdin=stdin, stdout=subprocess.PIPE, stderr=subprocess.DEVNULL
            ).stdout
        child = subprocess.Popen(
            [program, "pipe", os.path.dirname(path)], stdin=stdin, stdout=subprocess.DEVNULL
        )
        _, status, usage = os.wait4(child.pid, 0)
        clock = time.monotonic() - start
    if status != 0:
        sys.exit(f"modhost ended with {os.waitstatus_to_exitcode(status)}")
    print(clock, usage.ru_utime + usage.ru_stime, usage.ru_maxrss)


def redis_pings(count):
    """Seconds that redis-server takes for the same PINGs, sent by redis-cli --pipe."""
    if not (shutil.which("redis-server") and shutil.which("redis-cli")):
        return None
    with tempfile.TemporaryDirectory() as folder:
        socket = os.path.join(folder, "redis.sock")
        server = subprocess.Popen(
            ["redis-server", "--port", "0", "--unixsocket", socket, "--save", "", "--dir", folder],
            stdout=subprocess.DEVNULL,
        )
        try:
            while not os.path.exists(socket):
                time.sleep(0.05)
            start = time.monotonic()
            subprocess.run(
                ["redis-cli", "-s", socket, "--pipe"],
                input=pings(count), stdout=subprocess.DEVNULL, check=True,
            )
            return time.monotonic() - start
        finally:
            server.terminate()
            server.wait()


def main():
    path = program()
    for name, make, count, bytewise in LOADS:
        _, tenth, tenth_memory = run(path, make(count // 10), bytewise)
        _, whole, memory = run(path, make(count), bytewise)
        print(f"{name}: {whole:.3f} s, {memory // 1024} MiB; a tenth: {tenth:.3f} s, "
              f"{tenth_memory // 1024} MiB; ratio {whole / tenth:.1f}")
    theirs = redis_pings(500_000)
    if theirs is None:
        print("redis-server is not installed: no comparison")
    else:
        ours, _, _ = run(path, pings(500_000))
        print(f"500,000 PINGs: modhost {ours:.2f} s, redis-server {theirs:.2f} s, ratio {ours / theirs:.2f}")


if __name__ == "__main__":
    if sys.argv[1:2] == ["--measure"]:
        measure(sys.argv[2], sys.argv[3], sys.argv[4:] == ["bytewise"])
    else:
        main()
