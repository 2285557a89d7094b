#!/usr/bin/env python3
"""Serving with a log that is synced: `modhost pipe` against redis-server with `appendfsync always`, in one run.

A million SETs and GETs, sent at once: of modhost from a file, of redis-server by redis-cli --pipe over a socket.
Then a client that waits for each reply. Prints seconds of the clock and ratios, and the same for a tenth of the
requests. Needs the toolchain, redis-server and redis-cli.
"""

import contextlib
import os
import shutil
import socket
import subprocess
import sys
import tempfile
import time

from beside import multibulk, program, shuffled

AT_ONCE, ONE_BY_ONE = 1_000_000, 20_000


def requests(count):
    """SETs of as many keys in random order, each followed by a GET of it, in all this many requests."""
    for n in shuffled(count // 2):
        key = b"key:%07d" % n
        yield multibulk(b"SET", key, b"value:%07d" % n)
        yield multibulk(b"GET", key)


def ours_at_once(folder, program, path):
    with open(path, "rb") as stdin:
        start = time.monotonic()
        subprocess.run([program, "pipe", folder], stdin=stdin, stdout=subprocess.DEVNULL, check=True)
        return time.monotonic() - start


@contextlib.contextmanager
def redis(folder):
    """The path of a redis-server's socket, whose log is synced for each write."""
    path = os.path.join(folder, "redis.sock")
    server = subprocess.Popen(
        ["redis-server", "--port", "0", "--unixsocket", path, "--save", "", "--dir", folder,
         "--appendonly", "yes", "--appendfsync", "always"],
        stdout=subprocess.DEVNULL,
    )
    try:
        while not os.path.exists(path):
            time.sleep(0.05)
        yield path
    finally:
        server.terminate()
        server.wait()


def theirs_at_once(folder, path):
    with redis(folder) as address, open(path, "rb") as stdin:
        start = time.monotonic()
        subprocess.run(["redis-cli", "-s", address, "--pipe"], stdin=stdin, stdout=subprocess.DEVNULL, check=True)
        return time.monotonic() - start


def ask(sent, send, receive):
    """Seconds for requests of which each is sent when the reply to the one before has come."""
    start = time.monotonic()
    for request in sent:
        send(request)
        if not receive().endswith(b"\r\n"):
            sys.exit("a reply came in parts")
    return time.monotonic() - start


def ours_one_by_one(folder, path, sent):
    program = subprocess.Popen(
        [path, "pipe", folder], stdin=subprocess.PIPE, stdout=subprocess.PIPE, bufsize=0
    )
    taken = ask(sent, program.stdin.write, lambda: program.stdout.read(65_536))
    program.stdin.close()
    program.wait()
    return taken


def theirs_one_by_one(folder, sent):
    with redis(folder) as address, socket.socket(socket.AF_UNIX) as client:
        client.connect(address)
        return ask(sent, client.sendall, lambda: client.recv(65_536))


def timed(measure, *arguments):
    with tempfile.TemporaryDirectory() as folder:
        return measure(folder, *arguments)


def at_once(path, count):
    with tempfile.NamedTemporaryFile() as file:
        for request in requests(count):
            file.write(request)
        file.flush()
        return timed(ours_at_once, path, file.name), timed(theirs_at_once, file.name)


def one_by_one(path, count):
    sent = list(requests(count))
    return timed(ours_one_by_one, path, sent), timed(theirs_one_by_one, sent)


def main():
    if not (shutil.which("redis-server") and shutil.which("redis-cli")):
        sys.exit("redis-server is not installed: no comparison")
    path = program()
    for name, measure, count in (("at once", at_once, AT_ONCE), ("one by one", one_by_one, ONE_BY_ONE)):
        for size in (count // 10, count):
            ours, theirs = measure(path, size)
            print(f"{size:,} SETs and GETs, {name}: modhost {ours:.2f} s, redis-server {theirs:.2f} s, "
                  f"ratio {ours / theirs:.2f}", flush=True)


if __name__ == "__main__":
    main()
