#!/usr/bin/env python3
"""What the benches of the whole program share: the program that is measured, requests over keys in random order,
and a redis-server beside it, on a socket of its own.
"""

import contextlib
import os
import random
import shutil
import socket
import subprocess
import sys
import tempfile
import threading
import time

ROOT = os.path.dirname(os.path.dirname(os.path.abspath(__file__)))
LAUNCHER = os.path.join(ROOT, "modhost")
PROVED = os.path.join(ROOT, "crates", "modhost", "out", "modhost")
UNPROVED = os.path.join(ROOT, "out", "unproved", "modhost")
LOG = "appendonly.aof"
PIECE = 65_536


def program():
    """The program that the launcher runs now, after a line that says which it is."""
    told = subprocess.run([LAUNCHER, "--version"], capture_output=True)
    if told.returncode != 0:
        sys.exit(told.stderr.decode())
    is_proved = b"not proved" not in told.stderr
    print("measured: the program,", "proved" if is_proved else "NOT PROVED, with checks as it runs", flush=True)
    return PROVED if is_proved else UNPROVED


def shuffled(count, seed=1):
    """The numbers below count, in an order that is random, and the same in each run."""
    numbers = list(range(count))
    random.Random(seed).shuffle(numbers)
    return numbers


def multibulk(*words):
    return b"*%d\r\n" % len(words) + b"".join(b"$%d\r\n%s\r\n" % (len(word), word) for word in words)


def set_of(number):
    """A SET of a key of 16 bytes to a value of 16 bytes."""
    return b"*3\r\n$3\r\nSET\r\n$16\r\nkey:%012d\r\n$16\r\nvalue-%010d\r\n" % (number, number)


def get_of(number):
    return b"*2\r\n$3\r\nGET\r\n$16\r\nkey:%012d\r\n" % number


# How many bytes the replies to such a SET and such a GET have.
SET_REPLY, GET_REPLY = 5, 23


def write_log(folder, count):
    """A log of this many SETs of different keys, in random order."""
    with open(os.path.join(folder, LOG), "wb") as log:
        log.writelines(map(set_of, shuffled(count)))


def in_pieces(requests):
    """The requests, joined to pieces of some kilobytes."""
    piece = bytearray()
    for request in requests:
        piece += request
        if len(piece) >= PIECE:
            yield bytes(piece)
            piece.clear()
    yield bytes(piece)


def exchange(send, receive, requests, size):
    """Seconds until replies of this size have come to the requests, which are sent without a wait for any."""
    pieces = list(in_pieces(requests))
    sender = threading.Thread(target=lambda: [send(piece) for piece in pieces])
    start = time.monotonic()
    sender.start()
    while size > 0:
        told = receive(PIECE)
        if not told:
            sys.exit("the replies ended too soon")
        size -= len(told)
    taken = time.monotonic() - start
    sender.join()
    return taken


@contextlib.contextmanager
def ours(path, folder):
    """A run of the program over a folder that is open: what sends, what receives, and its process."""
    process = subprocess.Popen([path, "pipe", folder], stdin=subprocess.PIPE, stdout=subprocess.PIPE, bufsize=0)

    def send(data):
        while data:
            data = data[process.stdin.write(data) :]

    try:
        exchange(send, process.stdout.read, [b"PING\r\n"], 7)
        yield send, process.stdout.read, process
    finally:
        process.stdin.close()
        process.wait()
        process.stdout.close()


@contextlib.contextmanager
def redis(folder, *flags):
    """A connection to a redis-server over a folder, once it has loaded what is there."""
    path = os.path.join(folder, "redis.sock")
    command = ["redis-server", "--port", "0", "--unixsocket", path, "--save", "", "--dir", folder, *flags]
    server = subprocess.Popen(command, stdout=subprocess.PIPE)
    try:
        for line in server.stdout:
            if b"eady to accept connections" in line:
                break
        else:
            sys.exit("redis-server ended before it was ready")
        with socket.socket(socket.AF_UNIX) as client:
            client.connect(path)
            yield client
    finally:
        server.terminate()
        server.communicate()


def has_redis():
    if shutil.which("redis-server"):
        return True
    print("redis-server is not installed: no comparison")
    return False


@contextlib.contextmanager
def folder_with(count):
    """A folder with a log of this many SETs, or an empty one."""
    with tempfile.TemporaryDirectory() as folder:
        if count:
            write_log(folder, count)
        yield folder
