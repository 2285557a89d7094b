#!/usr/bin/env python3
"""What keys and requests weigh: keys and values of 16 bytes each, in random order, and a tenth of as many beside.

Of a key: how much memory the program has with a log of a million SETs opened, above what it has with none, against
what redis-server's used_memory grows by. Of a request that is kept: the same for a million SETs that came through
the pipe. Prints bytes for each key, the peak, and the ratios. Needs the toolchain; redis-server is used where it is
installed.
"""

import re
import tempfile

from beside import SET_REPLY, exchange, folder_with, has_redis, ours, program, redis, set_of, shuffled

COUNT = 1_000_000


def memory_of(process):
    """How many bytes a process holds now, and how many it held at most."""
    with open(f"/proc/{process.pid}/status") as file:
        held = dict(re.findall(r"(RssAnon|VmHWM):\s+(\d+) kB", file.read()))
    return int(held["RssAnon"]) * 1024, int(held["VmHWM"]) * 1024


def opened(path, count):
    """What the program holds, and held at most, with a log of this many SETs opened."""
    with folder_with(count) as folder, ours(path, folder) as (_, _, process):
        return memory_of(process)


def served(path, count):
    """What the program holds, and held at most, after this many SETs through the pipe."""
    with folder_with(0) as folder, ours(path, folder) as (send, receive, process):
        exchange(send, receive, map(set_of, shuffled(count)), count * SET_REPLY)
        return memory_of(process)


def used_memory(client):
    client.sendall(b"INFO memory\r\n")
    told = b""
    while b"used_memory:" not in told or not told.endswith(b"\r\n"):
        told += client.recv(65_536)
    return int(re.search(rb"used_memory:(\d+)", told)[1])


def theirs(count):
    """What redis-server's used_memory grows by with this many SETs."""
    with tempfile.TemporaryDirectory() as folder, redis(folder) as client:
        before = used_memory(client)
        exchange(client.sendall, client.recv, map(set_of, shuffled(count)), count * SET_REPLY)
        return used_memory(client) - before


def main():
    path = program()
    empty, _ = opened(path, 0)
    grown = {}
    for name, measure in (("keys of a log", opened), ("SETs through the pipe", served)):
        for count in (COUNT // 10, COUNT):
            held, peak = measure(path, count)
            grown[name, count] = (held - empty) / count
            print(f"{count:,} {name}: {grown[name, count]:.0f} bytes each, {(held - empty) >> 20} MiB; "
                  f"the peak is {peak >> 20} MiB", flush=True)
    if has_redis():
        for count in (COUNT // 10, COUNT):
            each = theirs(count) / count
            print(f"{count:,} keys in redis-server: {each:.0f} bytes each; "
                  f"ratio of the keys of a log {grown['keys of a log', count] / each:.2f}, "
                  f"of the SETs {grown['SETs through the pipe', count] / each:.2f}", flush=True)


if __name__ == "__main__":
    main()
