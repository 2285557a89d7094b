#!/usr/bin/env python3
"""A million GETs of random keys, sent without a wait, behind a log of a million SETs: `modhost pipe` against
redis-server over the same log, by the same client, and a tenth of both.

Prints seconds of the clock and ratios. Needs the toolchain; redis-server is used where it is installed.
"""

from beside import GET_REPLY, exchange, folder_with, get_of, has_redis, ours, program, redis, shuffled

COUNT = 1_000_000


def asked(send, receive, count):
    return exchange(send, receive, map(get_of, shuffled(count, seed=2)), count * GET_REPLY)


def our_seconds(path, count):
    with folder_with(count) as folder, ours(path, folder) as (send, receive, _):
        return asked(send, receive, count)


def their_seconds(count):
    with folder_with(count) as folder, redis(folder, "--appendonly", "yes") as client:
        return asked(client.sendall, client.recv, count)


def main():
    path = program()
    compares = has_redis()
    for count in (COUNT // 10, COUNT):
        mine = our_seconds(path, count)
        told = f"{count:,} GETs of random keys: modhost {mine:.3f} s"
        if compares:
            other = their_seconds(count)
            told += f", redis-server {other:.3f} s, ratio {mine / other:.2f}"
        print(told, flush=True)


if __name__ == "__main__":
    main()
