#!/usr/bin/env python3
"""What opening a log costs: a log of 1,000,000 SETs of keys in random order against a tenth of it, and both against
redis-server loading the same file; and a log of as many changes of lists, hashes, strings and deadlines.

Prints seconds of the clock and of the processor and the peak memory of `modhost pipe` over each log with no
input, and the ratios. Needs the toolchain; redis-server is used where it is installed.
"""

import os
import subprocess
import sys
import tempfile
import time

from beside import LOG, folder_with, has_redis, program, redis, shuffled, write_log

COUNT = 1_000_000


def write_mixed_log(folder, count):
    """A log of this many changes, of names in random order: by turns an item of a list, a name of a hash, a string,
    and its deadline in 2100."""
    with open(os.path.join(folder, LOG), "wb") as log:
        for n in shuffled(count // 4):
            item = b"item-%011d" % n
            log.write(b"*3\r\n$5\r\nRPUSH\r\n$4\r\nlist\r\n$16\r\n%s\r\n" % item)
            log.write(b"*4\r\n$4\r\nHSET\r\n$4\r\nhash\r\n$16\r\n%s\r\n$1\r\nv\r\n" % item)
            log.write(b"*3\r\n$3\r\nSET\r\n$16\r\n%s\r\n$1\r\nv\r\n" % item)
            log.write(b"*3\r\n$9\r\nPEXPIREAT\r\n$16\r\n%s\r\n$13\r\n4102444800000\r\n" % item)


def opened(path, count, write=write_log):
    """Seconds of the clock and of the processor, and peak kilobytes, of opening a log of this many changes."""
    with tempfile.TemporaryDirectory() as folder:
        write(folder, count)
        # A small interpreter starts it, since a child's peak counts what its parent held.
        told = subprocess.run([sys.executable, __file__, "--measure", path, folder], stdout=subprocess.PIPE)
        if told.returncode != 0:
            sys.exit(told.returncode)
        clock, processor, kilobytes = told.stdout.split()
        return float(clock), float(processor), int(kilobytes)


def measure(path, folder):
    start = time.monotonic()
    child = subprocess.Popen(
        [path, "pipe", folder], stdin=subprocess.DEVNULL, stdout=subprocess.DEVNULL
    )
    _, status, usage = os.wait4(child.pid, 0)
    clock = time.monotonic() - start
    if status != 0:
        sys.exit(f"modhost ended with {os.waitstatus_to_exitcode(status)}")
    print(clock, usage.ru_utime + usage.ru_stime, usage.ru_maxrss)


def redis_opened(count):
    """Seconds of the clock until redis-server has loaded the same log."""
    with folder_with(count) as folder:
        start = time.monotonic()
        with redis(folder, "--appendonly", "yes"):
            return time.monotonic() - start


def main():
    path = program()
    clocks = {}
    for name, write in (("SETs", write_log), ("changes of every type", write_mixed_log)):
        clocks[COUNT // 10], tenth, tenth_memory = opened(path, COUNT // 10, write)
        clocks[COUNT], whole, memory = opened(path, COUNT, write)
        print(f"a log of {COUNT:,} {name}: {whole:.3f} s, {memory // 1024} MiB; a tenth: {tenth:.3f} s, "
              f"{tenth_memory // 1024} MiB; ratio {whole / tenth:.1f}", flush=True)
        if write is write_log and has_redis():
            for count in (COUNT // 10, COUNT):
                theirs = redis_opened(count)
                print(f"{count:,} SETs on the clock: modhost {clocks[count]:.2f} s, redis-server {theirs:.2f} s, "
                      f"ratio {clocks[count] / theirs:.2f}", flush=True)


if __name__ == "__main__":
    if sys.argv[1:2] == ["--measure"]:
        measure(sys.argv[2], sys.argv[3])
    else:
        main()
