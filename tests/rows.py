#!/usr/bin/env python3
"""Runs the program over the rows below: words, what its folder has, and what is sent; and the status, the
replies, the line on standard error and the log that have to come.

Exits 0 where all holds. Skipped where the toolchain, which builds the program, is missing.
"""

import os
import re
import shutil
import subprocess
import sys
import tempfile
import time

PROGRAM = os.path.join(os.path.dirname(os.path.dirname(os.path.abspath(__file__))), "modhost")
LOG, DUMP = "appendonly.aof", "dump.rdb"


def request(text):
    """The words of a text, which single spaces part, as an array of bulk strings."""
    words = text.split(b" ")
    return b"*%d\r\n" % len(words) + b"".join(b"$%d\r\n%s\r\n" % (len(word), word) for word in words)


PING, QUIT, MULTI, EXEC = request(b"PING"), request(b"quit"), request(b"MULTI"), request(b"EXEC")
SET_A, SET_B, DEL_A, DEL_B = (request(text) for text in (b"SET a 1", b"SET b 2", b"DEL a", b"DEL b"))
UNITS = SET_B + MULTI + SET_A + DEL_B + EXEC

# A moment that comes in the year 2100, and one that passed in 1970: milliseconds.
LATE, PAST = b"4102444800000", b"1000"
DUE_LATE, DUE_PAST = request(b"PEXPIREAT a " + LATE), request(b"PEXPIREAT a " + PAST)

WRONG = b"-ERR wrong number of arguments for '%s' command\r\n"
UNKNOWN = b"-ERR unknown command '%s'\r\n"
BAD = b"-ERR Protocol error: %s\r\n"
SYNTAX = b"-ERR syntax error\r\n"
NO_NUMBER = b"-ERR value is not an integer or out of range\r\n"
WRONG_TYPE = b"-WRONGTYPE Operation against a key holding the wrong kind of value\r\n"


def array(*words):
    """The reply of these byte strings; None is no value."""
    texts = (b"$-1\r\n" if word is None else b"$%d\r\n%s\r\n" % (len(word), word) for word in words)
    return b"*%d\r\n" % len(words) + b"".join(texts)


# One store is asked in turn: a request, its reply, and what it adds to the log.
ASKED = [
    (b"PING", b"+PONG\r\n", b""),
    (b"ping hello", b"$5\r\nhello\r\n", b""),
    (b"PING a b", WRONG % b"ping", b""),
    (b"SET k one", b"+OK\r\n", b"SET k one"),
    (b"GET k", b"$3\r\none\r\n", b""),
    (b"GET other", b"$-1\r\n", b""),
    (b"sEt k two", b"+OK\r\n", b"SET k two"),
    (b"get k", b"$3\r\ntwo\r\n", b""),
    (b"set K three", b"+OK\r\n", b"SET K three"),
    (b"set  four", b"+OK\r\n", b"SET  four"),
    (b"SET k", WRONG % b"set", b""),
    (b"SET k v w", SYNTAX, b""),
    (b"SET k v NX", b"$-1\r\n", b""),
    (b"SET k v XX NX", SYNTAX, b""),
    (b"GET", WRONG % b"get", b""),
    (b"get a b", WRONG % b"get", b""),
    (b"DEL absent", b":0\r\n", b""),
    (b"Del k absent k K", b":2\r\n", b"DEL k absent k K"),
    (b"DEL k absent k K", b":0\r\n", b""),
    (b"GET ", b"$4\r\nfour\r\n", b""),
    (b"del ", b":1\r\n", b"DEL "),
    (b"DEL", WRONG % b"del", b""),
    (b"QUIT now", WRONG % b"quit", b""),
    (b"NOPE", UNKNOWN % b"NOPE", b""),
    (b"GETS k", UNKNOWN % b"GETS", b""),
    (b" PING", UNKNOWN % b"", b""),
    (b"x" * 129, UNKNOWN % (b"x" * 128), b""),
    (b"\x1f\r\n~\x7f\xff k", UNKNOWN % b"???~??", b""),
    (b"ECHO hi", b"$2\r\nhi\r\n", b""),
    (b"SELECT 0", b"+OK\r\n", b""),
    (b"SELECT 1", b"-ERR DB index is out of range\r\n", b""),
    (b"COMMAND count", b":52\r\n", b""),
    (b"quit", b"+OK\r\n", b""),
]

# The same for strings, lists, hashes, and keys of any type.
ASKED_OF_TYPES = [
    (b"INCR n", b":1\r\n", b"INCRBY n 1"),
    (b"decrby n 5", b":-4\r\n", b"INCRBY n -5"),
    (b"INCRBY n 01", NO_NUMBER, b""),
    (b"SETNX n 2", b":0\r\n", b""),
    (b"GETSET n 7", b"$2\r\n-4\r\n", b"SET n 7"),
    (b"SET n 8 xx", b"+OK\r\n", b"SET n 8"),
    (b"SETNX m x", b":1\r\n", b"SET m x"),
    (b"append n 9", b":2\r\n", b"APPEND n 9"),
    (b"APPEND n ", b":2\r\n", b""),
    (b"SETRANGE n 3 x", b":4\r\n", b"SETRANGE n 3 x"),
    (b"GETRANGE n 1 -1", b"$3\r\n9\x00x\r\n", b""),
    (b"STRLEN n", b":4\r\n", b""),
    (b"INCR n", NO_NUMBER, b""),
    (b"MSET n 1 b 2", b"+OK\r\n", b"MSET n 1 b 2"),
    (b"MSET n 1 b", WRONG % b"mset", b""),
    (b"rpush l x y", b":2\r\n", b"RPUSH l x y"),
    (b"LPUSH l v w", b":4\r\n", b"LPUSH l v w"),
    (b"LRANGE l 0 -1", array(b"w", b"v", b"x", b"y"), b""),
    (b"LRANGE l 0 end", NO_NUMBER, b""),
    (b"LINDEX l -1", b"$1\r\ny\r\n", b""),
    (b"LTRIM l 1 -1", b"+OK\r\n", b"LTRIM l 1 -1"),
    (b"LREM l 0 absent", b":0\r\n", b""),
    (b"LREM l 1 x", b":1\r\n", b"LREM l 1 x"),
    (b"LSET l 5 z", b"-ERR index out of range\r\n", b""),
    (b"LSET l -1 z", b"+OK\r\n", b"LSET l -1 z"),
    (b"LLEN l", b":2\r\n", b""),
    (b"RPOP l", b"$1\r\nz\r\n", b"RPOP l"),
    (b"GET l", WRONG_TYPE, b""),
    (b"MGET n l absent", array(b"1", None, None), b""),
    (b"LPOP l", b"$1\r\nv\r\n", b"LPOP l"),
    (b"LPOP l", b"$-1\r\n", b""),
    (b"TYPE l", b"+none\r\n", b""),
    (b"HSET h f 1 g 2", b":2\r\n", b"HSET h f 1 g 2"),
    (b"HSET h f", WRONG % b"hset", b""),
    (b"HMSET h f 3", b"+OK\r\n", b"HSET h f 3"),
    (b"HSETNX h f 9", b":0\r\n", b""),
    (b"HSETNX h i x", b":1\r\n", b"HSET h i x"),
    (b"HINCRBY h f 4", b":7\r\n", b"HINCRBY h f 4"),
    (b"HINCRBY h i 4", b"-ERR hash value is not an integer\r\n", b""),
    (b"HGETALL h", array(b"f", b"7", b"g", b"2", b"i", b"x"), b""),
    (b"HMGET h g absent", array(b"2", None), b""),
    (b"hdel h g absent", b":1\r\n", b"HDEL h g absent"),
    (b"HKEYS h", array(b"f", b"i"), b""),
    (b"LPUSH h x", WRONG_TYPE, b""),
    (b"RENAME h g", b"+OK\r\n", b"RENAME h g"),
    (b"RENAME h g", b"-ERR no such key\r\n", b""),
    (b"TYPE g", b"+hash\r\n", b""),
    (b"HDEL g f i", b":2\r\n", b"HDEL g f i"),
    (b"EXISTS n g n", b":2\r\n", b""),
    (b"DBSIZE", b":3\r\n", b""),
    (b"PEXPIREAT n " + LATE, b":1\r\n", b"PEXPIREAT n " + LATE),
    (b"PERSIST n", b":1\r\n", b"PERSIST n"),
    (b"PERSIST n", b":0\r\n", b""),
    (b"TTL n", b":-1\r\n", b""),
    (b"PTTL absent", b":-2\r\n", b""),
    (b"pexpireat n " + PAST, b":1\r\n", b"DEL n"),
    (b"EXPIRE b -1", b":1\r\n", b"DEL b"),
    (b"EXPIRE b 10", b":0\r\n", b""),
    (b"EXPIRE m 9223372036854775807", b"-ERR invalid expire time in 'expire' command\r\n", b""),
]

# What is sent to a new folder: the status, the replies, the line and the log that come.
SENT = [
    (PING, 0, b"+PONG\r\n", b"", b""),
    (b"", 0, b"", b"", b""),
    (b"*0\r\n*-1\r\n\r\nPING\n", 0, b"+PONG\r\n", b"", b""),
    (b"set  a\t1\r\nget a\n", 0, b"+OK\r\n$1\r\n1\r\n", b"", SET_A),
    (b"NOPE\r\nGET\r\nget a b\n", 0, UNKNOWN % b"NOPE" + 2 * (WRONG % b"get"), b"", b""),
    (
        b"*3\r\n$3\r\nSET\r\n$1\r\nk\r\n$536870913\r\n",
        7, BAD % b"invalid bulk length", b"protocol error 2 at 20", b"",
    ),
    (
        PING + b"\r\nsay 'hi'\nPING\n",
        7, b"+PONG\r\n" + BAD % b"quoted inline words are not served", b"protocol error 6 at 20", b"",
    ),
    (b"*2\r\n$3\r\nGET\r\n$1", 8, b"", b"cut off after 15 bytes", b""),
    (b"PING\n\nPIN", 8, b"+PONG\r\n", b"cut off after 3 bytes", b""),
    (QUIT + PING + b"*x", 0, b"+OK\r\n", b"", b""),
    *((b"".join(request(row[0]) for row in table), 0, b"".join(row[1] for row in table), b"",
       b"".join(request(row[2]) for row in table if row[2])) for table in (ASKED, ASKED_OF_TYPES)),
]

# A log that is there, and what is sent: the replies and the log that come.
OPENED = [
    (SET_A, b"GET a\nDEL a\n", b"$1\r\n1\r\n:1\r\n", SET_A + DEL_A),
    (SET_A + DEL_A, b"GET a\n", b"$-1\r\n", SET_A + DEL_A),
    (SET_B + MULTI + SET_A, b"GET a\nGET b\n", b"$-1\r\n$1\r\n2\r\n", SET_B),
    (MULTI + SET_A + SET_B + EXEC, b"GET a\n", b"$1\r\n1\r\n", MULTI + SET_A + SET_B + EXEC),
    (request(b"multi") + request(b"set a 1") + request(b"exec"), b"GET a\n", b"$1\r\n1\r\n",
     request(b"multi") + request(b"set a 1") + request(b"exec")),
    # A deadline that is to come, and one that has passed: the key goes with the next request, and not before.
    (SET_A + DUE_LATE, b"GET a\n", b"$1\r\n1\r\n", SET_A + DUE_LATE),
    (SET_A + DUE_LATE, b"SET a 1\nTTL a\n", b"+OK\r\n:-1\r\n", SET_A + DUE_LATE + SET_A),
    (SET_A + DUE_PAST, b"", b"", SET_A + DUE_PAST),
    (SET_A + DUE_PAST + SET_B, b"PING\nGET a\n", b"+PONG\r\n$-1\r\n", SET_A + DUE_PAST + SET_B + DEL_A),
    # Two keys that are due go as one unit, the one that was due first before the other.
    (SET_A + SET_B + request(b"PEXPIREAT a 2000") + request(b"PEXPIREAT b 1000"), b"PING\n", b"+PONG\r\n",
     SET_A + SET_B + request(b"PEXPIREAT a 2000") + request(b"PEXPIREAT b 1000") + MULTI + DEL_B + DEL_A + EXEC),
    # A log as a Redis begins it, and changes of every type.
    (request(b"SELECT 0") + SET_A, b"GET a\n", b"$1\r\n1\r\n", request(b"SELECT 0") + SET_A),
    (request(b"rpush l x y") + request(b"LPOP l"), b"LRANGE l 0 -1\n", array(b"y"),
     request(b"rpush l x y") + request(b"LPOP l")),
    (request(b"HSET h f 1 g 2") + request(b"HINCRBY h f 6"), b"HGETALL h\n", array(b"f", b"7", b"g", b"2"),
     request(b"HSET h f 1 g 2") + request(b"HINCRBY h f 6")),
]

# A log that is refused: the offset of its first fault.
REFUSED = [
    (b"RED", 0),
    (EXEC, 0),
    (MULTI + MULTI, 15),
    (SET_B + EXEC, 27),
    (PING, 0),
    (request(b"NOPE"), 0),
    (DEL_A + request(b"del"), 20),
    (SET_A + request(b"RPUSH a x"), 27),
    (SET_A + request(b"SET a 1 EX 5"), 27),
    (SET_A + request(b"LRANGE l 0 -1"), 27),
    (request(b"SELECT 1"), 0),
    (DEL_A + b"*0\r\n", 20),
    (MULTI + DEL_A + b"GET a\r\n", 35),
    (b"*1\r\n$4\r\nPING\n", 12),
]

# Words that are of no form: the place of the first one that none allows, or their number where one is missing.
FAULTY = [([], 0), (["pipe"], 1), (["check"], 1), (["frob", "d"], 0), (["PIPE", "d"], 0), (["pipe", "d", "e"], 2)]


def rows():
    """Each row: the files at first, the words, the input; the status, the replies, the line, the log at the end."""
    for sent, status, replies, line, log in SENT:
        yield {}, ["pipe", "."], sent, status, replies, line, log
    for log, sent, replies, left in OPENED:
        yield {LOG: log}, ["pipe", "."], sent, 0, replies, b"", left
    for log, place in REFUSED:
        line = b"log refused: appendonly.aof at %d" % place
        yield {LOG: log}, ["pipe", "."], PING, 2, b"", line, log
    for words, place in FAULTY:
        yield {}, words, PING, 1, b"", b"usage at word %d" % place, None
    for length in range(len(UNITS) + 1):
        kept = 0 if length < 27 else 27 if length < 103 else 103
        replies = {0: b"$-1\r\n$-1\r\n", 27: b"$-1\r\n$1\r\n2\r\n", 103: b"$1\r\n1\r\n$-1\r\n"}[kept]
        yield {LOG: UNITS[:length]}, ["pipe", "."], b"GET a\nGET b\n", 0, replies, b"", UNITS[:kept]
    yield {LOG: SET_B + MULTI + SET_A}, ["check", "."], PING, 0, b"keys 1\nkept 27 of 69\n", b"", SET_B + MULTI + SET_A
    yield {}, ["check", "."], PING, 0, b"keys 0\nkept 0 of 0\n", b"", None
    yield {LOG: SET_A + b"RED"}, ["check", "."], PING, 2, b"", b"log refused: appendonly.aof at 27", SET_A + b"RED"
    yield {DUMP: b"old"}, ["check", "."], PING, 13, b"", b"not built 1", None
    yield {DUMP: b"old"}, ["pipe", "."], PING, 13, b"", b"not built 1", None
    yield {}, ["pipe", "absent"], PING, 3, b"", b"directory fault", None


def run(folder, words, **streams):
    return subprocess.run([PROGRAM, *words], cwd=folder, stderr=subprocess.PIPE, timeout=60, **streams)


def wrong_end(done, status, replies, line):
    """What is wrong with the end of a run, or None."""
    told = b"modhost: " + line + b"\n" if line else b""
    if (done.returncode, done.stdout, done.stderr) != (status, replies, told):
        return f"the run ends with {done.returncode}, {done.stdout!r} and {done.stderr!r}"
    return None


def wrong_row(files, words, sent, status, replies, line, log):
    """What is wrong with a row, or None."""
    with tempfile.TemporaryDirectory() as folder:
        for name, held in files.items():
            with open(os.path.join(folder, name), "wb") as file:
                file.write(held)
        done = run(folder, words, input=sent, stdout=subprocess.PIPE)
        left = None
        if os.path.exists(os.path.join(folder, LOG)):
            with open(os.path.join(folder, LOG), "rb") as file:
                left = file.read()
        kept = all(os.path.exists(os.path.join(folder, name)) for name in files)
        wrong = wrong_end(done, status, replies, line)
        return wrong or (None if left == log and kept else f"the log is {left!r} instead of {log!r}")


def wrong_streams():
    """A log and an input that can't be read, and an output that takes nothing."""
    with tempfile.TemporaryDirectory() as folder:
        os.mkdir(os.path.join(folder, LOG))
        done = run(folder, ["pipe", "."], input=PING, stdout=subprocess.PIPE)
        wrong = wrong_end(done, 3, b"", b"directory fault")
    with tempfile.TemporaryDirectory() as folder:
        unreadable = os.open(folder, os.O_RDONLY)
        done = run(folder, ["pipe", "."], stdin=unreadable, stdout=subprocess.PIPE)
        os.close(unreadable)
        wrong = wrong or wrong_end(done, 4, b"", b"read fault")
    if not os.path.exists("/dev/full"):
        return wrong
    with tempfile.TemporaryDirectory() as folder, open("/dev/full", "wb") as full:
        done = run(folder, ["pipe", "."], input=PING, stdout=full)
        return wrong or wrong_end(done, 5, None, b"write fault")


def wrong_expiry():
    """A deadline that is told in seconds is in the log as a moment, and holds over a restart."""
    with tempfile.TemporaryDirectory() as folder:
        before = time.time_ns() // 1_000_000
        done = run(folder, ["pipe", "."], input=b"SET a 1\nEXPIRE a 100\nSET b 2\nEXPIRE b 1\n", stdout=subprocess.PIPE)
        after = time.time_ns() // 1_000_000
        wrong = wrong_end(done, 0, 2 * b"+OK\r\n:1\r\n", b"")
        with open(os.path.join(folder, LOG), "rb") as file:
            log = file.read()
        due = [int(word) for word in re.findall(rb"PEXPIREAT\r\n\$1\r\n[ab]\r\n\$13\r\n([0-9]+)\r\n", log)]
        if wrong or len(due) != 2:
            return wrong or f"the log has no two deadlines: {log!r}"
        units = [request(b"PEXPIREAT a %d" % due[0]), request(b"PEXPIREAT b %d" % due[1])]
        if log != SET_A + units[0] + SET_B + units[1]:
            return f"the log is {log!r}"
        if not (before + 100_000 <= due[0] <= after + 100_000 and before + 1_000 <= due[1] <= after + 1_000):
            return f"the deadlines are {due}, where the run was from {before} to {after}"
        time.sleep(max(0.0, due[1] / 1000 - time.time()) + 0.01)
        done = run(folder, ["pipe", "."], input=b"TTL a\nGET a\nGET b\n", stdout=subprocess.PIPE)
        with open(os.path.join(folder, LOG), "rb") as file:
            left = file.read()
        told = re.fullmatch(rb":([0-9]+)\r\n\$1\r\n1\r\n\$-1\r\n", done.stdout)
        if done.returncode != 0 or not told or not 0 < int(told[1]) <= 99 or left != log + DEL_B:
            return f"after the restart the run ends with {done.returncode}, {done.stdout!r} and the log {left!r}"
    return None


def wrong_help():
    """The words that print a text, in their two spellings."""
    texts = [run(".", [word], stdout=subprocess.PIPE).stdout for word in ("--help", "-h", "--version")]
    if texts[0] != texts[1] or not texts[0].startswith(b"modhost: ") or not texts[2].startswith(b"modhost "):
        return f"the texts are {texts!r}"
    return None


def main():
    if not shutil.which("rt"):
        print("skipped, for want of the toolchain: tests/rows.py")
        return 0
    # Proves the program first where that is due.
    subprocess.run([PROGRAM, "prove"], check=True)
    count = 0
    for row in rows():
        count += 1
        wrong = wrong_row(*row)
        if wrong is not None:
            print(f"tests/rows.py: {row[1]} over {row[0]!r}, with {row[2]!r}: {wrong}")
            return 1
    wrong = wrong_streams() or wrong_expiry() or wrong_help()
    if wrong is not None:
        print(f"tests/rows.py: {wrong}")
        return 1
    print(f"tests/rows.py: {count + 6} runs ended as they should")
    return 0


if __name__ == "__main__":
    sys.exit(main())
