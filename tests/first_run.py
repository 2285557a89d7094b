#!/usr/bin/env python3
"""Tries the launcher in a copy of the repository with nothing built and an empty home: two first runs at once answer
within two minutes of the processor (on the clock others may work beside it), and say that they are not proved, in
one line each time; streams, statuses and signals are the program's; each fault of the launcher has its line. Where
this repository's own program is proved, and what was proved is kept on this machine, proves the copy's too: it then
runs, and says nothing.

Exits 0 where all holds. Skipped where the toolchain is missing.
"""

import os
import resource
import shutil
import signal
import subprocess
import sys
import tempfile
import time

ROOT = os.path.dirname(os.path.dirname(os.path.abspath(__file__)))
WITHIN, PROVED_WITHIN, PATIENCE = 120, 100, 900
LINE = b"modhost: this program is not proved: ./modhost prove proves it\n"
SENT, REPLY = b"SET a 1\nGET a\n", b"+OK\r\n$1\r\n1\r\n"


class Wrong(Exception):
    pass


def want(holds, what):
    if not holds:
        raise Wrong(what)


class Copy:
    """A copy of the repository with nothing built, and a home and a place for temporary files of its own."""

    def __init__(self, place):
        self.top, self.place = os.path.join(place, "copy"), place
        left_out = shutil.ignore_patterns(".git", "out", "__pycache__")
        shutil.copytree(ROOT, self.top, ignore=left_out)
        for name in ("home", "tmp", "one", "two", "three"):
            os.mkdir(os.path.join(place, name))
        self.environment = {**os.environ, "HOME": os.path.join(place, "home"), "TMPDIR": os.path.join(place, "tmp")}

    def begin(self, *words, **more):
        how = {"stdin": subprocess.PIPE, "stdout": subprocess.PIPE, "stderr": subprocess.PIPE}
        command = [os.path.join(self.top, "modhost"), *words]
        return subprocess.Popen(command, cwd=self.place, **{"env": self.environment, **how, **more})

    def run(self, *words, sent=b"", **more):
        program = self.begin(*words, **more)
        out, told = program.communicate(sent, timeout=PATIENCE)
        return program.returncode, out, told


def faults(copy):
    """The launcher's own ends, with nothing built: no toolchain, no room, no right to write."""
    tools = os.path.join(copy.place, "tools")
    os.mkdir(tools)
    for name in ("bash", "dirname", "find"):
        os.symlink(shutil.which(name), os.path.join(tools, name))
    status, _, told = copy.run("--version", env={**copy.environment, "PATH": tools})
    want(status == 70 and b"no rt on the PATH" in told, f"without a toolchain: {status}, {told!r}")
    with open(os.path.join(tools, "df"), "w") as file:
        file.write("#!/bin/sh\necho; echo / 1 1 3 1 /\n")
    os.chmod(os.path.join(tools, "df"), 0o755)
    path = tools + os.pathsep + os.environ["PATH"]
    status, _, told = copy.run("--version", env={**copy.environment, "PATH": path})
    want(status == 70 and b"no room on the disk" in told and b"3 MB" in told, f"without room: {status}, {told!r}")
    shutil.rmtree(os.path.join(copy.top, "out"))
    with open(os.path.join(copy.top, "out"), "w"):
        pass
    status, _, told = copy.run("--version")
    want(status == 70 and b"no right to write" in told, f"where no folder can be made: {status}, {told!r}")
    os.remove(os.path.join(copy.top, "out"))


def processor():
    used = resource.getrusage(resource.RUSAGE_CHILDREN)
    return used.ru_utime + used.ru_stime


def first_runs(copy):
    """Two at once, of which one builds and the other waits for it; returns the seconds until both have replied, and
    those of the processor."""
    start, before = time.monotonic(), processor()
    both = [copy.begin("pipe", name) for name in ("one", "two")]
    for program in both:
        program.stdin.write(SENT)
        program.stdin.close()
    for program in both:
        out, told = program.stdout.read(), program.stderr.read()
        status = program.wait(timeout=PATIENCE)
        want((status, out) == (0, REPLY) and told.endswith(LINE), f"a first run: {status}, {out!r}, {told!r}")
    taken, used = time.monotonic() - start, processor() - before
    want(used < WITHIN, f"the first replies took {taken:.0f} s, {used:.0f} s of the processor")
    return taken, used


def later_runs(copy, line):
    """What is handed on to the program, and what the launcher says."""
    told = copy.run("pipe", "one", sent=b"GET a\n")
    want(told == (0, b"$1\r\n1\r\n", line), f"a later run: {told!r}")
    for word in ("--help", "--version"):
        status, out, told = copy.run(word)
        want((status, told) == (0, line) and out.startswith(b"modhost"), f"{word}: {status}, {out!r}, {told!r}")
    status, _, told = copy.run("pipe", "nowhere")
    want((status, told) == (3, line + b"modhost: directory fault\n"), f"with no folder: {status}, {told!r}")
    program = copy.begin("pipe", "three")
    program.stdin.write(b"PING\n")
    program.stdin.flush()
    want(program.stdout.read(7) == b"+PONG\r\n", "the reply to a PING did not come before the end of the input")
    program.send_signal(signal.SIGTERM)
    program.communicate()
    want(program.returncode == -signal.SIGTERM, f"a signal ends it with {program.returncode}")


def is_proved():
    """Whether this repository's own program is proved, of the files as they are."""
    program = os.path.join(ROOT, "crates", "modhost", "out", "modhost")
    if not os.path.exists(program):
        return False
    built = os.stat(program).st_mtime_ns
    for at, folders, names in os.walk(os.path.join(ROOT, "crates")):
        folders[:] = [name for name in folders if name != "out"]
        if any(os.stat(os.path.join(at, name)).st_mtime_ns > built for name in names):
            return False
    return True


def proves(copy):
    """Whether the copy's program could be proved in the time that it takes where all was proved on this machine."""
    program = copy.begin("prove", start_new_session=True)
    try:
        _, told = program.communicate(timeout=PROVED_WITHIN)
    except subprocess.TimeoutExpired:
        os.killpg(program.pid, signal.SIGTERM)
        program.communicate()
        return False
    want(program.returncode == 0 and told.endswith(b"modhost: the program is proved\n"), f"prove: {told!r}")
    return True


def check(place):
    copy = Copy(place)
    faults(copy)
    taken, used = first_runs(copy)
    later_runs(copy, LINE)
    print(f"tests/first_run.py: two first runs at once replied in {taken:.0f} s ({used:.0f} s of the "
          "processor), not proved, as they said")
    if not is_proved() or not proves(copy):
        print("skipped in tests/first_run.py, as the program here is not proved, or its proofs are not kept: that it proves")
        return
    later_runs(copy, b"")
    os.utime(os.path.join(copy.top, "crates.txt"))
    told = copy.run("--version")[2]
    want(told.endswith(LINE), f"after a change: {told!r}")
    print("tests/first_run.py: proved, it says nothing, and after a change it is not proved again")


def main():
    if not shutil.which("rt"):
        print("skipped, for want of the toolchain: tests/first_run.py")
        return 0
    with tempfile.TemporaryDirectory() as place:
        try:
            check(place)
        except (Wrong, subprocess.TimeoutExpired) as wrong:
            print(f"tests/first_run.py: {wrong}")
            return 1
    return 0


if __name__ == "__main__":
    sys.exit(main())
