#!/usr/bin/env python3
"""How fast the checksum of RDB goes, and that reading strings is linear: two million against a tenth of them.

Builds a small program over the crate in a scratch copy, by `rt run`, which proves it first, and takes the best
of five runs of the checksum over 64 MiB. Needs the toolchain.
"""

import shutil
import subprocess
import sys
import tempfile
from pathlib import Path

from tables import below

ROOT = Path(__file__).resolve().parent.parent
CRATE = "rdb_prims"

PROGRAM = """
#![tactic(auto)]

use core_types::{Blob, NoMemory};
use rdb_prims::{Crc64, put_string, read_string};
use std::alloc::Global;
use std::io;
use std::time::{CpuClock, Duration};

fn micros(rt: &HostRuntime, since: Duration) -> u64 {
    let now = rt.thread_cpu_time().unwrap_or(since);
    u64::try_from(now.as_micros().saturating_sub(since.as_micros())).unwrap_or(0)
}

fn strings(alloc: Global, count: u64) -> Result<Blob, NoMemory> {
    let mut out = Blob::new(alloc);
    for _ in 0..count {
        put_string(&mut out, &[b'x'; 20])?;
    }
    Ok(out)
}

fn count_strings(alloc: Global, bytes: &[u8], most: u64) -> u64 {
    let mut at = 0;
    let mut count: u64 = 0;
    for _ in 0..most {
        match read_string(alloc, bytes, at) {
            Ok((_, next)) => {
                at = next;
                count = count.saturating_add(1);
            }
            Err(_) => return count,
        }
    }
    count
}

fn main(rt: HostRuntime) -> io::Result<()> {
    let alloc = rt.alloc();
    let mut bytes = Vec::new(alloc);
    for n in 0..67_108_864u64 {
        bytes.push((n % 251) as u8)?;
    }
    for _ in 0..5u32 {
        let start = rt.thread_cpu_time()?;
        let mut crc = Crc64::new();
        crc.add(&bytes);
        println!(rt; "BENCH checksum {} {}", micros(&rt, start), crc.value())?;
    }
    for count in [200_000u64, 2_000_000] {
        let text = strings(alloc, count).unwrap_or(Blob::new(alloc));
        let start = rt.thread_cpu_time()?;
        let found = count_strings(alloc, text.as_slice(), count);
        println!(rt; "BENCH strings {} {found}", micros(&rt, start))?;
    }
    Ok(())
}
"""


def main():
    lines = {}
    for line in (ROOT / "crates.txt").read_text().splitlines():
        name, _, deps = line.partition(":")
        lines[name.split()[0]] = deps.split()
    with tempfile.TemporaryDirectory() as folder:
        top = Path(folder)
        shutil.copy(ROOT / "HANDLES", top)
        wanted = sorted(set(below(CRATE, lines)), key=list(lines).index)
        listed = "".join(f"{name}: {' '.join(lines[name])}\n" for name in wanted)
        (top / "crates.txt").write_text(f"{listed}bench: {CRATE} core_types\n")
        for name in wanted:
            shutil.copytree(ROOT / "crates" / name, top / "crates" / name, ignore=shutil.ignore_patterns("must-fail"))
        (top / "crates/bench/src").mkdir(parents=True)
        (top / "crates/bench/src/main.rt").write_text(PROGRAM.lstrip())
        done = subprocess.run(["rt", "run"], cwd=top / "crates/bench", capture_output=True, text=True)
    rows = [line.split()[1:] for line in done.stdout.splitlines() if line.startswith("BENCH")]
    checksums = [int(time) for call, time, _ in rows if call == "checksum"]
    strings = [(int(time), int(count)) for call, time, count in rows if call == "strings"]
    if not checksums or len(strings) != 2:
        print(done.stdout[-2000:] + done.stderr[-2000:], file=sys.stderr)
        return 1
    print(f"checksum: {(64 << 20) / max(min(checksums), 1):.0f} MB/s")
    (less, few), (more, many) = strings
    print(f"read_string: {more} us for {many}, {less} us for {few}, ratio {more / max(less, 1):.1f}")
    return 0


if __name__ == "__main__":
    sys.exit(main())
