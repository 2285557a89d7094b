#!/usr/bin/env python3
"""How the calls of the tables of clients, tickets and keys cost with many entries, against a tenth of them.

Runs the calls on clients and tickets in a scratch copy by `rt try`, which builds without proofs and checks more
at run time than the program does, so the ratios count and not the times. The keys are a million, too many for
that: a small program is proved and built in a scratch copy, and run on a store of keys, on one whose keys all
have deadlines, and on std's BTreeMap of the same keys. Its times and peaks of memory are those of a program.
Needs the toolchain.
"""

import shutil
import subprocess
import sys
import tempfile
from pathlib import Path

ROOT = Path(__file__).resolve().parent.parent

# the part of a load that is the same over a machine and over a durable host
SETS = """
use std::alloc::Global;
use std::hash::RandomState;
use std::test::Fail;
use std::time::{CpuClock, Duration};

fn micros(rt: &HostRuntime, since: Duration) -> u64 {
    let now = rt.thread_cpu_time().unwrap_or(since);
    (now.as_micros() - since.as_micros()) as u64
}

fn set(alloc: Global, n: u64) -> Result<Args, NoMemory> {
    let mut words = Sequence::new(alloc);
    words.push(Blob::from_slice(alloc, b"SET")?)?;
    words.push(Blob::from_slice(alloc, format!(in alloc; "key:{n}")?.as_bytes())?)?;
    words.push(Blob::from_slice(alloc, b"1")?)?;
    Ok(words)
}
"""

CLIENTS = """
use crate::Book;
use core_types::{Blob, ClientState, NoMemory, Reply};
use std::alloc::Global;
use std::test::Fail;
use std::time::{CpuClock, Duration};

fn tell(alloc: Global, book: &mut Book, client: u64) -> Result<(), NoMemory> {
    let mut bytes = Blob::new(alloc);
    bytes.grow(10)?;
    let reply = Reply::Bulk(bytes);
    if book.state(client) != ClientState::Absent {
        book.hold(client, &reply)?;
    }
    Ok(())
}

fn filled(alloc: Global, clients: u64) -> Result<Book, Fail> {
    let mut book = Book::new(alloc);
    for n in 1..clients + 1 {
        book.join(n)?;
        if book.state(n) != ClientState::Absent {
            book.watch(n, format!(in alloc; "key:{n}")?.as_bytes())?;
        }
    }
    Ok(book)
}

fn micros(rt: &HostRuntime, since: Duration) -> u64 {
    let now = rt.thread_cpu_time().unwrap_or(since);
    (now.as_micros() - since.as_micros()) as u64
}

fn measure(rt: &HostRuntime, clients: u64) -> Result<(), Fail> {
    let alloc = rt.alloc();
    let mut book = filled(alloc, clients)?;
    let start = rt.thread_cpu_time()?;
    for _ in 0..2_000u32 {
        book.touch(b"key:77");
    }
    println!(rt; "BENCH touch {clients} {}", micros(rt, start))?;
    let start = rt.thread_cpu_time()?;
    for _ in 0..2_000u32 {
        tell(alloc, &mut book, 77)?;
        book.flush();
    }
    println!(rt; "BENCH hold+flush {clients} {}", micros(rt, start))?;
    let mut piece = [0u8; 64];
    let start = rt.thread_cpu_time()?;
    for _ in 0..2_000u32 {
        let _ = book.take_out(77, &mut piece);
    }
    println!(rt; "BENCH take_out {clients} {}", micros(rt, start))?;
    Ok(())
}

#[test]
fn costs(rt: HostRuntime) -> Result<(), Fail> {
    measure(&rt, 1_000)?;
    measure(&rt, 10_000)
}
"""

TICKETS = """
use crate::Tickets;
use sequences::Blob;
use std::alloc::Global;
use std::test::Fail;
use std::time::{CpuClock, Duration};

fn filled(alloc: Global, tickets: u64) -> Result<Tickets, Fail> {
    let mut table = Tickets::new(alloc);
    for n in 1..tickets + 1 {
        let job = Blob::from_slice(alloc, b"job")?;
        if table.admit(n, 0, job, Some(1_000_000 + n * 7 % 1_000)).is_err() {
            break;
        }
    }
    Ok(table)
}

fn micros(rt: &HostRuntime, since: Duration) -> u64 {
    let now = rt.thread_cpu_time().unwrap_or(since);
    (now.as_micros() - since.as_micros()) as u64
}

fn measure(rt: &HostRuntime, tickets: u64) -> Result<(), Fail> {
    let alloc = rt.alloc();
    let mut table = filled(alloc, tickets)?;
    let start = rt.thread_cpu_time()?;
    for now in 0..2_000u64 {
        let _ = table.due(now);
    }
    println!(rt; "BENCH due {tickets} {}", micros(rt, start))?;
    let start = rt.thread_cpu_time()?;
    for n in 1..501u64 {
        let payload = Blob::from_slice(alloc, b"x")?;
        let _ = table.unblock(n, payload).is_ok();
        if let Some(first) = table.next_ready() {
            let _ticket = table.close(first);
        }
    }
    println!(rt; "BENCH unblock+close {tickets} {}", micros(rt, start))?;
    Ok(())
}

#[test]
fn costs(rt: HostRuntime) -> Result<(), Fail> {
    measure(&rt, 1_000)?;
    measure(&rt, 10_000)
}
"""

KEYS = """
//! How a store of keys costs, beside std's BTreeMap of the same keys.
#![tactic(auto)]

use core_types::{Blob, NoMemory, Value};
use key_store::KeyStore;
use std::alloc::Global;
use std::collections::BTreeMap;
use std::env;
use std::fs;
use std::time::{CpuClock, Duration};

fn micros(rt: &HostRuntime, since: Duration) -> u64 {
    let now = rt.thread_cpu_time().unwrap_or(since);
    u64::try_from(now.as_micros().saturating_sub(since.as_micros())).unwrap_or(0)
}

// Where keys are put that do not come in order: each number below a million once.
fn shuffled(n: usize) -> usize {
    n.wrapping_mul(7_368_787) % 1_000_000
}

fn key(alloc: Global, n: usize) -> anyhow::Result<Vec<u8>> {
    let text = format!(in alloc; "key:{n}")?;
    Ok(Vec::from_slice(alloc, text.as_bytes())?)
}

fn put(alloc: Global, store: &mut KeyStore<u64>, n: usize) -> anyhow::Result<()> {
    match store.put(Blob::from_vec(key(alloc, n)?), Value::Native(7)) {
        Ok(_) => Ok(()),
        Err(_) => Err(anyhow::Error::from(NoMemory)),
    }
}

fn date(alloc: Global, store: &mut KeyStore<u64>, n: usize) -> anyhow::Result<()> {
    let name = key(alloc, n)?;
    if store.get(&name).is_some() {
        store.set_deadline(&name, Some(1_000_000u64.saturating_add(n as u64)))?;
    }
    Ok(())
}

fn tell_memory(rt: &HostRuntime, name: &str, size: usize) -> anyhow::Result<()> {
    let status = fs::read_to_string(rt, "/proc/self/status")?;
    for line in status.lines() {
        if line.starts_with("VmHWM") {
            println!(rt; "MEMORY {name} {size} {line}")?;
        }
    }
    Ok(())
}

fn looked_up(rt: &HostRuntime, store: &KeyStore<u64>, size: usize) -> anyhow::Result<()> {
    let alloc = rt.alloc();
    let start = rt.thread_cpu_time()?;
    let mut found = 0u64;
    for n in 0..size {
        if store.get(&key(alloc, shuffled(n))?).is_some() {
            found = found.saturating_add(1);
        }
    }
    println!(rt; "BENCH get {size} {} found {found}", micros(rt, start))?;
    Ok(())
}

fn store_of(rt: &HostRuntime, size: usize, dated: bool) -> anyhow::Result<()> {
    let alloc = rt.alloc();
    let mut store = KeyStore::new(alloc);
    tell_memory(rt, "store", 0)?;
    let start = rt.thread_cpu_time()?;
    for n in 0..size {
        put(alloc, &mut store, shuffled(n))?;
    }
    println!(rt; "BENCH put {size} {}", micros(rt, start))?;
    tell_memory(rt, "store", size)?;
    looked_up(rt, &store, size)?;
    if dated {
        deadlines_of(rt, &mut store, size)?;
    }
    Ok(())
}

fn deadlines_of(rt: &HostRuntime, store: &mut KeyStore<u64>, size: usize) -> anyhow::Result<()> {
    let alloc = rt.alloc();
    let start = rt.thread_cpu_time()?;
    for n in 0..size {
        date(alloc, store, shuffled(n))?;
    }
    println!(rt; "BENCH set_deadline {size} {}", micros(rt, start))?;
    tell_memory(rt, "dated", size)?;
    let start = rt.thread_cpu_time()?;
    let mut none = 0u64;
    for now in 0..1_000_000u64 {
        if store.next_due(now).is_none() {
            none = none.saturating_add(1);
        }
    }
    println!(rt; "BENCH next_due-none {size} {} none {none}", micros(rt, start))?;
    let start = rt.thread_cpu_time()?;
    let mut some = 0u64;
    for _ in 0..1_000_000u32 {
        if store.next_due(2_000_000).is_some() {
            some = some.saturating_add(1);
        }
    }
    println!(rt; "BENCH next_due-one {size} {} some {some}", micros(rt, start))?;
    let start = rt.thread_cpu_time()?;
    let mut gone = 0u64;
    for _ in 0..size {
        let name = match store.next_due(u64::MAX) {
            Some(name) => Vec::from_slice(alloc, name)?,
            None => Vec::new(alloc),
        };
        if store.take(&name).is_some() {
            gone = gone.saturating_add(1);
        }
    }
    println!(rt; "BENCH next_due+take {size} {} gone {gone}", micros(rt, start))?;
    Ok(())
}

fn map_of(rt: &HostRuntime, size: usize) -> anyhow::Result<()> {
    let alloc = rt.alloc();
    let mut map: BTreeMap<Vec<u8>, u64> = BTreeMap::new(alloc);
    tell_memory(rt, "map", 0)?;
    let start = rt.thread_cpu_time()?;
    for n in 0..size {
        map.insert(key(alloc, shuffled(n))?, 7)?;
    }
    println!(rt; "BENCH BTreeMap-insert {size} {}", micros(rt, start))?;
    tell_memory(rt, "map", size)?;
    let start = rt.thread_cpu_time()?;
    let mut found = 0u64;
    for n in 0..size {
        if map.get(key(alloc, shuffled(n))?.as_slice()).is_some() {
            found = found.saturating_add(1);
        }
    }
    println!(rt; "BENCH BTreeMap-get {size} {} found {found}", micros(rt, start))?;
    Ok(())
}

fn main(rt: HostRuntime) -> anyhow::Result<()> {
    let mut what = 0u64;
    let mut size = 1_000usize;
    for word in env::args(&rt)? {
        match word.as_str() {
            "map" => what = 1,
            "dated" => what = 2,
            "100000" => size = 100_000,
            "1000000" => size = 1_000_000,
            _ => {}
        }
    }
    if what == 1 {
        map_of(&rt, size)
    } else {
        store_of(&rt, size, what == 2)
    }
}
"""


def below(crate, lines):
    """A crate and those that it stands on, of this repository."""
    found = [crate]
    for name in lines.get(crate, []):
        if name in lines:
            found += below(name, lines)
    return found


def copied(crate, top):
    """A scratch copy of a crate and of those that it stands on."""
    lines = {}
    for line in (ROOT / "crates.txt").read_text().splitlines():
        name, _, deps = line.partition(":")
        lines[name.split()[0]] = deps.split()
    shutil.copy(ROOT / "HANDLES", top)
    wanted = sorted(set(below(crate, lines)), key=list(lines).index)
    (top / "crates.txt").write_text("".join(f"{name}: {' '.join(lines[name])}\n" for name in wanted))
    for name in wanted:
        shutil.copytree(ROOT / "crates" / name, top / "crates" / name, ignore=shutil.ignore_patterns("must-fail"))


def run(crate, code):
    with tempfile.TemporaryDirectory() as folder:
        top = Path(folder)
        copied(crate, top)
        source = top / "crates" / crate / "src"
        (source / "tests.rt").write_text(code.lstrip())
        with open(source / "lib.rt", "a") as lines:
            lines.write("\n#[cfg(test)]\nmod tests;\n")
        done = subprocess.run(["rt", "try", "--test"], cwd=top / "crates" / crate, capture_output=True, text=True)
    return tell(crate, done.stdout + done.stderr)


def run_keys():
    """Builds the program of the keys and runs each of its loads."""
    with tempfile.TemporaryDirectory() as folder:
        top = Path(folder)
        copied("key_store", top)
        with open(top / "crates.txt", "a") as lines:
            lines.write("keys_bench: anyhow core_types key_store\n")
        crate = top / "crates" / "keys_bench"
        (crate / "src").mkdir(parents=True)
        (crate / "src" / "main.rt").write_text(KEYS.lstrip())
        done = subprocess.run(["rt", "run"], cwd=crate, capture_output=True, text=True)
        program = crate / "out" / "keys_bench"
        if done.returncode != 0 or not program.exists():
            print(done.stdout[-2000:] + done.stderr[-2000:], file=sys.stderr)
            return 1
        failed = 0
        for load in ("map", "store", "dated"):
            said = [subprocess.check_output([program, load, size], text=True) for size in ("100000", "1000000")]
            failed |= tell("keys", "".join(said))
        return failed


def tell(crate, output):
    """Prints what was measured with many entries against a tenth, and the memory that each took."""
    rows = {}
    peaks = {}
    for line in output.splitlines():
        words = line.split()
        if "MEMORY" in words:
            name, count, _, kilobytes = words[words.index("MEMORY") + 1 :][:4]
            peaks[name, int(count)] = int(kilobytes)
        if "BENCH" in words:
            call, count, time = words[words.index("BENCH") + 1 :][:3]
            rows.setdefault(call, []).append((int(count), int(time)))
    if not rows:
        print(f"{crate}: nothing was measured", file=sys.stderr)
        print(output[-4000:], file=sys.stderr)
        return 1
    start = min(peaks.values(), default=0)
    for (name, count), kilobytes in peaks.items():
        if count > 0:
            print(f"{crate} {name}: {(kilobytes - start) * 1024 / count:.0f} bytes for each of {count}")
    for call, ((few, less), (many, more)) in rows.items():
        print(f"{crate} {call}: {more} us with {many}, {less} us with {few}, ratio {more / max(less, 1):.1f}")
    return 0


if __name__ == "__main__":
    sys.exit(run("client_book", CLIENTS) | run("blocked_tickets", TICKETS) | run_keys())
