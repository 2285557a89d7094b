#!/usr/bin/env python3
"""How the items of a ziplist cost with many entries, against a tenth of them.

As bench/tables.py does: by `rt try`, which checks more at run time than the program does, so the ratios count.
"""

import sys

from tables import run

ZIPLIST = """
use crate::items;
use std::alloc::Global;
use std::test::Fail;
use std::time::{CpuClock, Duration};

fn micros(rt: &HostRuntime, since: Duration) -> u64 {
    let now = rt.thread_cpu_time().unwrap_or(since);
    (now.as_micros() - since.as_micros()) as u64
}

// Entries of six and of four bytes in turn: a string of four bytes, and an integer of 16 bits.
fn ziplist(alloc: Global, pairs: usize) -> Result<Vec<u8>, Fail> {
    let mut body = Vec::from_slice(alloc, b"\\0\\x04text\\x06\\xc0\\x39\\x05")?;
    for _ in 1..pairs {
        body.extend_from_slice(b"\\x04\\x04text\\x06\\xc0\\x39\\x05")?;
    }
    body.push(0xff)?;
    let total = u32::try_from(body.len() + 10).unwrap_or(0);
    let mut bytes = Vec::from_slice(alloc, &total.to_le_bytes())?;
    bytes.extend_from_slice(&total.saturating_sub(5).to_le_bytes())?;
    bytes.extend_from_slice(b"\\xff\\xff")?;
    bytes.extend_from_slice(&body)?;
    Ok(bytes)
}

fn measure(rt: &HostRuntime, entries: usize) -> Result<(), Fail> {
    let bytes = ziplist(rt.alloc(), entries / 2)?;
    let start = rt.thread_cpu_time()?;
    let found = items(rt.alloc(), &bytes).map_or(0, |items| items.len());
    if found == entries {
        println!(rt; "BENCH items {entries} {}", micros(rt, start))?;
    }
    Ok(())
}

#[test]
fn costs(rt: HostRuntime) -> Result<(), Fail> {
    measure(&rt, 100_000)?;
    measure(&rt, 1_000_000)
}
"""

if __name__ == "__main__":
    sys.exit(run("zip_lists", ZIPLIST))
