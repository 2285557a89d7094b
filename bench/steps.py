#!/usr/bin/env python3
"""How steps of the machine cost over many keys, and a DEL of many words, against a tenth of them.

As bench/commands.py does: by `rt try`, which checks more at run time than the program does, so the ratios count.
"""

import sys

from tables import SETS, run

CODE = (
    """
use crate::Core;
use core_types::{Args, Blob, Event, NoMemory, Sequence};"""
    + SETS
    + """
fn delete(alloc: Global, keys: u64) -> Result<Args, NoMemory> {
    let mut words = Sequence::new(alloc);
    words.push(Blob::from_slice(alloc, b"DEL")?)?;
    for n in 0..keys {
        words.push(Blob::from_slice(alloc, format!(in alloc; "key:{n}")?.as_bytes())?)?;
    }
    Ok(words)
}

fn measure(rt: &HostRuntime, keys: u64) -> Result<(), Fail> {
    let alloc = rt.alloc();
    let mut core = Core::new(alloc, RandomState::new(rt)?)?;
    core.step(&Event::Join(1))?;
    let start = rt.thread_cpu_time()?;
    for n in 0..keys {
        core.step(&Event::Arrive(1, set(alloc, n)?))?;
    }
    println!(rt; "BENCH SET {keys} {}", micros(rt, start))?;
    let start = rt.thread_cpu_time()?;
    for n in 0..10_000u64 {
        core.step(&Event::Tick(n))?;
    }
    println!(rt; "BENCH Tick {keys} {}", micros(rt, start))?;
    let event = Event::Arrive(1, delete(alloc, keys)?);
    let start = rt.thread_cpu_time()?;
    core.step(&event)?;
    println!(rt; "BENCH DEL {keys} {}", micros(rt, start))?;
    Ok(())
}

#[test]
fn costs(rt: HostRuntime) -> Result<(), Fail> {
    measure(&rt, 2_000)?;
    measure(&rt, 20_000)
}
"""
)

if __name__ == "__main__":
    sys.exit(run("host_core", CODE))
