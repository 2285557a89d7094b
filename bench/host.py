#!/usr/bin/env python3
"""How the steps of a durable host cost over a directory in memory, and taking its replies.

10,000 SETs with a Flush behind each 64 of them, against 1,000. As bench/commands.py does: by `rt try`, which checks
more at run time than the program does, so the ratios count.
"""

import sys

from tables import SETS, run

CODE = (
    """
use crate::{DurableHost, HostFault};
use core_types::{Args, Blob, Event, NoMemory, Sequence};
use disk_model::MemoryDir;"""
    + SETS
    + """
fn serve(alloc: Global, host: &mut DurableHost<MemoryDir>, requests: u64) -> Result<(), HostFault> {
    host.step(Event::Join(1))?;
    for n in 0..requests {
        host.step(Event::Arrive(1, set(alloc, n)?))?;
        if n % 64 == 63 {
            host.step(Event::Flush)?;
        }
    }
    host.step(Event::Flush)?;
    Ok(())
}

fn started(alloc: Global, hashing: RandomState) -> Result<DurableHost<MemoryDir>, HostFault> {
    match DurableHost::start(alloc, hashing, MemoryDir::new(alloc, &[])?) {
        Ok(host) => Ok(host),
        Err(_) => Err(HostFault::Dir),
    }
}

fn take_all(host: &mut DurableHost<MemoryDir>) -> u64 {
    let mut room = [0; 64];
    let mut taken = 0u64;
    while host.waiting(1) > 0 {
        taken += host.take_out(1, &mut room) as u64;
    }
    taken
}

fn measure(rt: &HostRuntime, requests: u64) -> Result<u64, Fail> {
    let alloc = rt.alloc();
    let mut host = started(alloc, RandomState::new(rt)?)?;
    let start = rt.thread_cpu_time()?;
    serve(alloc, &mut host, requests)?;
    println!(rt; "BENCH SET {requests} {}", micros(rt, start))?;
    let start = rt.thread_cpu_time()?;
    let taken = take_all(&mut host);
    println!(rt; "BENCH take_out {requests} {}", micros(rt, start))?;
    Ok(taken)
}

#[test]
fn costs(rt: HostRuntime) -> Result<(), Fail> {
    assert_eq!(rt; measure(&rt, 1_000)?, 5_000);
    assert_eq!(rt; measure(&rt, 10_000)?, 50_000);
    Ok(())
}
"""
)

if __name__ == "__main__":
    sys.exit(run("durable_host", CODE))
