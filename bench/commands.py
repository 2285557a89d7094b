#!/usr/bin/env python3
"""How commands on one key cost with a large value, and look-ups with many keys, against a tenth of the size.

As bench/tables.py does: by `rt try`, which checks more at run time than the program does, so the ratios count.
A store of keys is measured beside std's BTreeMap of the same keys.
"""

import sys

from tables import run

CLOCK = """
fn micros(rt: &HostRuntime, since: Duration) -> u64 {
    let now = rt.thread_cpu_time().unwrap_or(since);
    (now.as_micros() - since.as_micros()) as u64
}

fn words(alloc: Global, texts: &[&[u8]]) -> Result<Args, NoMemory> {
    let mut words = Sequence::new(alloc);
    for text in texts {
        words.push(Blob::from_slice(alloc, text)?)?;
    }
    Ok(words)
}
"""

STRINGS = """
use crate::{StringCmd, run};
use core_types::{Args, Blob, NoMemory, Sequence};
use std::alloc::Global;
use std::test::Fail;
use std::time::{CpuClock, Duration};
""" + CLOCK + """
fn measure(rt: &HostRuntime, size: usize) -> Result<(), Fail> {
    let alloc = rt.alloc();
    let mut value = Blob::new(alloc);
    value.grow(size)?;
    let append = words(alloc, &[b"APPEND", b"k", b"0123456789"])?;
    let start = rt.thread_cpu_time()?;
    for _ in 0..1_000u32 {
        let _outcome = run(alloc, StringCmd::Append, Some(&mut value), &append)?;
    }
    println!(rt; "BENCH APPEND {size} {}", micros(rt, start))?;
    let range = words(alloc, &[b"GETRANGE", b"k", b"10", b"20"])?;
    let start = rt.thread_cpu_time()?;
    for _ in 0..1_000u32 {
        let _outcome = run(alloc, StringCmd::GetRange, Some(&mut value), &range)?;
    }
    println!(rt; "BENCH GETRANGE {size} {}", micros(rt, start))?;
    Ok(())
}

#[test]
fn costs(rt: HostRuntime) -> Result<(), Fail> {
    measure(&rt, 100_000)?;
    measure(&rt, 1_000_000)
}
"""

LISTS = """
use crate::{ListCmd, run};
use core_types::{Args, Blob, ListBody, NoMemory, Sequence};
use std::alloc::Global;
use std::test::Fail;
use std::time::{CpuClock, Duration};
""" + CLOCK + """
fn measure(rt: &HostRuntime, size: usize) -> Result<(), Fail> {
    let alloc = rt.alloc();
    let mut list = ListBody::new(alloc);
    for _ in 0..size {
        list.push_back(Blob::from_slice(alloc, b"item")?)?;
    }
    let push = words(alloc, &[b"LPUSH", b"k", b"item"])?;
    let pop = words(alloc, &[b"LPOP", b"k"])?;
    let start = rt.thread_cpu_time()?;
    for _ in 0..500u32 {
        let _outcome = run(alloc, ListCmd::LPush, Some(&mut list), &push)?;
        let _outcome = run(alloc, ListCmd::LPop, Some(&mut list), &pop)?;
    }
    println!(rt; "BENCH LPUSH+LPOP {size} {}", micros(rt, start))?;
    let index = words(alloc, &[b"LINDEX", b"k", b"500"])?;
    let start = rt.thread_cpu_time()?;
    for _ in 0..500u32 {
        let _outcome = run(alloc, ListCmd::LIndex, Some(&mut list), &index)?;
    }
    println!(rt; "BENCH LINDEX {size} {}", micros(rt, start))?;
    Ok(())
}

#[test]
fn costs(rt: HostRuntime) -> Result<(), Fail> {
    measure(&rt, 1_000)?;
    measure(&rt, 10_000)
}
"""

HASHES = """
use crate::{HashCmd, run};
use core_types::{Args, Blob, HashBody, NoMemory, Sequence};
use std::alloc::Global;
use std::hash::RandomState;
use std::test::Fail;
use std::time::{CpuClock, Duration};
""" + CLOCK + """
fn measure(rt: &HostRuntime, keys: RandomState, size: usize) -> Result<(), Fail> {
    let alloc = rt.alloc();
    let mut hash = HashBody::new(alloc, keys);
    for n in 0..size {
        let _ = hash.put(alloc, format!(in alloc; "field:{n}")?.as_bytes(), Blob::from_slice(alloc, b"v")?)?;
    }
    let get = words(alloc, &[b"HGET", b"k", b"field:77"])?;
    let start = rt.thread_cpu_time()?;
    for _ in 0..500u32 {
        let _outcome = run(alloc, keys, HashCmd::HGet, Some(&mut hash), &get)?;
    }
    println!(rt; "BENCH HGET {size} {}", micros(rt, start))?;
    let set = words(alloc, &[b"HSET", b"k", b"field:77", b"w"])?;
    let start = rt.thread_cpu_time()?;
    for _ in 0..500u32 {
        let _outcome = run(alloc, keys, HashCmd::HSet, Some(&mut hash), &set)?;
    }
    println!(rt; "BENCH HSET {size} {}", micros(rt, start))?;
    Ok(())
}

#[test]
fn costs(rt: HostRuntime) -> Result<(), Fail> {
    let keys = RandomState::new(&rt)?;
    measure(&rt, keys, 1_000)?;
    measure(&rt, keys, 10_000)
}
"""

KEYS = """
use crate::KeyStore;
use core_types::{Blob, Value};
use std::alloc::Global;
use std::collections::BTreeMap;
use std::test::Fail;
use std::time::{CpuClock, Duration};

fn micros(rt: &HostRuntime, since: Duration) -> u64 {
    let now = rt.thread_cpu_time().unwrap_or(since);
    (now.as_micros() - since.as_micros()) as u64
}

fn filled(alloc: Global, size: usize) -> Result<KeyStore<u64>, Fail> {
    let mut store = KeyStore::new(alloc);
    for n in 0..size {
        let key = Blob::from_slice(alloc, format!(in alloc; "key:{n}")?.as_bytes())?;
        let _ = store.put(key, Value::Native(7)).is_ok();
    }
    Ok(store)
}

fn measure(rt: &HostRuntime, size: usize) -> Result<(), Fail> {
    let alloc = rt.alloc();
    let start = rt.thread_cpu_time()?;
    let store = filled(alloc, size)?;
    println!(rt; "BENCH put {size} {}", micros(rt, start))?;
    let start = rt.thread_cpu_time()?;
    for _ in 0..2_000u32 {
        let _ = store.get(b"key:77").is_some();
    }
    println!(rt; "BENCH get {size} {}", micros(rt, start))?;
    let start = rt.thread_cpu_time()?;
    let mut map: BTreeMap<Vec<u8>, u64> = BTreeMap::new(alloc);
    for n in 0..size {
        map.insert(Vec::from_slice(alloc, format!(in alloc; "key:{n}")?.as_bytes())?, 7)?;
    }
    println!(rt; "BENCH BTreeMap-insert {size} {}", micros(rt, start))?;
    let start = rt.thread_cpu_time()?;
    for _ in 0..2_000u32 {
        let _ = map.get(b"key:77".as_slice()).is_some();
    }
    println!(rt; "BENCH BTreeMap-get {size} {}", micros(rt, start))?;
    Ok(())
}

#[test]
fn costs(rt: HostRuntime) -> Result<(), Fail> {
    measure(&rt, 1_000)?;
    measure(&rt, 10_000)
}
"""

if __name__ == "__main__":
    loads = [("string_cmds", STRINGS), ("list_cmds", LISTS), ("hash_cmds", HASHES), ("key_store", KEYS)]
    sys.exit(max(run(crate, code) for crate, code in loads))
