#!/usr/bin/env python3
"""What a stay in the context lock costs, beside a lock of std's Mutex: alone, and with two threads that come in again
and again.

A small program is proved and built in a scratch copy, over what `rt ci` has kept on this machine, and run with a
million stays and with ten. Prints nanoseconds a stay and ratios; the start of the program is in both, so those of the
larger run count. Needs the toolchain.
"""

import shutil
import subprocess
import sys
import tempfile
import time
from pathlib import Path

ROOT = Path(__file__).resolve().parent.parent
CRATES = ("type_ids", "sequences", "core_types", "context_lock")

MAIN = """
//! Stays in a context lock, or in std's Mutex, of one thread or of two.
#![tactic(auto)]

ghost use Rattle.std.specs.Prelude.{◌≡◌, ◌≤◌, refl};
ghost use Rattle.context_lock.specs.Locks.{lock_id};
ghost use Rattle.lock_bench.specs.Stills.{history_of, shown_of};

use context_lock::{ContextLock, Historic, Pass};
use core_types::{Events, Sequence};
use std::alloc::Global;
use std::env;
use std::sync::{Mutex, Wait};
use std::thread::{Threads, join};

#[derive(Drop)]
pub struct Still {
    pub events: Events,
    pub stays: u64,
}

impl Historic for Still {
    ghost history = { history_of };

    ghost shows = { shown_of };

    ghost shows_history = { λ s. (refl, refl) };

    fn first(&self) -> u64 {
        let _kept = self.events.len();
        0
    }

    fn events(&self) -> &Events {
        &self.events
    }
}

fn stay<R: Wait>(rt: &R, lock: &ContextLock<Still>, pass: Pass) -> Pass
    requires lock { pass.lock ≡ lock_id lock.now }
    ensures lock { result.lock ≡ lock_id lock.now }
    ensures parts { result.parts ≡ pass.parts }
{
    let mut inside = lock.enter(rt, pass);
    inside.state.stays = inside.state.stays.wrapping_add(1);
    inside.leave()
}

fn stays<R: Wait>(rt: &R, lock: &ContextLock<Still>, pass: Pass, count: u64) -> Pass
    requires lock { pass.lock ≡ lock_id lock.now }
    ensures lock { result.lock ≡ lock_id lock.now }
    ensures parts { result.parts ≡ pass.parts }
{
    let mut pass = pass;
    for _ in 0..count {
        pass = stay(rt, lock, pass);
    }
    pass
}

fn two<R: Threads + Wait + Sync>(rt: &R, lock: &ContextLock<Still>, pass: Pass, count: u64) -> Pass
    requires lock { pass.lock ≡ lock_id lock.now }
    requires parts { 2 ≤ pass.parts }
    ensures lock { result.lock ≡ lock_id lock.now }
    ensures parts { result.parts ≡ pass.parts }
{
    let (a, b) = lock.split(pass);
    let (a, b) = join(
        rt,
        move || -> Pass
            requires { a.lock ≡ lock_id lock.now }
            ensures { (result.lock ≡ lock_id lock.entry.now) × (result.parts ≡ a.parts) }
        { stays(rt, lock, a, count) },
        move || -> Pass
            requires { b.lock ≡ lock_id lock.now }
            ensures { (result.lock ≡ lock_id lock.entry.now) × (result.parts ≡ b.parts) }
        { stays(rt, lock, b, count) },
    );
    lock.join(a, b)
}

fn of_lock<R: Threads + Wait + Sync>(rt: &R, alloc: Global, threads: u64, count: u64) -> u64 {
    let state = Still {
        events: Sequence::new(alloc),
        stays: 0,
    };
    let Ok((lock, pass)) = ContextLock::new(alloc, state) else {
        return 0;
    };
    let pass = match threads {
        1 => stays(rt, &lock, pass, count),
        _ => two(rt, &lock, pass, count),
    };
    lock.close(pass).stays
}

fn raise<R: Wait>(rt: &R, number: &Mutex<u64>, count: u64) {
    for _ in 0..count {
        let mut guard = number.lock(rt);
        *guard = (*guard).wrapping_add(1);
    }
}

fn of_mutex<R: Threads + Wait + Sync>(rt: &R, threads: u64, count: u64) -> u64 {
    let number = Mutex::new(0u64);
    let at = &number;
    match threads {
        1 => raise(rt, at, count),
        _ => {
            let _ended = join(
                rt,
                move || -> () { raise(rt, at, count) },
                move || -> () { raise(rt, at, count) },
            );
        }
    }
    number.into_inner()
}

fn main(rt: HostRuntime) -> anyhow::Result<()> {
    let mut lock = false;
    let mut threads = 1u64;
    let mut count = 0u64;
    for word in env::args(&rt)? {
        match word.as_str() {
            "lock" => lock = true,
            "two" => threads = 2,
            "1000000" => count = 1_000_000,
            "10000000" => count = 10_000_000,
            _ => {}
        }
    }
    let made = if lock {
        of_lock(&rt, rt.alloc(), threads, count)
    } else {
        of_mutex(&rt, threads, count)
    };
    println!(rt; "{made}")?;
    Ok(())
}
"""

STILLS = """
-- A state whose history is empty.
use Rattle.std.specs.Prelude.{◌+◌, length}
use Rattle.core_types.specs.Shown.{Shown}
use Rattle.context_lock.specs.declared.view.History.{History}
use Rattle.context_lock.specs.inner.Rule.{nothing_shown}
use Rattle.lock_bench.specs.declared.Still.{Still}

abbrev pub history_of : Still → History
history_of still = record { first = 0; events = still.events }

abbrev pub shown_of : Still → Shown
shown_of still = record nothing_shown { first = 0; end = 0 + length still.events }
"""

INVARIANTS = """
use Rattle.std.proofs.Common.{◌≡◌}
use Rattle.context_lock.specs.Locks.{lock_id}
use Rattle.lock_bench.proofs.stays.Given as goal

abbrev pub invariant-loop : goal.invariant-loop
invariant-loop g l = (l.pass.lock ≡ lock_id l.lock) × (l.pass.parts ≡ l.initial.pass.parts)
"""


def make(top):
    """The program, in a copy of the crates that it stands on."""
    (top / ".git").mkdir()
    shutil.copy(ROOT / "HANDLES", top)
    rows = [row for row in (ROOT / "crates.txt").read_text().splitlines() if row.split(":")[0] in CRATES]
    (top / "crates.txt").write_text("\n".join([*rows, "lock_bench: core_types context_lock anyhow", ""]))
    for name in CRATES:
        left = shutil.ignore_patterns("must-fail", "out")
        shutil.copytree(ROOT / "crates" / name, top / "crates" / name, ignore=left)
    crate = top / "crates" / "lock_bench"
    for path, text in (
        ("src/main.rt", MAIN),
        ("specs/Lib.antt", "pub mod Stills\n"),
        ("specs/Stills.antt", STILLS),
        ("proofs/stays/Invariants.antt", INVARIANTS),
        ("stdout", "0\n"),
    ):
        (crate / path).parent.mkdir(parents=True, exist_ok=True)
        (crate / path).write_text(text.lstrip())
    done = subprocess.run(["rt", "ci"], cwd=top, capture_output=True, text=True)
    program = crate / "out" / "lock_bench"
    if done.returncode != 0 or not program.exists():
        sys.exit(done.stdout[-2000:] + done.stderr[-2000:])
    return program


def seconds(program, *words):
    """The least of three runs, by the clock."""
    least = float("inf")
    for _ in range(3):
        start = time.monotonic()
        subprocess.run([program, *words], check=True, capture_output=True)
        least = min(least, time.monotonic() - start)
    return least


def main():
    with tempfile.TemporaryDirectory() as folder:
        program = make(Path(folder))
        for threads in (1, 2):
            for count in (1_000_000, 10_000_000):
                words = (["two"] if threads == 2 else []) + [str(count)]
                ours = seconds(program, "lock", *words)
                theirs = seconds(program, *words)
                each = 1e9 / (threads * count)
                print(f"{threads} threads, {count:,} stays each: {ours * each:.0f} ns a stay, "
                      f"Mutex {theirs * each:.0f} ns, ratio {ours / theirs:.2f}", flush=True)


if __name__ == "__main__":
    main()
