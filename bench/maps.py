#!/usr/bin/env python3
"""Times `SharedMap` and measures the memory of its versions.

Usage: bench/maps.py [--keep FOLDER]

It makes a small repository in a temporary folder, with a copy of crates/shared_map and a program
over it, builds the program with `rt run`, and runs it:

- 1,000,000 keys are put, one after another and at random, each old map dropped at once, and read again;
- maps of 10,000, 100,000 and 1,000,000 random keys get 20,000 changes each: for ten times the keys the list of nodes
  is about ten times as long, and the cost of `with` may grow no faster than that. It begins at 10,000 keys, since a
  list of one node doesn't grow with the keys;
- a map of 100,000 random keys gets 25,000 changes, all versions are kept, and the process's greatest
  memory is compared with that of a run that keeps 20,000: a version may take less than 8 KiB. (Both take more than
  this script, whose own memory is the least that the system tells of a program that it starts.)

The status is 1 where one of the last two bounds isn't met. The times themselves are only printed.
With --keep the folder stays, and what it proved is used by the next run.
"""
import os
import re
import shutil
import subprocess
import sys
import tempfile

ROOT = os.path.dirname(os.path.dirname(os.path.abspath(__file__)))
FEWER_VERSIONS = 20000
MORE_VERSIONS = 25000
MOST_BYTES = 8192

PROGRAM = """//! Times a `SharedMap`.
#![tactic(auto)]

use shared_map::SharedMap;
use std::alloc::{AllocError, Global};
use std::env;
use std::io;
use std::time::Instant;

const SEED: u64 = 88172645463325252;

/// The next of some numbers that jump about (xorshift).
fn next(seed: u64) -> u64 {
    let a = seed ^ seed.wrapping_shl(13);
    let b = a ^ a.wrapping_shr(7);
    b ^ b.wrapping_shl(17)
}

/// The key after this one.
fn after(key: u64, in_order: bool) -> u64 {
    if in_order {
        key.wrapping_add(1)
    } else {
        next(key)
    }
}

fn filled(alloc: Global, count: u64, in_order: bool) -> Result<SharedMap<u64, u64>, AllocError> {
    let mut map = SharedMap::new();
    let mut key = SEED;
    for i in 0..count {
        key = after(key, in_order);
        map = map.with(alloc, key, i)?;
    }
    Ok(map)
}

fn read_all(map: &SharedMap<u64, u64>, count: u64, in_order: bool) -> u64 {
    let mut sum = 0u64;
    let mut key = SEED;
    for _ in 0..count {
        key = after(key, in_order);
        if let Some(value) = map.get(&key) {
            sum = sum.wrapping_add(*value);
        }
    }
    sum
}

/// The map with further values at some of its keys, at most `size` of them.
fn changed(
    alloc: Global,
    map: SharedMap<u64, u64>,
    size: u64,
    changes: u64,
) -> Result<SharedMap<u64, u64>, AllocError> {
    let mut map = map;
    let mut key = SEED;
    for i in 0..changes {
        key = if size != 0 && i % size == 0 { next(SEED) } else { next(key) };
        map = map.with(alloc, key, i)?;
    }
    Ok(map)
}

/// The map and the versions of it that further values at its keys make.
fn versions(
    alloc: Global,
    map: SharedMap<u64, u64>,
    count: u64,
) -> Result<Vec<SharedMap<u64, u64>>, AllocError> {
    let mut kept = Vec::new(alloc);
    let mut last = map;
    let mut key = SEED;
    for i in 0..count {
        key = next(key);
        let further = last.with(alloc, key, i)?;
        kept.push(last)?;
        last = further;
    }
    kept.push(last)?;
    Ok(kept)
}

fn time_filling(rt: &HostRuntime, count: u64, in_order: bool, name: &str) -> io::Result<()> {
    let start = Instant::now(rt)?;
    let map = filled(rt.alloc(), count, in_order)?;
    let put = start.elapsed(rt)?.as_millis();
    let start = Instant::now(rt)?;
    let sum = read_all(&map, count, in_order);
    let read = start.elapsed(rt)?.as_millis();
    let keys = map.len();
    println!(rt; "{keys} keys {name}: put in {put} ms, read in {read} ms, sum {sum}")
}

fn time_changes(rt: &HostRuntime, size: u64) -> io::Result<()> {
    let map = filled(rt.alloc(), size, false)?;
    let start = Instant::now(rt)?;
    let map = changed(rt.alloc(), map, size, 20000)?;
    let spent = start.elapsed(rt)?.as_micros();
    let keys = map.len();
    println!(rt; "change {keys} {spent}")
}

fn main(rt: HostRuntime) -> io::Result<()> {
    let word = env::args(&rt)?.nth(1);
    match word.and_then(|word| word.parse::<u64>().ok()) {
        Some(count) => {
            let map = filled(rt.alloc(), 100000, false)?;
            let kept = versions(rt.alloc(), map, count)?;
            let number = kept.len();
            println!(&rt; "{number} versions")
        }
        None => {
            time_filling(&rt, 1000000, true, "in order")?;
            time_filling(&rt, 1000000, false, "at random")?;
            for size in [10000u64, 100000, 1000000] {
                time_changes(&rt, size)?;
            }
            Ok(())
        }
    }
}
"""


def make(folder):
    """The small repository, and the program built in it."""
    crates = os.path.join(folder, "crates")
    program = os.path.join(crates, "time_maps")
    os.makedirs(os.path.join(program, "src"), exist_ok=True)
    shutil.copytree(os.path.join(ROOT, "crates", "shared_map"), os.path.join(crates, "shared_map"),
                    ignore=shutil.ignore_patterns("out"), dirs_exist_ok=True)
    with open(os.path.join(folder, "crates.txt"), "w", encoding="utf-8") as out:
        out.write("shared_map:\ntime_maps: shared_map\n")
    with open(os.path.join(program, "src", "main.rt"), "w", encoding="utf-8") as out:
        out.write(PROGRAM)
    subprocess.run(["rt", "fmt"], cwd=program, check=True, stdout=subprocess.DEVNULL)
    done = subprocess.run(["rt", "run", "--", "0"], cwd=program, stdout=subprocess.PIPE,
                          stderr=subprocess.STDOUT, text=True)
    if done.returncode != 0 or "1 versions" not in done.stdout:
        sys.exit("the program wasn't built:\n" + done.stdout[-3000:])
    return program


def binary(program):
    """The newest executable file that the build left."""
    found = []
    for base, _, names in os.walk(os.path.join(program, "out")):
        for name in names:
            path = os.path.join(base, name)
            with open(path, "rb") as file:
                if os.access(path, os.X_OK) and file.read(4) == b"\x7fELF":
                    found.append((os.path.getmtime(path), path))
    if not found:
        sys.exit("no program in " + program)
    return max(found)[1]


def run(path, *words):
    """What the program writes, and the most memory that it had, in bytes."""
    child = subprocess.Popen([path, *words], stdout=subprocess.PIPE, text=True)
    text = child.stdout.read()
    _, status, usage = os.wait4(child.pid, 0)
    child.returncode = os.waitstatus_to_exitcode(status)
    if child.returncode != 0:
        sys.exit(f"{path} ended with status {child.returncode}")
    return text, usage.ru_maxrss * 1024


def main():
    kept = sys.argv[sys.argv.index("--keep") + 1] if "--keep" in sys.argv else None
    folder = kept or tempfile.mkdtemp(prefix="maps-")
    try:
        path = binary(make(folder))
        text, _ = run(path)
        print("".join(line for line in text.splitlines(True) if "sum" in line), end="")
        bad = False
        costs = [(int(k), int(t) / 20000) for k, t in re.findall(r"change (\d+) (\d+)", text)]
        for (fewer, before), (more, cost) in zip(costs, costs[1:]):
            grown, bound = cost / before, more / fewer
            bad |= grown > bound
            print(f"one `with`: {before:.2f} us at {fewer} keys, {cost:.2f} us at {more}: "
                  f"{grown:.1f} times, at most {bound:.0f} allowed")
        least = run(path, str(FEWER_VERSIONS))[1]
        most = run(path, str(MORE_VERSIONS))[1]
        each = (most - least) / (MORE_VERSIONS - FEWER_VERSIONS)
        bad |= each >= MOST_BYTES
        print(f"a version of a map of 100000 keys: {each:.0f} bytes, less than {MOST_BYTES} allowed")
        sys.exit(1 if bad else 0)
    finally:
        if not kept:
            shutil.rmtree(folder, ignore_errors=True)


if __name__ == "__main__":
    main()
