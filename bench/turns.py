#!/usr/bin/env python3
"""Measures the turn lock: turns per second with 1, 2, 4 and 8 threads.

Usage: bench/turns.py [--turns N] [--runs N] [--work N]     run at the root of the repository

The threads share N turns (200,000 if left out), each of which adds one entry to the journal, and the best of some runs
(3 if left out) counts. Between two turns a thread works on its own, outside the lock, for some rounds of arithmetic,
as a session makes a reply ready before it asks for its turn; the table has a row with no such work, and one with --work
rounds (2,000 if left out). The aim is that 4 threads together are at least as fast as one thread alone.

The timed program is written into a temporary folder outside the repository, beside a copy of the crate turn_lock. It is
proved and built there by `rt run`, and the folder is removed at the end.
"""
import argparse, os, shutil, subprocess, sys, tempfile

ROOT = os.path.dirname(os.path.dirname(os.path.abspath(__file__)))
THREADS = (1, 2, 4, 8)

PROGRAM = """\
//! Takes turns at one lock in several threads, and prints how many nanoseconds that took.
#![tactic(auto)]

ghost use Rattle.std.specs.Prelude.{◌≡◌, ◌<◌, ◌≤◌, ◌+◌, ◌++◌, [], ◌∷◌, MatchBool, IfOk, All};
ghost use Rattle.turn_lock.specs.Meanings.{IsPassOf};

use std::alloc::{AllocError, Global};
use std::sync::Wait;
use std::thread::{Threads, join};
use std::time::Instant;
use turn_lock::{Pass, Shared, Storied, Worn};

#[derive(Clone, Copy)]
struct Entry {
    pass: u32,
    number: u64,
}

#[derive(Drop)]
struct Journal {
    entries: Vec<Entry>,
    room: usize,
}

impl Storied for Journal {
    type Entry = Entry;

    type Ground = usize;

    ghost entries = { λ j. j.entries.items };

    ghost pass_of = { λ e. e.pass };

    ghost ground_of = { λ j. j.room };

    fn length(&self) -> u64 {
        self.entries.len() as u64
    }
}

impl Journal {
    fn new(alloc: Global, room: usize) -> Result<Journal, AllocError>
        ensures { IfOk result (λ j. j.entries.items ≡ []) }
    {
        Ok(Journal {
            entries: Vec::with_capacity(alloc, room)?,
            room,
        })
    }

    fn add(&mut self, pass: u32, number: u64) -> bool
        ensures room { self.new.room ≡ self.old.room }
        ensures entries { MatchBool result (self.new.entries.items ≡ self.old.entries.items ++ record { pass = pass; number = number } ∷ []) (self.new.entries.items ≡ self.old.entries.items) }
    {
        if self.entries.len() < self.entries.capacity() {
            self.entries.push_reserved(Entry { pass, number });
            return true;
        }
        false
    }
}

fn add_entry<W: Threads + Wait + Sync>(
    rt: &W,
    shared: &Shared<Journal>,
    pass: &mut Pass<Journal>,
    number: u64,
) -> Result<bool, Worn>
    requires { IsPassOf shared.now pass.old }
    ensures { pass.new ≡ record pass.old { seen = pass.new.seen; found = pass.new.found } }
{
    let by = pass.number();
    shared.turn(rt, pass, move |journal: &mut Journal| journal.add(by, number))
}

// Work outside the lock.
fn work(rounds: u64, seed: u64) -> u64 {
    let mut mixed = seed;
    for round in 0..rounds {
        mixed = mixed.rotate_left(5).wrapping_mul(0x9e37_79b9_7f4a_7c15) ^ round;
    }
    mixed
}

fn take_turns<W: Threads + Wait + Sync>(
    rt: &W,
    shared: &Shared<Journal>,
    mut pass: Pass<Journal>,
    turns: u64,
    rounds: u64,
)
    requires { IsPassOf shared.now pass }
{
    for number in 0..turns {
        let _ = add_entry(rt, shared, &mut pass, work(rounds, number));
    }
}

fn next_pass(shared: &Shared<Journal>, zero: &mut Pass<Journal>, number: u32) -> Pass<Journal>
    requires own { IsPassOf shared.now zero.old }
    requires root { zero.old.number ≡ 0 }
    requires number { (0 < number) × (number < 64) }
    requires new { All (λ n. n < number) zero.old.gave }
    ensures own { IsPassOf shared.now zero.new }
    ensures root { zero.new.number ≡ 0 }
    ensures new { All (λ n. n < number + 1) zero.new.gave }
    ensures pass { IsPassOf shared.now result }
{
    shared.split(zero, number)
}

fn two<W: Threads + Wait + Sync>(
    rt: &W,
    shared: &Shared<Journal>,
    a: Pass<Journal>,
    b: Pass<Journal>,
    turns: u64,
    rounds: u64,
)
    requires { IsPassOf shared.now a × IsPassOf shared.now b }
{
    join(
        rt,
        move ||
            requires { IsPassOf shared.now a }
        { take_turns(rt, shared, a, turns, rounds) },
        move ||
            requires { IsPassOf shared.now b }
        { take_turns(rt, shared, b, turns, rounds) },
    );
}

fn four<W: Threads + Wait + Sync>(
    rt: &W,
    shared: &Shared<Journal>,
    a: Pass<Journal>,
    b: Pass<Journal>,
    c: Pass<Journal>,
    d: Pass<Journal>,
    turns: u64,
    rounds: u64,
)
    requires first { IsPassOf shared.now a × IsPassOf shared.now b }
    requires second { IsPassOf shared.now c × IsPassOf shared.now d }
{
    join(
        rt,
        move ||
            requires { IsPassOf shared.now a × IsPassOf shared.now b }
        { two(rt, shared, a, b, turns, rounds) },
        move ||
            requires { IsPassOf shared.now c × IsPassOf shared.now d }
        { two(rt, shared, c, d, turns, rounds) },
    );
}

fn number_of(word: Option<String>) -> u64 {
    word.and_then(|w| w.parse().ok()).unwrap_or(0)
}

fn main(rt: HostRuntime) -> anyhow::Result<()> {
    let mut words = std::env::args(&rt)?.skip(1);
    let threads = number_of(words.next());
    let turns = number_of(words.next());
    let rounds = number_of(words.next());
    let room = turns.min(1 << 24) as usize;
    let (shared, mut zero) = Shared::open(rt.alloc(), Journal::new(rt.alloc(), room)?)?;
    let lock = &shared;
    let a = next_pass(lock, &mut zero, 1);
    let b = next_pass(lock, &mut zero, 2);
    let c = next_pass(lock, &mut zero, 3);
    let d = next_pass(lock, &mut zero, 4);
    let e = next_pass(lock, &mut zero, 5);
    let f = next_pass(lock, &mut zero, 6);
    let g = next_pass(lock, &mut zero, 7);
    let h = next_pass(lock, &mut zero, 8);
    let start = Instant::now(&rt)?;
    match threads {
        1 => take_turns(&rt, lock, a, turns, rounds),
        2 => two(&rt, lock, a, b, turns / 2, rounds),
        4 => four(&rt, lock, a, b, c, d, turns / 4, rounds),
        _ => {
            join(
                &rt,
                || four(&rt, lock, a, b, c, d, turns / 8, rounds),
                || four(&rt, lock, e, f, g, h, turns / 8, rounds),
            );
        }
    }
    println!(rt; "{}", start.elapsed(&rt)?.as_nanos())?;
    Ok(())
}
"""

INVARIANT = """\
use Rattle.turn_lock.specs.Meanings.{IsPassOf}
use Rattle.turns_bench.proofs.take_turns.Given as goal

abbrev pub invariant-loop-number : goal.invariant-loop-number
invariant-loop-number g l = IsPassOf l.shared l.pass
"""

ANSWERS = """\
use Rattle.std.proofs.Common.{◌≡◌, ◌<◌, ◌+◌, ℕ, List, ◌++◌, ◌∷◌, [], All, sym, ap, subst, arith}
use Rattle.std.proofs.lemmas.List.Elements.{All-push, All-weaker}
use Rattle.turns_bench.proofs.next_pass.Goals as goal

pub returns-clause-new : goal.returns-clause-new
returns-clause-new c =
    let given : List ℕ = c.args.zero.now.gave in
    let more : All (λ (n : ℕ). n < c.args.number + 1) given = All-weaker (λ (n : ℕ). n < c.args.number) (λ (n : ℕ). n < c.args.number + 1) (λ n lt. omega arith) given c.requires.new in
    subst (All (λ (n : ℕ). n < c.args.number + 1)) (sym (ap (λ p. p.gave) c.split.ensures.pass)) (All-push (λ (n : ℕ). n < c.args.number + 1) given c.args.number more (omega arith))
"""


def write(path, text):
    os.makedirs(os.path.dirname(path), exist_ok=True)
    with open(path, "w", encoding="utf-8") as f:
        f.write(text)


def build(top):
    """Writes the program's repository, proves and builds it, and gives the executable's path."""
    shutil.copy(os.path.join(ROOT, "HANDLES"), top)
    shutil.copytree(os.path.join(ROOT, "crates", "turn_lock"), os.path.join(top, "crates", "turn_lock"),
                    ignore=shutil.ignore_patterns("must-fail", "out"))
    write(os.path.join(top, "crates.txt"), "turn_lock: atomic_table\nturns_bench: turn_lock atomic_table anyhow\n")
    crate = os.path.join(top, "crates", "turns_bench")
    write(os.path.join(crate, "src", "main.rt"), PROGRAM)
    write(os.path.join(crate, "proofs", "take_turns", "Invariants.antt"), INVARIANT)
    write(os.path.join(crate, "proofs", "next_pass", "Answers.antt"), ANSWERS)
    done = subprocess.run(["rt", "run", "--", "1", "2", "0"], cwd=crate, text=True, capture_output=True)
    if done.returncode != 0:
        sys.exit(f"turns.py: the program was not built:\n{done.stdout[-4000:]}{done.stderr[-4000:]}")
    return os.path.join(crate, "out", "turns_bench")


def rate(program, threads, turns, rounds, runs):
    """Turns per second, the best of some runs."""
    best = 0.0
    for _ in range(runs):
        done = subprocess.run([program, str(threads), str(turns), str(rounds)], text=True, capture_output=True, check=True)
        best = max(best, turns * 1e9 / int(done.stdout))
    return best


def main():
    words = argparse.ArgumentParser(description="turns per second of the turn lock")
    words.add_argument("--turns", type=int, default=200_000)
    words.add_argument("--runs", type=int, default=3)
    words.add_argument("--work", type=int, default=2_000)
    words = words.parse_args()
    with tempfile.TemporaryDirectory(prefix="turns_bench_") as top:
        program = build(top)
        print(f"{'rounds of work':>16}" + "".join(f"{f'{n} threads':>14}" for n in THREADS) + f"{'4 against 1':>14}")
        for rounds in (0, words.work):
            rates = [rate(program, n, words.turns, rounds, words.runs) for n in THREADS]
            print(f"{rounds:>16}" + "".join(f"{r:>14,.0f}" for r in rates) + f"{rates[2] / rates[0]:>14.2f}", flush=True)


if __name__ == "__main__":
    main()
