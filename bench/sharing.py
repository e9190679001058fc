#!/usr/bin/env python3
"""What shared terms come to: a proof whose parts are used many times, memory a state, and a long context.

Usage: bench/sharing.py [PROGRAM ...]      (default the built program; run `./panto run </dev/null` once. Give two programs to see them side by side)

- *Repeated parts*: twenty times `refine box(?, ?, ?)` and `exact refl(_)`, then the number and `goal.print`. The proof has 6,973,568,801 nodes, of which few differ.
  Once for a theorem without variables, and once behind an `intro`, where each metavariable has an argument. Seconds from the goal on, all commands and the printing.
- *Memory*: rounds like those of the demo, without its tries, printing and deleting, until there are 100,000 states, all of which stay. MiB of growth.
- *Long context*: 150 times `intro`, then `goal.print` of the state with 150 entries. Seconds, and those of the printing alone.
- *Session*: rounds as in bench/session.py. Replies a second.

A measure whose program fails, takes longer than a minute or more room than the bound, or answers something else than it should, has no figure,
and the status is 1.
"""
import signal, sys, time

from measure import PANTO
from session import Generator, Server, begin, play_many

ITEMS = ("prim N : *; prim z : N(); prim eq (x : N()) (y : N()) : *; prim refl (x : N()) : eq(x, x); "
         "prim box (x : N()) (y : N()) (p : eq(x, y)) : N();")
STATES = 100_000
# Of 100,000 states, in MiB. States that shared nothing would take several times that.
BOUND = 500
# For one measure, in seconds.
LIMIT = 60

def repeated_parts(program, goal, moves, number, proof):
    with Server(100, program) as server:
        env = server.ask("env.add", text=ITEMS)["envId"]
        begun = time.perf_counter()
        state = server.ask("goal.start", envId=env, expr=goal)["stateId"]
        for move in moves:
            state = server.ask("goal.move", stateId=state, move=move)["stateId"]
        for _ in range(20):
            state = server.ask("goal.move", stateId=state, move="refine box(?, ?, ?)")["stateId"]
            state = server.ask("goal.move", stateId=state, goalId=2, move="exact refl(_)")["stateId"]
        state = server.ask("goal.move", stateId=state, move=f"exact {number}")["stateId"]
        printed = server.ask("goal.print", stateId=state)
        seconds = time.perf_counter() - begun
        assert printed["term"] == proof, printed
    return f"{seconds:.3f} s"

def closed_parts(program):
    return repeated_parts(program, "N()", [], "z()", {"depth": 41, "nodes": 6_973_568_801})

def parts_in_context(program):
    return repeated_parts(program, "(n : N()) -> N()", ["intro n"], "n", {"depth": 42, "nodes": 6_973_568_803})

def memory(program):
    with Server(1_048_576, program) as server:
        generator = Generator(7)
        small, states = server.resident(), 0
        while states < STATES:
            _, state, k, e = begin(server, generator)
            server.ask("goal.move", stateId=state, move="assumption")
            server.ask("goal.move", stateId=state, move=f"exact x{e}")
            states += k + 4
        grown = (server.resident() - small) / 1024
    assert grown <= BOUND, grown
    return f"{grown:.0f} MiB for {states:,} states"

def long_context(program):
    with Server(1_000, program) as server:
        begun = time.perf_counter()
        state = server.ask("goal.start", expr="(A : *) -> " + "A -> " * 149 + "A")["stateId"]
        for number in range(150):
            state = server.ask("goal.move", stateId=state, move=f"intro x{number}")["stateId"]
        middle = time.perf_counter()
        printed = server.ask("goal.print", stateId=state)
        ended = time.perf_counter()
        assert len(printed["goals"][0]["vars"]) == 150, printed
    return f"{ended - begun:.3f} s, of which printing {ended - middle:.4f} s"

def session(program):
    with Server(20_000, program) as server:
        seconds, replies, _ = play_many(server, Generator(7), 1_000)
    return f"{replies / seconds:,.0f} replies/s"

MEASURES = [
    ("repeated parts", closed_parts),
    ("the same in a context", parts_in_context),
    ("memory", memory),
    ("long context", long_context),
    ("session", session),
]

def too_long(*_):
    raise TimeoutError

def main():
    failed = False
    signal.signal(signal.SIGALRM, too_long)
    for name, measure in MEASURES:
        for program in sys.argv[1:] or [PANTO]:
            signal.alarm(LIMIT)
            try:
                shown = measure(program)
            except (ValueError, KeyError, AssertionError, OSError) as error:
                shown, failed = f"no figure: {type(error).__name__}", True
            signal.alarm(0)
            print(f"{name:22} {shown}   ({program})", flush=True)
    return int(failed)

if __name__ == "__main__":
    sys.exit(main())
