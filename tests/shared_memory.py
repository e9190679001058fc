#!/usr/bin/env python3
"""States share their memory: a long proof in which each state differs from the one before by one move takes little room.

Usage: tests/shared_memory.py [PROGRAM]      (default the built program; run `./panto run </dev/null` once)

A proof of `P(z())` is grown by 1,000 moves, each of which makes one node and one metavariable, and all states stay. Where a state had terms,
maps or lists of its own, a thousand states of up to a thousand parts would take hundreds of megabytes. The status is 1 where the program's
resident memory grows by more than 64 MiB, or a reply is another than it must be.
"""
import json, os, subprocess, sys

MOVES, MOST = 1_000, 64
BOOK = "prim N : *; prim z : N(); prim P (n : N()) : *; prim more (n : N()) (p : P(n)) : P(n);"
BUILT = os.path.join(os.path.dirname(os.path.abspath(__file__)), "..", "panto")

def resident(process):
    """The resident memory of a program, in MiB."""
    with open(f"/proc/{process.pid}/status") as status:
        return next(int(line.split()[1]) for line in status if line.startswith("VmRSS:")) / 1024

def main():
    program = sys.argv[1] if len(sys.argv) > 1 else BUILT
    with subprocess.Popen([program, "run"], stdin=subprocess.PIPE, stdout=subprocess.PIPE) as process:
        def ask(command, **fields):
            process.stdin.write(f"{command} {json.dumps(fields)}\n".encode())
            process.stdin.flush()
            return json.loads(process.stdout.readline())

        env = ask("env.add", text=BOOK)["envId"]
        state = ask("goal.start", envId=env, expr="P(z())")["stateId"]
        small = resident(process)
        for _ in range(MOVES):
            state = ask("goal.move", stateId=state, move="refine more(z(), ?)")["stateId"]
        grown = resident(process) - small
        goals = ask("goal.print", stateId=state)["goals"]
        process.stdin.close()
        ended = process.wait()
    print(f"memory of {MOVES:,} states: {grown:.1f} MiB more, of at most {MOST}")
    return int(ended != 0 or len(goals) != 1 or grown > MOST)

if __name__ == "__main__":
    sys.exit(main())
