#!/usr/bin/env python3
"""Processor time per `goal.move` in a chain of moves on one state: the aim is that a move costs no more than in proportion to the state.

Usage: bench/unify.py [MOVES]      (default 500; the program has to be built: run `./panto run </dev/null` once)

The theorem is P(z()). By turns `refine both(_, ?, ?)` splits the goal and `exact one(_)` proves the first part; each `_` is a metavariable
that unification solves, so the state has four metavariables more after two moves, and one or two goals. The last move proves the last goal. Each move is
written when the reply to the one before has come. The chain is run at a quarter and a half of its length, whole, and at twice its length, one
run each. Printed: moves, milliseconds of processor time per move over the whole chain and over its last tenth, and the peak resident size in
KiB. A cost in proportion to the state at most doubles the milliseconds from one line to the next.
"""
import glob, json, os, subprocess, sys, tempfile

from measure import PANTO, peak_of

BOOK = """
prim N : *;
prim z : N();
prim P (n : N()) : *;
prim one (n : N()) : P(n);
prim both (n : N()) (l : P(n)) (r : P(n)) : P(n);
"""
SPLIT, PROVE = "refine both(_, ?, ?)", "exact one(_)"

def spent(pid):
    """The processor time of a process so far, in seconds."""
    total = 0
    for path in glob.glob(f"/proc/{pid}/task/*/schedstat"):
        with open(path) as times:
            total += int(times.read().split()[0])
    return total / 1e9

def ask(child, command, **fields):
    """The reply to one line."""
    child.stdin.write(f"{command} {json.dumps(fields)}\n".encode())
    child.stdin.flush()
    return json.loads(child.stdout.readline())

def chain(path, moves):
    """The processor time of each move of a chain, in seconds, and the peak in KiB."""
    words = [PANTO, "run", "--book", path, "--entries", str(moves + 1)]
    child = subprocess.Popen(words, stdin=subprocess.PIPE, stdout=subprocess.PIPE)
    reply = ask(child, "goal.start", expr="P(z())")
    times = []
    before = spent(child.pid)
    for k in range(moves):
        move = SPLIT if k % 2 == 0 and k + 1 < moves else PROVE
        reply = ask(child, "goal.move", stateId=reply["stateId"], move=move)
        after = spent(child.pid)
        times.append(after - before)
        before = after
        assert "error" not in reply, (k, reply)
    assert reply["solved"], reply
    peak = peak_of(child.pid)
    child.stdin.close()
    assert child.wait() == 0
    return times, peak

def main():
    most = int(sys.argv[1]) if len(sys.argv) > 1 else 500
    with tempfile.TemporaryDirectory() as folder:
        path = os.path.join(folder, "BOOK")
        with open(path, "w") as f:
            f.write(BOOK)
        for moves in (most // 4, most // 2, most, 2 * most):
            # Splits and proofs by turns, and one proof at the end.
            moves |= 1
            times, peak = chain(path, moves)
            last = times[-max(moves // 10, 1):]
            whole, end = (1000 * sum(ts) / len(ts) for ts in (times, last))
            print(f"{moves:6,} moves  {whole:8.3f} ms a move  {end:8.3f} ms a move at the end  peak {peak:9,} KiB")

if __name__ == "__main__":
    main()
