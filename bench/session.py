#!/usr/bin/env python3
"""A session of a proof searcher: replies a second, memory a state, and what a reply costs as the tree grows.

Usage: bench/session.py [ROUNDS [STATES]]      (default 1,000 rounds and 1,000,000 states; the program has to be built: run `./panto run </dev/null` once)

A round starts the goal `(A : *) -> A -> .. -> A`, brings its variables in by `intro`, settles it once by `assumption` and once by `exact`, prints
the second proof, and deletes the first state. A generator of random numbers, seeded by 7, chooses the number of variables and the one of `exact`.
First so many rounds are entered line by line, each reply read before the next line is written. Then, on a new tree, states are added by `intro` on
one state, and for each eighth of them 100 rounds are measured: the replies a second are to stay level.
"""
import json, subprocess, sys, time

from measure import PANTO

MASK = (1 << 64) - 1

class Generator:
    """Random rounds, as many as are asked for."""
    def __init__(self, seed):
        self.x = seed

    def draw(self):
        """The number of variables, and which of them solves."""
        self.x = (self.x * 6364136223846793005 + 1442695040888963407) & MASK
        d = self.x >> 33
        k = d % 4 + 1
        return k, (d // 4) % k + 1

class Server:
    """A running `panto run`, asked line by line."""
    def __init__(self, entries, program=PANTO):
        self.child = subprocess.Popen([program, "run", "--entries", str(entries)], stdin=subprocess.PIPE, stdout=subprocess.PIPE)
        self.replies = 0

    def ask(self, command, **fields):
        self.child.stdin.write(f"{command} {json.dumps(fields)}\n".encode())
        self.child.stdin.flush()
        reply = json.loads(self.child.stdout.readline())
        assert "error" not in reply, reply
        self.replies += 1
        return reply

    def resident(self):
        """The resident size in KiB."""
        with open(f"/proc/{self.child.pid}/status") as status:
            return next(int(line.split()[1]) for line in status if line.startswith("VmRSS"))

    def grow(self, state, count):
        """Adds so many states, each by `intro` on this one, written in pieces that the pipes hold."""
        line = f'goal.move {{"stateId":{state},"move":"intro A"}}\n'.encode()
        while count > 0:
            piece = min(count, 256)
            self.child.stdin.write(line * piece)
            self.child.stdin.flush()
            for _ in range(piece):
                reply = self.child.stdout.readline()
                assert b'"stateId"' in reply, reply
            count -= piece

    def end(self):
        self.child.stdin.close()
        assert self.child.wait() == 0

    def __enter__(self):
        return self

    def __exit__(self, kind, value, trace):
        """Ends the program: on its own where all went well, else by force."""
        if kind is None:
            self.end()
        else:
            self.child.kill()
            self.child.wait()

def begin(caller, generator):
    """Starts the goal of one round and brings its variables in: the first state, the last one, the number of variables, and which of them solves."""
    k, e = generator.draw()
    first = caller.ask("goal.start", expr="(A : *) -> " + " -> ".join(["A"] * (k + 1)))["stateId"]
    state = first
    for name in ["A"] + [f"x{i}" for i in range(1, k + 1)]:
        state = caller.ask("goal.move", stateId=state, move=f"intro {name}")["stateId"]
    return first, state, k, e

def play(server, generator):
    """One round; how many states it made."""
    first, state, k, e = begin(server, generator)
    server.ask("goal.move", stateId=state, move="assumption")
    solved = server.ask("goal.move", stateId=state, move=f"exact x{e}")["stateId"]
    assert server.ask("goal.print", stateId=solved)["solved"]
    server.ask("goal.delete", stateId=first)
    return k + 4

def play_many(server, generator, rounds):
    """Seconds, replies and states of so many rounds."""
    before, begun = server.replies, time.perf_counter()
    states = sum(play(server, generator) for _ in range(rounds))
    return time.perf_counter() - begun, server.replies - before, states

def main():
    rounds = int(sys.argv[1]) if len(sys.argv) > 1 else 1_000
    wanted = int(sys.argv[2]) if len(sys.argv) > 2 else 1_000_000
    server = Server(min(rounds * 11 + 1, 1_048_576))
    small = server.resident()
    seconds, replies, states = play_many(server, Generator(7), rounds)
    print(f"{rounds:,} rounds: {replies / seconds:,.0f} replies/s, {(server.resident() - small) / states:.2f} KiB a state of {states:,}")
    server.end()

    server = Server(1_048_576)
    generator = Generator(7)
    base = server.ask("goal.start", expr="(A : *) -> A -> A")["stateId"]
    for eighth in range(9):
        seconds, replies, _ = play_many(server, generator, 100)
        print(f"at {eighth * (wanted // 8):9,} states: {replies / seconds:8,.0f} replies/s  resident {server.resident():9,} KiB")
        if eighth < 8:
            server.grow(base, wanted // 8)
    server.end()

if __name__ == "__main__":
    main()
