#!/usr/bin/env python3
"""Many links on one tree, and many workers on one line: replies a second with 1, 2, 4 and 8 links, and the time of a line of 64 tries with 1, 2 and 4 workers.

Usage: bench/serve.py [--program PATH] [--rounds N] [--runs N] [--units N]      (default 500 rounds, 3 runs and 100,000 units; the program has to be built: run
`./panto run </dev/null` once)

Links: each is a process of its own that plays so many rounds of `panto demo`'s session over TCP on this machine, with a seed of its own, and reads the replies of a
line before it writes the next one. Printed: replies a second of all links together, from the first line to the last reply, what that is to one link, the time from the
sending of a line to a reply of it, which half of the replies take at most, and 99 of 100, and the processor time of the program a reply. The callers take processor time too. The aim
is that 4 links on 4 processors get at least twice the replies of one.

Workers: one line of 64 tries, each of which spends so many units of fuel on a definition that is too long to unfold, and takes little memory. Printed: the seconds from the
sending of the line to its last reply, the processor seconds of the program, and the units a second. The aim is that 4 workers on 4 processors are at least 2.5 times as fast
as one.

The best of the runs counts. Before and behind stands the load of the machine: numbers from a busy one say little.
"""
import argparse, json, multiprocessing, os, socket, subprocess, tempfile, time

from measure import PANTO
from session import Generator, begin

LINKS, WORKERS = (1, 2, 4, 8), (1, 2, 4)
TRIES, LEVELS = 64, 30

class Caller:
    """A link, asked line by line, with the time of each reply."""
    def __init__(self, port):
        self.socket = socket.create_connection(("127.0.0.1", port))
        self.socket.setsockopt(socket.IPPROTO_TCP, socket.TCP_NODELAY, 1)
        self.lines, self.times = self.socket.makefile("rb"), []

    def ask(self, command, replies=1, **fields):
        line = f"{command} {json.dumps(fields)}\n".encode()
        begun = time.perf_counter()
        self.socket.sendall(line)
        for _ in range(replies):
            reply = self.lines.readline()
            self.times.append(time.perf_counter() - begun)
        assert b'"error"' not in reply, reply
        return json.loads(reply)

def play(caller, generator):
    """One round."""
    first, state, _, e = begin(caller, generator)
    solved = caller.ask("goal.tries", replies=2, stateId=state, tries=[{"move": "assumption"}, {"move": f"exact x{e}"}])["stateId"]
    assert caller.ask("goal.print", stateId=solved)["solved"]
    caller.ask("goal.delete", stateId=first)

def call(port, seed, rounds, ready, results):
    """A process that plays, and tells when it began and ended and the time of each reply."""
    caller, generator = Caller(port), Generator(seed)
    caller.ask("stat")
    caller.times.clear()
    ready.wait()
    begun = time.monotonic()
    for _ in range(rounds):
        play(caller, generator)
    results.put((begun, time.monotonic(), caller.times))
    # The link closes here, so the program ends once all have played.

def free_port():
    with socket.socket() as probe:
        probe.bind(("127.0.0.1", 0))
        return probe.getsockname()[1]

def end(child):
    """The processor seconds that the program took, all of its threads together."""
    _, status, usage = os.wait4(child.pid, 0)
    child.returncode = os.waitstatus_to_exitcode(status)
    assert child.returncode == 0, child.returncode
    return usage.ru_utime + usage.ru_stime

def serve(program, links, rounds):
    """Replies a second of so many links, the times of all replies in their order, and the processor time of one."""
    port = free_port()
    words = [program, "serve", "--listen", f"127.0.0.1:{port}", "--sessions", str(links), "--entries", str(min(links * (10 * rounds + 1), 1_048_576))]
    child = subprocess.Popen(words, stdin=subprocess.DEVNULL, stderr=subprocess.PIPE)
    assert child.stderr.readline() == b"panto: listening\n"
    ready, results = multiprocessing.Barrier(links), multiprocessing.Queue()
    callers = [multiprocessing.Process(target=call, args=(port, 7 + i, rounds, ready, results)) for i in range(links)]
    for caller in callers:
        caller.start()
    begun, ended, times = zip(*[results.get(timeout=900) for _ in callers])
    for caller in callers:
        caller.join()
    every = sorted(one for some in times for one in some)
    return len(every) / (max(ended) - min(begun)), every, end(child) / len(every)

def measure_links(program, rounds, runs):
    alone = None
    for links in LINKS:
        rate, times, processor = max((serve(program, links, rounds) for _ in range(runs)), key=lambda run: run[0])
        alone = alone or rate
        half, most = times[len(times) // 2], times[len(times) * 99 // 100]
        print(f"{links} links: {rate:9,.0f} replies/s, {rate / alone:5.2f} times one link; a reply {half * 1e6:7,.0f} us in half, {most * 1e6:7,.0f} us in 99 of 100; "
              f"{processor * 1e6:7,.0f} us of processor time", flush=True)

def book():
    """`i30(z())` is `z()` after 2^31 - 1 unfoldings."""
    items = ["prim N : *; prim z : N(); prim P (n : N()) : *; prim mk (n : N()) : P(n); def i0 (x : N()) := x : N();"]
    items += [f"def i{i + 1} (x : N()) := i{i}(i{i}(x)) : N();" for i in range(LEVELS)]
    return "\n".join(items) + "\n"

def try_all(program, path, workers, units):
    """Seconds and processor seconds of one line of tries."""
    words = [program, "run", "--book", path, "--workers", str(workers), "--entries", str(TRIES + 1)]
    child = subprocess.Popen(words, stdin=subprocess.PIPE, stdout=subprocess.PIPE)
    def send(command, **fields):
        child.stdin.write(f"{command} {json.dumps(fields)}\n".encode())
        child.stdin.flush()
    send("goal.start", expr=f"P(i{LEVELS}(z()))")
    state = json.loads(child.stdout.readline())["stateId"]
    begun = time.perf_counter()
    send("goal.tries", stateId=state, tries=[{"move": "exact mk(z())", "fuel": units}] * TRIES)
    replies = [json.loads(child.stdout.readline()) for _ in range(TRIES)]
    seconds = time.perf_counter() - begun
    assert all(reply["error"] == "fuel" for reply in replies), replies
    child.stdin.close()
    return seconds, end(child)

def measure_workers(program, runs, units):
    alone = None
    with tempfile.TemporaryDirectory() as folder:
        path = os.path.join(folder, "BOOK")
        with open(path, "w") as f:
            f.write(book())
        for workers in WORKERS:
            seconds, processor = min(try_all(program, path, workers, units) for _ in range(runs))
            alone = alone or seconds
            print(f"{workers} workers: {seconds:7.2f} s for {TRIES} tries, {alone / seconds:5.2f} times one worker; {processor:7.2f} s of processor time, "
                  f"{TRIES * units / seconds:11,.0f} units/s", flush=True)

def load():
    print(f"load {os.getloadavg()[0]:.1f} on {os.cpu_count()} processors", flush=True)

def main():
    words = argparse.ArgumentParser(description=__doc__, formatter_class=argparse.RawDescriptionHelpFormatter)
    words.add_argument("--program", default=PANTO)
    words.add_argument("--rounds", type=int, default=500)
    words.add_argument("--runs", type=int, default=3)
    words.add_argument("--units", type=int, default=100_000)
    given = words.parse_args()
    load()
    measure_links(given.program, given.rounds, given.runs)
    measure_workers(given.program, given.runs, given.units)
    load()

if __name__ == "__main__":
    main()
