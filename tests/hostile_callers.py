#!/usr/bin/env python3
"""Eight links at once on the built program, of which some behave badly: the others get every reply, and the program ends by itself.

Usage: tests/hostile_callers.py PROGRAM [--levels N] [--seconds N]      (default 14 levels, and 30 seconds in all)

PROGRAM is run as `PROGRAM serve ..` on a free port of 127.0.0.1, once for each case. The links of a case are accepted in the order in which it
names them:

- `silent` sends nothing, and closes last;
- `cut` closes in the middle of a line: what it sent of it is answered, and its session is done;
- `half` closes just its sending half in the middle of a line, reads the reply, and then waits for the end of the link;
- `reset` breaks the link in the middle of a line: a read fault;
- `gone` breaks the link at once, before it has sent anything: a read fault;
- `shut` closes at once, before it has sent anything: its session is done;
- `deaf` reads none of its replies, which soon fill the buffers, and closes when nothing moves any more: a write fault;
- `huge` sends a line of a megabyte, raw bytes, lists that are nested too deep, and a term that reduction makes deeper than any text;
- `work` plays rounds of a proof search line by line, and echoes in bursts.

Each reply that is read is compared with what it must be, but for the numbers that the order of the links decides: `seq` rises on each link and
no number of an entry or of a state comes twice. In the end the numbers that no link read are those of the links that didn't read. The status is
that of the first link, in the order of acceptance, whose session wasn't done, whichever ended first.
"""
import argparse, json, os, random, signal, socket, struct, subprocess, sys, tempfile, threading, time

ROUNDS, BURST = 3, 20
NAMES = [f"n{i:03}{'x' * 56}" for i in range(500)]
ECHO = 'expr.echo {"expr":"fun (A : *) => fun (x : A) => x"}'
HALF = b'expr.echo {"expr":"fun (A : *) =>'
NOTES = {0: "", 3: "panto: read fault\n", 4: "panto: write fault\n"}

# The links in the order of acceptance, those that leave before the others in the order in which they leave, and the status.
CASES = [
    ("silent cut deaf huge work work work work", "cut deaf", 4),
    ("work reset work deaf work huge work silent", "deaf reset", 3),
    ("deaf work huge work reset work silent work", "reset deaf", 4),
    ("work cut work half work huge work silent", "cut", 0),
    ("shut work shut gone work gone huge work", "", 3),
]

def book_of(levels):
    """A book with many names, and with two chains of definitions that double, so that `dL(z())` and `eL(z())` are 2^L times `s` of `z`."""
    items = [f"prim {name} : *;" for name in NAMES]
    items += ["prim N : *; prim z : N(); prim s (n : N()) : N(); prim P (n : N()) : *; prim mk (n : N()) : P(n);"]
    for name in "de":
        items.append(f"def {name}0 (x : N()) := s(x) : N();")
        items += [f"def {name}{i + 1} (x : N()) := {name}{i}({name}{i}(x)) : N();" for i in range(levels)]
    return "\n".join(items) + "\n"

class Journal:
    """What all links of a case have read."""
    def __init__(self):
        self.lock, self.entries, self.states, self.longest = threading.Lock(), set(), set(), 0.0

    def add(self, reply, seconds):
        with self.lock:
            assert reply["seq"] not in self.entries, f"entry {reply['seq']} twice"
            self.entries.add(reply["seq"])
            if "stateId" in reply:
                assert reply["stateId"] not in self.states, f"state {reply['stateId']} twice"
                self.states.add(reply["stateId"])
            self.longest = max(self.longest, seconds)

    def length(self):
        """A number of entries that somebody was told of."""
        with self.lock:
            return max(self.entries, default=-1) + 1

class Link:
    """A caller's end of a link."""
    def __init__(self, port, journal, seconds):
        self.socket = socket.socket()
        # So little that replies which nobody reads soon fill it.
        self.socket.setsockopt(socket.SOL_SOCKET, socket.SO_RCVBUF, 1 << 16)
        self.socket.settimeout(seconds)
        self.socket.connect(("127.0.0.1", port))
        self.lines, self.journal, self.last = self.socket.makefile("rb"), journal, -1

    def send(self, line):
        self.socket.sendall(line if isinstance(line, bytes) else line.encode() + b"\n")

    def line(self):
        line = self.lines.readline()
        assert line.endswith(b"\n"), f"the link ended with {line[:100]!r}"
        return line

    def read(self, **wanted):
        """The next reply, which has these keys beside the numbers."""
        begun = time.monotonic()
        line = self.line()
        reply = json.loads(line)
        self.journal.add(reply, time.monotonic() - begun)
        assert reply["seq"] > self.last, f"seq {reply['seq']} behind {self.last}"
        self.last = reply["seq"]
        numbers = {key: reply[key] for key in ("seq", "stateId") if key in reply}
        exact = json.dumps(dict(wanted, **numbers), sort_keys=True, separators=(",", ":"))
        assert line == exact.encode() + b"\n", f"reply {line[:300]!r}, wanted {exact[:300]}"
        return reply

    def ask(self, line, **wanted):
        self.send(line)
        return self.read(**wanted)

    def stat(self):
        """The number of entries before this one."""
        self.send("stat")
        line = self.line()
        reply = json.loads(line)
        assert sorted(reply) == ["envs", "live", "seq", "states"] and reply["envs"] == 1, line
        self.journal.add(reply, 0.0)
        return reply["seq"]

    def reset(self):
        """Breaks the link, so that both ends see a fault."""
        self.socket.setsockopt(socket.SOL_SOCKET, socket.SO_LINGER, struct.pack("ii", 1, 0))
        self.close()

    def close(self):
        self.lines.close()
        self.socket.close()

def echoed():
    return {"expr": "fun (%0 : *) => fun (%1 : %0) => %1", "type": "(%0 : *) -> %0 -> %0"}

def arrows(name, count):
    return " -> ".join([name] * count)

def made(theorem, k, intros):
    """The reply on a state of the theorem with k variables, after so many introductions."""
    types = (["*"] + ["A"] * k)[:intros]
    variables = [{"name": f"x{i}" if i else "A", "type": one} for i, one in enumerate(types)]
    target = arrows("A", k + 2 - intros) if intros else theorem
    goal = {"coupled": [], "goal": intros, "target": target, "vars": variables}
    return {"dormant": [], "goals": [goal], "solved": False}

def play(link, chance):
    """One round of a search: a theorem of k variables, of which variable e proves it."""
    k = chance.randint(1, 4)
    e = chance.randint(1, k)
    theorem = "(%0 : *) -> " + arrows("%0", k + 1)
    solved = {"dormant": [], "goals": [], "solved": True}
    first = link.ask("goal.start " + json.dumps({"expr": "(A : *) -> " + arrows("A", k + 1)}), **made(theorem, k, 0))["stateId"]
    state = first
    for i in range(k + 1):
        move = json.dumps({"stateId": state, "move": f"intro x{i}" if i else "intro A"})
        state = link.ask(f"goal.move {move}", **made(theorem, k, i + 1))["stateId"]
    link.send("goal.tries " + json.dumps({"stateId": state, "tries": [{"move": "assumption"}, {"move": "exact y"}, {"move": f"exact x{e}"}]}))
    link.read(**solved)
    link.read(error="unknownName", at=6, name="y")
    proved = link.read(**solved)["stateId"]
    term = "fun (%0 : *) => " + "".join(f"fun (%{i} : %0) => " for i in range(1, k + 1)) + f"%{e}"
    # Every entry that any link was told of stands before this one.
    seen = link.journal.length()
    reply = link.ask("goal.print " + json.dumps({"stateId": proved, "after": seen}), term=term, type=theorem, **solved)
    assert reply["seq"] >= seen
    link.ask(f'goal.delete {{"stateId":{first}}}', deleted=first)
    link.ask(f'goal.print {{"stateId":{first}}}', error="unknownState", id=first)

def work(link, chance, levels):
    for _ in range(ROUNDS):
        play(link, chance)
        link.send((ECHO + "\n").encode() * BURST)
        for _ in range(BURST):
            link.read(**echoed())

def huge(link, chance, levels):
    link.ask(b"x" * 1_000_000 + b"\n", error="lineTooLong", length=1_000_000)
    link.ask(bytes(byte for byte in range(256) if byte not in b"\t\n ") + b"\n", error="command")
    link.ask(b"\0 " + chance.randbytes(60_000).replace(b"\n", b"") + b"\n", error="json")
    link.ask(b"expr.echo {\"expr\":\"\xff\"}\n", error="json")
    link.ask("expr.echo " + "[" * 30_000, error="json")
    link.ask(json.dumps({"cmd": "expr.echo", "payload": {"expr": "(" * 60_000}}), error="syntax", at=512)
    p = lambda name: f"P({name}{levels}(z()))"
    deep = {"expr": f"(fun (p : {p('d')}) => p) mk(e{levels}(z()))", "fuel": 10_000_000}
    link.ask("expr.echo " + json.dumps(deep), expr=f"(fun (%0 : {p('d')}) => %0) mk(e{levels}(z()))", type=p("d"))

def half_line(link, chance, levels):
    """Sends a line and a half of one, and reads the reply of the first."""
    link.ask(ECHO, **echoed())
    link.send(HALF)

def deaf_lines():
    """How many lines of large replies are more than all buffers hold."""
    with open("/proc/sys/net/ipv4/tcp_wmem") as sizes:
        most = int(sizes.read().split()[2])
    return min(most + (4 << 20), 64 << 20) // (len(NAMES) * len(NAMES[0])) + 1

def deaf(link, chance, levels):
    link.send(b"env.catalog\n" * deaf_lines())

def silent(link, chance, levels):
    pass

def gone(link, chance, levels):
    link.reset()

def shut(link, chance, levels):
    link.close()

ROLES = {"silent": silent, "cut": half_line, "half": half_line, "reset": half_line, "gone": gone, "shut": shut, "deaf": deaf, "huge": huge, "work": work}

def settled(link, calm=4):
    """The number of entries, once no other link makes any while this one makes so many."""
    before, same = link.stat(), 0
    while same < calm:
        time.sleep(0.05)
        now = link.stat()
        same = same + 1 if now == before + 1 else 0
        before = now
    return before + 1

def missed(link, least):
    """The number of entries that no link read, once there are so many at least and no link but this one makes any."""
    for _ in range(20):
        count = settled(link) - len(link.journal.entries)
        if count >= least:
            break
    return count

def act_all(links, roles, levels):
    """Lets all links act side by side, until those that end have ended."""
    faults = []
    def act(role, link, seed):
        try:
            ROLES[role](link, random.Random(seed), levels)
        except Exception as fault:
            faults.append(f"{role}: {type(fault).__name__} {fault}")
    threads = [threading.Thread(target=act, args=(role, link, seed), daemon=True) for seed, (role, link) in enumerate(zip(roles, links))]
    for thread in threads:
        thread.start()
    for thread in threads:
        thread.join()
    assert not faults, "; ".join(faults)

def leave_all(links, roles, leaves):
    """Lets the links leave, and counts the entries that no link read."""
    watcher = links[roles.index("work")]
    settled(watcher, 10)
    unread = 0
    for role in leaves:
        link = links[roles.index(role)]
        link.reset() if role == "reset" else link.close()
        unread += role == "cut"
        settled(watcher)
    for role, link in zip(roles, links):
        if role == "half":
            link.socket.shutdown(socket.SHUT_WR)
            link.read(error="json")
    from_deaf = missed(watcher, unread + ("deaf" in roles)) - unread
    if "deaf" in roles:
        assert 0 < from_deaf < deaf_lines(), f"{from_deaf} entries of the deaf link, which sent {deaf_lines()} lines"
    else:
        assert from_deaf == 0, f"{from_deaf} replies are missing"
    return from_deaf

def close_all(links, roles, child):
    """Closes the links that are left, the silent one last. One that has closed just its sending half waits for the end."""
    for role in ("huge", "work", "silent"):
        for at, link in zip(roles, links):
            if at == role:
                link.close()
    status = child.wait()
    for role, link in zip(roles, links):
        if role == "half":
            assert link.socket.recv(1) == b"", "bytes after the last reply"
            link.close()
    return status

def how_it_is(child):
    """Whether the program runs still, or how it ended."""
    try:
        status = child.wait(timeout=1)
    except subprocess.TimeoutExpired:
        return "the program runs on"
    return f"the program ended with {status} and {child.stderr.read()[:400]!r}"

def free_port():
    with socket.socket() as probe:
        probe.bind(("127.0.0.1", 0))
        return probe.getsockname()[1]

def run_case(program, folder, levels, seconds, case):
    roles, leaves, wanted = case[0].split(), case[1].split(), case[2]
    port, journal, begun = free_port(), Journal(), time.monotonic()
    words = [program, "serve", "--listen", f"127.0.0.1:{port}", "--sessions", str(len(roles)), "--book", "BOOK", "--workers", "2"]
    child = subprocess.Popen(words, stdin=subprocess.DEVNULL, stdout=subprocess.PIPE, stderr=subprocess.PIPE, cwd=folder)
    try:
        listening = child.stderr.readline()
        assert listening == b"panto: listening\n", f"notes {listening!r}"
        links = [Link(port, journal, seconds) for _ in roles]
        act_all(links, roles, levels)
        from_deaf = leave_all(links, roles, leaves)
        status = close_all(links, roles, child)
        notes, output = child.stderr.read().decode(), child.stdout.read()
    except AssertionError as fault:
        raise AssertionError(f"{fault}; {how_it_is(child)}") from fault
    finally:
        if child.poll() is None:
            child.kill()
            child.wait()
    print(f"{case[0]}: {len(journal.entries)} replies read, {from_deaf} entries of the deaf link, longest wait {journal.longest:.2f} s, "
          f"status {status}, {time.monotonic() - begun:.1f} s")
    assert status == wanted, f"status {status}, wanted {wanted}; notes {notes[:400]!r}"
    assert notes == NOTES[wanted] and output == b"", f"notes {notes[:400]!r}, output {output[:100]!r}"

def too_long(_number, _frame):
    raise TimeoutError("no end in the given time")

def main():
    words = argparse.ArgumentParser(description=__doc__, formatter_class=argparse.RawDescriptionHelpFormatter)
    words.add_argument("program")
    words.add_argument("--levels", type=int, default=14)
    words.add_argument("--seconds", type=int, default=30)
    given = words.parse_args()
    signal.signal(signal.SIGALRM, too_long)
    signal.alarm(given.seconds)
    try:
        with tempfile.TemporaryDirectory() as folder:
            with open(os.path.join(folder, "BOOK"), "w") as book:
                book.write(book_of(given.levels))
            for case in CASES:
                run_case(os.path.abspath(given.program), folder, given.levels, given.seconds, case)
    except (AssertionError, OSError, ValueError) as fault:
        print(f"hostile callers: {type(fault).__name__}: {fault}")
        return 1
    print(f"hostile callers: {len(CASES)} cases passed")
    return 0

if __name__ == "__main__":
    sys.exit(main())
