#!/usr/bin/env python3
"""Memory that the tree reserves for 1,048,576 entries, and what each further entry costs.

Usage: bench/tree.py [ENTRIES]      (default 1,048,576, which is also the greatest; the program has to be built: run `./panto run </dev/null` once)

`panto run --entries N` reserves the slots of its journal, its environments and its states when it begins. Printed first: the resident size
once it has answered a line, where each of these slots has been counted by the system only as far as it was written, and the size of the address
space that it reserved, which is to stay below 193 MiB above that of a tree of one entry. Then N lines `stat` are entered, and for each eighth of them
the entries a second, which are to stay level, and the resident size are printed.
"""
import os, subprocess, sys, time

from measure import PANTO

def sizes_of(pid):
    """The resident size and the size of the address space of a process, in KiB."""
    with open(f"/proc/{pid}/status") as status:
        rows = dict(line.split(":", 1) for line in status if line.startswith(("VmRSS", "VmSize")))
    return int(rows["VmRSS"].split()[0]), int(rows["VmSize"].split()[0])

def started(entries):
    """A server with room for so many entries, which has answered one line."""
    child = subprocess.Popen([PANTO, "run", "--entries", str(entries)], stdin=subprocess.PIPE, stdout=subprocess.PIPE)
    child.stdin.write(b"stat\n")
    child.stdin.flush()
    child.stdout.readline()
    return child

def enter(child, count):
    """Seconds for so many further lines, written in pieces that the pipes hold."""
    begun = time.perf_counter()
    while count > 0:
        piece = min(count, 512)
        child.stdin.write(b"stat\n" * piece)
        child.stdin.flush()
        for _ in range(piece):
            child.stdout.readline()
        count -= piece
    return time.perf_counter() - begun

def main():
    entries = int(sys.argv[1]) if len(sys.argv) > 1 else 1_048_576
    small = started(1)
    _, least = sizes_of(small.pid)
    small.stdin.close()
    small.wait()
    child = started(entries)
    resident, space = sizes_of(child.pid)
    print(f"opened for {entries:,} entries: resident {resident:,} KiB, address space {(space - least) / 1024:.1f} MiB above that of one entry")
    for _ in range(8):
        count = (entries - 1) // 8
        seconds = enter(child, count)
        resident, _ = sizes_of(child.pid)
        print(f"{count:9,} further entries  {count / seconds:11,.0f} entries/s  resident {resident:9,} KiB")
    child.stdin.close()
    assert child.wait() == 0

if __name__ == "__main__":
    main()
