#!/usr/bin/env python3
"""Seconds of `panto check` on books of growing length: the aim is time linear in the length, so items a second stay level.

Usage: bench/books.py [ITEMS]      (default 2,000; the program has to be built: run `./panto run </dev/null` once)

The book declares a type and then definitions of functions on it, each of which uses the ones before. It is checked with a quarter, a half
and all of its items, and with twice as many, one run each. Printed: items, bytes, seconds, items per second and the peak resident size in KiB.
"""
import os, subprocess, sys, tempfile, time

from measure import PANTO, peak_of

def book(items):
    lines = ["prim N : *;", "prim z : N();", "prim s (n : N()) : N();"]
    for k in range(len(lines), items):
        before = f"f{k - 1}(s(n))" if k > 3 else "s(n)"
        lines.append(f"def f{k} (n : N()) (g : N() -> N()) := g {before.replace('(s(n))', '(s(n), g)')} : N();")
    return "\n".join(lines) + "\n"

def check(path):
    """Seconds, the peak in KiB and the output of one check."""
    begun = time.perf_counter()
    child = subprocess.Popen([PANTO, "check", path], stdout=subprocess.PIPE)
    peak = 0
    while child.poll() is None:
        peak = max(peak, peak_of(child.pid))
        time.sleep(0.002)
    seconds = time.perf_counter() - begun
    assert child.returncode == 0, child.returncode
    return seconds, peak, child.stdout.read()

def main():
    most = int(sys.argv[1]) if len(sys.argv) > 1 else 2_000
    with tempfile.TemporaryDirectory() as folder:
        path = os.path.join(folder, "BOOK")
        for items in (most // 4, most // 2, most, 2 * most):
            text = book(items)
            with open(path, "w") as f:
                f.write(text)
            seconds, peak, output = check(path)
            assert output == f"checked {items}\n".encode(), output
            print(f"{items:6,} items  {len(text):9,} bytes  {seconds:8.3f} s  {items / seconds:9,.0f} items/s  peak {peak:9,} KiB")

if __name__ == "__main__":
    main()
