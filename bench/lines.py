#!/usr/bin/env python3
"""Echo lines per second and peak memory of `panto run`, side by side with `sed -u` on the same input.

Usage: bench/lines.py [LINES]      (default 1,000,000, at most 1,048,576; the program has to be built: run `./panto run </dev/null` once)

Both programs read the same file and write to a pipe that is drained. `sed -u s/x/y/` writes each line as soon as it is read, as panto
does; panto reads the term, infers its type and prints both. One run of each, printed as lines per second and the peak resident size in
KiB, and a second run over a tenth of the lines: the journal keeps each line's request, so memory grows by what a request takes.
"""
import os, subprocess, sys, tempfile, time

from measure import PANTO, peak_of

LINE = b'expr.echo {"expr":"fun (A : *) => fun (x : A) => x"}\n'

def run(words, path):
    """Seconds and peak KiB of one run over the file, with its output counted and dropped."""
    with open(path, "rb") as source:
        begun = time.perf_counter()
        child = subprocess.Popen(words, stdin=source, stdout=subprocess.PIPE)
        lines, peak = 0, 0
        while piece := os.read(child.stdout.fileno(), 1 << 16):
            lines += piece.count(b"\n")
            peak = max(peak, peak_of(child.pid))
        status = child.wait()
        seconds = time.perf_counter() - begun
    return seconds, peak, lines, status

def main():
    count = int(sys.argv[1]) if len(sys.argv) > 1 else 1_000_000
    with tempfile.TemporaryDirectory() as folder:
        for n in (count, max(count // 10, 1)):
            path = os.path.join(folder, "lines")
            with open(path, "wb") as f:
                f.write(LINE * n)
            for name, words in (("panto run", [PANTO, "run", "--entries", str(max(n, 1))]), ("sed -u", ["sed", "-u", "s/x/y/"])):
                seconds, peak, lines, status = run(words, path)
                assert status == 0 and lines == n, (name, status, lines)
                print(f"{name:10} {n:9} lines  {n / seconds:11,.0f} lines/s  peak {peak:7,} KiB")

if __name__ == "__main__":
    main()
