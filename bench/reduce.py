#!/usr/bin/env python3
"""Units of fuel per second and peak memory where `expr.echo` converts Church numerals, and whether long spines need a deep stack.

Usage: bench/reduce.py [GREATEST]      (default 11; the program has to be built: run `./panto run </dev/null` once)

For each k up to GREATEST two definitions make the numeral 2^k, one by additions and one by multiplications. A line whose term has a
type only if the two are equal makes the server convert them. How many units it needs is found by halving over the field `fuel`, since
with less fuel the reply is the error `fuel`. Printed: the units, units per second, and the peak resident size in KiB. The aim: seconds
linear in the units. At the end spines of 30,000 applications are answered, whose terms are walked in loops.
"""
import json, os, subprocess, sys, tempfile, time

from measure import PANTO, peak_of

MOST = 10_000_000
BOOK = [
    "def N := (A : *) -> (A -> A) -> A -> A : *;",
    "def one := fun (A : *) => fun (f : A -> A) => f : N();",
    "def two := fun (A : *) => fun (f : A -> A) => fun (x : A) => f (f x) : N();",
    "def add (m : N()) (n : N()) := fun (A : *) => fun (f : A -> A) => fun (x : A) => m A f (n A f x) : N();",
    "def mul (m : N()) (n : N()) := fun (A : *) => fun (f : A -> A) => m A (n A f) : N();",
    "prim P (n : N()) : *;",
    "prim p (n : N()) : P(n);",
    "def sum0 := one() : N();",
    "def product0 := one() : N();",
]

def book(greatest):
    """The definitions sum_k and product_k, which are both 2^k."""
    items = list(BOOK)
    for k in range(greatest):
        items.append(f"def sum{k + 1} := add(sum{k}(), sum{k}()) : N();")
        items.append(f"def product{k + 1} := mul(two(), product{k}()) : N();")
    return "\n".join(items)

def run(path, lines):
    """The replies to some lines, the seconds from the first reply to the last one, and the peak in KiB."""
    child = subprocess.Popen([PANTO, "run", "--book", path], stdin=subprocess.PIPE, stdout=subprocess.PIPE)
    def ask(line):
        child.stdin.write(line.encode() + b"\n")
        child.stdin.flush()
        return json.loads(child.stdout.readline())
    ask("stat")
    begun = time.perf_counter()
    replies = [ask(line) for line in lines]
    seconds = time.perf_counter() - begun
    peak = peak_of(child.pid)
    child.stdin.close()
    assert child.wait() == 0
    return replies, seconds, peak

def echo(expr, fuel):
    return "expr.echo " + json.dumps({"expr": expr, "fuel": fuel})

def units_of(path, expr):
    """The least fuel with which the term has a type, or None where the greatest is too little."""
    def answers(fuel):
        replies, _, _ = run(path, [echo(expr, fuel)])
        return "type" in replies[0]
    if not answers(MOST):
        return None
    low, high = 0, MOST
    while high - low > 1:
        middle = (low + high) // 2
        low, high = (low, middle) if answers(middle) else (middle, high)
    return high

def main():
    greatest = int(sys.argv[1]) if len(sys.argv) > 1 else 11
    with tempfile.TemporaryDirectory() as folder:
        path = os.path.join(folder, "BOOK")
        with open(path, "w") as f:
            f.write(book(greatest))
        for k in range(2, greatest + 1):
            expr = f"(fun (h : P(sum{k}())) => h) p(product{k}())"
            units = units_of(path, expr)
            if units is None:
                print(f"2^{k:2}  more than {MOST:,} units")
                continue
            replies, seconds, peak = run(path, [echo(expr, MOST)])
            assert "type" in replies[0], replies[0]
            print(f"2^{k:2}  {units:10,} units  {units / seconds:12,.0f} units/s  {seconds:8.3f} s  peak {peak:9,} KiB")
        spine = "*" + " *" * 30_000
        replies, seconds, peak = run(path, [echo(spine, MOST)])
        assert replies[0]["error"] == "notFunction", replies[0]
        print(f"a spine of 30,000 applications: {seconds:.3f} s, peak {peak:,} KiB")

if __name__ == "__main__":
    main()
