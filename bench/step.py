#!/usr/bin/env python3
"""Events per second of `rtsan step` on files whose runs have doubling numbers of events.

bench/step.py [PROGRAM]   PROGRAM: the built program, by default crates/rtsan/out/rtsan

Each file has functions that call the one before them twice, so that one function more doubles the
calls. A call makes three events: the halt word is loaded, the function is entered and left. Prints for
each file the events, the seconds (the least of three runs, less those of a run of nearly no events),
the events per second and the ratio of the seconds to those of the file before, which should stay near 2.
"""
import os
import subprocess
import sys
import tempfile
import time

ROOT = os.path.dirname(os.path.dirname(os.path.abspath(__file__)))
DEPTHS = range(16, 21)


def doubling_calls(depth):
    """`main` calls the last of so many functions, each of which calls the one before it twice."""
    text = ["void f0(void) { }\n"]
    text += [f"void f{number}(void) {{ f{number - 1}(); f{number - 1}(); }}\n" for number in range(1, depth)]
    text.append(f"int main(void) {{ f{depth - 1}(); return 0; }}\n")
    return "".join(text)


def events(depth):
    """Three for each of the calls and for `main`, and the store of the halt word."""
    return 3 * (2 ** depth - 1 + 1) + 1


def seconds(program, path):
    least = None
    for _ in range(3):
        begun = time.perf_counter()
        done = subprocess.run([program, "step", path], capture_output=True)
        spent = time.perf_counter() - begun
        if done.returncode != 0 or done.stdout != b"thread 0: exited 0\n":
            sys.exit(f"{path}: status {done.returncode}: {done.stdout!r}")
        least = spent if least is None else min(least, spent)
    return least


def main():
    program = sys.argv[1] if len(sys.argv) > 1 else os.path.join(ROOT, "crates/rtsan/out/rtsan")
    with tempfile.TemporaryDirectory() as folder:
        path = os.path.join(folder, "calls.c")

        def timed(depth):
            with open(path, "w") as file:
                file.write(doubling_calls(depth))
            return seconds(program, path)

        start = timed(1)
        print(f"{'events':>10} {'seconds':>9} {'events/s':>12} {'ratio':>6}")
        before = None
        for depth in DEPTHS:
            spent = max(timed(depth) - start, 1e-9)
            ratio = f"{spent / before:6.2f}" if before else ""
            print(f"{events(depth):>10} {spent:>9.4f} {events(depth) / spent:>12.0f} {ratio}")
            before = spent


main()
