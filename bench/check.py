#!/usr/bin/env python3
"""Processor seconds and peak memory of `rtsan check` on generated files of doubling size, beside those of clang's function
effect analysis on the same files in the same run.

bench/check.py [PROGRAM]   PROGRAM: the built program, by default crates/rtsan/out/rtsan

The files have up to 1 MiB; of 'many notes' it is the notes that double, up to two million. Prints for each kind of file and
each size the bytes, the seconds (the least of three runs), their ratio to those of the size before, which should stay near
2, and the peak memory; then the same of `clang -fsyntax-only -Wfunction-effects`, and what part of it rtsan takes. Clang
is the first of $CLANG, that of the path and that of the Rattle kit which knows these warnings (version 20 or later); where
there is none, rtsan's numbers stand alone. Both print to /dev/null, and clang without the source lines. A peak includes the
some 15 MiB of this script, from which each process begins.
"""
import os
import shutil
import subprocess
import sys
import tempfile

ROOT = os.path.dirname(os.path.dirname(os.path.abspath(__file__)))
LIMIT = 1048576
FUNCTIONS = 4096
DEPTH = 1414


def ordinary(share):
    """Ordinary source of 4,096 functions: arithmetic, arrays, loops and calls, marked and not."""
    text = ["struct ring { int samples[64]; unsigned head; unsigned tail; };\nint first(int v) { return v; }\n"]
    for number in range(1, int(FUNCTIONS * share)):
        mark = " [[clang::nonblocking]]" if number % 4 == 0 else ""
        text.append(
            f"static int step{number}(struct ring *r, int v){mark} {{\n"
            f"  int sum = {number}; // what is added so far\n"
            f"  for (int i = 0; i < 4; i++)\n"
            f"    sum += r->samples[(r->head + i) % 64] > v ? v : i;\n"
            f"  if (sum == {number % 97}) return {'first(v)' if number < 8 else f'step{number // 8}(r, sum)'};\n"
            f"  return sum * {number % 13};\n"
            f"}}\n")
    return "".join(text)


def many_warnings(share):
    """Up to 4,095 functions, each of which calls an unmarked function again and again."""
    functions = int((FUNCTIONS - 1) * share)
    text = ["void slow(void);\n"]
    for number in range(functions):
        text.append(f"void f{number}(void) [[clang::nonblocking]] {{\n" + "  slow();\n" * 20 + "}\n")
    return "".join(text)


def many_calls(share):
    """4,096 functions, each of which calls marked functions that stand before it."""
    text = []
    for number in range(int(FUNCTIONS * share)):
        calls = "".join(f" f{(number * 7 + call) % (number + 1)}();" for call in range(22))
        text.append(f"void f{number}(void) [[clang::nonblocking]] {{{calls} }}\n")
    return "".join(text)


def many_notes(share):
    """Marked functions that each call the last of a path of 1,414 functions, whose first one calls an unmarked one."""
    text = ["void slow(void);\nvoid g0(void) { slow(); }\n"]
    text += [f"void g{number}(void) {{ g{number - 1}(); }}\n" for number in range(1, DEPTH)]
    text += [f"void f{number}(void) [[clang::nonblocking]] {{ g{DEPTH - 1}(); }}\n" for number in range(int(DEPTH * share))]
    return "".join(text)


def declarations(share):
    """Declarations alone, with long names."""
    return "".join(f"void n{number:0{LIMIT // FUNCTIONS - 14}}(void);\n" for number in range(int(FUNCTIONS * share)))


def white_space(share):
    return " \n" * int(LIMIT * share / 2)


def found_clang():
    """A clang that knows the warnings, and its version."""
    kit = subprocess.run(["rt", "doc"], capture_output=True, text=True).stdout.strip() if shutil.which("rt") else ""
    for program in (os.environ.get("CLANG"), shutil.which("clang"), os.path.join(os.path.dirname(kit), "toolchain/bin/clang")):
        if program and os.path.exists(program):
            done = subprocess.run([program, "-x", "c", "-fsyntax-only", "-Wfunction-effects", os.devnull], capture_output=True, text=True)
            if done.returncode == 0 and "unknown warning option" not in done.stderr:
                version = subprocess.run([program, "--version"], capture_output=True, text=True).stdout.splitlines()[0]
                return program, version
    return None, None


def measured(command, statuses):
    """The least processor seconds of three runs (of one, where it takes over ten), and the peak memory in KiB."""
    least, peak = None, 0
    for _ in range(3):
        child = subprocess.Popen(command, stdin=subprocess.DEVNULL, stdout=subprocess.DEVNULL, stderr=subprocess.DEVNULL)
        _, status, usage = os.wait4(child.pid, 0)
        child.returncode = os.waitstatus_to_exitcode(status)
        if child.returncode not in statuses:
            sys.exit(f"{' '.join(command)}: status {child.returncode}")
        seconds = usage.ru_utime + usage.ru_stime
        least = seconds if least is None else min(least, seconds)
        peak = max(peak, usage.ru_maxrss)
        if seconds > 10:
            break
    return least, peak


def printed(name, now, before):
    ratio = "      " if before is None else f"x {now[0] / max(before[0], 1e-6):4.2f}"
    return f"  {name} {now[0]:8.3f} s {ratio} {now[1] / 1024:7.1f} MiB"


def main():
    program = sys.argv[1] if len(sys.argv) > 1 else os.path.join(ROOT, "crates/rtsan/out/rtsan")
    clang, version = found_clang()
    print(version or "no clang that knows -Wfunction-effects")
    with tempfile.TemporaryDirectory() as folder:
        path = os.path.join(folder, "bench.c")
        for kind in (ordinary, many_warnings, many_calls, many_notes, declarations, white_space):
            print(kind.__name__.replace("_", " "))
            before, other_before = None, None
            for part in (64, 32, 16, 8, 4, 2, 1):
                text = kind(1 / part)
                if len(text) > LIMIT:
                    sys.exit(f"{kind.__name__}: {len(text)} bytes")
                with open(path, "w", encoding="ascii") as file:
                    file.write(text)
                now = measured([program, "check", path], (0, 1))
                line = f"{len(text):9} bytes" + printed("rtsan", now, before)
                before = now
                if clang:
                    command = [clang, "-x", "c", "-std=c17", "-fsyntax-only", "-Wfunction-effects", "-fno-caret-diagnostics", path]
                    other = measured(command, (0,))
                    line += printed("clang", other, other_before)
                    line += f"  time {now[0] / max(other[0], 1e-6):5.2f}, memory {now[1] / other[1]:5.2f}"
                    other_before = other
                print(line, flush=True)


main()
