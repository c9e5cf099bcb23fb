#!/usr/bin/env python3
"""What the report of a known stack costs, however many prefixes a board holds.

It builds a small program over the boards in a temporary folder outside the repository. The program reports
stacks of ten steps, each with prefixes of its own, until the board holds ten prefixes and then sixty thousand,
and reports one of them again and again meanwhile: by one thread, and on the boards for threads by two at once.
It prints the nanoseconds of such a report, by a thread's processor time, the least of the rounds: at most 5,000
are wanted, and about the same at both numbers.

Use: bench/board.py [ROUNDS]   ROUNDS: 5 by default

What `rt check` kept of the crates (out/) is taken along, so that they are not proved again.
"""
import os
import pathlib
import shutil
import subprocess
import sys
import tempfile

ROOT = pathlib.Path(__file__).resolve().parent.parent
BOARDS = {"plain": "plain_board", "set": "set_board", "locked": "locked_board"}
MOST = 5000

PROGRAM = r"""
#![tactic(auto)]

ghost use Rattle.std.specs.Prelude.{◌≡◌, ◌^◌, ◌<◌, true};
ghost use Rattle.reports.specs.Stacks.{IsStack};
ghost use Rattle.board_bench.specs.Reporting.{EachReports};

use ctx_set::StackStep;
use locked_board::LockedBoard;
use plain_board::PlainBoard;
use reports::Board;
use set_board::SetBoard;
use std::alloc::Global;
use std::thread::Threads;
use std::time::CpuClock;
use std::{io, thread};

// So often a stack is reported in a round.
const COUNT: u32 = 200_000;

// A stack of ten steps, none of whose prefixes is one of another number.
fn stack_of(number: u32) -> [StackStep; 10]
    requires { number < 2 ^ 20 }
    ensures { IsStack result }
{
    [StackStep {
        target: 1,
        site: number,
    }; 10]
}

// Reports this many stacks, from a number on, once each.
fn fill<B: Board>(board: &B, pass: &mut B::Pass, from: u32, to: u32)
    requires numbers { to < 2 ^ 20 }
    requires belongs { B.belongs (B.place board.now) pass.old }
    requires can { B.can_report pass.old ≡ true }
    ensures belongs { B.belongs (B.place board.now) pass.new }
    ensures can { B.can_report pass.new ≡ true }
{
    'each: for number in from..to {
        board.report(pass, &stack_of(number));
    }
}

// Reports the first stack this many times.
fn repeat<B: Board>(board: &B, pass: &mut B::Pass, count: u32)
    requires belongs { B.belongs (B.place board.now) pass.old }
    requires can { B.can_report pass.old ≡ true }
    ensures belongs { B.belongs (B.place board.now) pass.new }
    ensures can { B.can_report pass.new ≡ true }
{
    let stack = stack_of(0);
    'each: for _ in 0..count {
        board.report(pass, &stack);
    }
}

fn measured<B: Board>(
    rt: &(impl Print + CpuClock),
    name: &str,
    held: u32,
    board: &B,
    pass: &mut B::Pass,
) -> io::Result<()>
    requires belongs { B.belongs (B.place board.now) pass.old }
    requires can { B.can_report pass.old ≡ true }
    ensures belongs { B.belongs (B.place board.now) pass.new }
    ensures can { B.can_report pass.new ≡ true }
{
    let from = rt.thread_cpu_time()?;
    repeat(board, pass, COUNT);
    let spent = rt.thread_cpu_time()?.saturating_sub(from).as_nanos();
    println!(rt; "{name} {held} {spent} {COUNT}")
}

// How long the reports of one of two threads take.
fn spent<B: Board>(rt: &impl CpuClock, board: &B, mut pass: B::Pass) -> io::Result<u128>
    requires belongs { B.belongs (B.place board.now) pass }
    requires can { EachReports B.can_report }
{
    let from = rt.thread_cpu_time()?;
    repeat(board, &mut pass, COUNT);
    Ok(rt.thread_cpu_time()?.saturating_sub(from).as_nanos())
}

fn measured_in_two<B: Board + Sync, R: Threads + Print + CpuClock + Sync>(
    rt: &R,
    name: &str,
    held: u32,
    board: &B,
    pass: &mut B::Pass,
) -> io::Result<()>
    requires belongs { B.belongs (B.place board.now) pass.old }
    requires can { EachReports B.can_report }
    ensures belongs { B.belongs (B.place board.now) pass.new }
{
    let one = board.split(pass);
    let two = board.split(pass);
    let (one, two) = thread::join(
        rt,
        move || -> io::Result<u128>
            requires { B.belongs (B.place board.now) one × EachReports B.can_report }
        { spent(rt, board, one) },
        move || -> io::Result<u128>
            requires { B.belongs (B.place board.now) two × EachReports B.can_report }
        { spent(rt, board, two) },
    );
    println!(rt; "{name}-of-two {held} {} {COUNT}", one?)?;
    println!(rt; "{name}-of-two {held} {} {COUNT}", two?)
}

fn both<B: Board>(
    rt: &(impl Print + CpuClock),
    name: &str,
    board: &B,
    pass: &mut B::Pass,
) -> io::Result<()>
    requires belongs { B.belongs (B.place board.now) pass.old }
    requires can { B.can_report pass.old ≡ true }
{
    fill(board, pass, 0, 1);
    measured(rt, name, 10, board, pass)?;
    fill(board, pass, 1, 6000);
    measured(rt, name, 60_000, board, pass)
}

fn by_threads<B: Board + Sync, R: Threads + Print + CpuClock + Sync>(
    rt: &R,
    name: &str,
    board: &B,
    pass: &mut B::Pass,
) -> io::Result<()>
    requires belongs { B.belongs (B.place board.now) pass.old }
    requires can { EachReports B.can_report }
{
    fill(board, pass, 0, 1);
    measured(rt, name, 10, board, pass)?;
    measured_in_two(rt, name, 10, board, pass)?;
    fill(board, pass, 1, 6000);
    measured(rt, name, 60_000, board, pass)?;
    measured_in_two(rt, name, 60_000, board, pass)
}

fn plain(rt: &(impl Print + CpuClock), alloc: Global) -> io::Result<()> {
    let (board, mut pass) = PlainBoard::new(alloc)?;
    both(rt, "plain", &board, &mut pass)
}

fn set<R: Threads + Print + CpuClock + Sync>(rt: &R, alloc: Global) -> io::Result<()> {
    let (board, mut pass) = SetBoard::new(alloc)?;
    by_threads(rt, "set", &board, &mut pass)
}

fn main(rt: HostRuntime) -> io::Result<()> {
    plain(&rt, rt.alloc())?;
    set(&rt, rt.alloc())?;
    let (board, mut pass) = LockedBoard::new(rt, rt.alloc())?;
    by_threads(&rt, "locked", &board, &mut pass)
}
"""

REPORTING = """
-- Every pass of a board can report.
use Rattle.std.specs.Prelude.{◌≡◌, Bool, true}

pub record EachReports {P : Type 0} (can : P → Bool) : Type 0 where
  pub each : (p : P) → can p ≡ true
"""

PROOFS = {
    "Lib": "",
    "fill/Invariants": """
use Rattle.std.proofs.Common.{◌≡◌, true}
use Rattle.board_bench.proofs.fill.Given as goal

abbrev pub invariant-each : goal.invariant-each
invariant-each g l = record {
  belongs : g.B.Board.belongs (g.B.Board.place l.board) l.pass;
  can : g.B.Board.can_report l.pass ≡ true;
}
""",
    "repeat/Invariants": """
use Rattle.std.proofs.Common.{◌≡◌, true}
use Rattle.board_bench.proofs.repeat.Given as goal

abbrev pub invariant-each : goal.invariant-each
invariant-each g l = record {
  belongs : g.B.Board.belongs (g.B.Board.place l.board) l.pass;
  can : g.B.Board.can_report l.pass ≡ true;
}
""",
    "stack_of/Answers": """
use Rattle.std.proofs.Common.{arith}
use Rattle.std.proofs.lemmas.List.Elements.{All-replicate}
use Rattle.reports.specs.Stacks.{IsStep}
use Rattle.board_bench.proofs.stack_of.Goals as goal

pub returns : goal.returns
returns c = record {
  some = omega arith;
  few = omega arith;
  steps = All-replicate IsStep 10 _ (record { function = omega arith; call = c.requires });
}
""",
}


def listed():
    """The repository's crates, each with the crates that it names."""
    lines = [line.split(":") for line in (ROOT / "crates.txt").read_text().splitlines() if ":" in line and line[0] != "#"]
    return {head.split()[0]: (head, deps.split()) for head, deps in lines}


def below(name, crates):
    """The crate and all below it, lowest first."""
    met = []
    for dep in crates[name][1]:
        if dep in crates:
            met += below(dep, crates)
    return list(dict.fromkeys(met + [name]))


def crate_in(folder):
    crates = listed()
    names = list(dict.fromkeys(name for board in BOARDS.values() for name in below(board, crates)))
    for name in names:
        shutil.copytree(ROOT / "crates" / name, folder / "crates" / name, ignore=shutil.ignore_patterns("must-fail"))
    crate = folder / "crates" / "board_bench"
    for name in ("src", "specs", "proofs"):
        (crate / name).mkdir(parents=True)
    (crate / "src" / "main.rt").write_text(PROGRAM.lstrip())
    (crate / "specs" / "Lib.antt").write_text("pub mod Reporting\n")
    (crate / "specs" / "Reporting.antt").write_text(REPORTING.lstrip())
    for name, text in PROOFS.items():
        path = crate / "proofs" / f"{name}.antt"
        path.parent.mkdir(parents=True, exist_ok=True)
        path.write_text(text.lstrip())
    (folder / "HANDLES").write_text((ROOT / "HANDLES").read_text())
    lines = [f"{crates[name][0]}: {' '.join(crates[name][1])}\n" for name in names]
    (folder / "crates.txt").write_text("".join(lines) + f"board_bench: ctx_set reports {' '.join(BOARDS.values())}\n")
    return crate


def least_of(program, rounds):
    least = {}
    for _ in range(rounds):
        written = subprocess.run([program], stdout=subprocess.PIPE, check=True).stdout.decode()
        for line in written.splitlines():
            board, held, nanos, count = line.split()
            spent = int(nanos) / int(count)
            least[board, int(held)] = min(spent, least.get((board, int(held)), spent))
    return least


def main():
    rounds = int(sys.argv[1]) if len(sys.argv) > 1 else 5
    with tempfile.TemporaryDirectory() as name:
        crate = crate_in(pathlib.Path(name))
        built = subprocess.run(["rt", "run"], cwd=crate, capture_output=True, stdin=subprocess.DEVNULL)
        program = crate / "out" / "board_bench"
        if not program.exists():
            sys.exit(built.stdout.decode()[-4000:] + built.stderr.decode()[-2000:])
        before = os.getloadavg()[0]
        least = least_of(program, rounds)
        print(f"load {before:.1f} before, {os.getloadavg()[0]:.1f} after, on {os.cpu_count()} processors")
        print(f"{'board':13} {'prefixes':>9} {'ns a report':>12}")
        for (board, held), spent in least.items():
            print(f"{board:13} {held:9} {spent:12.0f}{'' if spent <= MOST else '   over ' + str(MOST)}")


if __name__ == "__main__":
    main()
