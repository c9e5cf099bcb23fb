"""What the benches of single calls share: a small program over crates of the repository, built in a temporary folder
outside it, that makes one call five times and prints the processor time of each; and clang's time on the same text."""
import pathlib
import resource
import shutil
import subprocess
import sys

ROOT = pathlib.Path(__file__).resolve().parent.parent
SIZE = 1048576


def repeated(before, part, behind, size):
    """The part again and again, each time with a number of its own for its `@`."""
    pieces, length = [before], len(before) + len(behind)
    while True:
        piece = part.replace(b"@", b"%d" % len(pieces))
        length += len(piece)
        if length > size:
            return b"".join(pieces) + behind
        pieces.append(piece)


def listed():
    """The lines of crates.txt, by the names of their crates."""
    lines = (ROOT / "crates.txt").read_text().splitlines()
    return {line.split()[0].rstrip(":"): line for line in lines if line.strip() and not line.startswith("#")}


def below(name, lines):
    """A crate, and those of the repository that it stands on."""
    names = {name}
    for other in lines[name].split(":")[1].split():
        if other in lines:
            names |= below(other, lines)
    return names


def built(folder, name, program, crates):
    """The program, built over these crates as a crate of its own name in the folder."""
    lines = listed()
    names = sorted(set().union(*(below(crate, lines) for crate in crates)))
    for each in names:
        shutil.copytree(ROOT / "crates" / each, folder / "crates" / each, ignore=shutil.ignore_patterns("must-fail", "out"))
    crate = folder / "crates" / name
    (crate / "src").mkdir(parents=True)
    (crate / "src" / "main.rt").write_text(program.lstrip())
    for each in ("specs", "proofs"):
        (crate / each).mkdir()
        (crate / each / "Lib.antt").write_text("")
    (folder / "crates.txt").write_text("\n".join(lines[each] for each in names) + f"\n{name}: {' '.join(crates)}\n")
    done = subprocess.run(["rt", "run"], cwd=crate, capture_output=True, stdin=subprocess.DEVNULL)
    program = crate / "out" / name
    if not program.exists():
        sys.exit(done.stdout.decode()[-2000:] + done.stderr.decode()[-2000:])
    return program


def least(program, text):
    """The least processor time of five calls on the text, in microseconds, and what the program counted."""
    done = subprocess.run([program], input=text, capture_output=True, check=True)
    lines = [line.split() for line in done.stdout.decode().splitlines()]
    if not lines or any(answer != "true" for _, answer, _ in lines):
        sys.exit("a text isn't taken: " + text[:60].decode())
    return min(int(spent) for spent, _, _ in lines), int(lines[0][2])


def of_clang(text):
    """Processor seconds of clang on the text, or None where it isn't installed or takes over a minute."""
    if shutil.which("clang") is None:
        return None
    before = resource.getrusage(resource.RUSAGE_CHILDREN)
    command = ["clang", "-x", "c", "-std=c17", "-w", "-ferror-limit=0", "-fbracket-depth=100000", "-fsyntax-only", "-"]
    try:
        subprocess.run(command, input=text, capture_output=True, timeout=60)
    except subprocess.TimeoutExpired:
        return None
    after = resource.getrusage(resource.RUSAGE_CHILDREN)
    return after.ru_utime + after.ru_stime - before.ru_utime - before.ru_stime
