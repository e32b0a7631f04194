"""Times the program on a million lines of mixed operations beside plain Rust, and on ten million.

usage: time_lines.py PROGRAM    (the built program, as crates/polars_tables/out/polars_tables)

The lines are random, the same in each run: every operation on every type, and about one in eight is
refused. `plain_lines.rs` answers them by std alone, from a file of its own of the same lines. Both
run five times in turn, with what they print kept and compared. Printed are the best times and their
ratio, and the most memory that the program had, beside its input and output together; then the same
of ten million lines, for the program alone.
"""
import pathlib
import random
import subprocess
import sys
import tempfile

TESTS = pathlib.Path(__file__).resolve().parent
sys.path.insert(0, str(TESTS / "outside"))

from lines import ANSWERS, Chance, TYPES  # noqa: E402

LINES = 1_000_000
RUNS = 5
MANY_RUNS = 3
# how many different lines there are; a million of these are drawn
KINDS_OF_LINES = 20_000


def faulty(line, chance):
    """A line that is refused for one of the reasons."""
    words = line.split(" ")
    return chance.choice(
        (
            "",
            words[0] + "x " + " ".join(words[1:]),
            words[0] + " i128",
            line + " x",
            line + " | 1",
            line + " 99999999999999999999999",
        )
    )


def sample():
    chance = Chance("a million lines")
    names = sorted(ANSWERS)
    lines = []
    for _ in range(KINDS_OF_LINES):
        name = chance.random.choice(names)
        kind = chance.random.choice([kind for kind in TYPES if kind in ANSWERS[name][0]])
        line = chance.line(name, kind).removeprefix("line ")
        lines.append(faulty(line, chance.random) if chance.random.random() < 0.125 else line)
    return lines


# Runs a program in a process of its own, since a child's most memory counts that of the process
# that forked it, and prints seconds and KiB.
MEASURE = """
import os, subprocess, sys, time
began = time.perf_counter()
process = subprocess.Popen([sys.argv[1]])
_, _, used = os.wait4(process.pid, 0)
print(time.perf_counter() - began, used.ru_maxrss, file=sys.stderr)
"""


def run(program, given, printed):
    """The seconds that a run takes, and the most bytes of memory that it has."""
    with open(given, "rb") as source, open(printed, "wb") as target:
        told = subprocess.run(
            [sys.executable, "-c", MEASURE, program],
            stdin=source,
            stdout=target,
            stderr=subprocess.PIPE,
            check=True,
        )
        seconds, kibibytes = told.stderr.split()[-2:]
        return float(seconds), int(kibibytes) * 1024


def best(runs):
    return min(seconds for seconds, _ in runs), max(memory for _, memory in runs)


def main(program):
    with tempfile.TemporaryDirectory() as folder:
        folder = pathlib.Path(folder)
        plain = folder / "plain"
        subprocess.run(
            [
                "rustc",
                "--edition",
                "2024",
                "-O",
                "-C",
                "target-cpu=x86-64-v2",
                TESTS.parent / "bench" / "plain_lines.rs",
                "-o",
                plain,
            ],
            check=True,
        )
        lines, chance = sample(), random.Random(1)
        text = "".join(line + "\n" for line in chance.choices(lines, k=LINES))
        (folder / "in").write_text(text, encoding="utf-8")
        ours, theirs = [], []
        for _ in range(RUNS):
            ours.append(run(program, folder / "in", folder / "out"))
            theirs.append(run(plain, folder / "in", folder / "plain_out"))
            assert (folder / "out").read_bytes() == (folder / "plain_out").read_bytes()
        both = sum((folder / name).stat().st_size for name in ("in", "out"))
        (our_time, memory), (their_time, _) = best(ours), best(theirs)
        print(
            f"{LINES} lines, {both / 1e6:.0f} MB in and out: {our_time:.2f} s, plain Rust "
            f"{their_time:.2f} s, ratio {our_time / their_time:.2f}; "
            f"{memory / 1e6:.0f} MB, {memory / both:.2f} x in and out"
        )
        (folder / "many").write_text(10 * text, encoding="utf-8")
        many_time, many_memory = best(
            [run(program, folder / "many", folder / "out") for _ in range(MANY_RUNS)]
        )
        print(
            f"{10 * LINES} lines: {many_time:.2f} s, {many_time / our_time:.1f} x; "
            f"{many_memory / 1e6:.0f} MB, {many_memory / memory:.1f} x"
        )


if __name__ == "__main__":
    main(sys.argv[1])
