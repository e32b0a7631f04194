"""Runs of a built program over inputs made at random: on several processes, each with an end,
counted, failures kept.

Part `k` of the inputs is made from the seed and `k` alone, so it is the same whatever the number of
processes.
"""
import argparse
import collections
import multiprocessing
import pathlib
import subprocess
import time

ROOT = pathlib.Path(__file__).resolve().parent.parent
SECONDS = 120
MOST_KEPT = 50

Ran = collections.namedtuple("Ran", "status printed said")


def options(doc, name, number=1_000_000, what="inputs"):
    """The options of a script that tries a program of the crates on so many inputs, if it is not
    told how many."""
    parser = argparse.ArgumentParser(
        description=doc, formatter_class=argparse.RawDescriptionHelpFormatter
    )
    parser.add_argument("--number", type=int, default=number, help=f"how many {what} ({number:,})")
    parser.add_argument("--seed", default="1", help="what they are made from (1)")
    parser.add_argument("--jobs", type=int, default=2, help="how many processes (2)")
    parser.add_argument(
        "--program", default=str(ROOT / "crates" / name / "out" / name), help="the built program"
    )
    parser.add_argument(
        "--keep", help="the file that failing inputs are written to (/tmp/SCRIPT.failed)"
    )
    parser.add_argument("named", nargs="?", metavar="PROGRAM", help="the same as --program")
    chosen = parser.parse_args()
    chosen.program = chosen.named or chosen.program
    if not pathlib.Path(chosen.program).exists():
        parser.error(f"{chosen.program} is not built: `rt run < /dev/null` in crates/{name}")
    # a run may be in another folder
    chosen.program = str(pathlib.Path(chosen.program).resolve())
    return chosen


def run(command, given, folder=None):
    """What a command does with an input, in a folder if one is named. The status is negative after
    a signal, and None where the run didn't end."""
    try:
        ran = subprocess.run(
            command, input=given, capture_output=True, timeout=SECONDS, check=False, cwd=folder
        )
    except subprocess.TimeoutExpired:
        return Ran(None, b"", b"")
    return Ran(ran.returncode, ran.stdout, ran.stderr)


def is_ended(ran):
    """Whether a run came to an end of its own, with status 0 or 1."""
    return ran.status in (0, 1)


def ending(ran):
    """How a run ended, in words."""
    if ran.status is None:
        return f"no end after {SECONDS} seconds"
    return f"signal {-ran.status}" if ran.status < 0 else f"status {ran.status}"


def sizes(number, size):
    """The sizes of the parts that so many inputs are tried in."""
    return [min(size, number - at) for at in range(0, number, size)]


def try_all(try_part, parts, jobs):
    """Tries each part until many inputs failed, and returns what they counted and what failed. A
    part gives a Counter and a list of failures, each of which is a complaint and the input to
    keep."""
    counts, failures = collections.Counter(), []
    with multiprocessing.Pool(jobs) as pool:
        for counted, failed in pool.imap(try_part, parts):
            counts.update(counted)
            failures.extend(failed)
            if len(failures) >= MOST_KEPT:
                print("stopped, as many inputs failed")
                break
    return counts, failures


def keep(failures, path):
    """Tells the first failures, and writes their inputs to a file, each in a line or lines of a
    case."""
    for complaint, _ in failures[:MOST_KEPT]:
        print(complaint)
    with open(path, "wb") as file:
        for _, given in failures[:MOST_KEPT]:
            file.write(given)
    print(f"the first inputs that failed are in {path}")


def end(script, chosen, try_part, parts):
    """Tries all parts, prints what was counted, and returns the status: 1 where anything failed.
    Where parts count what passed, the last line says how many passed and failed."""
    began = time.monotonic()
    print(f"{script}: {chosen.number} with seed {chosen.seed}, {chosen.jobs} processes", flush=True)
    counts, failures = try_all(try_part, parts, chosen.jobs)
    passed = counts.pop("passed", None)
    for what in sorted(counts):
        print(f"{counts[what]:>12,} {what}")
    if failures:
        keep(failures, chosen.keep or f"/tmp/{script}.failed")
    print(f"{script}: {len(failures)} failed, in {time.monotonic() - began:.0f} seconds")
    if passed is not None:
        print(f"{passed} passed, {len(failures)} failed")
    return 1 if failures else 0
