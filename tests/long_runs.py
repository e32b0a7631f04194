"""Scripts that try parts of an endless row of inputs, as many as the time allows, and add up their
figures in a file.

Part `k` is made from the seed and `k` alone, so it is the same whatever the number of processes. A
run with a file of figures begins after the last part that an earlier run with that file began.
"""
import argparse
import collections
import concurrent.futures
import json
import math
import os
import pathlib
import resource
import time

import runs


def options(doc, name, number, what):
    """Returns the options of a script that tries a program of the crates on so many inputs, if it
    is not told how many."""
    parser = argparse.ArgumentParser(
        description=doc, formatter_class=argparse.RawDescriptionHelpFormatter
    )
    parser.add_argument("--number", type=int, default=number, help=f"how many {what} ({number:,})")
    parser.add_argument(
        "--seconds", type=float, default=math.inf, help="begin no part after so many seconds"
    )
    parser.add_argument("--seed", default="1", help="what they are made from (1)")
    parser.add_argument("--jobs", type=int, default=1, help="how many processes (1)")
    parser.add_argument("--totals", type=pathlib.Path, help="a file of figures, which are added to")
    parser.add_argument(
        "--keep", help="the file that failing inputs are written to (/tmp/SCRIPT.failed)"
    )
    parser.add_argument(
        "program", nargs="?", default=str(runs.ROOT / "crates" / name / "out" / name)
    )
    chosen = parser.parse_args()
    if not pathlib.Path(chosen.program).exists():
        parser.error(f"{chosen.program} is not built: `rt run < /dev/null` in crates/{name}")
    chosen.program = str(pathlib.Path(chosen.program).resolve())
    return chosen


class Totals:
    """Figures of all runs that have one file, and the number of the part that comes next."""

    def __init__(self, path, seed):
        self.path, self.seed, self.next, self.counts = path, seed, 0, collections.Counter()
        if path and path.exists():
            known = json.loads(path.read_text(encoding="utf-8"))
            if known["seed"] != seed:
                raise SystemExit(f"{path} has figures with seed {known['seed']}")
            self.next = known["next"]
            self.counts.update(known["counts"])

    def add(self, counts):
        """Adds what a part counted, and writes the file."""
        self.counts.update(counts)
        if self.path:
            text = json.dumps(
                {"seed": self.seed, "next": self.next, "counts": self.counts}, indent=1
            )
            new = self.path.with_name(f"{self.path.name}.new")
            new.write_text(f"{text}\n", encoding="utf-8")
            os.replace(new, self.path)


def try_parts(try_part, chosen, count, totals):
    """Tries so many parts, or fewer where the time is over or one fails. Returns what they counted
    and the complaints."""
    counts, failures, waiting = collections.Counter(), [], set()
    last, until = totals.next + count, time.monotonic() + chosen.seconds
    with concurrent.futures.ProcessPoolExecutor(chosen.jobs) as pool:
        while True:
            while (
                len(waiting) < chosen.jobs
                and totals.next < last
                and time.monotonic() < until
                and not failures
            ):
                waiting.add(pool.submit(try_part, totals.next))
                totals.next += 1
            if not waiting:
                return counts, failures
            done, waiting = concurrent.futures.wait(
                waiting, return_when=concurrent.futures.FIRST_COMPLETED
            )
            for counted, failed in (it.result() for it in done):
                totals.add(counted | {"failed": len(failed)})
                counts.update(counted)
                failures.extend(failed)


def told(counts):
    """Returns figures as a line."""
    return ", ".join(f"{counts[what]:,.0f} {what}" for what in sorted(counts))


def end(script, chosen, try_part, count):
    """Tries so many parts, prints what was counted, and returns the status: 1 where anything
    failed. The figure `passed` is in the last line."""
    began, totals = time.monotonic(), Totals(chosen.totals, chosen.seed)
    print(
        f"{script}: seed {chosen.seed}, from part {totals.next} on, {chosen.jobs} processes",
        flush=True,
    )
    counts, failures = try_parts(try_part, chosen, count, totals)
    used = [
        sum(resource.getrusage(who)[:2]) for who in (resource.RUSAGE_SELF, resource.RUSAGE_CHILDREN)
    ]
    seconds = {"seconds": time.monotonic() - began, "seconds of processors": sum(used)}
    totals.add(seconds)
    print(f"{script}: {told(counts | seconds)}")
    if chosen.totals:
        print(f"{script}, all with seed {chosen.seed} so far: {told(totals.counts)}")
    if failures:
        runs.keep(failures, chosen.keep or f"/tmp/{script}.failed")
    print(f"{counts['passed']} passed, {len(failures)} failed")
    return 1 if failures else 0
