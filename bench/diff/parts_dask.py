#!/usr/bin/env python3
"""Compares two files in N parts on a Dask cluster of this machine, and prints what one run of
`dunkelva` would.

usage: parts_dask.py [--workers W] [--program PROGRAM] N LEFT RIGHT --key COLUMNS [OPTION..]

Needs Debian's python3-dask and python3-distributed. A worker is a process that runs one part at a
time. On a cluster of many machines, give its address in place of `LocalCluster`: each worker then
needs the program and both files.
"""
import argparse
import pathlib
import subprocess
import sys

import distributed

ROOT = pathlib.Path(__file__).resolve().parent.parent.parent
sys.path.append(str(ROOT / "tools"))
import join_parts


def compare_part(part, parts, program, words):
    """Compares one part. Returns the status, the report and what was said of trouble."""
    command = [
        program,
        "diff",
        *words,
        "--partition",
        f"{part}/{parts}",
        "--format",
        "json",
        "--limit",
        "0",
    ]
    ran = subprocess.run(command, capture_output=True, check=False)
    return ran.returncode, ran.stdout, ran.stderr


def main():
    """Compares all parts, prints the report of the whole, and returns the greatest status."""
    parser = argparse.ArgumentParser(
        description=__doc__, formatter_class=argparse.RawDescriptionHelpFormatter
    )
    parser.add_argument("--workers", type=int, default=4, help="how many processes (4)")
    parser.add_argument(
        "--program", default=str(ROOT / "crates/dunkelva/out/dunkelva"), help="the built program"
    )
    parser.add_argument("parts", metavar="N", type=int)
    chosen, words = parser.parse_known_args()
    with distributed.LocalCluster(
        n_workers=chosen.workers, threads_per_worker=1, dashboard_address=None
    ) as cluster:
        with distributed.Client(cluster) as client:
            runs = client.map(
                compare_part,
                range(1, chosen.parts + 1),
                parts=chosen.parts,
                program=chosen.program,
                words=words,
            )
            ran = client.gather(runs)
    for status, _, said in ran:
        if status not in (0, 1):
            sys.stderr.buffer.write(said)
            return status
    reports = [report.splitlines(True) for _, report, _ in ran]
    if refusal := join_parts.refusal_of(words[:2], [report[-1] for report in reports]):
        print(refusal, file=sys.stderr)
        return 2
    said = [line for _, _, lines in ran for line in lines.splitlines(True)]
    sys.stderr.buffer.writelines(dict.fromkeys(said))
    sys.stdout.buffer.writelines(join_parts.joined(reports, words[0], words[2:]))
    return max(status for status, _, _ in ran)


if __name__ == "__main__":
    sys.exit(main())
