"""Many threads that compare shared columns, and the time in which others can run."""
from __future__ import annotations

import concurrent.futures
import threading
import time
from typing import List

import numpy as np

import dunkelva
from exported import Exported, column, masked


def test_eight_threads() -> None:
    rows = 200_000
    left = np.arange(rows)
    rights = [left.copy() for _ in range(8)]
    for number, right in enumerate(rights):
        right[number::8] = -1
    hidden = masked(left, mask=left % 5 == 0)
    nested = [Exported(column(("+l", "u"), [[b"a", None], None, []] * 3000, seed))
              for seed in (1, 2)]

    def work(number: int) -> bool:
        for _ in range(10):
            if not (dunkelva.equal(left, rights[number]) == (left % 8 != number)).all():
                return False
            if not dunkelva.equal(hidden, hidden).all() or dunkelva.sum(left) != left.sum():
                return False
            if not dunkelva.equal(*nested).all():
                return False
        return True

    with concurrent.futures.ThreadPoolExecutor(8) as pool:
        assert list(pool.map(work, range(8))) == [True] * 8


def test_the_lock_is_let_go() -> None:
    """Counts how often another thread runs while one call computes: of some calls one at least."""
    left = np.zeros(20_000_000, np.int64)
    counts: List[int] = [0]
    stop = threading.Event()

    def count() -> None:
        while not stop.is_set():
            counts[0] += 1
            time.sleep(0)

    other = threading.Thread(target=count)
    other.start()
    try:
        while not counts[0]:
            time.sleep(0.001)
        during = 0
        for _ in range(50):
            before = counts[0]
            assert dunkelva.sum(left) == 0
            during = max(during, counts[0] - before)
            if during > 10:
                break
    finally:
        stop.set()
        other.join()
    assert during > 10
