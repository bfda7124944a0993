"""Runs the tests of this folder, in as many processes as there are processors, and counts them:
run.py [NAME..], where a name is that of a module, a class or a test. The last line is 'N passed, M failed', with
', K skipped' where some were."""

from __future__ import annotations

import glob
import os
import signal
import subprocess
import sys
import unittest
from concurrent.futures import ThreadPoolExecutor
from typing import Iterator

HERE = os.path.dirname(os.path.abspath(__file__))
PROCESSES = max(2, os.cpu_count() or 2)
SLOWEST = 600


def modules() -> list[str]:
    """The modules of tests."""
    return sorted(os.path.basename(path)[:-3] for path in glob.glob(os.path.join(HERE, "test_*.py")))


def tests(suite: unittest.TestSuite | unittest.TestCase) -> Iterator[str]:
    """The names of a suite's tests."""
    if isinstance(suite, unittest.TestCase):
        yield suite.id().removeprefix("unittest.loader._FailedTest.")     # a module that cannot be loaded
    else:
        for one in suite:
            yield from tests(one)


def here(names: list[str]) -> None:
    """Runs tests in this process; the last line has the counts."""
    signal.signal(signal.SIGINT, signal.default_int_handler)    # whoever starts this in the background ignores it
    result = unittest.TextTestRunner(stream=sys.stdout).run(unittest.defaultTestLoader.loadTestsFromNames(names))
    failed = len({test.id().partition(" ")[0] for test, _ in result.failures + result.errors})
    for test, reason in result.skipped:
        print(f"{test.id()}: left out, since {reason}")
    print(max(0, result.testsRun - failed - len(result.skipped)), failed, len(result.skipped))


def apart(names: list[str]) -> tuple[list[int], str]:
    """Runs tests in a process of their own: the counts, and what was written."""
    words = [sys.executable, "-P", os.path.abspath(__file__), "--here", *names]
    try:
        done = subprocess.run(words, capture_output=True, text=True, timeout=SLOWEST, check=False)
    except subprocess.TimeoutExpired:
        return [0, len(names), 0], f"{names} take longer than {SLOWEST} s"
    counts = done.stdout.rstrip("\n").rpartition("\n")[2].split()
    if done.returncode or len(counts) != 3:
        return [0, len(names), 0], done.stdout + done.stderr
    return [int(count) for count in counts], done.stdout + done.stderr


def main(words: list[str]) -> int:
    """The status: 1 where a test failed."""
    sys.path[:0] = [HERE, os.path.dirname(HERE)]
    if words[:1] == ["--here"]:
        here(words[1:])
        return 0
    names = list(tests(unittest.defaultTestLoader.loadTestsFromNames(words or modules())))
    total = [0, 0, 0]
    with ThreadPoolExecutor(PROCESSES) as pool:
        for counts, text in pool.map(apart, filter(None, (names[at::PROCESSES] for at in range(PROCESSES)))):
            if counts[1] or counts[2]:
                print(text)
            total = [sum(pair) for pair in zip(total, counts)]
    print(f"{total[0]} passed, {total[1]} failed" + (f", {total[2]} skipped" if total[2] else ""))
    return 1 if total[1] or not total[0] else 0


if __name__ == "__main__":
    sys.exit(main(sys.argv[1:]))
