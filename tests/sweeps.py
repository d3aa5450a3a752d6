"""sweeps: what the scripts `refuse`, `grow` and `fail` share: libraries that are loaded before a program, runs in
which the 1st, 2nd, .. call ends otherwise, and the tally of what passed."""
import os
import subprocess
from collections import Counter
from itertools import count
from pathlib import Path

HERE = Path(__file__).resolve().parent
# How many runs of a sweep are made before the script looks whether any met its call.
AT_ONCE = 16


def library(name, folder):
    """Makes a library, in a folder, of the C file of this name beside the scripts."""
    made = folder / f"{name}.so"
    compiler = [os.environ.get("CC", "cc"), "-O1", "-shared", "-fPIC"]
    subprocess.run([*compiler, HERE / f"{name}.c", "-o", made, "-ldl"], check=True)
    return made


def sweep(pool, run, has_met):
    """The numbers from 1 on, each with what its run leaves, until none of some runs in a row has met its call."""
    for first in count(1, AT_ONCE):
        lefts = list(pool.map(run, range(first, first + AT_ONCE)))
        yield from enumerate(lefts, first)
        if not any(has_met(it) for it in lefts):
            return


class Tally:
    """How many runs passed, by name, and how many failed."""

    def __init__(self):
        self.passed, self.failed = Counter(), 0

    def count(self, name, fault=None):
        """Counts a run, and prints what is wrong with it if anything is."""
        self.passed[name] += fault is None
        if fault is not None:
            self.failed += 1
            print(f"FAIL {name}: {fault}")

    def end(self):
        """Prints the last line, 'N passed, M failed'. The status: something has to have passed, and nothing failed."""
        passed = sum(self.passed.values())
        print(f"{passed} passed, {self.failed} failed")
        return 0 if passed and not self.failed else 1
