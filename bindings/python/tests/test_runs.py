"""The run files of the project, and the sample, against what the program `aosread` prints of them."""

from __future__ import annotations

import contextlib
import io
import unittest
from pathlib import Path
from typing import Callable

import aosread
import sample

TOP = Path(__file__).resolve().parents[3]
RUNS = sorted((TOP / "tests" / "runs").glob("*.run"))


class Runs(unittest.TestCase):
    """A test for each run file."""


def _test(run: Path) -> Callable[[Runs], None]:
    def test(self: Runs) -> None:
        printed = "".join(f"{line}\n" for line in aosread.report(run.read_bytes()))
        self.assertEqual(printed, run.with_suffix(".out").read_text())

    return test


for _run in RUNS:
    setattr(Runs, f"test_{_run.stem}", _test(_run))


class Sample(unittest.TestCase):
    """The sample run."""

    def test_sample(self) -> None:
        """It prints what the program prints, but for the setup."""
        printed = io.StringIO()
        with contextlib.redirect_stdout(printed):
            sample.main()
        _setup, *rest = (TOP / "crates" / "aosread" / "stdout").read_text().splitlines()
        self.assertEqual(printed.getvalue().splitlines(), rest)

    def test_there_are_run_files(self) -> None:
        """No run file would be no test."""
        self.assertGreater(len(RUNS), 200)
