"""scripts/jobs: jobs are legal by period and jitter, and the critical instant is where it has to be."""
from __future__ import annotations

import subprocess
import tempfile
import unittest
from pathlib import Path

from commonkit.toml import Document, read_toml_text

JOBS = Path(__file__).resolve().parent.parent / "jobs"
TIMES = {"fast": (100, 30), "slow": (250, 80)}
SET = "[platform]\nline = 16\n" + "".join(
    f'[[task]]\nname = "{name}"\nfile = "a.elf"\nperiod = {period}\njitter = {jitter}\n' for name, (period, jitter) in TIMES.items()
)


class Scripts(unittest.TestCase):
    """Scripts for two tasks."""

    def script(self, *words: str) -> Document | None:
        """The script that is written, None if there is none."""
        with tempfile.TemporaryDirectory() as folder:
            Path(folder, "set.toml").write_text(SET, encoding="utf-8")
            done = subprocess.run([JOBS, "set.toml", *words], cwd=folder, capture_output=True, text=True, check=False)
        return read_toml_text(done.stdout) if done.returncode == 0 else None

    def jobs(self, *words: str) -> dict[str, list[tuple[int, int]]]:
        """The arrivals and releases by task."""
        script = self.script(*words) or {}
        return {name: [(job["arrival"], job["release"]) for job in script["job"] if job["task"] == name] for name in TIMES}

    def test_critical_instant(self) -> None:
        """All are released at 80, the largest jitter; later jobs of `fast` arrive at 150 and 250, of `slow` at 250."""
        self.assertEqual(self.jobs("300"), {"fast": [(50, 80), (150, 150), (250, 250)], "slow": [(0, 80), (250, 250)]})

    def test_lower_tasks_first(self) -> None:
        script = self.script("100") or {}
        self.assertEqual([job["task"] for job in script["job"]], ["slow", "fast"])

    def test_random_jobs_are_legal(self) -> None:
        for words in (("5000", "--seed", "7"), ("5000", "--seed", "7", "--sporadic")):
            for name, jobs in self.jobs(*words).items():
                period, jitter = TIMES[name]
                self.assertTrue(len(jobs) > 5000 // (2 * period) - 2)
                for arrival, release in jobs:
                    self.assertTrue(0 <= arrival < 5000 and arrival <= release <= arrival + jitter)
                apart = [b[0] - a[0] for a, b in zip(jobs, jobs[1:])]
                self.assertTrue(all(period <= gap <= 2 * period if "--sporadic" in words else gap == period for gap in apart))

    def test_releases_are_in_order(self) -> None:
        releases = [job["release"] for job in (self.script("5000", "--seed", "3") or {})["job"]]
        self.assertEqual(releases, sorted(releases))

    def test_same_seed(self) -> None:
        first, again, other = (self.script("900", "--seed", seed) for seed in ("1", "1", "2"))
        self.assertEqual(first, again)
        self.assertNotEqual(first, other)

    def test_refused(self) -> None:
        for words in (("80",), ("0", "--seed", "1"), ("900", "--sporadic"), ("2000000", "--seed", "1")):
            self.assertIsNone(self.script(*words))
