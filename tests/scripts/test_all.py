"""tests/all, and .ci/run."""

import unittest

from house import House

ALL, GATE = "tests/all", ".ci/run"


class Parts(House):
    scripts = (ALL, GATE)

    def part(self, folder: str, last: str, status: int = 0) -> None:
        script = self.root / "tests" / folder / "run"
        script.parent.mkdir(exist_ok=True)
        script.write_text(f"#!/bin/sh\necho a line\necho '{last}'\nexit {status}\n")
        script.chmod(0o755)

    def last(self, script: str, **how) -> tuple[int, str]:
        told = self.call(script, **how)
        return told.returncode, told.stdout.splitlines()[-1]

    def test_the_sum_of_all_parts(self) -> None:
        self.part("", "10 passed, 0 failed")
        self.part("one", "3 passed, 0 failed")
        self.part("two", "4 passed, 0 failed")
        self.assertEqual(self.last(ALL), (0, "17 passed, 0 failed"))

    def test_a_part_that_fails(self) -> None:
        self.part("", "10 passed, 2 failed", 1)
        self.part("one", "3 passed, 0 failed")
        self.assertEqual(self.last(ALL), (1, "13 passed, 2 failed"))

    def test_a_part_that_breaks_off(self) -> None:
        for last, status in (("no sum", 0), ("no sum", 2), ("10 passed, 0 failed", 1)):
            self.part("", last, status)
            self.assertEqual(self.last(ALL)[0], 1)
            self.assertRegex(self.last(ALL)[1], r"^\d+ passed, 1 failed$")

    def test_the_gate_comes_first(self) -> None:
        self.part("", "10 passed, 0 failed")
        self.assertEqual(self.last(GATE), (0, "10 passed, 0 failed"))
        self.assertEqual(self.last(GATE, fake="unproved"), (1, "6 passed, 1 failed"))
        self.part("", "10 passed, 1 failed", 1)
        self.assertEqual(self.last(GATE), (1, "10 passed, 1 failed"))


if __name__ == "__main__":
    unittest.main()
