"""tests/calls/run."""

import contextlib
import importlib.machinery
import importlib.util
import io
import sys
import tempfile
import unittest
from pathlib import Path

from house import ROOT

CALLS = ROOT / "tests" / "calls" / "run"
TABLE = """# a remark
[sum] of two numbers
1 2 -> 3
# another remark
2 2 -> 4

[text] of a number, the number behind it
a⟨20⟩¶ <- 10

[queue]
put 4 = yes, take = 4
"""


def calls():
    """The script as a module."""
    if "calls" not in sys.modules:
        loader = importlib.machinery.SourceFileLoader("calls", str(CALLS))
        module = importlib.util.module_from_spec(importlib.util.spec_from_loader("calls", loader))
        sys.modules["calls"] = module  # where its dataclass looks for what it names
        loader.exec_module(module)
    return sys.modules["calls"]


class Calls(unittest.TestCase):
    def setUp(self) -> None:
        folder = tempfile.TemporaryDirectory(prefix="ptrun-scripts-")
        self.addCleanup(folder.cleanup)
        self.room = Path(folder.name)
        table = self.room / "sums.txt"
        table.write_text(TABLE)
        self.files, self.wanted = calls().with_wrong_rows({"sums.txt": table}, self.room)

    def judged(self, said: str) -> tuple[int, str]:
        """How many are wrong of what is said, and what is printed of them."""
        with contextlib.redirect_stdout(io.StringIO()) as printed:
            count = calls().judged(said, self.wanted, [calls().end_of("sums.txt", self.wanted)])
        return count, printed.getvalue()

    def told(self) -> str:
        """What a program says that tells each wrong row."""
        return "".join([*self.wanted.values(), "sums.txt: 3 rows, 3 of them amiss\n"])

    def test_the_last_row_of_each_section_is_made_wrong(self) -> None:
        self.assertEqual(self.files["sums.txt"].read_text(), "[sum]\n2 2 -> 4?\n[text]\na⟨20⟩¶? <- 10\n[queue]\nput 4 = yes, take = 4?\n")

    def test_what_has_to_be_told(self) -> None:
        told = ["[sum] 2 2 -> 4?\n    but: 4\n", "[text] a⟨20⟩¶? <- 10\n    but: a \n\n", "[queue] put 4 = yes, take = 4?\n    but: put 4 = yes, take = 4\n"]
        self.assertEqual(list(self.wanted.values()), told)

    def test_all_is_told(self) -> None:
        self.assertEqual(self.judged(self.told()), (0, ""))

    def test_a_row_that_is_not_told_is_named(self) -> None:
        said = self.told().replace("[sum] 2 2 -> 4?\n    but: 4\n", "")
        self.assertEqual(self.judged(said), (1, "sums.txt, a wrong row of [sum]\n"))

    def test_a_row_that_is_told_and_right_is_named(self) -> None:
        count, printed = self.judged("[sum] 1 2 -> 3\n    but: 4\n" + self.told())
        self.assertEqual(count, 1)
        self.assertIn("[sum] 1 2 -> 3\n    but: 4", printed)

    def test_each_table_of_ours_is_listed(self) -> None:
        here = CALLS.parent
        self.assertEqual(set(calls().tables_of(here)), {file.name for file in here.glob("data/*.txt")})

    def test_each_section_of_ours_can_be_made_wrong(self) -> None:
        here = CALLS.parent
        for name, table in calls().tables_of(here).items():
            sections = {line[: line.index("]") + 1] for line in table.read_text().splitlines() if line.startswith("[")}
            self.assertEqual({f"[{it.section}]" for it in calls().wrong_rows(table)}, sections, name)


if __name__ == "__main__":
    unittest.main()
