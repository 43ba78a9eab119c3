"""tests/edits."""

import subprocess
import unittest

from house import ROOT, House

EDITS = "tests/edits"


class Edits(House):
    scripts = (EDITS,)

    def setUp(self) -> None:
        super().setUp()
        for name, edits in (("pt_a", ("one", "two")), ("pt_b", ("three", "weak"))):
            folder = self.root / "crates" / name / "edits"
            folder.mkdir()
            for edit in edits:
                (folder / f"{edit}.edit").write_text("file: src/lib.rt\nold: a\nnew: b\n")
        (self.root / "crates" / "pt_a" / "must-fail").mkdir()
        (self.root / "crates" / "pt_a" / "must-fail" / "of_the_gate.edit").write_text("")

    def test_what_is_not_refused_is_named(self) -> None:
        told = self.call(EDITS)
        self.assertEqual(told.returncode, 1)
        lines = told.stdout.splitlines()
        self.assertEqual(lines[-1], "3 passed, 1 failed")
        self.assertIn("pt_a: 2 refused", lines)
        self.assertIn("pt_b/weak.edit: NOT REFUSED: the crate is still proved with this edit", lines)

    def test_one_crate(self) -> None:
        told = self.call(EDITS, "pt_a")
        self.assertEqual((told.returncode, told.stdout.splitlines()[-1]), (0, "2 passed, 0 failed"))
        self.assertEqual(self.asked(), ["ci pt_a"])
        self.assertEqual(self.call(EDITS, "pt_c").returncode, 2)

    def test_one_edit(self) -> None:
        told = self.call(EDITS, "pt_b/three", "pt_a/two.edit")
        self.assertEqual((told.returncode, told.stdout.splitlines()), (0, ["pt_a: 1 refused", "pt_b: 1 refused", "2 passed, 0 failed"]))
        self.assertEqual(self.call(EDITS, "pt_a/three").returncode, 2)

    def test_an_edit_that_was_not_tried_fails(self) -> None:
        told = self.call(EDITS, "pt_b", fake="unproved")
        self.assertEqual(told.stdout.splitlines()[-1], "0 passed, 2 failed")
        self.assertIn("pt_b/three.edit: not tried: rt: FAILED: pt_b", told.stdout)

    def test_what_changed_since_a_commit(self) -> None:
        self.commit()
        (self.root / "crates/pt_b/README.md").write_text("words alone")
        (self.root / "crates/pt_a/src/lib.rt").write_text("// other\n")
        subprocess.run(["git", "add", "-A"], cwd=self.root, check=True)
        self.assertEqual(self.call(EDITS, "--since", "HEAD", "--list").stdout.split(), ["pt_a/one.edit", "pt_a/two.edit"])

    def test_the_copy_goes(self) -> None:
        self.assertEqual(self.call(EDITS, "pt_b").returncode, 1)
        self.assertEqual(list(self.temporary.iterdir()), [])
        self.assertFalse((self.root / "crates/pt_b/must-fail").exists())

    def test_an_edit_that_cannot_be_applied_is_named(self) -> None:
        folder = self.root / "crates" / "pt_a" / "edits"
        (self.root / "crates/pt_a/must-fail/of_the_gate.edit").unlink()
        (self.root / "crates/pt_a/src/lib.rt").write_text("one two two\n")
        rows = {
            "good": "file: src/lib.rt\nold: one\nnew: three\nold: three\nnew:\n",
            "twice": "file: src/lib.rt\nold: two\nnew: one\n",
            "gone": "file: src/lib.rt\nold: four\nnew: one\n",
            "lost": "file: src/lost.rt\nold: one\nnew: two\n",
        }
        for edit in folder.iterdir():
            edit.unlink()
        for name, text in rows.items():
            (folder / f"{name}.edit").write_text(text)
        told = self.call(EDITS, "--read", "pt_a")
        self.assertEqual(told.returncode, 1)
        self.assertEqual(told.stdout.splitlines()[-1], "1 passed, 3 failed")
        self.assertIn("crates/pt_a/edits/twice.edit: an 'old:' text stands 2 times in src/lib.rt, and not once", told.stdout)
        self.assertIn("crates/pt_a/edits/lost.edit: there is no file src/lost.rt", told.stdout)


class Ours(unittest.TestCase):
    def test_all_edits_of_the_repository_can_be_applied(self) -> None:
        told = subprocess.run([ROOT / EDITS, "--read"], capture_output=True, text=True)
        self.assertEqual(told.returncode, 0, told.stdout)


if __name__ == "__main__":
    unittest.main()
