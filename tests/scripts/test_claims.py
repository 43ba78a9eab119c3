"""What the README and docs/PROOFS.md say: their links, and the clauses that their claims name."""

import re
import unittest
from pathlib import Path

from house import ROOT

README = ROOT / "README.md"
PROOFS = ROOT / "docs" / "PROOFS.md"
PAGES = (README, PROOFS, ROOT / "CONTRIBUTING.md", ROOT / "CHANGELOG.md")
# A function of the code: its name, and the file in which it stands.
CALL = r"\[`(\w+)`\]\(([^)]*\.rt)\)"
MADE_BY_A_RUN = {"GATE.md"}


def signature(file: Path, name: str) -> str | None:
    """The text of a function, trait or type from its name to its body, or None where the file has none."""
    text = file.read_text()
    found = re.search(rf"(?m)^( *)(?:pub )?(?:fn|trait|struct|enum) {name}\b", text)
    if not found:
        return None
    end = re.search(rf"(?m)(^{found[1]}\{{|;$|\{{$)", text[found.end() :])
    return text[found.start() : found.end() + (end.start() if end else 0)]


def clauses(file: Path, name: str) -> list[str]:
    """The names of what a function ensures, '' for a clause without a name."""
    return re.findall(r"\bensures\s*(\w*)\s*\{", signature(file, name) or "")


def anchors(page: Path) -> set[str]:
    """The names by which links come to the headings of a page."""
    heads = re.findall(r"(?m)^#+ (.*)$", page.read_text())
    return {re.sub(r"[^\w\- ]", "", head.lower()).replace(" ", "-") for head in heads}


def rows() -> list[tuple[str, str, list[str]]]:
    """The rows of the README's table of claims: function, file, clauses."""
    found = re.findall(rf"(?m)^\| \[.*?\| {CALL} \| (.*) \|$", README.read_text())
    return [(name, file, re.findall(r"`(\w+)`", told)) for name, file, told in found]


def sentences() -> list[tuple[str, str, list[str]]]:
    """The functions that PROOFS names with the clauses that follow: 'clauses `a` and `b`'."""
    text = PROOFS.read_text()
    found = re.findall(rf"{CALL}[^.\[]*?, clauses? ((?:`\w+`(?:, | and )?)+)", text)
    return [(name, file, re.findall(r"`(\w+)`", told)) for name, file, told in found]


class Claims(unittest.TestCase):
    def test_each_row_names_clauses_that_are_there(self) -> None:
        table = rows()
        lines = [line for line in README.read_text().splitlines() if "](docs/PROOFS.md#" in line and line.startswith("|")]
        self.assertEqual(len(table), len(lines))
        for name, file, named in table:
            with self.subTest(f"{file} {name}"):
                there = clauses(ROOT / file, name)
                self.assertEqual(len(there), 1) if not named else self.assertLessEqual(set(named), set(there))

    def test_each_sentence_names_clauses_that_are_there(self) -> None:
        self.assertGreater(len(sentences()), 15)
        for name, file, named in sentences():
            with self.subTest(f"{file} {name}"):
                self.assertLessEqual(set(named), set(clauses(PROOFS.parent / file, name)))

    def test_each_function_that_is_named_is_there(self) -> None:
        for page in (README, PROOFS):
            for name, file in re.findall(CALL, page.read_text()):
                with self.subTest(f"{page.name} {name}"):
                    self.assertIsNotNone(signature(page.parent / file, name))

    def test_a_clause_that_is_not_there_is_seen(self) -> None:
        file = ROOT / "crates/pt_words/src/line.rt"
        self.assertEqual(clauses(file, "read"), ["ok", "refused"])
        self.assertEqual(clauses(file, "reed"), [])


class Links(unittest.TestCase):
    def test_links_lead_somewhere(self) -> None:
        for page in PAGES:
            for target in re.findall(r"\]\((?!http)([^)]+)\)", page.read_text()):
                file, _, anchor = target.partition("#")
                path = (page.parent / file) if file else page
                with self.subTest(f"{page.name}: {target}"):
                    self.assertTrue(path.exists() or path.name in MADE_BY_A_RUN)
                    if anchor:
                        self.assertIn(anchor, anchors(path))

    def test_paths_in_the_text_are_there(self) -> None:
        for page in PAGES:
            for path in re.findall(r"`((?:crates|tests|bench|docs|examples|schema|completions|bin)/[\w./-]+)`", page.read_text()):
                if "NAME" not in path and not path.startswith("crates/ptrun/out/"):
                    with self.subTest(f"{page.name}: {path}"):
                        self.assertTrue((ROOT / path).exists())


if __name__ == "__main__":
    unittest.main()
