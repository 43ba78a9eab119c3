"""The manual page and the completions."""

import shlex
import shutil
import subprocess
import unittest

from house import ROOT

MANUAL = ROOT / "docs" / "ptrun.1"
FILE = ROOT / "completions" / "ptrun.bash"
COMPLETE = """
source {file}
COMP_WORDS=({words})
COMP_CWORD=$((${{#COMP_WORDS[@]}} - 1))
_ptrun
printf '%s\\n' "${{COMPREPLY[@]}}"
"""


def completed(*words: str) -> set[str]:
    """What bash offers for the last of these words, at the top of the repository."""
    script = COMPLETE.format(file=shlex.quote(str(FILE)), words=shlex.join(words))
    told = subprocess.run(["bash", "-c", script], cwd=ROOT, capture_output=True, text=True, check=True)
    return set(told.stdout.split())


class Manual(unittest.TestCase):
    def test_groff_has_no_warning(self) -> None:
        if not shutil.which("groff"):
            self.skipTest("there is no groff")
        told = subprocess.run(["groff", "-man", "-ww", "-z", str(MANUAL)], capture_output=True, text=True)
        self.assertEqual((told.returncode, told.stdout + told.stderr), (0, ""))

    def test_it_names_each_status(self) -> None:
        text = MANUAL.read_text()
        for status in [*range(10), 125]:
            self.assertIn(f".TP\n.B {status}\n", text)


class Completions(unittest.TestCase):
    def test_the_first_word(self) -> None:
        self.assertEqual(completed("bin/ptrun", ""), {"run", "check", "gen", "demo", "--help", "--version", "--rebuild"})
        self.assertEqual(completed("bin/ptrun", "--r"), {"--rebuild"})
        self.assertEqual(completed("bin/try", ""), {"run", "check", "gen", "demo", "--help", "--version"})

    def test_models_and_options(self) -> None:
        self.assertEqual(completed("bin/ptrun", "run", "examples/ramp"), {"examples/ramp_scale.json"})
        self.assertEqual(completed("bin/ptrun", "run", "exam"), {"examples"})
        self.assertEqual(completed("bin/ptrun", "run", "--b"), {"--budget"})
        self.assertEqual(completed("bin/ptrun", "run", "--budget", ""), set())
        self.assertEqual(completed("bin/ptrun", "check", "--"), {"--help"})

    def test_zsh_reads_its_own(self) -> None:
        if not shutil.which("zsh"):
            self.skipTest("there is no zsh")
        told = subprocess.run(["zsh", "-n", str(ROOT / "completions" / "_ptrun")], capture_output=True, text=True)
        self.assertEqual((told.returncode, told.stderr), (0, ""))


if __name__ == "__main__":
    unittest.main()
