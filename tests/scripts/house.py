"""A small repository in which a script is tried, with a stand-in for the kit's rt."""

import os
import shutil
import subprocess
import sys
import tempfile
import unittest
from pathlib import Path

HERE = Path(__file__).resolve().parent
ROOT = HERE.parent.parent
# ptrun stands on pt_a and pt_b, and not on pt_c.
CRATES = "# low\npt_a: thiserror\npt_b: pt_a\n\n# high\npt_c: pt_b\nptrun: pt_b\n"
SYSTEM_PATH = "/usr/bin:/bin"


class House(unittest.TestCase):
    """Makes the repository for each test: four crates, and the scripts that are copied from ours."""

    scripts: tuple[str, ...] = ()

    def setUp(self) -> None:
        folder = tempfile.TemporaryDirectory(prefix="ptrun-scripts-")
        self.addCleanup(folder.cleanup)
        self.root = Path(folder.name).resolve() / "house"
        self.temporary = Path(folder.name).resolve() / "tmp"
        self.temporary.mkdir()
        self.kit = Path(folder.name).resolve() / "kit"
        self.kit.mkdir()
        (self.kit / "rt").symlink_to(HERE / "rt")
        (self.kit / "python3").symlink_to(sys.executable)
        self.log = Path(folder.name) / "asked"
        for name in ("pt_a", "pt_b", "pt_c", "ptrun"):
            for part in ("src", "specs"):
                (self.root / "crates" / name / part).mkdir(parents=True)
            (self.root / "crates" / name / "src" / "lib.rt").write_text(f"// {name}\n")
        (self.root / "crates.txt").write_text(CRATES)
        (self.root / "HANDLES").write_text("Handles allowed: none.\n")
        (self.root / "CHANGELOG.md").write_text("# Changes\n\n## 1.2.3 (today)\n")
        for script in self.scripts:
            (self.root / script).parent.mkdir(exist_ok=True)
            shutil.copy(ROOT / script, self.root / script)

    def environment(self, fake: str = "", has_rt: bool = True) -> dict[str, str]:
        path = f"{self.kit}:{SYSTEM_PATH}" if has_rt else SYSTEM_PATH
        return {"PATH": path, "FAKE_RT": fake, "FAKE_RT_LOG": str(self.log), "TMPDIR": str(self.temporary), "HOME": str(self.temporary), "LANG": "C.UTF-8"}

    def call(self, script: str, *words: str, given: str = "", **how) -> subprocess.CompletedProcess:
        command = [str(self.root / script), *words]
        return subprocess.run(command, input=given, capture_output=True, text=True, env=self.environment(**how), cwd=self.root, timeout=300)

    def asked(self) -> list[str]:
        """What rt was asked so far."""
        return self.log.read_text().splitlines() if self.log.is_file() else []

    def commit(self) -> None:
        """Makes a git repository of it, with one commit."""
        who = {f"GIT_{role}_{part}": "a@b" for role in ("AUTHOR", "COMMITTER") for part in ("NAME", "EMAIL")}
        who |= {"GIT_CONFIG_GLOBAL": "/dev/null", "GIT_CONFIG_NOSYSTEM": "1"}
        for words in (["init", "-q"], ["add", "-A"], ["commit", "-q", "-m", "all"]):
            subprocess.run(["git", *words], cwd=self.root, check=True, env={**os.environ, **who})
