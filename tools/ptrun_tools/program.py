"""Runs ptrun on a document."""

from __future__ import annotations

import os
import subprocess
from dataclasses import dataclass
from pathlib import Path

from .library import ROOT

BUILT = ROOT / "crates" / "ptrun" / "out" / "ptrun"


class NoProgram(Exception):
    """There is no program to run, or it gave no answer."""


@dataclass(frozen=True)
class Answer:
    """What ptrun answered: its exit status and its text."""

    status: int
    text: bytes


def find_program(told: str | None) -> Path:
    """The program that is told, else that of the variable PTRUN, else the one that is built here."""
    path = Path(told or os.environ.get("PTRUN") or BUILT)
    if not path.is_file() or not os.access(path, os.X_OK):
        hint = "build it by bin/ptrun --rebuild, or name another one by --program, as bin/try, which proves nothing"
        raise NoProgram(f"there is no program at {path}: {hint}")
    return path


def run(program: Path, document: bytes, budget: str | None, seconds: float) -> Answer:
    """One run of the program over a document."""
    words = [str(program), "run"] + (["--budget", budget] if budget else [])
    try:
        done = subprocess.run(words, input=document, stdout=subprocess.PIPE, timeout=seconds, check=False)
    except subprocess.TimeoutExpired:
        raise NoProgram(f"the program gave no answer within {seconds:g} seconds") from None
    except OSError as error:
        raise NoProgram(f"the program can't be run: {error}") from None
    return Answer(done.returncode, done.stdout)
