"""The SVG of a drawing, by Graphviz."""

from __future__ import annotations

import re
import shutil
import subprocess

from .drawing import Drawing


class NoGraphviz(Exception):
    """Graphviz isn't installed."""


class NoLayout(Exception):
    """Graphviz found no layout: why."""


def svg_of(drawing: Drawing, seconds: float = 60) -> str:
    """The SVG of a drawing, by Graphviz."""
    program = shutil.which("dot")
    if program is None:
        raise NoGraphviz("Graphviz isn't installed")
    try:
        done = subprocess.run([program, "-Tsvg"], input=drawing.dot.encode("utf-8"), capture_output=True, timeout=seconds, check=False)
    except subprocess.TimeoutExpired:
        raise NoLayout(f"Graphviz found no layout within {seconds:g} seconds: draw less by --depth or --limit") from None
    if done.returncode != 0 or b"<svg" not in done.stdout:
        raise NoLayout("Graphviz failed: " + done.stderr.decode("utf-8", "replace").strip()[:300])
    return _styled(done.stdout.decode("utf-8"), drawing)


# What each colour of a drawing is in the dark.
_DARK = {
    "#ffffff": "#1b1f22", "#fafafa": "#22272b", "#37474f": "#9fb3bf", "#455a64": "#b0bec5", "#eceff1": "#2f363b", "#78909c": "#90a4ae",
    "#90a4ae": "#607d8b", "#e0f2f1": "#123a36", "#00695c": "#4db6ac", "#1565c0": "#64b5f6", "#6a1b9a": "#ce93d8",
    "#c62828": "#ff6f60",
}


def _dark_style() -> str:
    """The style of a drawing: other colours for whoever looks in the dark."""
    rules = ["  svg.ptrun text:not([fill]) { fill: #e6e6e6 }"]
    for light, dark in _DARK.items():
        rules += [f'  svg.ptrun [{part}="{light}"] {{ {part}: {dark} }}' for part in ("fill", "stroke")]
    return "@media (prefers-color-scheme: dark) {\n" + "\n".join(rules) + "\n}\n"


def _styled(svg: str, drawing: Drawing) -> str:
    """The SVG with its style, and with the digest of the drawing that it was made of."""
    svg = svg[svg.index("<svg"):]
    head, rest = svg.split(">", 1)
    note = f"<!-- bin/draw {drawing.digest} -->"
    return f'{head} class="ptrun">\n{note}\n<style>\n{_dark_style()}</style>{rest}'


def digest_of(svg: str) -> str | None:
    """The digest of the drawing that a picture was made of."""
    found = re.search(r"<!-- bin/draw ([0-9a-f]{64}) -->", svg)
    return found[1] if found else None
