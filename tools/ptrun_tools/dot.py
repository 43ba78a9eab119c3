"""DOT, the language of Graphviz: texts and attributes, safe whatever a document calls its parts."""

from __future__ import annotations

import re

LINE_END = '<BR ALIGN="LEFT"/>'
_LONGEST_TEXT = 40


class Markup(str):
    """A label in Graphviz's HTML-like form."""


def _shown(text: str, longest: int) -> str:
    """A text of the document in one line, cut, without signs that can't be shown."""
    cut = text if len(text) <= longest else text[: longest - 1] + "…"
    shown = "".join(sign if sign.isprintable() else "\N{REPLACEMENT CHARACTER}" for sign in cut)
    # Graphviz replaces a backslash and one of these letters by names; a blank of no width keeps them apart.
    return re.sub(r"\\(?=[NGETHL])", "\\\\\N{ZERO WIDTH SPACE}", shown)


def text_of_label(text: str, longest: int = _LONGEST_TEXT) -> str:
    """A text of the document as part of a markup, in which no part may be empty."""
    shown = _shown(text, longest) or "\N{ZERO WIDTH SPACE}"
    return shown.replace("&", "&amp;").replace("<", "&lt;").replace(">", "&gt;").replace('"', "&quot;")


def font(text: str, size: int | None = None, colour: str | None = None, longest: int = _LONGEST_TEXT) -> str:
    """A text of the document in a size and a colour of its own, as part of a markup."""
    told = (f' POINT-SIZE="{size}"' if size else "") + (f' COLOR="{colour}"' if colour else "")
    return f"<FONT{told}>{text_of_label(text, longest)}</FONT>"


def attribute(value: object) -> str:
    """The value of an attribute, which Graphviz writes escaped into the SVG."""
    if isinstance(value, Markup):
        return f"<{value}>"
    # An ampersand is written as a reference, since Graphviz reads references in attributes.
    text = _shown(str(value), 200).replace("&", "&amp;")
    return '"' + text.replace("\\", "\\\\").replace('"', '\\"') + '"'


def attributes(given: dict[str, object]) -> str:
    """Attributes in brackets. A name that is a word of Python's ends in an underscore here."""
    return "[" + " ".join(f"{name.rstrip('_')}={attribute(value)}" for name, value in given.items()) + "]"
