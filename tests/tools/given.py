"""What the tests of the tools share: the cases of tests/tables with their right answers."""

from __future__ import annotations

import json
from functools import lru_cache

from cases import Case, EXAMPLES, ROOT, table_cases

__all__ = ["Case", "EXAMPLES", "ROOT", "cases_of_runs", "case", "spread"]


@lru_cache(maxsize=None)
def cases_of_runs() -> list[Case]:
    """The cases of tests/tables in which one document is run, but for the long ones that are made."""
    return [case for case in table_cases() if case.words[:1] == ["run"] and not case.made and case.outputs[0] != b"refused words\n"]


def case(name: str) -> Case:
    """The case of this name."""
    return next(case for case in cases_of_runs() if case.name == name)


def spread(document: bytes) -> bytes:
    """The document over several lines, one for each part."""
    return json.dumps(json.loads(document), indent=1).encode()
