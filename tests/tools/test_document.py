"""Documents with places."""

import json
import time
import unittest

from given import cases_of_runs

from ptrun_tools.document import Document, NotJson, Value, place_of


def fault_of(text: str | bytes) -> NotJson | None:
    try:
        Document(text.encode() if isinstance(text, str) else text)
    except NotJson as fault:
        return fault
    return None


def plain(value: Value):
    """A value as Python's own reader gives it, objects as lists of pairs and numbers as texts."""
    if value.kind == "object":
        return [(member.name, plain(member.value)) for member in value.members()]
    if value.kind == "list":
        return [plain(item) for item in value.items()]
    if value.kind == "text":
        return value.text()
    return {"true": True, "false": False, "null": None}.get(value.raw(), value.raw())


class Documents(unittest.TestCase):
    def test_exactly_what_the_program_refuses_by_code_10_is_no_json(self):
        for case in cases_of_runs():
            fault = fault_of(case.given())
            self.assertEqual(fault is not None, case.outputs[0].startswith(b"refused 10 "), case.name)

    def test_values_are_those_of_another_reader(self):
        for case in cases_of_runs():
            if fault_of(case.given()) is None:
                pairs = json.loads(case.given(), object_pairs_hook=list, parse_int=str, parse_float=str)
                mine = json.dumps(plain(Document(case.given()).root))
                self.assertEqual(mine, json.dumps(pairs), case.name)

    def test_each_syntax_error_has_its_place(self):
        table = [
            ('{"a": 1,}', (1, 9), "comma"),
            ('{"a": [1, 2,\n ]}', (2, 2), "comma"),
            ('{"a" 1}', (1, 6), "colon"),
            ("{'a': 1}", (1, 2), "double quotes"),
            ('{"a": 01}', (1, 7), "no number"),
            ('{"a":\n  True}', (2, 3), "'True' is no value"),
            ('{"ä": "x\\q"}', (1, 9), "no escape"),
            ('{"a": "x\n"}', (1, 7), "closed in its line"),
            ('{"a": "x', (1, 7), "never closed"),
            ('{"a": 1} x', (1, 10), "ends before this"),
            ('\n\n{"a": [1', (3, 9), "opened in line 3"),
            ("// a\n{}", (1, 1), "no comments"),
            ('{"a": 1e999}', (1, 7), "larger"),
            ('["\\ud800"]', (1, 3), "half of a pair"),
            ("[" * 128, (1, 128), "127 deep"),
            ("", (1, 1), "value is wanted"),
        ]
        for text, place, words in table:
            fault = fault_of(text)
            self.assertIsNotNone(fault, text)
            self.assertEqual(tuple(place_of(text.encode(), fault.position)), place, text)
            self.assertIn(words, fault.reason, text)

    def test_bytes_that_are_no_utf_8_are_found(self):
        self.assertEqual(fault_of(b'{"a": "\xff"}').position, 7)
        self.assertEqual(fault_of(b'{"a" "\xff"}').position, 5)

    def test_lists_127_deep_are_read(self):
        self.assertIsNone(fault_of("[" * 127 + "]" * 127))

    def test_columns_count_characters(self):
        document = Document('{\n "ä🙂": 1}'.encode())
        self.assertEqual(tuple(document.root.get("ä🙂").place()), (2, 8))

    def test_of_members_of_one_name_the_last_counts(self):
        root = Document(b'{"a": 1, "b": {"x": [[{}]]}, "a": 2}').root
        self.assertEqual(root.get("a").raw(), "2")
        self.assertEqual([member.name for member in root.members()], ["a", "b", "a"])

    def test_a_large_document_is_read_in_little_time(self):
        line = b'{"name": "a", "class": "Scale", "properties": [{"name": "factor", "value": "2"}]},'
        data = b'{"entities": [' + line * 50_000 + b"{}]}"
        start = time.process_time()
        document = Document(data)
        self.assertEqual(sum(1 for _ in document.root.get("entities").items()), 50_001)
        self.assertLess(time.process_time() - start, 20)


if __name__ == "__main__":
    unittest.main()
