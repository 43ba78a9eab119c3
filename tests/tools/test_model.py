"""The objects of a document, small ones and large ones."""

import unittest

from ptrun_tools.document import Document
from ptrun_tools.model import Job, Node
from ptrun_tools.shape import form_faults, type_end

LONG = "x" * 5000


def node(text: str) -> Node:
    return Node(Document(text.encode()).root)


class Objects(unittest.TestCase):
    def both(self, text: str) -> list[Node]:
        """The object as it is written, and with a long member that no object of the format has."""
        return [node("{" + text + "}"), node('{"_": "' + LONG + '", ' + text + "}"), node("{" + text + ', "_": "' + LONG + '"}')]

    def test_fields_have_their_values_and_places(self) -> None:
        for found in self.both('"name": "a\\n", "input": true, "output": false, "ports": [1, {}], "other": 2'):
            self.assertEqual((found.name, found.truth("input"), found.truth("output")), ("a\n", True, False))
            self.assertEqual((found.text("input"), found.truth("name"), found.text("class")), ("", False, ""))
            self.assertEqual([item.raw() for item in found.items("ports")], ["1", "{}"])
            self.assertEqual(list(found.items("name")), [])
            self.assertEqual(found.get("ports").raw(), "[1, {}]")
            self.assertEqual(found.key("ports").raw(), '"ports"')
            self.assertIsNone(found.get("links"))
            self.assertTrue("ports" in found and "links" not in found)
            self.assertEqual(found.fields, ["name", "input", "output", "ports"])
            self.assertEqual(found.at("links"), found.value)

    def test_of_fields_of_one_name_the_last_counts(self) -> None:
        for found in self.both('"name": "a", "class": "b", "na\\u006de": "c", "name": 5, "class": "d", "name": "e"'):
            self.assertEqual((found.name, found.text("class")), ("e", "d"))
            self.assertEqual(found.at("name").raw(), '"e"')
        for found in self.both('"name": "a", "na\\u006de": "c"'):
            self.assertEqual((found.name, found.key("name").text()), ("c", "name"))

    def test_what_is_no_object_has_no_fields(self) -> None:
        for text in ("[]", '"a"', "1", "null", "[" + "1," * 5000 + "1]"):
            self.assertEqual((node(text).name, "name" in node(text), node(text).fields), ("", False, []))

    def test_a_member_among_many(self) -> None:
        """Of 20,000 members three have names of the format."""
        many = ", ".join(f'"k{number}": {{"name": [{number}]}}' for number in range(10_000))
        found = node("{" + f'"name": "a", {many}, "class": "b", {many}, "properties": []' + "}")
        self.assertEqual((found.name, found.text("class"), found.fields), ("a", "b", ["name", "class", "properties"]))

    def test_faults_of_small_and_large_objects_are_the_same(self) -> None:
        rows = [
            ('"name": "a"', "lacks its field 'class'"),
            ('"name": "a", "class": 1', "'class' of this entity is a text"),
            ('"name": "a", "class": "b", "clas": 1', "'clas' is unknown. Did you mean 'class'?"),
        ]
        for text, words in rows:
            self.assertIn(words, next(form_faults(node("{" + text + "}"), "entity")).text)
            large = node("{" + text + ', "properties": [' + ", ".join(["{}"] * 3000) + "]}")
            self.assertIn(words, next(form_faults(large, "entity")).text)
        for text in ('"name": "a", "class": "b"', '"class": 1, "name": "a", "class": "b"'):
            self.assertEqual(list(form_faults(node("{" + text + "}"), "entity")), [])
        for form in ("entity", "link"):
            self.assertIn("An object is wanted", next(form_faults(node("[]"), form)).text)

    def test_brackets_in_one_another(self) -> None:
        for opening, closing in (("[", "]"), ('{"a":', "}"), ('[{"a": ', " }\n]")):
            for depth in (1, 3, 4, 5, 60):
                inside = ", ".join([opening * depth + "1" + closing * depth] * 3)
                document = Document(f'{{"model": [{inside}], "record": [7]}}'.encode())
                job = Job(document)
                self.assertEqual([item.raw() for item in job.items("record")], ["7"])
                self.assertEqual([item.raw() for item in job.items("model")], [opening * depth + "1" + closing * depth] * 3)


class Types(unittest.TestCase):
    def test_where_a_type_ends(self) -> None:
        name = "n" * 65
        rows = {
            "int": 3, "integer": 3, "arrayType(int)": 14, "arrayType(int": -1, "arrayType(arrayType(boolean))x": 29, "{a = int}": 9,
            "{a = int, b = arrayType({c = string})}": 38, "{a = int, a = int}": -1, "{}": -1, "{a = int,b = int}": -1, "arrayType( int)": -1,
            "{true = int}": -1, "{" + name + " = int}": -1, "{a = int, " + name + " = int}": -1, "": -1, "{a = int)": -1, "arrayType(int}": -1,
        }
        for text, end in rows.items():
            self.assertEqual(type_end(text, 0), end, text)

    def test_a_type_of_a_million_arrays(self) -> None:
        self.assertEqual(type_end("arrayType(" * 1_000_000 + "int" + ")" * 1_000_000, 0), 11_000_003)
        self.assertEqual(type_end("arrayType(" * 1_000_000 + "int", 0), -1)


if __name__ == "__main__":
    unittest.main()
