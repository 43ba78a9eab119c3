"""Drawings of models, and the pictures of the examples."""

import json
import shutil
import subprocess
import sys
import unittest
import xml.etree.ElementTree as tree

import models
from given import EXAMPLES, ROOT, cases_of_runs

from ptrun_tools.document import Document, NotJson
from ptrun_tools.drawing import Drawing, draw
from ptrun_tools.model import Job
from ptrun_tools.picture import digest_of, svg_of

PICTURES = EXAMPLES / "pictures"
NEEDS_GRAPHVIZ = unittest.skipUnless(shutil.which("dot"), "Graphviz isn't installed")


def drawing_of(document: dict | bytes, **options) -> Drawing:
    data = document if isinstance(document, bytes) else json.dumps(document).encode()
    return draw(Job(Document(data)), **options)


def example(name: str) -> Drawing:
    return drawing_of((EXAMPLES / f"{name}.json").read_bytes())


HOSTILE = 'x"<b>&amp;</script>\\N\\"]];%%DATA%%\n\u0001'


def hostile_document() -> dict:
    document = models.job(models.director("SDF", iterations=HOSTILE), [models.entity(HOSTILE, "Ramp", **{"init": HOSTILE})], [["x.output"]], [HOSTILE])
    modal = {
        "name": "M", "class": "Modal", "ports": [{"name": HOSTILE, "output": True}], "states": [{"name": HOSTILE}], "initial": HOSTILE,
        "transitions": [{"from": HOSTILE, "to": HOSTILE, "guard": HOSTILE, "history": True, "output": [{"port": HOSTILE, "value": HOSTILE}]}],
    }
    document["model"]["name"] = HOSTILE
    document["model"]["entities"].append(modal)
    return document


class Drawings(unittest.TestCase):
    def test_composites_actors_and_relations_are_there(self):
        dot = example("thermostat").dot
        for words in ["<B>room</B>", "<I>Modal</I>", "<I>DE</I>", "stopTime = 12", "<B>fall</B>", "init = high - loss", "degrees &lt;= low", "<B>off</B>"]:
            self.assertIn(words, dot)
        self.assertEqual(dot.count("subgraph cluster_"), 4)

    def test_a_relation_of_two_ends_is_a_line_and_of_more_a_diamond(self):
        self.assertNotIn('shape="diamond"', example("ramp_scale").dot)
        self.assertIn('shape="diamond"', example("network").dot)

    def test_resets_and_preemptive_transitions_have_their_own_lines(self):
        case = next(case for case in cases_of_runs() if b'"preemptive": true' in case.given() and b'"history": false' in case.given())
        dot = drawing_of(case.given()).dot
        self.assertIn('arrowtail="dot"', dot)
        self.assertIn('arrowhead="empty"', dot)

    def test_marks_are_drawn(self):
        data = (EXAMPLES / "overflow.json").read_bytes()
        self.assertIn('class="actor marked"', drawing_of(data, marks=["meter"]).dot)

    def test_a_large_model_is_cut_and_that_is_said(self):
        drawing = drawing_of(models.pairs(5000, 1))
        self.assertLess(len(drawing.dot), 1_000_000)
        self.assertIn("9,700 of the 10,000 entities", drawing.notes[0])

    def test_depth_closes_composites(self):
        drawing = drawing_of((EXAMPLES / "nested.json").read_bytes(), depth=1)
        self.assertEqual(drawing.dot.count("subgraph cluster_"), 2)
        self.assertEqual(drawing.notes, ["2 composites are drawn closed"])
        self.assertNotIn("<B>gain</B>", drawing.dot)

    def test_each_document_of_the_tables_that_is_json_can_be_drawn(self):
        for case in cases_of_runs():
            try:
                drawing_of(case.given())
            except NotJson:
                continue

    @NEEDS_GRAPHVIZ
    def test_names_of_any_signs_stay_text(self):
        svg = svg_of(drawing_of(hostile_document()))
        root = tree.fromstring(svg)
        self.assertFalse([part for part in root.iter() if part.tag.endswith("script")])
        texts = [part.text or "" for part in root.iter() if part.tag.endswith("text")]
        self.assertTrue(any('x"<b>&amp;</script>' in text for text in texts))

    @NEEDS_GRAPHVIZ
    def test_empty_names_and_values_are_drawn(self):
        document = models.job(models.director("SDF", iterations=""), [models.entity("", "Ramp", **{"init": ""}), {}, {"class": "Modal", "states": [{}]}], [], [])
        document["model"]["name"] = ""
        tree.fromstring(svg_of(drawing_of(document)))

    @NEEDS_GRAPHVIZ
    def test_each_example_gives_an_svg(self):
        for path in sorted(EXAMPLES.glob("*.json")):
            drawing = drawing_of(path.read_bytes())
            svg = svg_of(drawing)
            tree.fromstring(svg)
            self.assertEqual(digest_of(svg), drawing.digest, path.name)


class Pictures(unittest.TestCase):
    """The pictures hold the digest of what they were drawn from, so Graphviz isn't needed to compare them."""

    def test_each_example_has_a_picture_that_is_up_to_date(self):
        for path in sorted(EXAMPLES.glob("*.json")):
            picture = PICTURES / f"{path.stem}.svg"
            hint = f"bin/draw {path.relative_to(ROOT)} -o {picture.relative_to(ROOT)}"
            self.assertTrue(picture.is_file(), hint)
            self.assertEqual(digest_of(picture.read_text(encoding="utf-8")), drawing_of(path.read_bytes()).digest, hint)

    def test_no_picture_is_left_of_an_example_that_is_gone(self):
        self.assertEqual({path.stem for path in PICTURES.glob("*")}, {path.stem for path in EXAMPLES.glob("*.json")})


class Commands(unittest.TestCase):
    def call(self, *words: str, **more) -> subprocess.CompletedProcess:
        return subprocess.run([sys.executable, str(ROOT / "bin" / "draw"), *words], capture_output=True, text=True, timeout=300, **more)

    def test_without_graphviz_the_dot_text_is_written(self):
        done = self.call(str(EXAMPLES / "desk.json"), env={"PATH": "/nowhere"})
        self.assertEqual(done.returncode, 0, done.stderr)
        self.assertTrue(done.stdout.startswith("digraph model {"))
        self.assertIn("Graphviz isn't installed", done.stderr)

    def test_what_is_no_json_ends_by_2_with_its_place(self):
        done = self.call("-", input='{"a": 1,}')
        self.assertEqual((done.returncode, len(done.stderr.splitlines())), (2, 1))
        self.assertIn("-:1:9: ", done.stderr)


if __name__ == "__main__":
    unittest.main()
