"""The page of a model and a report."""

import json
import re
import shutil
import subprocess
import sys
import tempfile
import unittest
from html.parser import HTMLParser
from pathlib import Path

from given import EXAMPLES, ROOT, case
from test_drawing import HOSTILE, hostile_document

from ptrun_tools.page import Options, page
from ptrun_tools.report import read_report


class Reader(HTMLParser):
    """Which elements a page has, what its scripts hold, and which addresses it names."""

    def __init__(self, text: str):
        super().__init__()
        self.tags: list[str] = []
        self.addresses: list[str] = []
        self.scripts: list[str] = []
        self.feed(text)

    def handle_starttag(self, tag, attrs):
        self.tags.append(tag)
        self.addresses += [value or "" for name, value in attrs if name in ("src", "href", "xlink:href", "srcset", "action")]

    def handle_data(self, data):
        if self.tags and self.tags[-1] == "script":
            self.scripts.append(data)


def page_of(name: str, options: Options = Options()):
    return page(f"{name}.json", (EXAMPLES / f"{name}.json").read_bytes(), read_report((EXAMPLES / f"{name}.txt").read_bytes()), options)


def data_of(text: str) -> dict:
    return json.loads(re.search(r'id="data">(.*?)</script>', text, re.DOTALL)[1])


class Pages(unittest.TestCase):
    def test_a_page_names_no_address(self):
        for name in ("desk", "thermostat", "barrier", "misspelt", "overflow"):
            read = Reader(page_of(name).html)
            self.assertEqual(read.addresses, [], name)
            self.assertFalse({"link", "img", "iframe", "object", "embed"} & set(read.tags), name)

    def test_traces_are_there_with_their_tags(self):
        trace = data_of(page_of("desk").html)["traces"][1]
        self.assertEqual((trace["port"], trace["kind"], trace["times"], trace["values"]), ("desk.output", "int", [3, 6, 9, 12], [1, 2, 3, 4]))

    def test_integers_past_53_bits_stay_exact(self):
        self.assertEqual(data_of(page_of("overflow").html)["traces"][0]["values"][0], "9223372036854775000")

    def test_meetings_tell_who_meets_whom(self):
        meetings = data_of(page_of("barrier").html)["meetings"][0]
        self.assertEqual(meetings["people"], ["tortoise", "hare", "line", "judge"])
        self.assertEqual(meetings["rows"][:2], [[0, 0, [0, 1], 2, "barrier"], [0, 1, [2], 3, "input[0]"]])

    def test_meetings_with_inputs_of_the_top_have_their_senders(self):
        chosen = case("meetings/inputs_of_the_top")
        made = page("m.json", chosen.given(), read_report(chosen.outputs[0]))
        for row in data_of(made.html)["meetings"][0]["rows"]:
            self.assertTrue(row[2], row)

    def test_a_refusal_is_told_and_marked(self):
        text = page_of("misspelt").html
        self.assertIn("Did you mean &#x27;factor&#x27;?", text)
        if shutil.which("dot"):
            self.assertIn('class="node actor marked"', text)

    def test_what_is_left_out_is_said(self):
        made = page_of("desk", Options(tokens=3))
        self.assertEqual(len(data_of(made.html)["traces"][0]["values"]), 3)
        self.assertIn("Of the 8 tokens of number.output the first 3 are shown", made.html)

    def test_names_of_any_signs_stay_text(self):
        data = json.dumps(hostile_document()).encode()
        report = read_report(f"trace {HOSTILE.split()[0]}\n0 0.0 \"</script><script>alert(1)</script>\"\nend stop\n".replace("\u0001", "").encode())
        read = Reader(page(HOSTILE, data, report).html)
        self.assertEqual(read.tags.count("script"), 2)

    def test_a_document_that_is_no_json_has_a_page(self):
        self.assertIn("leave the comma out", page("m.json", b'{"a": 1,}', read_report(b"refused 10 Json .\n")).html)


class Commands(unittest.TestCase):
    def call(self, tool: str, *words: str) -> subprocess.CompletedProcess:
        return subprocess.run([sys.executable, str(ROOT / "bin" / tool), *words], capture_output=True, text=True, timeout=300)

    def test_each_tool_has_help(self):
        for tool in ("explain", "draw", "waves", "page"):
            done = self.call(tool, "--help")
            self.assertEqual(done.returncode, 0, tool)
            self.assertIn("usage: " + tool, done.stdout)

    def test_what_is_no_report_ends_by_2_with_a_line(self):
        with tempfile.TemporaryDirectory() as folder:
            broken = Path(folder) / "report.txt"
            broken.write_text("trace a\n0 0.0\n")
            for words in [("waves", str(broken)), ("page", str(EXAMPLES / "desk.json"), str(broken)), ("waves", "/nowhere"), ("waves", str(EXAMPLES / "misspelt.txt"))]:
                done = self.call(*words)
                self.assertEqual((done.returncode, len(done.stderr.splitlines())), (2, 1), words)

    def test_a_page_is_written_to_a_file(self):
        with tempfile.TemporaryDirectory() as folder:
            made = Path(folder) / "page.html"
            done = self.call("page", str(EXAMPLES / "desk.json"), str(EXAMPLES / "desk.txt"), "-o", str(made))
            self.assertEqual(done.returncode, 0, done.stderr)
            self.assertTrue(made.read_text().startswith("<!DOCTYPE html>"))


if __name__ == "__main__":
    unittest.main()
