"""What an answer means at its place in the document."""

import subprocess
import sys
import tempfile
import unittest
from pathlib import Path

from given import EXAMPLES, ROOT, case, cases_of_runs, spread

from ptrun_tools.explain import explain, rendered
from ptrun_tools.expression import Fault, evaluate, parse
from ptrun_tools.finding import Finding
from ptrun_tools.library import classes, codes
from ptrun_tools.program import Answer
from ptrun_tools.refusal import _TELLERS

# The case, the text of the document that is pointed to, and words that are said of it. All of it by hand.
EXPLAINED = [
    ("json/comma_at_the_end", "}", ["leave the comma out"]),
    ("shape_of_entities/entity_with_an_unknown_field", None, ["unknown", "Fields of this entity"]),
    ("names/two_entities", '"Ramp"', ["stands twice"]),
    ("names/blank_in_an_entity_name", '"a b"', ["no name"]),
    ("classes/class_in_small_letters", '"ramp"', ["'ramp'", "Did you mean 'Ramp'?"]),
    ("parameters/unknown_parameter", '"fctor"', ["Did you mean 'factor'?", "What the input is multiplied by"]),
    ("parameters/limiter_without_a_top", '"Limiter"', ["'top' is missing"]),
    ("parameters/no_iterations", '"SDF"', ["'iterations' is missing"]),
    ("links/unknown_port_of_a_child", '"Scale.inptu"', ["no port 'inptu'", "Did you mean 'input'?", "input int, output int"]),
    ("links/unknown_child", '"Scal.input"', ["no child 'Scal'", "'Scale'"]),
    ("links/input_linked_twice", '"Scale.input"', ["has a link already"]),
    ("links/sum_without_channels", '"a"', ["too few channels", "plus[0..] int"]),
    ("sources/two_outputs", '"Ramp.output"', ["Ramp.output, b.output"]),
    ("expression_names/unknown_name", None, ["isn't", "scope"]),
    ("places/switch_under_dataflow", '"BooleanSwitch"', ["stands under SDF", "PN, Rendezvous, SR, DE"]),
    ("dataflow/rates_that_disagree", '"SDF"', ["rep: takes 1, gives 2"]),
    ("rate_refusals/three_actors_in_a_loop", None, ["k.output -> l.output -> m.output -> k.output"]),
    ("event_refusals/sum_of_itself", None, ["a.output -> a.output", "TimeDelay"]),
    ("event_refusals/events_under_ticks", '"DE"', ["director SR"]),
    ("modal_refusals/unknown_initial_state", None, ["no state"]),
    ("records/recorded_input", '"Scale.input"', ["is an input"]),
    ("records/unknown_port", '"Scale.outptu"', ["Did you mean 'Scale.output'?"]),
    ("inputs/unknown_port", '"nope"', ["no input 'nope'"]),
    ("inputs/null_under_dataflow", "null", ["SR alone"]),
    ("limits/nesting_17_deep", None, ["17th"]),
    ("expression_values/division_by_nought", "/", ["divides by zero"]),
    ("schedules/function_in_capitals", '"And"', ["and, or, xor, nand, nor, xnor", "Did you mean 'and'?"]),
    ("event_refusals/values_that_are_too_few", None, ["as many values as offsets"]),
    ("schedules/phase_past_the_factor", None, ["phase is from 0 to factor minus 1; here phase is"]),
    ("event_refusals/period_of_nought", '"0"', ["1 to 2^62"]),
]


def found(name: str) -> tuple[bytes, Finding]:
    """The finding of a case, over its document in several lines where it is JSON."""
    chosen = case(name)
    try:
        document = spread(chosen.given())
    except ValueError:
        document = chosen.given()
    return document, explain(document, Answer(chosen.status, chosen.outputs[0]))


class Explanations(unittest.TestCase):
    def test_refusals_point_to_what_is_wrong_and_say_what_is_right(self):
        known = {case.name for case in cases_of_runs()}
        for name, pointed, words in EXPLAINED:
            if name not in known:
                continue
            document, finding = found(name)
            text = rendered("m.json", document, finding)
            if pointed is not None:
                self.assertEqual(document[slice(*finding.span)].decode(), pointed, name)
            for word in words:
                self.assertIn(word, text, name)
            self.assertTrue(finding.is_trouble, name)

    def test_most_of_these_cases_are_there(self):
        known = {case.name for case in cases_of_runs()}
        self.assertGreater(sum(name in known for name, _, _ in EXPLAINED), 20)

    def test_each_refusal_of_the_tables_has_a_place_and_a_sentence(self):
        without = []
        for chosen in cases_of_runs():
            if chosen.name.startswith(("versions/", "giotto/")) or not chosen.outputs[0].startswith(b"refused "):
                continue
            if len(chosen.given()) < 200_000 and chosen.outputs[0].count(b" ") > 1:
                finding = explain(chosen.given(), Answer(chosen.status, chosen.outputs[0]))
                self.assertIsNotNone(finding.span, chosen.name)
                if not finding.remarks:
                    without.append(chosen.name)
        self.assertEqual(without, [])

    def test_an_error_in_an_expression_is_shown_at_its_character(self):
        data = b'{"version": 1, "model": {"name": "top", "class": "Composite", "entities": [{"name": "e", "class": "Expression",\n"properties": [{"name": "expression", "value": "\\"\\u00e4\\" + +"}]}]}}'
        finding = explain(data, Answer(2, b"refused 17 ExprSyntax e\n"))
        column = data.split(b"\n")[1].index(b'+ +"') + len("+ ") + 1
        self.assertIn(f"m.json:2:{column}: ", rendered("m.json", data, finding))

    def test_a_fault_is_shown_at_its_entity(self):
        data = (EXAMPLES / "overflow.json").read_bytes()
        finding = explain(data, Answer(3, (EXAMPLES / "overflow.txt").read_bytes()))
        self.assertEqual(data[slice(*finding.span)], b'"meter"')
        self.assertEqual(finding.marks, ["meter"])

    def test_a_jam_is_shown_at_its_network_with_its_full_channels(self):
        document, finding = found("networks/full_queue")
        self.assertEqual(document[slice(*finding.span)], b'"PN"')
        self.assertIn("a.plus is full with 2 tokens: r.output waits", rendered("m", document, finding))

    def test_a_run_that_ended_by_itself_is_no_trouble(self):
        data = (EXAMPLES / "desk.json").read_bytes()
        self.assertFalse(explain(data, Answer(0, (EXAMPLES / "desk.txt").read_bytes())).is_trouble)

    def test_every_code_of_the_format_is_explained(self):
        refusals = {code for code in codes() if code < 30}
        self.assertEqual(refusals - {10}, set(_TELLERS))

    def test_every_class_has_its_ports_and_directors(self):
        self.assertGreaterEqual(len(classes()), 48)
        for row in classes().values():
            self.assertTrue(row.ports or row.declared, row.name)
            self.assertTrue(row.directors, row.name)
            self.assertTrue(set(row.directors) <= {"SDF", "SR", "DE", "PN", "Rendezvous"}, row.name)


class Expressions(unittest.TestCase):
    def test_texts_come_to_what_they_say(self):
        table = [("1 + 2 * 3", 7), ("-7 / 2", -3), ("-7 % 2", -1), ("{1, 2}(1)", 2), ("{y = 2, x = 1}.y", 2), ('("a" + "b").length()', 2), ("1 < 2 ? 3 : 4", 3), ("max(abs(-3), 2)", 3)]
        for text, value in table:
            self.assertEqual(evaluate(parse(text), {}), value, text)

    def test_each_text_of_the_tables_is_refused_exactly_where_the_program_refuses_it(self):
        for chosen in cases_of_runs():
            if chosen.name.startswith("expression_syntax/"):
                finding = explain(chosen.given(), Answer(chosen.status, chosen.outputs[0]))
                if chosen.outputs[0].startswith(b"refused 17 "):
                    self.assertTrue(any("In the " in remark for remark in finding.remarks), chosen.name)

    def test_faults_have_their_place(self):
        for text, offset in [("1 +", 3), ("1 / 0", 2), ("(1", 2), ("max(1)", 5), ("1 < 2 < 3", 6), ("{a = 1, a = 2}", 8)]:
            with self.assertRaises(Fault) as caught:
                evaluate(parse(text), {})
            self.assertEqual(caught.exception.offset, offset, text)


PROGRAM = """#!/bin/sh
cat > /dev/null
printf 'refused 14 Parameter Scale.fctor\\n'
exit 2
"""


class Commands(unittest.TestCase):
    def call(self, *words: str, **more) -> subprocess.CompletedProcess:
        return subprocess.run([sys.executable, str(ROOT / "bin" / "explain"), *words], capture_output=True, text=True, timeout=300, **more)

    def test_a_program_that_is_named_is_run(self):
        with tempfile.TemporaryDirectory() as folder:
            program = Path(folder) / "ptrun"
            program.write_text(PROGRAM)
            program.chmod(0o755)
            done = self.call(str(EXAMPLES / "misspelt.json"), "--program", str(program))
        self.assertEqual(done.returncode, 1, done.stderr)
        self.assertIn("misspelt.json:12:67: refused 14 Parameter Scale.fctor", done.stdout)

    def test_bad_calls_end_by_2_with_a_line(self):
        model = str(EXAMPLES / "misspelt.json")
        for words in [(model, "--program", "/nowhere/ptrun"), ("/nowhere/model.json", "--report", str(EXAMPLES / "desk.txt"))]:
            done = self.call(*words)
            self.assertEqual(done.returncode, 2)
            self.assertEqual(len(done.stderr.splitlines()), 1, done.stderr)


if __name__ == "__main__":
    unittest.main()
