"""Reports, and the waves that are made of them."""

import re
import unittest

from given import EXAMPLES, cases_of_runs

from ptrun_tools.report import NoReport, Report, Token, Trace, kind_of, read_report
from ptrun_tools.waves import Scale, scale_of, waves


def parsed(text: str) -> dict[str, list[tuple[int, str]]]:
    """What a VCD file says: each variable's values after the initial ones, with their times."""
    head, body = text.split("$enddefinitions $end\n")
    scopes, names = [], {}
    for words in (line.split() for line in head.splitlines()):
        if words[0] == "$scope":
            scopes.append(words[2])
        elif words[0] == "$upscope":
            scopes.pop()
        elif words[0] == "$var":
            names[words[3]] = ".".join(scopes[1:] + [words[4]])
    assert not scopes
    values: dict[str, list[tuple[int, str]]] = {name: [] for name in names.values()}
    time = -1
    for line in body.split("$end\n", 1)[1].splitlines():
        if line.startswith("#"):
            assert int(line[1:]) > time, line
            time = int(line[1:])
        elif match := re.fullmatch(r"(?:([bs])(\S*) |([01]))(\S+)", line):
            values[names[match[4]]].append((time, match[2] if match[1] else match[3]))
        else:
            raise AssertionError(line)
    return values


def trace(port: str, *tokens: tuple[int, int, str]) -> Trace:
    return Trace(port, [Token(*token) for token in tokens])


class Reports(unittest.TestCase):
    def test_each_report_of_the_tables_is_read(self):
        count = 0
        for case in cases_of_runs():
            for output in case.outputs:
                report = read_report(output)
                tokens = sum(len(trace.tokens) for trace in report.traces)
                others = sum(len(meetings.made) for meetings in report.meetings) + len(report.full)
                count += 1
                self.assertEqual(tokens + others + len(report.traces) + len(report.meetings) + 1, output.count(b"\n"), case.name)
                self.assertEqual(report.end_text, output.decode().split("\n")[-2], case.name)
        self.assertGreater(count, 1000)

    def test_what_is_no_report_is_refused_at_its_line(self):
        table = [
            (b"", 1), (b"end stop", 1), (b"end well\n", 1), (b"hello\n", 1), (b"trace a\n0 0.0 1\n", 2), (b"trace a\n1 0.0 1\nend stop\n", 2),
            (b"trace a\n0 0.0\nend stop\n", 2), (b"end stop\nend stop\n", 2), (b"trace a\n0 0.0 \xff\nend stop\n", 2), (b"trace a b\nend stop\n", 1),
            (b"meetings .\n0 0 met a.b.0\nend deadlock\n", 2), (b"full a.b.0 1\ntrace a\nend queue . 1\n", 2),
        ]
        for data, line in table:
            with self.assertRaises(NoReport, msg=data) as caught:
                read_report(data)
            self.assertEqual(caught.exception.line, line, data)

    def test_kinds_of_tokens(self):
        table = [("-3", "int"), ("true", "truth"), ('"a"', "text"), ("{}", "array"), ("{1, 2}", "array"), ("{a = 1}", "record"), ('{"a = "}', "array")]
        for value, kind in table:
            self.assertEqual(kind_of(value), kind, value)


class Waves(unittest.TestCase):
    def test_no_two_tokens_of_a_port_have_one_time(self):
        report = Report([trace("a.b", (0, 0, "1"), (0, 0, "2"), (0, 1, "3"), (0, 12, "4"), (5, 0, "5"))], end=("stop",))
        self.assertEqual(scale_of(report), Scale(100, 10))
        self.assertEqual(parsed(waves(report))["a.b"], [(0, "b1"[1:]), (1, "10"), (10, "11"), (120, "100"), (5000, "101")])

    def test_kinds_are_shown_by_their_variables(self):
        report = Report(
            [trace("n", (0, 0, "-1")), trace("t", (0, 0, "true"), (1, 0, "false")), trace("s", (2, 0, '"a b"')), trace("m", (0, 0, "{1, 2}"))], end=("stop",)
        )
        values = parsed(waves(report))
        self.assertEqual(values["n"], [(0, "1" * 64)])
        self.assertEqual(values["t"], [(0, "1"), (1, "0")])
        self.assertEqual(values["s"], [(2, "a\\040b")])
        self.assertEqual(values["m"], [(0, "{1,\\0402}")])
        self.assertEqual(values["t_comes"], [(0, "1"), (1, "1")])

    def test_a_tick_is_a_second(self):
        for scale, unit in [(Scale(1, 1), "1 s"), (Scale(10, 1), "100 ms"), (Scale(100, 1), "10 ms"), (Scale(10, 100), "1 ms"), (Scale(10**10, 10), "10 ps")]:
            self.assertEqual(scale.unit, unit)

    def test_tags_past_64_bits_are_counted(self):
        report = Report([trace("a", (2**62, 0, "1"), (2**62, 2**31, "2"))], end=("stop",))
        text = waves(report)
        self.assertEqual(parsed(text)["a"], [(0, "1"), (1, "10")])
        self.assertIn("only count the tags", text)

    def test_waves_of_each_report_of_the_tables_hold_its_tokens(self):
        for case in cases_of_runs():
            report = read_report(case.outputs[0])
            if report.traces and len(case.outputs[0]) < 20_000:
                values = parsed(waves(report))
                for one in report.traces:
                    times = [time for time, _ in values[f"{one.port}_comes"]]
                    self.assertEqual(len(set(times)), len(one.tokens), case.name)

    def test_local_tags_that_begin_anew_are_kept_apart(self):
        report = Report([trace("a", (0, 0, "1"), (1, 0, "2"), (0, 0, "3"))], end=("stop",))
        self.assertEqual(parsed(waves(report))["a"], [(0, "1"), (1, "11"), (10, "10")])

    def test_examples_have_waves(self):
        values = parsed(waves(read_report((EXAMPLES / "desk.txt").read_bytes())))
        self.assertEqual(values["desk.output"], [(3, "1"), (6, "10"), (9, "11"), (12, "100")])


if __name__ == "__main__":
    unittest.main()
