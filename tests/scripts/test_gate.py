"""bench/gate."""

import importlib.machinery
import importlib.util
import json
import re
import signal
import subprocess
import sys
import unittest

from house import ROOT, House

GATE, PAGE = "bench/gate", "bench/gate_page.py"
OTHER = ("other", "other")


def gate():
    """The script as a module."""
    sys.path.insert(0, str(ROOT / "bench"))
    loader = importlib.machinery.SourceFileLoader("gate", str(ROOT / GATE))
    module = importlib.util.module_from_spec(importlib.util.spec_from_loader("gate", loader))
    sys.modules["gate"] = module  # where its dataclasses look for what they name
    loader.exec_module(module)
    return module


def page():
    gate()
    return sys.modules["gate_page"]


class Chains(unittest.TestCase):
    def test_the_longest_chain_by_minutes(self) -> None:
        """By hand: c and d wait for b, which waits for a; d is longer than c. e waits for c and a."""
        uses = {"a": [], "b": ["a"], "c": ["b"], "d": ["b"], "e": ["c", "a"]}
        minutes = {"a": 1, "b": 2, "c": 4, "d": 5, "e": 0.5}
        found = page().chains(uses, minutes)
        self.assertEqual(found["d"], ["a", "b", "d"])
        self.assertEqual(found["e"], ["a", "b", "c", "e"])

    def test_what_crates_use(self) -> None:
        text = "# low\nb: a json # why\n\na: std\nc: b a\n"
        self.assertEqual(gate().uses_of_crates(text), {"b": ["a"], "a": [], "c": ["b", "a"]})
        self.assertEqual(gate().standing_on(["b"], gate().uses_of_crates(text)), {"a", "b"})


class Sorting(unittest.TestCase):
    def test_processes_by_their_words_and_folder(self) -> None:
        room = "/room/copy"
        rows = [
            (["rattle", "check", "--crate-name", "pt_a"], f"{room}/crates/pt_a", ("pt_a", "proof")),
            (["rattle", "build", "--crate-name", "pt_a", "--test"], f"{room}/crates/pt_a", ("pt_a", "tests")),
            (["rattle", "check", "--crate-name", "pt_a"], "/room/rt-edit-x1", ("pt_a", "edits")),
            (["rattle-link", "-o", "out/pt_a_tests", "out/pt_a_tests.o"], f"{room}/crates/pt_a", ("pt_a", "tests")),
            (["rattle-link", "-o", "out/pt_a", "out/pt_a.o"], f"{room}/crates/pt_a", ("pt_a", "proof")),
            (["rattle", "fmt", "--check", f"{room}/crates/pt_a/src/lib.rt"], room, ("pt_a", "proof")),
            (["sh", "-c", "x", "setpriv", "/room/rt-run-1/bin/pt_a_tests"], "/room/rt-run-1/data", ("pt_a", "tests")),
            (["sh", "-c", "x", "setpriv", "/room/rt-run-1/bin/ptrun.by-rattle"], "/room/rt-run-1/data", ("ptrun", "tests")),
            (["sh", "-c", "read _; kill -9 0"], room, ("other", "other")),
        ]
        for words, folder, wanted in rows:
            with self.subTest(words):
                self.assertEqual(gate().work_of(words, folder, room), wanted)


class Adding(unittest.TestCase):
    """Looks that are made up: what each saw of processes, and what the system had handed to rt by then."""

    def meter(self, looks: list[tuple]):
        """Each look: its time, what it saw as (number, crate, task, seconds, bytes), and the seconds handed to rt."""
        module = gate()
        meter = module.Meter()
        for now, rows, handed in looks:
            live = [module.Seen((number, "began"), (crate, task), seconds, most) for number, crate, task, seconds, most in rows]
            meter.take(module.Look(now, live, handed, own=0.25 * now))
        return meter

    def seconds(self, looks: list[tuple]) -> dict[tuple[str, str], float]:
        sums = self.meter(looks).sums({"pt_a", "pt_b"})
        return {(crate, task): fact["seconds"] for crate, tasks in sums.items() for task, fact in tasks.items()}

    def test_a_process_is_given_all_that_was_handed_for_it(self) -> None:
        """It was seen at 2 seconds, and came to 2.5. Its task began when it was first seen, and ended when it last was."""
        looks = [(1.0, [(7, "pt_a", "proof", 0.5, 100)], 0.0), (2.0, [(7, "pt_a", "proof", 2.0, 300)], 0.0), (3.0, [], 2.5)]
        meter = self.meter(looks)
        self.assertEqual(meter.sums({"pt_a"}), {"pt_a": {"proof": {"seconds": 2.5, "began": 1.0, "ended": 2.0, "bytes": 300}}})
        self.assertEqual(meter.own, 0.75)

    def test_each_process_by_its_own_end(self) -> None:
        """Two run beside each other: of the 4 seconds handed, 1.5 came when the first ended, and 2.5 with the second."""
        looks = [
            (1.0, [(7, "pt_a", "proof", 1.0, 1), (8, "pt_b", "edits", 0.5, 1)], 0.0),
            (2.0, [(8, "pt_b", "edits", 2.0, 1)], 1.5),
            (3.0, [], 4.0),
        ]
        self.assertEqual(self.seconds(looks), {("pt_a", "proof"): 1.5, ("pt_b", "edits"): 2.5})

    def test_what_no_look_saw_is_shared_by_those_that_ended(self) -> None:
        """Of 4 seconds 3 were seen, of two processes that end within one look. Each is given half of the rest."""
        looks = [(1.0, [(7, "pt_a", "proof", 1.0, 1), (8, "pt_b", "tests", 2.0, 1)], 0.0), (2.0, [], 4.0)]
        self.assertEqual(self.seconds(looks), {("pt_a", "proof"): 1.5, ("pt_b", "tests"): 2.5})

    def test_a_process_that_no_look_saw(self) -> None:
        """A process of 0.6 seconds ends between two looks, before anything else: all that is known is the sum."""
        self.assertEqual(self.seconds([(1.0, [], 0.0), (2.0, [], 0.6)]), {OTHER: 0.6})
        after = [(1.0, [], 0.0), (2.0, [(8, "pt_b", "tests", 0.5, 1)], 0.6), (3.0, [], 1.6)]
        self.assertEqual(self.seconds(after), {("pt_b", "tests"): 1.6})

    def test_a_number_is_used_again(self) -> None:
        module = gate()
        meter = module.Meter()
        for now, began, of, seconds, handed in ((1.0, "1", ("pt_a", "proof"), 2.0, 0.0), (2.0, "9", ("pt_b", "proof"), 1.0, 2.0)):
            meter.take(module.Look(now, [module.Seen((7, began), of, seconds, 1)], handed, 0.0))
        meter.take(module.Look(3.0, [], 3.5, 0.0))
        sums = meter.sums({"pt_a", "pt_b"})
        self.assertEqual([sums[name]["proof"]["seconds"] for name in ("pt_a", "pt_b")], [2.0, 1.5])

    def test_what_a_process_works_for_is_what_was_last_told_of_it(self) -> None:
        """It starts as a copy of rt, with rt's words, and when it has ended it has none."""
        looks = [(1.0, [(7, *OTHER, 0.0, 1)], 0.0), (2.0, [(7, "pt_a", "tests", 1.0, 1)], 0.0), (3.0, [(7, *OTHER, 2.0, 1)], 0.0), (4.0, [], 2.0)]
        self.assertEqual(self.seconds(looks), {("pt_a", "tests"): 2.0})

    def test_what_still_runs_and_what_is_no_crate(self) -> None:
        looks = [(1.0, [(7, "pt_a", "proof", 1.0, 1), (8, "json", "proof", 0.5, 1)], 0.0)]
        self.assertEqual(self.seconds(looks), {("pt_a", "proof"): 1.0, OTHER: 0.5})


class Page(unittest.TestCase):
    def test_a_table_worked_out_by_hand(self) -> None:
        """Minutes are seconds by 60. pt_b waits for pt_a: its chain is 6 + 1.5. What is below 0.05 isn't printed."""
        crates = {
            "pt_a": {"proof": {"seconds": 360, "began": 0, "ended": 120, "bytes": 2_000_000_000}},
            "pt_b": {
                "proof": {"seconds": 90, "began": 120, "ended": 180, "bytes": 500_000_000},
                "edits": {"seconds": 30, "began": 180, "ended": 210, "bytes": 700_000_000},
                "tests": {"seconds": 2, "began": 180, "ended": 182, "bytes": 1},
            },
            "other": {"other": {"seconds": 12, "began": 0, "ended": 1, "bytes": 1}},
        }
        kept = {"uses": {"pt_a": [], "pt_b": ["pt_a"]}, "crates": crates, "status": 0, "said": "2 passed, 0 failed", "elapsed": 216, "rt": 6}
        kept |= {"commit": "abc", "date": "2026-01-02", "kit": "kit-0", "processors": 4, "gibibytes": 8, "load": 0.0}
        self.assertEqual(
            page().table(kept)[2:],
            ["| pt_a | 6.0 |  |  | 6.0 | 6.0 | 2.0 | 2.0 |", "| pt_b | 1.5 |  | 0.5 | 2.0 | 7.5 | 1.0 | 0.7 |", "| all | 7.5 |  | 0.5 | 8.0 | | | |"],
        )
        told = page().page(kept)
        self.assertIn("- 3.6 minutes by the clock; the gate said `2 passed, 0 failed`.", told)
        self.assertIn("- 8.3 minutes of processors: proof 7.5, tests 0.0, edits 0.5, `rt` itself 0.1, all else 0.2.", told)
        self.assertIn("each crate used by the next: 7.5 minutes: pt_a, pt_b.", told)
        self.assertIn("the processors that it was given: 3.0 minutes: pt_a, pt_b.", told)
        self.assertNotIn("other work", told)
        self.assertIn("its load was 1.5 at the start", page().page(kept | {"load": 1.5}))
        self.assertIn("- 3.6 minutes by the clock; then the gate was ended.", page().page(kept | {"said": "rt: pt_a proved"}))


class Run(House):
    """A whole run. Which task a second is credited to depends on the load of the machine, and isn't looked at here."""

    scripts = (GATE, PAGE)

    def test_a_run_of_the_gate(self) -> None:
        """The stand-in works for 2.7 seconds, and says what the processes that it started used of the processors."""
        self.commit()
        told = self.call(GATE)
        self.assertEqual(told.returncode, 0, told.stderr)
        kept = json.loads((self.root / "bench/target/gate.json").read_text())
        self.assertEqual(set(kept["uses"]), {"pt_a", "pt_b", "pt_c", "ptrun"})
        self.assertLessEqual(set(kept["crates"]), {*kept["uses"], "other"})
        used = float(re.search(r"(?m)^used (.*)$", (self.root / "bench/target/gate.log").read_text())[1])
        counted = sum(fact["seconds"] for tasks in kept["crates"].values() for fact in tasks.values())
        self.assertGreater(used, 2.5)
        self.assertAlmostEqual(counted, used, delta=0.5)  # the system counts in hundredths, of each process
        self.assertEqual(self.asked()[:1], ["ci --anew"])
        self.assertIn("the gate said `7 passed, 0 failed`", told.stdout)
        self.assertEqual(re.findall(r"(?m)^\| (\w+) ", told.stdout), ["crate", "pt_a", "pt_b", "pt_c", "ptrun", "all"])
        again = self.call(GATE, "--read", "bench/target/gate.json")
        self.assertEqual((again.returncode, again.stdout), (0, told.stdout))

    def test_a_gate_that_fails(self) -> None:
        self.commit()
        told = self.call(GATE, fake="unproved")
        self.assertEqual(told.returncode, 1, told.stderr)
        self.assertIn("the gate said `6 passed, 1 failed`", told.stdout)
        self.assertEqual(self.call(GATE, "--read", "bench/target/gate.json").returncode, 1)

    def test_a_gate_that_is_ended(self) -> None:
        self.commit()
        running = subprocess.Popen([self.root / GATE], stdout=subprocess.PIPE, stderr=subprocess.PIPE, text=True, env=self.environment(fake="slow"), cwd=self.root)
        self.assertIn("rt: pt_a proved", running.stderr.readline())
        running.send_signal(signal.SIGTERM)
        told, _ = running.communicate(timeout=50)
        self.assertNotEqual(running.returncode, 0)
        self.assertIn("then the gate was ended", told)
        self.assertIn("then the gate was ended", self.call(GATE, "--read", "bench/target/gate.json").stdout)

    def test_some_crates_with_those_below(self) -> None:
        self.commit()
        told = self.call(GATE, "--keep", str(self.temporary / "kept.json"), "pt_b")
        self.assertEqual(re.findall(r"(?m)^\| (\w+) ", told.stdout), ["crate", "pt_a", "pt_b", "all"])
        self.assertIn("has no pt_z", self.call(GATE, "pt_z").stderr)
        self.assertEqual([it.name for it in self.temporary.iterdir() if it.name.startswith("ptrun")], [])


if __name__ == "__main__":
    unittest.main()
