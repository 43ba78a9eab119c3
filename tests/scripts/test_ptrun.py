"""bin/ptrun, bin/try and bin/build."""

import os
import pty
import signal
import subprocess
import time
import unittest

from house import House

RUN, TRY, BUILD = "bin/ptrun", "bin/try", "bin/build"
ANSWER = "words: run\nthe model\n"


class Program(House):
    scripts = (RUN, TRY, BUILD)

    def built(self) -> None:
        self.assertEqual(self.call(BUILD).returncode, 0)
        self.log.write_text("")

    def write(self, file: str, text: str) -> None:
        """Writes a file that is newer than what is built."""
        path = self.root / file
        path.write_text(text)
        later = time.time() + 5
        os.utime(path, (later, later))


class Words(Program):
    def test_help_is_given_before_anything_is_built(self) -> None:
        for words in ((), ("-h",), ("--help",), ("--version",), ("run", "--help"), ("--unproved",)):
            with self.subTest(words):
                told = self.call(RUN, *words)
                self.assertEqual((told.returncode, told.stdout), (1, ""))
                for part in ("usage: bin/ptrun run", "ptrun 1.2.3", "rattle-kit-0 logic 0", "not built yet"):
                    self.assertIn(part, told.stderr)
        self.assertEqual(set(self.asked()), {"version"})

    def test_an_unknown_word_builds_nothing(self) -> None:
        for script in (RUN, TRY):
            told = self.call(script, "rum", given="the model\n")
            self.assertEqual((told.returncode, told.stdout), (1, ""))
            self.assertIn("usage", told.stderr)
        self.assertEqual(set(self.asked()), {"version"})

    def test_a_missing_rt_is_said_by_name(self) -> None:
        for script in (RUN, TRY):
            told = self.call(script, "run", given="the model\n", has_rt=False)
            self.assertEqual((told.returncode, told.stdout), (125, ""))
            self.assertIn("'rt'", told.stderr)

    def test_a_built_program_needs_no_rt(self) -> None:
        self.built()
        told = self.call(RUN, "run", given="the model\n", has_rt=False)
        self.assertEqual((told.returncode, told.stdout, told.stderr), (3, ANSWER, ""))


class File(Program):
    def setUp(self) -> None:
        super().setUp()
        self.built()
        (self.root / "model.json").write_text("of a file\n")

    def test_the_file_is_read(self) -> None:
        for words in (("run", "model.json", "--budget", "7"), ("run", "--budget", "7", "model.json")):
            self.assertEqual(self.call(RUN, *words).stdout, "words: run --budget 7\nof a file\n")
        self.assertEqual(self.call(RUN, "run", "--budget=7", "model.json").stdout, "words: run --budget=7\nof a file\n")
        self.assertEqual(self.call(RUN, "check", "model.json").stdout, "words: check\nof a file\n")

    def test_a_dash_is_standard_input(self) -> None:
        self.assertEqual(self.call(RUN, "run", "-", given="the model\n").stdout, ANSWER)

    def test_a_second_file_is_left_to_the_program(self) -> None:
        self.assertEqual(self.call(RUN, "run", "model.json", "other").stdout, "words: run other\nof a file\n")

    def test_a_number_is_no_file(self) -> None:
        self.assertEqual(self.call(RUN, "gen", "30").stdout, "words: gen 30\n")

    def test_a_file_that_is_not_there(self) -> None:
        for script in (RUN, TRY):
            told = self.call(script, "run", "nowhere.json")
            self.assertEqual((told.returncode, told.stdout), (5, ""))
            self.assertIn("there is no file nowhere.json", told.stderr)

    def test_through_a_link(self) -> None:
        (self.root / "elsewhere").symlink_to(self.root / RUN)
        self.assertEqual(self.call("elsewhere", "run", "model.json").stdout, "words: run\nof a file\n")


class Terminal(Program):
    def test_a_terminal_is_told_what_is_read(self) -> None:
        self.built()
        ours, theirs = pty.openpty()
        program = subprocess.Popen([self.root / RUN, "run"], stdin=theirs, stdout=subprocess.PIPE, stderr=subprocess.PIPE, text=True, env=self.environment())
        os.write(ours, b"typed\n\x04")
        wrote, said = program.communicate(timeout=300)
        os.close(ours)
        os.close(theirs)
        self.assertEqual(wrote, "words: run\ntyped\n")
        self.assertIn("from this terminal", said)


class Build(Program):
    def test_the_first_run_builds_and_the_second_does_not(self) -> None:
        told = self.call(RUN, "run", given="the model\n")
        self.assertEqual((told.returncode, told.stdout), (3, ANSWER))
        self.assertIn("proving 3 crates", told.stderr)
        self.assertIn("proved and built", told.stderr)
        self.assertEqual(self.asked(), ["ci", "version"])
        again = self.call(RUN, "run", given="the model\n")
        self.assertEqual((again.returncode, again.stdout, again.stderr), (3, ANSWER, ""))
        self.assertEqual(len(self.asked()), 2)

    def test_what_cannot_be_built_has_a_status_of_its_own(self) -> None:
        told = self.call(RUN, "run", given="the model\n", fake="unproved")
        self.assertEqual((told.returncode, told.stdout), (125, ""))
        self.assertIn("fn it: not proved", told.stderr)

    def test_what_is_proved_is_told(self) -> None:
        told = self.call(BUILD, fake="kept")
        self.assertEqual(told.returncode, 0)
        self.assertIn("2 of 3: pt_b is proved", told.stderr)
        self.assertNotIn("pt_a", told.stderr)
        self.assertIn("== pt_b\nwhat the prover says\n", (self.root / "crates/ptrun/out/build.log").read_text())

    def test_a_crate_that_is_not_proved_ends_it(self) -> None:
        told = self.call(BUILD, fake="unproved")
        self.assertEqual(told.returncode, 1)
        self.assertIn("pt_a is not proved", told.stderr)
        self.assertFalse((self.root / "crates/ptrun/out/ptrun").exists())

    def test_only_what_the_program_stands_on_is_copied(self) -> None:
        """No edit, and not pt_c; and the copy goes."""
        for folder in ("edits", "must-fail"):
            (self.root / "crates/pt_a" / folder).mkdir()
            (self.root / "crates/pt_a" / folder / "one.edit").write_text("")
        self.assertEqual(self.call(BUILD).returncode, 0)
        self.assertNotIn("pt_c", (self.root / "crates/ptrun/out/build.log").read_text())
        self.assertEqual(list(self.temporary.iterdir()), [])

    def test_an_interrupted_build_goes_on(self) -> None:
        build = subprocess.Popen([self.root / BUILD], stderr=subprocess.PIPE, text=True, env=self.environment(fake="slow"))
        while "ci" not in self.asked():
            self.assertIsNone(build.poll())
            time.sleep(0.05)
        build.send_signal(signal.SIGTERM)
        _, said = build.communicate(timeout=300)
        self.assertEqual(build.returncode, 143)
        self.assertIn("the next build goes on from there", said)
        self.assertEqual(list(self.temporary.iterdir()), [])
        told = self.call(RUN, "run", given="the model\n")
        self.assertEqual(told.stdout, ANSWER)


class Stale(Program):
    def setUp(self) -> None:
        super().setUp()
        self.built()

    def is_warned_of(self) -> bool:
        told = self.call(RUN, "run", given="the model\n")
        self.assertEqual((told.returncode, told.stdout), (3, ANSWER))
        self.assertEqual(self.asked(), [])
        return "--rebuild" in told.stderr

    def test_a_changed_source_is_warned_of_until_the_next_build(self) -> None:
        self.write("crates/pt_a/src/lib.rt", "// other\n")
        self.assertTrue(self.is_warned_of())
        self.assertEqual(self.call(RUN, "--rebuild").returncode, 0)
        self.log.write_text("")
        self.assertFalse(self.is_warned_of())

    def test_a_new_and_a_lost_file(self) -> None:
        self.write("crates/pt_b/specs/New.antt", "-- new\n")
        self.assertTrue(self.is_warned_of())
        (self.root / "crates/pt_b/specs/New.antt").unlink()
        self.assertFalse(self.is_warned_of())
        (self.root / "crates/pt_b/src/lib.rt").unlink()
        later = time.time() + 5
        os.utime(self.root / "crates/pt_b/src", (later, later))
        self.assertTrue(self.is_warned_of())

    def test_other_crates_and_equal_sources_are_not(self) -> None:
        self.write("crates/pt_c/src/lib.rt", "// other\n")
        self.write("crates/pt_b/src/lib.rt", "// pt_b\n")
        self.assertFalse(self.is_warned_of())

    def test_what_a_crate_uses(self) -> None:
        lines = (self.root / "crates.txt").read_text()
        self.write("crates.txt", lines + "pt_d: pt_a\n")
        self.assertFalse(self.is_warned_of())
        self.write("crates.txt", lines.replace("pt_b: pt_a", "pt_b: pt_a itoa"))
        self.assertTrue(self.is_warned_of())

    def test_a_program_of_another_build(self) -> None:
        """Where rt itself has built since, what bin/build has kept doesn't count, and times tell."""
        program = self.root / "crates/ptrun/out/ptrun"
        self.write("crates/pt_a/src/lib.rt", "// other\n")
        program.write_text(program.read_text() + "# another\n")
        self.assertTrue(self.is_warned_of())
        later = time.time() + 9
        os.utime(program, (later, later))
        self.assertFalse(self.is_warned_of())


class Try(Program):
    def test_the_answer_and_its_status(self) -> None:
        (self.root / "model.json").write_text("the model\n")
        for words, given in ((("run",), "the model\n"), (("run", "model.json"), "")):
            told = self.call(TRY, *words, given=given)
            self.assertEqual((told.returncode, told.stdout), (3, ANSWER))
            self.assertIn("not proved", told.stderr)
            self.assertNotIn("runners=", told.stderr)
        self.assertEqual(self.asked(), ["try -- run"] * 2)

    def test_no_answer(self) -> None:
        told = self.call(TRY, "run", given="the model\n", fake="mute")
        self.assertEqual((told.returncode, told.stdout), (125, ""))
        self.assertIn("run=none", told.stderr)

    def test_nothing_is_left_behind(self) -> None:
        self.call(TRY, "run", given="the model\n")
        self.assertEqual(list(self.temporary.iterdir()), [])


if __name__ == "__main__":
    unittest.main()
