"""A run that was cut off goes on where it was, and reports what one in one piece does. TMHOST_KILLS says how many runs are killed."""
import contextlib
import json
import os
import random
import signal
import subprocess
import sys
import time
from typing import List, Tuple
from unittest import mock

from .support import Case, case, environment, heed_interrupts, words  # the module puts the packages on the path
from .values import expected

from tmhost_suite.kept import opened

# It writes two long texts in turn, as `--accept` writes one.
WRITER = "import itertools, sys; from tmhost_weave.files import put; print('writes', flush=True); [put(sys.argv[1], letter * 300000) for letter in itertools.cycle([b'a', b'b'])]"
KILLS = int(os.environ.get("TMHOST_KILLS", "20"))


class Resuming(Case):
    def setUp(self) -> None:
        super().setUp()
        self.random = random.Random(self.id())

    def make(self) -> None:
        """A suite of two sessions, in which interpreters end and what is wanted depends on all lines before it."""
        code: List[Tuple[str, str, bool]] = []
        for at in range(self.random.randint(8, 16)):
            session = self.random.choice("ab")
            kind = self.random.random()
            line = "die" if kind < 0.15 else f"sleep 0.0{self.random.randint(1, 9)}" if kind < 0.5 else f"x{at}"
            code.append((session, line, line != "die" and self.random.random() < 0.2))
        wanted = expected(code)
        # One of them is wanted otherwise, so that a report has a difference.
        self.wrong = self.random.randrange(len(code))
        self.verdict = "ended" if code[self.wrong][1] == "die" else "differs"
        parts = []
        for at, ((session, line, is_setup), value) in enumerate(zip(code, wanted)):
            info = session + (" {setup}" if is_setup else "")
            parts.append(case(line, "other" if at == self.wrong else value, info))
        self.write(*parts)

    def cut_off_somewhere(self, *more: str) -> None:
        """Runs it, and kills the run and all that it started at a random moment."""
        run = subprocess.Popen(
            words(self.path, "--jobs", "2", *more), stdout=subprocess.DEVNULL, stderr=subprocess.DEVNULL, env=environment(), cwd=self.folder, start_new_session=True
        )
        time.sleep(self.random.uniform(0.2, 1.2))
        os.killpg(run.pid, signal.SIGKILL)
        run.wait()

    def test_runs_that_are_killed(self) -> None:
        for _ in range(KILLS):
            self.make()
            for end in (".run", ".run.alt"):
                with contextlib.suppress(FileNotFoundError):
                    os.unlink(self.path + end)
            self.cut_off_somewhere()
            for _ in range(self.random.randint(0, 2)):
                self.cut_off_somewhere("--resume")
            found = self.verdicts(self.path, "--resume")
            self.assertEqual(found, [self.verdict if at == self.wrong else "ok" for at in range(len(found))], self.read())

    def test_a_run_that_was_killed_while_its_worksheet_was_made(self) -> None:
        self.write(case("say 1", "1"))
        with open(self.path + ".run.new", "wb") as torn:
            torn.write(b"TM")
        self.assertEqual(self.verdicts(self.path, "--resume"), ["ok"])
        self.assertEqual([name for name in os.listdir(self.folder) if ".new" in name], [])

    def test_what_is_done_is_not_done_again(self) -> None:
        self.write(case("say 1", "1"), case("say 2", "2"), self.waiting())
        self.cut_off(2)
        os.unlink(self.place("a.log"))
        self.assertEqual(self.verdicts(self.path, "--resume"), ["ok", "ok", "xfail"])
        self.assertEqual(self.log("a"), [])
        self.assertIn("goes on after 2 of 3 cases", self.outcome.output)

    def test_a_run_that_came_to_its_end_is_run_again(self) -> None:
        """What it found may not hold any more, so nothing of it is reported again."""
        self.write(case("say 1", "1"), case("say 2", "3"))
        for _ in range(2):
            self.run_suite(self.path)
            os.unlink(self.place("a.log"))
            self.assertEqual(self.verdicts(self.path, "--resume"), ["ok", "differs"])
            self.assertEqual(self.log("a"), ["say 1", "say 2"])
            self.assertIn(f"{self.path}: its last run came to its end, so it is run again\n", self.outcome.output)
        # Where all was as wanted nothing is kept.
        self.write(case("say 1", "1"))
        for _ in range(2):
            self.assertEqual(self.verdicts(self.path), ["ok"])
        os.unlink(self.place("a.log"))
        self.assertEqual(self.verdicts(self.path, "--resume"), ["ok"])
        self.assertEqual(self.log("a"), ["say 1"])
        self.assertIn(f"{self.path}: no run of it was cut off, so it begins\n", self.outcome.output)

    def test_one_of_several_suites_is_cut_off(self) -> None:
        """The run as a whole was, so what the others came to isn't evaluated again."""
        other = self.place("other.md")
        self.write(case("say 1", "1"), path=other)
        self.write(case("say 2", "2"), self.waiting())
        whole = subprocess.Popen(words(other, self.path, "--jobs", "1"), stdout=subprocess.DEVNULL, stderr=subprocess.DEVNULL, env=environment(), start_new_session=True)
        self.wait_for("b", f"until {self.place('go')}")
        os.killpg(whole.pid, signal.SIGKILL)
        whole.wait()
        self.make_file("go")
        self.assertEqual(self.verdicts(other, self.path, "--resume"), ["ok", "ok", "xfail"])
        self.assertEqual(self.log("a").count("say 1"), 1)
        self.assertIn(f"{other}: goes on after 1 of 1 cases\n", self.outcome.output)

    def test_a_run_that_its_first_failure_ended_goes_on(self) -> None:
        self.write(case("say 1", "2"), case("say 3", "3"))
        self.assertEqual(self.verdicts(self.path, "--fail-fast"), ["differs"])
        self.assertEqual(self.verdicts(self.path, "--resume"), ["differs", "ok"])
        self.assertIn("goes on after 1 of 2 cases", self.outcome.output)

    def test_a_run_of_an_earlier_version_goes_on(self) -> None:
        """What is noted of a case has the names that it always had."""
        self.write(case("say 1", "1"), self.waiting())
        self.cut_off(1)
        with mock.patch.dict(os.environ, environment()), opened(self.path + ".run") as sheet:
            note = json.loads(sheet.cells[-1].input)
        self.assertEqual(set(note) - {"digest"}, {"case", "seconds", "tries", "began_anew", "is_error", "is_lost", "verdict"})

    def test_an_interrupt_ends_it_and_it_goes_on(self) -> None:
        self.write(case("say 1", "1"), case("sleep 20"), case("sleep 20", info="b"))
        run = subprocess.Popen(
            words(self.path, "--jobs", "1"), stdout=subprocess.DEVNULL, stderr=subprocess.PIPE, text=True, env=environment(), cwd=self.folder, start_new_session=True,
            preexec_fn=heed_interrupts,
        )
        until = time.monotonic() + 30
        while self.log("a")[-1:] != ["sleep 20"] and time.monotonic() < until:
            time.sleep(0.05)
        began = time.monotonic()
        run.send_signal(signal.SIGINT)
        errors = run.communicate()[1]
        self.assertLess(time.monotonic() - began, 10)
        self.assertEqual((run.returncode, errors), (130, "tmhost-suite: cut off; --resume goes on where it was\n"))
        self.assertEqual(self.log("b"), [])
        left = subprocess.run(["pgrep", "-f", self.place("a.log")], capture_output=True, text=True).stdout
        self.assertEqual(left, "")
        ran = self.run_suite(self.path, "--resume", "--only", "say 1")
        self.assertIn("goes on after 1 of 3 cases", ran.output)

    def test_a_long_answer_before_the_time_is_over(self) -> None:
        said = "\U0001f600" * 600
        # Its interpreter runs by then: to start one takes longer on a busy machine.
        self.write(case("say 1", "1"), case(f"say {said}\nstuck", f"{said}\n? over 2 s", "a {timeout 2}"), self.waiting())
        self.cut_off(2)
        self.assertEqual(self.verdicts(self.path, "--resume"), ["ok", "ok", "xfail"])
        self.assertIn("goes on after 2 of 3 cases", self.outcome.output)

    def test_other_code_is_refused(self) -> None:
        self.write(case("say 1", "1"), self.waiting())
        self.cut_off(1)
        self.write(case("say 2", "2"), self.waiting())
        ran = self.run_suite(self.path, "--resume")
        self.assertEqual(ran.status, 1)
        self.assertIn("isn't that of the run that was cut off", ran.errors)

    def test_a_run_that_goes_on_is_left_alone(self) -> None:
        self.write(case("sleep 30"))
        run = subprocess.Popen(words(self.path), stdout=subprocess.DEVNULL, stderr=subprocess.DEVNULL, env=environment(), start_new_session=True)
        try:
            until = time.monotonic() + 30
            while not self.log("a") and time.monotonic() < until:
                time.sleep(0.05)
            ran = self.run_suite(self.path)
            self.assertEqual(ran.status, 1)
            said = f"tmhost-suite: {self.path}.run: another program has it; waiting\ntmhost-suite: {self.path}: {self.path}.run: fault 35 InUse: it is in use by another program; `fuser {self.path}.run` says which: wait for its end, or end it\n"
            self.assertEqual(ran.errors, said)
        finally:
            os.killpg(run.pid, signal.SIGKILL)
            run.wait()

    def test_one_that_waits_for_another_goes_on(self) -> None:
        """That takes its worksheet away at its end."""
        self.write(self.waiting())
        first = subprocess.Popen(words(self.path), stdout=subprocess.DEVNULL, env=environment(), start_new_session=True)
        self.wait_for("b", f"until {self.place('go')}")
        second = subprocess.Popen(words(self.path), stdout=subprocess.DEVNULL, stderr=subprocess.PIPE, text=True, env=environment(), start_new_session=True)
        assert second.stderr
        said = second.stderr.readline()
        self.make_file("go")
        self.assertEqual((said, second.communicate()[1]), (f"tmhost-suite: {self.path}.run: another program has it; waiting\n", ""))
        self.assertEqual((first.wait(), second.returncode), (0, 0))
        self.assertFalse(os.path.exists(self.path + ".run"))

    def test_a_text_that_accepts_is_never_torn(self) -> None:
        for _ in range(KILLS):
            self.write(case("say one"), case("sleep 0.05"), case("say two"))
            before = self.read()
            run = subprocess.Popen(words(self.path, "--accept"), stdout=subprocess.DEVNULL, stderr=subprocess.DEVNULL, env=environment(), start_new_session=True)
            time.sleep(self.random.uniform(0.3, 1.5))
            os.killpg(run.pid, signal.SIGKILL)
            run.wait()
            after = self.read()
            self.assertTrue(after == before or after.count("````answer" if "````answer" in after else "```answer") == 3, after)

    def test_a_writer_that_is_killed_within_its_write(self) -> None:
        for _ in range(KILLS):
            with open(self.path, "wb") as file:
                file.write(b"a" * 300_000)
            run = subprocess.Popen([sys.executable, "-B", "-c", WRITER, self.path], stdout=subprocess.PIPE, env={**environment(), "PYTHONPATH": os.pathsep.join(sys.path)})
            assert run.stdout
            run.stdout.readline()
            time.sleep(self.random.uniform(0, 0.03))
            run.kill()
            run.communicate()
            self.assertIn(self.read(), ("a" * 300_000, "b" * 300_000))
