"""Several texts in a call: each in turn, whatever becomes of those before it."""
import os
import signal
import subprocess
import time

from .support import Case, command_words, environment, fences, heed_interrupts


class Several(Case):
    def setUp(self) -> None:
        super().setUp()
        self.other, self.third = self.place("other.md"), self.place("third.md")

    def test_each_in_turn(self) -> None:
        for path in (self.text, self.other):
            self.write(self.front("a") + fences([("a", "x")]), path)
        done = self.run_weave(self.text, self.other)
        self.assertEqual((done.status, done.output), (0, ""))
        self.assertEqual(done.errors, f"{self.text}: a: 1 evaluated\n{self.other}: a: 1 evaluated\ntmhost-weave: 2 texts, none failed\n")
        self.assertEqual(self.logged("a"), ["x", "x"])
        self.assertEqual((len(self.fields()), len(self.fields(self.place("other.sheet")))), (1, 1))
        for word in ("--check", "--test"):
            done = self.run_weave(word, self.text, self.other)
            self.assertEqual((done.status, done.output, done.errors), (0, "", "tmhost-weave: 2 texts, none failed\n"))

    def test_one_that_fails(self) -> None:
        """The others are woven. The status is that of the worst, and the last line names those that failed."""
        self.write(self.front("a") + fences([("a", "die")]))
        self.write(self.front("a") + fences([("a", "x")]), self.third)
        done = self.run_weave(self.text, self.other, self.third)
        self.assertEqual(done.status, 1)
        self.assertIn(f"\n{self.other}: No such file or directory: ", done.errors.replace("'", ""))
        self.assertEqual(done.errors.split("\n")[-3:], [f"{self.third}: a: 1 evaluated", f"tmhost-weave: 3 texts, 2 failed: {self.text}, {self.other}", ""])
        self.assertEqual(self.read(self.third).count("```tmhost-answer"), 1)
        self.write(self.front("a") + fences([("a", "y")]), self.third)
        done = self.run_weave("--check", self.third, self.text)
        self.assertEqual((done.status, done.errors), (1, f"tmhost-weave: 2 texts, 2 failed: {self.third}, {self.text}\n"))

    def test_output_is_of_one(self) -> None:
        done = self.run_weave("--output", self.third, self.text, self.other)
        self.assertEqual((done.status, done.errors.split("\n")[-2]), (2, "tmhost-weave: error: --output is the place of one text, and several are given"))

    def test_one_worksheet_of_two(self) -> None:
        """They are refused, but where nothing is kept."""
        texts = [self.text, self.place("text.Rmd")]
        for path in texts:
            self.write(self.front("a") + fences([("a {hide}", "x")]), path)
        for word in ("--seconds=9", "--check"):
            done = self.run_weave(word, *texts)
            said = f"tmhost-weave: error: several texts would have the worksheet {os.path.realpath(self.sheet)}"
            self.assertEqual((done.status, done.errors.split("\n")[-2], self.logged("a")), (2, said, []))
        self.assertEqual(self.run_weave("--test", *texts).status, 0)

    def test_an_interrupt_ends_all(self) -> None:
        self.write(self.front("a") + fences([("a", "stuck")]))
        self.write(self.front("b") + fences([("b", "x")]), self.other)
        with subprocess.Popen(command_words(self.text, self.other), stderr=subprocess.PIPE, env=environment(), preexec_fn=heed_interrupts) as weave:
            while not os.path.exists(self.place("a.log")):
                time.sleep(0.02)
            weave.send_signal(signal.SIGINT)
            errors = weave.communicate()[1].decode()
        self.assertEqual((weave.returncode, errors), (130, f"{self.text}: broken off: 0 of 1 answered; weave it again\n"))
        self.assertEqual(self.logged("b"), [])
