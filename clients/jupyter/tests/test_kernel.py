"""The kernel over the real program, as a front end has it."""
import os
import shutil
import signal
import subprocess
import sys
import time

from tests.support import INTERPRETER, PROGRAM, ROOT, Case, Front, eventually, fields_of, needs_program


@needs_program
class Answers(Case):
    def setUp(self) -> None:
        super().setUp()
        self.install_interpreter()

    def test_a_cell_is_a_field(self) -> None:
        with Front(self.folder) as front:
            reply, outputs = front.execute("hello", "x")
            self.assertEqual((reply["status"], outputs), ("ok", [
                {"type": "execute_result", "data": {"text/plain": "hello 1"}, "metadata": {}, "execution_count": 1}]))
            self.assertEqual(front.text("two\nlines", "y"), "two\u2028lines 2")
        self.assertEqual([(field.lines, str(field.answer)) for field in fields_of(self.place("kernel.tmhost"))],
                         [(["hello"], "hello 1"), (["two", "lines"], "two\u2028lines 2")])

    def test_formulas_and_pictures(self) -> None:
        with Front(self.folder) as front:
            _, outputs = front.execute("text and formula")
            self.assertEqual(outputs[0], {"type": "stream", "name": "stdout", "text": "one\n"})
            self.assertEqual(outputs[1]["data"], {"text/latex": "$x^2$", "text/plain": "$x^2$"})
            _, outputs = front.execute("two pictures")
            self.assertEqual([output["type"] for output in outputs], ["stream", "display_data", "stream", "display_data", "execute_result"])
            self.assertEqual((outputs[1]["data"]["image/png"], outputs[3]["data"]["image/svg+xml"][:4]), ("iVBORw0K", "<svg"))

    def test_an_error_stops_what_waits(self) -> None:
        with Front(self.folder) as front:
            asked = [front.send(code) for code in ("first", "error", "after")]
            self.assertEqual(front.received(asked[0])[0]["status"], "ok")
            reply, outputs = front.received(asked[1])
            self.assertEqual((reply["status"], reply["ename"], reply["evalue"]), ("error", "ValueError", "no: never"))
            self.assertEqual([output["type"] for output in outputs], ["stream", "error", "stream"])
            self.assertEqual(outputs[1]["traceback"], ["Traceback", "ValueError: no: never"])
            self.assertNotEqual(front.reply(asked[2])["status"], "ok")
            self.assertEqual(front.text("first"), "first 3")
        self.assertEqual([field.input for field in fields_of(self.place("kernel.tmhost"))], ["first", "error"])

    def test_interrupts(self) -> None:
        with Front(self.folder) as front:
            asked = [front.send("sleep 100"), front.send("after")]
            time.sleep(3)
            front.manager.interrupt_kernel()
            reply, outputs = front.received(asked[0])
            self.assertEqual((reply["ename"], outputs[0]["data"]["text/plain"]), ("Interrupted", "was interrupted"))
            self.assertNotEqual(front.reply(asked[1])["status"], "ok")
            front.manager.interrupt_kernel()  # at nothing
            self.assertEqual(front.text("on"), "on 2")

    def test_completions(self) -> None:
        with Front(self.folder) as front:
            for code, at in (("one\nhe + 1", 6), ("he", 2)):
                asked = front.client.complete(code, at)
                reported = front.reply(asked)
                self.assertEqual((reported["matches"], reported["cursor_start"], reported["cursor_end"]), (["hello", "heap"], at - 2, at))
            front.execute("first")
        self.assertEqual([field.input for field in fields_of(self.place("kernel.tmhost"))], ["first"])  # and none for the request

    def test_what_is_no_cell(self) -> None:
        with Front(self.folder) as front:
            self.assertEqual(front.execute("  \n ")[0]["status"], "ok")
            self.assertIn("isn't kept", front.execute("hidden", silent=True)[0]["evalue"])
            self.assertEqual(front.text("x" * 5000), "BadInput: a field has at most 4095 bytes of text without control characters, and this cell has 5000")
            self.assertEqual(front.text("on"), "on 1")
        self.assertEqual([field.input for field in fields_of(self.place("kernel.tmhost"))], ["on"])


@needs_program
class Ends(Case):
    def setUp(self) -> None:
        super().setUp()
        self.install_interpreter()

    def test_the_interpreter_ends(self) -> None:
        with Front(self.folder) as front:
            self.assertEqual(front.text("one", "x"), "one 1")
            self.assertIn("its variables are gone", front.text("end", "y"))
            self.assertEqual(front.text("two", "y"), "two 1")
        self.assertEqual([str(field.answer) for field in fields_of(self.place("kernel.tmhost"))], ["one 1", "two 1"])

    def test_the_interpreter_is_killed_between_cells(self) -> None:
        shutil.copy(INTERPRETER[-1], self.place("mine.py"))
        self.install("--name", "kernel", "--session", "a", *INTERPRETER[:-1], self.place("mine.py"))
        with Front(self.folder) as front:
            self.assertEqual(front.text("one"), "one 1")
            found = subprocess.run(["pgrep", "-f", f"^{sys.executable} -S -E {self.folder}/mine.py$"], stdout=subprocess.PIPE, text=True).stdout.split()
            self.assertEqual(len(found), 1)
            os.kill(int(found[0]), signal.SIGKILL)
            time.sleep(3)
            self.assertIn("the interpreter has ended since the last cell", front.text("two"))
            self.assertEqual(front.text("three"), "three 1")

    def test_the_program_is_killed(self) -> None:
        with Front(self.folder) as front:
            self.assertEqual(front.text("one"), "one 1")
            found = subprocess.run(["pgrep", "-f", "live --json kernel.tmhost$", "-P", str(front.manager.provisioner.pid)],
                                   stdout=subprocess.PIPE, text=True).stdout.split()
            self.assertEqual(len(found), 1)
            os.kill(int(found[0]), signal.SIGKILL)
            self.assertIn("tmhost ended by signal 9", front.text("two"))
            self.assertEqual(front.text("three"), "three 1")

    def test_restart_and_shutdown(self) -> None:
        with Front(self.folder) as front:
            self.assertEqual(front.text("one", "x"), "one 1")
            front.send("sleep 100", "y")
            time.sleep(1)
            front.restart()
            self.assertEqual(front.text("two", "x"), "two 1")
            front.client.stop_channels()
            front.manager.shutdown_kernel(now=False)
            two, slept = fields_of(self.place("kernel.tmhost"))
            self.assertEqual((two.input, two.state, slept.input), ("two", "answered", "sleep 100"))
            # Jupyter interrupts it before it has it stopped, so it may answer.
            self.assertIn(slept.answer.text if slept.answer else None, (None, "was interrupted"))

    def test_a_killed_kernel(self) -> None:
        for count in range(1, 4):
            front = Front(self.folder)
            self.assertEqual(front.text(f"line {count}", f"cell {count}"), f"line {count} 1")
            front.send("sleep 100", "last")
            time.sleep(0.2 * count)
            front.kill()
        with Front(self.folder) as front:
            self.assertEqual(front.text("end of it", "last"), "end of it 1")
        shown = [(field.input, str(field.answer)) for field in fields_of(self.place("kernel.tmhost"))]
        self.assertEqual(sorted(shown), [("end of it", "end of it 1")] + [(f"line {count}", f"line {count} 1") for count in (1, 2, 3)])

    def test_another_program_has_it(self) -> None:
        with Front(self.folder) as front:
            subprocess.run([PROGRAM, "create", self.place("kernel.tmhost")], check=True)
            with eventually(self.place("kernel.tmhost")):
                self.assertIn("another program works on the worksheet kernel.tmhost", front.text("one"))
            self.assertEqual(front.text("one"), "one 1")

    def test_the_session_has_other_words(self) -> None:
        with Front(self.folder) as front:
            front.execute("one")
        self.install("--name", "kernel", "--session", "a", "cat")
        with Front(self.folder) as front:
            self.assertIn("and this kernel is for `cat`; `tmhost-jupyter-kernel install --sheet kernel.tmhost --session a`", front.text("one"))
            self.assertEqual(len(fields_of(self.place("kernel.tmhost"))), 1)  # it is open to others

    def test_there_is_no_such_interpreter(self) -> None:
        self.install("--name", "kernel", "--session", "b", "no-such-program", "x")
        with Front(self.folder) as front:
            self.assertEqual(front.text("one"), "StartRefused: there is no such program, or it may not be run: no-such-program x")


@needs_program
class Input(Case):
    def test_a_line_that_asks(self) -> None:
        self.install("--name", "kernel", "--session", "py", os.path.join(ROOT, "adapters", "python"))
        with Front(self.folder) as front:
            reply, outputs = front.execute("input('n? ')")
            self.assertIn("EOF when reading a line", str([reply, outputs]))
            self.assertEqual(front.text("6 * 7"), "42")
