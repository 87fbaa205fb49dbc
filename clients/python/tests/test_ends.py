"""How a worksheet ends, and how it doesn't begin."""

import concurrent.futures
import copy
import errno
import os
import signal
import subprocess
import sys
import threading
import time
import unittest
import unittest.mock
from typing import List

from support import PROGRAM, SECONDS, WORDS, Case, eventually, is_there, needs_program

from tmhost import Closed, Died, InUse, Lost, NoWorksheet, ProtocolError, TimedOut, Worksheet, find_program
from tmhost.commands import Checkpoint
from tmhost.errors import plain


@needs_program
class Ends(Case):
    def test_a_kill(self) -> None:
        sheet = self.sheet("a", "b")
        kept, waiting, line = sheet.new("a", "hello"), sheet.new("a", "sleep 60"), sheet.new("b", "sleep 60")
        kept.evaluate()
        waits = [waiting.eval(), line.eval()]
        held = sheet.fields
        os.kill(sheet.pid, signal.SIGKILL)
        for evaluation in waits:
            with self.assertRaises(Died) as caught:
                evaluation.result(SECONDS)
            self.assertEqual((caught.exception.fault, caught.exception.number, caught.exception.status), (None, None, -signal.SIGKILL))
        for call in (lambda: sheet.new("a", "x"), sheet.refresh, lambda: sheet.wait()):
            self.assertRaises(Died, call)
        self.assertIsInstance(sheet.error, Died)
        self.assertEqual(sheet.fields, held)
        sheet.close()
        again = self.open()
        self.assertEqual([cell.text for cell in again.cells], ["hello", None, None])

    def test_a_kill_while_many_wait(self) -> None:
        """Each call that waits raises an error of its own."""
        sheet = self.sheet()
        sheet.new("a", "sleep 60").eval()
        with concurrent.futures.ThreadPoolExecutor(5) as pool:
            calls: List["concurrent.futures.Future[object]"] = [pool.submit(sheet.wait)]
            self.until(lambda: sheet._connection.protocol._awaited)
            calls += [pool.submit(sheet.new, "a", text) for text in "xy"]
            calls += [pool.submit(call) for call in (sheet.checkpoint, sheet.refresh)]
            self.until(lambda: len(sheet._connection.protocol._awaited) == 4)
            os.kill(sheet.pid, signal.SIGKILL)
            errors = [call.exception(SECONDS) for call in calls]
        self.assertEqual([type(error) for error in errors], 5 * [Died])
        self.assertEqual(len({id(error) for error in errors}), 5)

    def test_no_interpreter_outlives_a_kill(self) -> None:
        sheet = self.open()
        words, number_of = self.busy()
        sheet.session("a", words)
        sheet.new("a", "x").eval()
        number = number_of()
        os.kill(sheet.pid, signal.SIGKILL)
        self.until(lambda: not is_there(number))

    def test_a_worksheet_in_use(self) -> None:
        sheet = self.open()
        with self.assertRaises(InUse) as caught:
            Worksheet(self.path, program=PROGRAM)
        self.assertEqual((caught.exception.number, caught.exception.fault, caught.exception.status), (35, "InUse", 1))
        self.assertIn("fault 35 InUse", caught.exception.told)
        sheet.close()
        sheet.close()
        self.open()

    def test_worksheets_that_are_none(self) -> None:
        with open(self.path, "w") as file:
            file.write("no worksheet at all")
        for path, number, name in ((self.path, 31, "NotASheet"), (self.path + "2", 32, "Disk"), (self.folder, 32, "Disk")):
            with self.subTest(name=name), self.assertRaises(Died) as caught:
                Worksheet(path, program=PROGRAM)
            self.assertEqual((caught.exception.number, caught.exception.fault), (number, name))
            self.assertIn(f"fault {number} {name}", caught.exception.told)

    def test_worksheets_that_are_not_there(self) -> None:
        """They raise what a file raises that isn't there, and what a worksheet raises that can't be opened."""
        for path, is_made in ((self.path, False), (os.path.join(self.folder, "no", "folder"), True)):
            with self.assertRaises(FileNotFoundError) as caught:
                Worksheet(path, create=is_made, program=PROGRAM)
            error = caught.exception
            assert isinstance(error, NoWorksheet) and isinstance(error, Died)
            self.assertEqual((error.errno, error.filename, error.fault, error.number, error.status, error.offset), (errno.ENOENT, path, "Disk", 32, 1, None))
            self.assertIn("fault 32 Disk", error.told)
            self.assertEqual(str(error), f"[Errno 2] No such file or directory: {path!r}")
            again = copy.copy(error)
            self.assertEqual((str(again), again.told, again.status), (str(error), error.told, 1))

    def test_what_a_user_is_shown(self) -> None:
        """Nothing of how the system counts its errors."""
        for error, shown in (
            (NoWorksheet("a/b"), "No such file or directory: a/b"), (PermissionError(13, "Permission denied"), "Permission denied"), (FileNotFoundError("there is no tmhost"), "there is no tmhost"),
            (OSError(5, "Input/output error", 3), "Input/output error"), (Lost("Ended"), str(Lost("Ended"))),
        ):
            self.assertEqual(plain(error), shown)

    def test_worksheets_that_are_there_and_cannot_be_opened(self) -> None:
        """The fault is the same, and none of them is a FileNotFoundError."""
        with self.open() as sheet:
            sheet.session("a", WORDS)
            sheet.checkpoint()
        os.link(self.path, self.path + "2")
        with self.assertRaises(Died) as caught:
            Worksheet(self.path, program=PROGRAM)
        self.assertEqual((type(caught.exception), caught.exception.number), (Died, 32))
        os.unlink(self.path + "2")
        os.unlink(self.path + ".alt")
        with self.assertRaises(Died) as caught:
            Worksheet(self.path, program=PROGRAM)
        self.assertEqual((type(caught.exception), caught.exception.number), (Died, 32))
        with self.assertRaises(Died) as caught:
            Worksheet(os.path.join(self.path, "below"), create=True, program=PROGRAM)
        self.assertEqual((type(caught.exception), caught.exception.number), (Died, 32))

    def test_a_close_while_a_line_waits(self) -> None:
        sheet = self.sheet()
        cell, after = sheet.new("a", "sleep 60"), sheet.new("a", "x")
        waits = [cell.eval(), after.eval()]
        sheet.close()
        for evaluation in waits:
            self.assertRaises(Closed, evaluation.result)
        held = self.shown(sheet)
        self.assertEqual([field.state for field in held[0]], ["empty", "empty"])
        self.assertEqual((sheet.sessions["a"].life, sheet.sessions["a"].waiting), (None, 0))
        self.assertEqual(self.shown(self.open()), held)

    def test_a_close_after_a_wait(self) -> None:
        """A `wait` holds the end of the input back too, so the program has to be killed."""
        sheet = self.sheet()
        sheet.new("a", "sleep 60").eval()
        caught: List[Died] = []

        def wait() -> None:
            try:
                sheet.wait()
            except Died as error:
                caught.append(error)

        thread = threading.Thread(target=wait)
        thread.start()
        self.until(lambda: sheet._connection.protocol._awaited)
        sheet.close(timeout=0.3)
        thread.join(SECONDS)
        self.assertEqual([error.status for error in caught], [-signal.SIGKILL])
        self.assertEqual(eventually(self.open).cell(1).input, "sleep 60")

    def test_a_reply_that_takes_too_long(self) -> None:
        sheet = self.sheet()
        sheet._timeout = 0.3
        sheet.new("a", "sleep 3").eval()
        thread = threading.Thread(target=sheet.wait)
        thread.start()
        self.until(lambda: sheet._connection.protocol._awaited)
        self.assertRaises(TimedOut, sheet.new, "a", "x")
        thread.join(SECONDS)
        sheet._timeout = SECONDS
        self.assertEqual(sheet.new("a", "y").id, 3)
        self.assertEqual([cell.input for cell in sheet.cells], ["sleep 3", "x", "y"])
        self.assert_exact(sheet)

    def test_the_time_of_an_evaluation(self) -> None:
        """It is that of the reply and the answer together: here the reply is held back for a second."""
        sheet = self.sheet("a", "b")
        sheet.new("a", "sleep 60").eval()
        quick = sheet.new("b", "x")
        thread = threading.Thread(target=sheet.wait, args=(1,))
        thread.start()
        self.until(lambda: sheet._connection.protocol._awaited)
        self.assertRaisesRegex(TimedOut, r"\Aeval: 0\.2 seconds are over\Z", quick.evaluate, timeout=0.2)
        thread.join(SECONDS)
        sheet.wait(60)
        self.assertEqual((quick.text, quick.evaluate(timeout=SECONDS).text), ("x", "x"))

    def test_control_c_reaches_python_alone(self) -> None:
        """The program is in a group of processes of its own."""
        sheet = self.open()
        self.assertEqual(os.getpgid(sheet.pid), sheet.pid)

    def test_a_process_that_does_not_close(self) -> None:
        """The program ends with the process that started it, and keeps what was reported."""
        code = f"import sys; sys.path.insert(0, {os.path.dirname(os.path.dirname(__file__))!r})\nfrom tmhost import Worksheet\n"
        code += f"sheet = Worksheet({self.path!r}, create=True, program={PROGRAM!r})\nsheet.session('a', {WORDS!r})\n"
        code += "print(sheet.new('a', 'x').evaluate(60).text)\n"
        done = subprocess.run([sys.executable, "-c", code], capture_output=True, text=True, timeout=SECONDS)
        self.assertEqual((done.returncode, done.stdout, done.stderr), (0, "x\n", ""))
        self.assertEqual(self.open().cell(1).text, "x")


class Programs(Case):
    """Programs that aren't tmhost, or not this one."""

    def fake(self, text: str) -> List[str]:
        path = os.path.join(self.folder, "fake.sh")
        with open(path, "w") as file:
            file.write(text)
        return ["sh", path]

    HELLO = """echo '{"format":1,"program":"tmhost","protocol":2,"type":"hello","version":"x"}'\n"""
    EMPTY = """read line; echo '{"fields":[],"line":1,"next":1,"sessions":[],"type":"sheet"}'\n"""

    def executable(self, name: str) -> None:
        with open(os.path.join(self.folder, name), "w", encoding="ascii") as file:
            file.write("#!/bin/sh\n")
        os.chmod(file.name, 0o755)

    def test_no_program(self) -> None:
        self.assertRaises(FileNotFoundError, Worksheet, self.path, program=os.path.join(self.folder, "none"))
        before = {name: os.environ.pop(name, None) for name in ("TMHOST", "PATH")}
        try:
            os.environ["PATH"] = self.folder
            with unittest.mock.patch("tmhost.program.own_program", return_value=None):
                self.assertRaises(FileNotFoundError, find_program)
            os.environ["TMHOST"] = "here"
            self.assertRaisesRegex(FileNotFoundError, "TMHOST names no program: here", find_program)
            self.executable("here")
            self.assertEqual(find_program(), "here")
        finally:
            for name, value in before.items():
                os.environ.pop(name, None)
                if value is not None:
                    os.environ[name] = value

    def test_a_create_beside_another(self) -> None:
        """Somebody else makes the worksheet just then: that is as good. But where there is none afterwards, the error says why."""
        refuses = """if [ "$1" = create ]; then %s echo 'fault 34 NotEmpty' >&2; exit 1; fi\n"""
        end = """read line; echo '{"lines":1,"type":"end"}'"""
        with self.assertRaises(Died) as caught:
            Worksheet(self.path, create=True, program=self.fake(refuses % ""))
        self.assertEqual((caught.exception.number, caught.exception.fault), (34, "NotEmpty"))
        program = self.fake(refuses % 'echo >"$2";' + self.HELLO + self.EMPTY + end)
        with Worksheet(self.path, create=True, program=program) as sheet:
            self.assertEqual((sheet.version, sheet.cells), ("x", []))

    def test_an_older_program(self) -> None:
        with self.assertRaises(Died) as caught:
            Worksheet(self.path, program=self.fake("echo 'error: unexpected argument' >&2; exit 2"))
        self.assertEqual((caught.exception.status, caught.exception.number), (2, None))
        self.assertIn("unexpected argument", str(caught.exception))

    def test_another_protocol(self) -> None:
        with self.assertRaises(ProtocolError):
            Worksheet(self.path, program=self.fake(self.HELLO.replace('"protocol":2', '"protocol":3') + "sleep 60"))

    def test_lines_that_are_not_of_the_protocol(self) -> None:
        for line in ("rubbish", "[]", '{"type":"done"}', '{"line":1,"type":"done"}', '{"line":2,"type":"made"}', '{"line":3,"type":"bad"}'):
            with self.subTest(line=line):
                with Worksheet(self.path, program=self.fake(self.HELLO + self.EMPTY + f"read line; echo '{line}'; sleep 60")) as sheet:
                    if line == '{"type":"done"}':  # of a type that isn't known and of no line
                        self.assertRaises(TimedOut, sheet._connection.do, Checkpoint(), 0.3)
                    else:
                        self.assertRaises(ProtocolError, sheet.checkpoint)
                        self.assertIsInstance(sheet.error, ProtocolError)
                    sheet.close(0)

    def test_a_fault_in_the_middle(self) -> None:
        end = """read line; echo '{"name":"Disk","number":21,"type":"fault"}'; echo 'fault 21 Disk' >&2; exit 1"""
        with Worksheet(self.path, program=self.fake(self.HELLO + self.EMPTY + end)) as sheet:
            with self.assertRaises(Died) as caught:
                sheet.checkpoint()
            error = caught.exception
            self.assertEqual((error.number, error.fault, error.told, error.status), (21, "Disk", "fault 21 Disk\n", 1))

    def test_a_fault_that_only_errors_tell(self) -> None:
        with Worksheet(self.path, program=self.fake(self.HELLO + self.EMPTY + "read line; echo 'fault 42 Output' >&2; exit 1")) as sheet:
            with self.assertRaises(Died) as caught:
                sheet.checkpoint()
            self.assertEqual((caught.exception.number, caught.exception.fault), (42, "Output"))

    def test_a_line_that_is_cut_off(self) -> None:
        with Worksheet(self.path, program=self.fake(self.HELLO + self.EMPTY + """read line; printf '{"line":2,"type":"do'""")) as sheet:
            self.assertRaises(Died, sheet.checkpoint)

    def test_an_end_that_takes_its_time(self) -> None:
        """A program that has reported its end isn't killed."""
        mark = os.path.join(self.folder, "mark")
        end = f"""read line; echo '{{"lines":1,"type":"end"}}'; exec >&-; sleep 0.3; echo >{mark}"""
        Worksheet(self.path, program=self.fake(self.HELLO + self.EMPTY + end)).close()
        self.assertTrue(os.path.exists(mark))

    def test_an_opening_that_takes_too_long(self) -> None:
        begun = time.monotonic()
        self.assertRaises(TimedOut, Worksheet, self.path, program=self.fake("sleep 60"), timeout=0.2)
        self.assertLess(time.monotonic() - begun, SECONDS / 2)


if __name__ == "__main__":
    unittest.main()
