"""The command in a pipe: answers in order, notes on standard error, and the status."""
import os
import shlex
import shutil
import signal
import subprocess
import sys
import time
import unittest

from .support import COMMAND, INTERPRETER, LINE_END, PROGRAM, ROOT, Case, Worksheet, children_of, environment, heed_interrupts


class Pipe(Case):
    def test_answers_in_order(self) -> None:
        self.make()
        text = "hello\nsay two\\nlines\n\nsay\n  spaced \nlast"
        self.assertEqual(self.pipe(text, self.sheet, "t"), (0, "hello\ntwo\nlines\n  spaced \nlast\n", ""))
        self.assertEqual(
            self.pairs(), [("hello", "hello"), ("say two\\nlines", "two\nlines"), ("say", ""), ("  spaced ", "  spaced "), ("last", "last")]
        )

    def test_the_session_of_a_worksheet(self) -> None:
        """It needs no name where there is one alone; prose has none that evaluates."""
        self.assertEqual(self.pipe("", "--create", self.sheet), (2, "", "tmhost-repl: name a session and the words of its interpreter (there are: none)\n"))
        self.make()
        self.pipe("%session prose true\n", self.sheet, "t")
        self.assertEqual(self.pipe("hello\n", self.sheet), (0, "hello\n", ""))
        self.pipe("%session u cat\n", self.sheet, "t")
        self.assertEqual(self.pipe("x\n", self.sheet), (2, "", "tmhost-repl: name a session (there are: t, u)\n"))

    def test_a_worksheet_that_cannot_be_opened(self) -> None:
        """It is named, with the fault, what that means and what to do."""
        self.make()
        with open(self.sheet, "r+b") as file:
            file.seek(11)  # the length of the first record
            file.write(b"\xff")
        said = f"it can't be read from byte 10 on; keep both files: `tmhost rescue {self.sheet} NEW` writes what stands before that to a new worksheet"
        self.assertEqual(self.pipe("x\n", self.sheet, "t"), (1, "", f"tmhost-repl: {self.sheet}: fault 30 Damaged at 10: {said}\n"))
        os.truncate(self.sheet, 3)
        self.assertEqual(self.pipe("x\n", self.sheet, "t"), (1, "", f"tmhost-repl: {self.sheet}: fault 31 NotASheet: it is no worksheet, or it was cut or is empty; look at the path\n"))

    def test_a_worksheet_for_which_there_is_no_room(self) -> None:
        """Its files are left empty, which is said, and again where they are in the way. A limit of the size of files stands for a disk that is full."""
        full = os.path.join(self.folder, "full")
        with open(full, "w", encoding="utf-8") as file:
            file.write(f"#!/bin/sh\ntrap '' XFSZ\nulimit -f 0\nexec {shlex.quote(PROGRAM)} \"$@\"\n")
        os.chmod(full, 0o755)
        left = f"tmhost-repl: {self.sheet} and {self.sheet}.alt are empty: remove both, then make the worksheet again\n"
        disk = "fault 32 Disk: it can't be opened, read or written; look at the path, at who may write there, and for room on the disk"
        given = ("x\n", "--create", self.sheet, "t", *INTERPRETER)
        self.assertEqual(self.pipe(*given, TMHOST=full), (1, "", f"tmhost-repl: {self.sheet}: {disk}\n{left}"))
        self.assertEqual([os.path.getsize(self.sheet + end) for end in ("", ".alt")], [0, 0])
        self.assertEqual(self.pipe(*given), (1, "", f"tmhost-repl: {self.sheet}: fault 31 NotASheet: it is no worksheet, or it was cut or is empty; look at the path\n{left}"))
        for end in ("", ".alt"):
            os.unlink(self.sheet + end)
        self.assertEqual(self.pipe(*given), (0, "x\n", ""))

    def test_an_empty_file_beside_one_that_has_something(self) -> None:
        """The second file may be what is left of a worksheet."""
        self.make()
        with open(self.sheet + ".alt", "wb") as file:
            file.write(b"something")
        os.truncate(self.sheet, 0)
        status, out, errors = self.pipe("x\n", self.sheet, "t")
        self.assertEqual((status, out, len(errors.splitlines())), (1, "", 1), errors)

    @unittest.skipUnless(os.path.exists("/dev/full"), "there is no /dev/full")
    def test_a_help_that_cannot_be_written(self) -> None:
        """On a full disk a line says why. Of a pipe whose reader has gone nothing is said: that has seen enough."""
        reader, writer = os.pipe()
        os.close(reader)
        with open("/dev/full", "wb") as full, os.fdopen(writer, "wb") as gone:
            for output, said in ((full, "tmhost-repl: No space left on device\n"), (gone, "")):
                done = subprocess.run([sys.executable, "-B", COMMAND, "--help"], stdout=output, stderr=subprocess.PIPE, text=True)
                self.assertEqual((done.returncode, done.stderr), (1, said))

    @unittest.skipUnless(os.path.exists("/dev/full"), "there is no /dev/full")
    def test_answers_that_cannot_be_written(self) -> None:
        self.make()
        with open("/dev/full", "wb") as full:
            words = [sys.executable, "-B", COMMAND, self.sheet, "t"]
            done = subprocess.run(words, input=b"one\n", stdout=full, stderr=subprocess.PIPE, env=environment(), timeout=300)
        self.assertEqual((done.returncode, done.stderr), (1, b"tmhost-repl: No space left on device\n"))

    def test_what_starts_no_interpreter(self) -> None:
        with Worksheet(self.sheet, create=True, program=PROGRAM) as worksheet:
            worksheet.session("t", INTERPRETER)
            worksheet.session("u", ["tmhost-nothing"])
        status, out, errors = self.pipe("%session u\nx\n", self.sheet, "t")
        self.assertEqual((status, out), (1, ""))
        self.assertTrue(errors.startswith("tmhost-repl: u: there is no program tmhost-nothing\n"), errors)

    def test_bytes_as_they_are(self) -> None:
        """Also those that aren't UTF-8; bytes below 32 as the program shows them."""
        self.make()
        done = subprocess.run(
            [sys.executable, COMMAND, self.sheet, "t"], input=b"bytes e9ff0a\nsay \\x9bm\nsay \\x1b[m\nformula\n", capture_output=True,
            env=environment(),
        )
        self.assertEqual((done.returncode, done.stdout), (0, b"\xe9\xff\n\xc2\x9bm\n\\x1b[m\n{latex:$x$}\n"))

    def test_errors(self) -> None:
        """It is reported which answers are errors; they are answers."""
        self.make()
        self.assertEqual(self.pipe("a\nerror no way\nb\n", self.sheet, "t"), (0, "a\nno way\nb\n", "tmhost-repl: #2 is an error\n"))

    def test_lines_that_go_on(self) -> None:
        self.make()
        self.assertEqual(self.pipe("a\\\nb\\\n\\\nc\nd\\\\\n\ne\\", self.sheet, "t"), (0, "a\nb\n\nc\nd\\\ne\n", ""))
        self.assertEqual([input for input, _ in self.pairs()], [f"a{LINE_END}b{LINE_END}{LINE_END}c", "d\\", "e"])

    def test_a_backslash_of_the_interpreter(self) -> None:
        """The second one of two is its own. gp gets all, but a remark that ends in one ends its line."""
        self.make()
        self.assertEqual(self.pipe("a \\\\\nb\n", self.sheet, "t"), (0, "a \\\nb\n", ""))
        text = "%session u " + " ".join(INTERPRETER) + " adapters/gp\na + \\\nb\nc \\\\ d\\\ne \\\\\nf \\\n\n%session t\ng\\\nh\n"
        self.assertEqual(self.pipe(text, self.sheet, "t"), (0, "a + \\\nb\nc \\\\ d\\\ne \\\\\nf \\\ng\nh\n", ""))

    @unittest.skipUnless(shutil.which("gp"), "there is no gp")
    def test_lines_of_gp_that_go_on(self) -> None:
        text = "x = 1 + \\\n2\nf(n) = \\\nn^2 + x\nf(2)\n{f(n) = \\\n n + \\\n 1}\nf(2) \\\\ a remark\\\n%1\n"
        status, out, errors = self.pipe(text, "--create", self.sheet, "gp", os.path.join(ROOT, "adapters/gp"), "--text")
        self.assertEqual((status, out, errors), (0, "%1 = 3\n%2 = (n)->n^2+x\n%3 = 7\n%4 = (n)->n+1\n%5 = 3\n%6 = 3\n", ""))

    def test_windows_line_ends(self) -> None:
        self.make()
        self.assertEqual(self.pipe("a\r\nb\r\n", self.sheet, "t")[:2], (0, "a\nb\n"))

    def test_a_lost_answer(self) -> None:
        """It is reported, the lines after it are evaluated, and the status is 1."""
        self.make()
        status, out, errors = self.pipe("count\ndie\ncount\n", self.sheet, "t")
        self.assertEqual((status, out), (1, "0\n0\n"))
        self.assertIn("tmhost-repl: lost: #2 (Ended)\n", errors)
        self.assertEqual([(field.state, field.reason) for field in self.fields()], [("answered", None), ("lost", "Ended"), ("answered", None)])

    def test_refused_lines(self) -> None:
        self.make()
        status, out, errors = self.pipe(b"a\n\xff\nb\x01\n" + b"x" * 4096 + b"\n" + b"y" * 70000 + b"\nc\n", self.sheet, "t")
        self.assertEqual((status, out), (1, "a\nc\n"))
        self.assertEqual(errors.count("refused"), 4)
        self.assertIn("tmhost-repl: refused: BadInput (an input has at most 4,095 bytes, and no control characters; cut it into several)\n", errors)
        self.assertEqual(self.pairs(), [("a", "a"), ("c", "c")])

    def test_an_interpreter_that_is_missing(self) -> None:
        with Worksheet(self.sheet, create=True, program=PROGRAM) as worksheet:
            worksheet.session("x", ["/nonexistent/program"])
        status, out, errors = self.pipe("a\n", self.sheet, "x", "/nonexistent/program")
        self.assertEqual((status, out), (1, ""))
        self.assertIn("lost: #1 (StartRefused)", errors)

    def test_a_program_that_is_misspelt(self) -> None:
        """Neither the worksheet nor the session is made, so the right words are taken then."""
        meant = "tmhost-repl: py: there is no program tmhost-pyhton: is tmhost-python meant?\n"
        self.assertEqual(self.pipe("1\n", "--create", self.sheet, "py", "tmhost-pyhton"), (2, "", meant))
        self.assertEqual(self.pipe("1\n", "--create", self.sheet, "py", "/nonexistent/program")[:2], (2, ""))
        self.assertEqual(os.listdir(self.folder), [])
        self.make()
        self.assertEqual(self.pipe("1\n", self.sheet, "py", "tmhost-pyhton"), (2, "", meant))
        self.assertEqual(self.pipe("%session py tmhost-pyhton\na\n", self.sheet, "t"), (1, "a\n", meant))
        self.assertEqual(self.pipe("1\n", self.sheet, "py", "tmhost-python"), (0, "1\n", ""))

    def test_words_make_a_session(self) -> None:
        self.assertEqual(self.pipe("a\n", "--create", self.sheet, "t", *INTERPRETER)[:2], (0, "a\n"))
        self.assertEqual(self.pipe("b\n", self.sheet, "t")[:2], (0, "b\n"))
        self.assertEqual(self.pipe("c\n", self.sheet, "t", *INTERPRETER)[:2], (0, "c\n"))
        self.assertEqual(self.pairs(), [("a", "a"), ("b", "b"), ("c", "c")])

    def test_words_that_are_refused(self) -> None:
        self.assertEqual(self.pipe("a\n", self.sheet, "t", "cat")[0], 2)
        self.assertFalse(os.path.exists(self.sheet))
        self.make()
        for words in (["u"], ["t", "cat"], ["--tab", "t", *INTERPRETER], ["a/b", "cat"], ["u", "a b"]):
            flags = [word for word in words if word == "--tab"]
            status, out, errors = self.pipe("a\n", *flags, self.sheet, *[word for word in words if word != "--tab"])
            self.assertEqual((status, out, bool(errors)), (2, "", True), words)
        self.assertEqual(self.fields(), [])

    def test_commands_that_are_misspelled(self) -> None:
        """They are no fields: each says which command is meant, and how it is sent all the same. Other words go to the interpreter."""
        self.make()
        status, out, errors = self.pipe("%sesion t\n%lsit\n %sesion\n%ls\n%store\n%\n%sessions x\n", self.sheet, "t")
        self.assertEqual((status, out), (1, " %sesion\n%ls\n%store\n%\n"))
        meant = [f"{given}: is {command} meant? A space in front sends it" for given, command in (("%sesion", "%session"), ("%lsit", "%list"))]
        self.assertEqual(errors.splitlines(), [f"tmhost-repl: {said}" for said in (*meant, "it is %sessions")])
        self.assertEqual([field.input for field in self.fields()], [" %sesion", "%ls", "%store", "%"])

    def test_the_version(self) -> None:
        said = subprocess.run([PROGRAM, "--version"], stdout=subprocess.PIPE, text=True, check=True).stdout
        self.assertEqual(self.pipe("", "--version"), (0, f"tmhost-repl: {said}", ""))

    def test_an_interrupt_while_it_reads_its_modules(self) -> None:
        """It ends in silence. A module that it imports sends the signal."""
        with open(os.path.join(self.folder, "argparse.py"), "w", encoding="ascii") as file:
            file.write("import os, signal, time\nos.kill(os.getpid(), signal.SIGINT)\ntime.sleep(60)\n")
        words = [sys.executable, "-B", COMMAND, self.sheet]
        done = subprocess.run(words, capture_output=True, env=environment(PYTHONPATH=self.folder), preexec_fn=heed_interrupts)
        self.assertEqual((done.returncode, done.stdout, done.stderr), (130, b"", b""))

    def test_no_worksheet(self) -> None:
        with open(self.sheet, "w", encoding="ascii") as file:
            file.write("this is no worksheet at all")
        status, out, errors = self.pipe("a\n", self.sheet, "t")
        self.assertEqual((status, out), (1, ""))
        self.assertIn("NotASheet", errors)
        self.assertEqual(self.pipe("a\n", "--create", self.sheet + "2", "t", "cat", TMHOST="/nonexistent/tmhost")[0], 1)

    def test_one_at_a_time(self) -> None:
        self.make()
        beside = subprocess.Popen([sys.executable, COMMAND, self.sheet, "t"], stdin=subprocess.PIPE, stdout=subprocess.PIPE, env=environment())
        with beside:
            assert beside.stdin and beside.stdout
            beside.stdin.write(b"a\n")
            beside.stdin.flush()
            self.assertEqual(beside.stdout.readline(), b"a\n")
            status, out, errors = self.pipe("b\n", self.sheet, "t")
            self.assertEqual((status, out), (1, ""))
            self.assertIn("InUse", errors)

    def test_nobody_reads(self) -> None:
        self.make()
        with subprocess.Popen(
            [sys.executable, COMMAND, self.sheet, "t"], stdin=subprocess.PIPE, stdout=subprocess.PIPE, stderr=subprocess.PIPE, env=environment()
        ) as command:
            assert command.stdin and command.stdout and command.stderr
            command.stdout.close()
            command.stdin.write(b"a\nb\nc\n")
            command.stdin.close()
            self.assertEqual((command.stderr.read(), command.wait(120)), (b"", 1))
        self.assertEqual(self.pairs()[0], ("a", "a"))


class Commands(Case):
    def test_list_and_sessions(self) -> None:
        self.make(True, "a", f"b{LINE_END}c")
        status, out, errors = self.pipe("%list\ndie\n%list\n%sessions\n%help\n", self.sheet, "t")
        two = ["#1 t", "> a", "?", "#2 t", "> b", "  c", "?"]
        self.assertEqual(out.splitlines()[:17], [*two, *two, "#3 t", "> die", "? Ended"])
        self.assertIn(f"* t: {' '.join(INTERPRETER)} (not running, completes at TAB)\n", out)
        for word in ("list", "eval-all", "from", "stop", "interrupt", "sessions", "session", "remove", "help", "quit"):
            self.assertRegex(out, rf"(?m)^%{word} ")
        self.assertEqual(status, 1)

    def test_eval_all(self) -> None:
        self.make(False, "count", "count", "count")
        self.assertEqual(self.pipe("%eval-all\n%from 2\n%eval-all\n", self.sheet, "t"), (0, "0\n1\n2\n3\n4\n5\n6\n7\n", ""))
        self.assertEqual(self.pairs(), [("count", "5"), ("count", "6"), ("count", "7")])

    def test_an_end_within_eval_all(self) -> None:
        """Those after it aren't evaluated, so they keep their answers."""
        self.make(False, "a", "b", "c")
        self.pipe("%eval-all\n", self.sheet, "t")
        self.pipe("%session t\n", self.sheet, "t")
        script = "%remove 2\ndie\n"
        self.assertEqual(self.pipe(script, self.sheet, "t")[0], 1)
        status, out, errors = self.pipe("x\n%remove 1\n%eval-all\n", self.sheet, "t")
        self.assertEqual((status, out), (1, "x\nc\n"))
        self.assertIn("not evaluated: 1 more, from #5 on", errors)
        self.assertEqual(self.pairs(), [("c", "c"), ("die", None), ("x", "x")])

    def test_another_session(self) -> None:
        self.make()
        status, out, errors = self.pipe(f"count\n%session u {' '.join(INTERPRETER)}\ncount\n%session t\ncount\n%session no\n", self.sheet, "t")
        self.assertEqual((status, out), (1, "0\n0\n1\n"))
        self.assertIn("there is no session no", errors)
        self.assertEqual([field.session for field in self.fields()], ["t", "u", "t"])

    def test_stop_and_interrupt(self) -> None:
        self.make()
        status, out, errors = self.pipe("count\n%interrupt\n%stop\n%stop\ncount\n", self.sheet, "t")
        self.assertEqual((status, out), (0, "0\n0\n"))
        self.assertIn("interrupt: idle", errors)
        self.assertIn("has ended: Stopped", errors)
        self.assertIn("no interpreter runs", errors)

    def test_what_is_no_command(self) -> None:
        """It goes to the interpreter."""
        self.make()
        self.assertEqual(self.pipe("%1\n%listing\n %list\n%list\\\nx\n%\n", self.sheet, "t"), (0, "%1\n%listing\n %list\n%list\nx\n%\n", ""))

    def test_mistakes(self) -> None:
        self.make(False, "a")
        status, out, errors = self.pipe("%list 1\n%from\n%from 7\n%from x\n%remove -1\n%remove\n%session\n%quit\nb\n", self.sheet, "t")
        self.assertEqual((status, out, errors.count("\n")), (1, "", 7))
        self.assertEqual(self.pairs(), [("a", None)])


class Interrupts(Case):
    def start(self) -> "subprocess.Popen[bytes]":
        self.make()
        return subprocess.Popen(
            [sys.executable, COMMAND, self.sheet, "t"], stdin=subprocess.PIPE, stdout=subprocess.PIPE, stderr=subprocess.PIPE, env=environment(),
            preexec_fn=heed_interrupts,
        )

    def test_an_interrupt_keeps_the_variables(self) -> None:
        with self.start() as command:
            assert command.stdin and command.stdout
            command.stdin.write(b"a\nloop\ncount\n")
            command.stdin.flush()
            self.assertEqual(command.stdout.readline(), b"a\n")
            time.sleep(0.7)
            command.send_signal(signal.SIGINT)
            self.assertEqual([command.stdout.readline(), command.stdout.readline()], [b"interrupted\n", b"2\n"])
            command.stdin.close()
            self.assertEqual(command.wait(120), 0)

    def test_a_second_one_stops(self) -> None:
        with self.start() as command:
            assert command.stdin and command.stdout and command.stderr
            command.stdin.write(b"a\nstuck\ncount\n")
            command.stdin.close()
            self.assertEqual(command.stdout.readline(), b"a\n")
            time.sleep(0.7)
            command.send_signal(signal.SIGINT)
            self.assertIn(b"interrupt: sent", command.stderr.readline())
            command.send_signal(signal.SIGINT)
            self.assertEqual((command.stdout.read(), command.wait(120)), (b"0\n", 1))
        self.assertEqual([field.reason for field in self.fields()], [None, "Stopped", None])

    def test_while_nothing_runs_it_ends(self) -> None:
        with self.start() as command:
            assert command.stdin and command.stdout
            command.stdin.write(b"a\n")
            command.stdin.flush()
            self.assertEqual(command.stdout.readline(), b"a\n")
            time.sleep(0.3)
            command.send_signal(signal.SIGINT)
            self.assertEqual(command.wait(120), 130)
        self.assertEqual(self.pairs(), [("a", "a")])

    def test_several_end_it(self) -> None:
        """Also where the program doesn't reply: it is stopped here, so it is killed at the end."""
        with self.start() as command:
            assert command.stdin and command.stdout and command.stderr
            command.stdin.write(b"a\n")
            command.stdin.flush()
            self.assertEqual(command.stdout.readline(), b"a\n")
            program = children_of(command.pid)[0]
            os.kill(program, signal.SIGSTOP)
            command.stdin.write(b"b\n")
            command.stdin.flush()
            time.sleep(0.3)
            for _ in range(4):
                command.send_signal(signal.SIGINT)
                time.sleep(0.1)
            self.assertEqual(command.wait(120), 130)
        self.assertEqual(self.pairs()[0], ("a", "a"))
