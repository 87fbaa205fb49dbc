"""The command at a terminal: what is shown after what is typed."""
import os
import re
import shutil
import signal
import termios
import time
import unittest

from .support import INTERPRETER, LINE_END, ROOT, Case, Terminal

PASTE = "\x1b[200~{}\x1b[201~"


class Lines(Case):
    def test_the_prompt_of_the_interpreter(self) -> None:
        """It takes the place of ours when it is reported, and the banner stands in front of the first line. Later lines are typed at it."""
        self.make()
        terminal = self.terminal()
        terminal.sees(r"\A\(%help says what else can be typed\)\nt>\Z")
        terminal.send("hello\r")
        terminal.sees(r"\A\(%help says what else can be typed\)\nTester 1\.0\n1\] hello\nhello\n2\]\Z")
        terminal.send("say a\\nb\r")
        terminal.sees(r"\A\(%help says what else can be typed\)\nTester 1\.0\n1\] hello\nhello\n2\] say a\\nb\na\nb\n3\]\Z")
        terminal.send("\r")
        terminal.sees(r"^3\]\n3\]\Z")
        terminal.send("\x04")
        self.assertEqual(terminal.ends(), 0)
        self.assertEqual(self.pairs(), [("hello", "hello"), ("say a\\nb", "a\nb")])

    def test_a_line_at_its_own_prompt(self) -> None:
        """It isn't written again, so an answer is shown alone."""
        self.make()
        terminal = self.terminal()
        terminal.sees("t>")
        terminal.send("hello\r")
        terminal.sees(r"^hello\n2\]\Z")
        for number, text in ((2, "a b"), (3, "e\u0301"), (4, "y" * 77), (5, "x" * 100)):
            terminal.send(text + "\r")
            terminal.sees(rf"{text[-9:]}\n+{re.escape(text[:9])}[^\]]*\n{number + 1}\]\Z")
            self.assertEqual(terminal.screen.text().count(f"{number}]"), 1)
        terminal.send("one\\\rtwo\r")
        terminal.sees(r"^6\] one\n   two\none\ntwo\n7\]\Z")

    def test_no_prompt_of_an_interpreter_that_has_ended(self) -> None:
        self.make()
        terminal = self.terminal()
        terminal.sees("t>")
        terminal.send("a\r")
        terminal.sees(r"^a\n2\]\Z")
        terminal.send("die\r")
        terminal.sees(r"^2\] die\n\(the interpreter of t has ended.*\n\(lost: #2 \(Ended\)\)\nt>\Z")
        terminal.send("b\r")
        terminal.sees(r"^1\] b\nb\n2\]\Z")
        terminal.send("%stop\r")
        terminal.sees(r"ended: Stopped.*\nt>\Z")

    def test_what_it_has_written_before_its_end(self) -> None:
        """That may be why it has ended. Nothing of it steers the terminal, and what it wrote for an answer is gone."""
        self.make()
        terminal = self.terminal(columns=400)
        terminal.sees("t>")
        terminal.send(f"work {self.folder}\r")
        terminal.sees(r"^all of it\n2\]\Z")
        terminal.send("die\r")
        terminal.sees(r"variables are gone\)\n\(lost: #2 \(Ended\)\)\nt>\Z")
        terminal.send("die no \\x9blicence\\x0aat all\r")
        terminal.sees(r"variables are gone\)\n\(it had written: no \\x9blicence\nat all\)\n\(lost: #3 \(Ended\)\)\nt>\Z")

    def test_prompts_beside_other_sessions(self) -> None:
        """There the name of the session says whom a line goes to."""
        self.make()
        terminal = self.terminal(columns=400)
        terminal.sees("t>")
        terminal.send("a\r")
        terminal.sees(r"^a\n2\]\Z")
        terminal.send(f"%session u {' '.join(INTERPRETER)}\r")
        terminal.sees(r"^u>\Z")
        terminal.send("b\r")
        terminal.sees(r"^1\] b\nb\nu>\Z")
        terminal.send("%session t\r")
        terminal.sees(r"^t>\Z")
        terminal.send("count\r")
        terminal.sees(r"^2\] count\n1\nt>\Z")

    def test_prompts_that_no_line_is_typed_at(self) -> None:
        """Those that are blank, of several rows or wide; nothing of one steers the terminal."""
        self.make()
        terminal = self.terminal(columns=90)
        terminal.sees("t>")
        for prompt, shown in (
            (r"\x20\x20", "t>"),
            (r"a\nb>\x20", "t>"),
            (r"a\x09>", "t>"),
            (r"\u4e2d" * 21, "t>"),
            (r"\u4e2d" * 20, "\u4e2d" * 20),
            (r"\x1b[31mred\x9b>\x20", r"\x1b[31mred\x9b>"),
        ):
            terminal.send(f"prompt {prompt}\r")
            terminal.sees(rf"^ok\n{re.escape(shown)}\Z")

    def test_errors(self) -> None:
        """The note below says it in words."""
        self.make()
        terminal = self.terminal()
        terminal.sees("t>")
        terminal.send("error no way\r")
        terminal.sees(r"^Tester 1\.0\n1\] error no way\nno way\n\(#1 is an error\)\n2\]\Z")
        terminal.send("%list\r")
        terminal.sees(r"no way\n\(#1 is an error\)\n2\] %list\n#1 t\n1\] error no way\nno way\n\(#1 is an error\)\n2\]\Z")

    def test_what_comes_before_the_answer(self) -> None:
        """The last line of it is seen while the line is evaluated, and nothing of it stays."""
        self.make()
        terminal = self.terminal()
        terminal.sees("t>")
        there = os.path.join(self.folder, "there")
        terminal.send(f"work {there}\r")
        terminal.sees(r"^half of it\Z")
        with open(there, "w", encoding="ascii"):
            pass
        terminal.sees(rf"\A\(%help says what else can be typed\)\nTester 1\.0\n1\] work {re.escape(there)}\nall of it\n2\]\Z")
        terminal.send("\x04")
        self.assertEqual(terminal.ends(), 0)

    def test_a_line_that_goes_on(self) -> None:
        self.make()
        terminal = self.terminal()
        terminal.sees("t>")
        terminal.send("one\\\r")
        terminal.sees(r"^t> one\\\n..>\Z")
        terminal.send("two\r")
        terminal.sees(r"^1\] one\n   two\none\ntwo\n2\]\Z")
        self.assertEqual(terminal.screen.text().count("one"), 2)

    def test_pasted_lines(self) -> None:
        self.make()
        terminal = self.terminal()
        terminal.sees("t>")
        terminal.send(PASTE.format("one\rtwo\r\r  three\r"))
        terminal.send("\r")
        terminal.sees(r"^1\] one\n   two\n\n     three\none\ntwo\n\n  three\n2\]\Z")
        terminal.send("\x04")
        terminal.ends()
        self.assertEqual(self.pairs(), [(f"one{LINE_END}two{LINE_END}{LINE_END}  three", "one\ntwo\n\n  three")])

    def test_long_lines(self) -> None:
        """One that takes several rows is written again as well, and of one that just fills its row the prompt alone is shown, where that is another."""
        self.make()
        terminal = self.terminal(columns=20)
        terminal.sees("t>")
        terminal.send("x" * 30 + "\r")
        terminal.sees(r"\A\(%help says what els\ne can be typed\)\nTester 1\.0\n1\] x{17}\nx{13}\nx{20}\nx{10}\n2\]\Z")
        terminal.send("y" * 17 + "\r")
        terminal.sees(r"^2\] y{17}\n+y{17}\n3\]\Z")
        terminal.send("%stop\r")
        terminal.sees(r"^t>\Z")
        terminal.send("y" * 17 + "\r")
        terminal.sees(r"^t> y{17}\n+Tester 1\.0\n1\]\ny{17}\n2\]\Z")

    def test_a_terminal_that_steers_nothing(self) -> None:
        self.make()
        terminal = self.terminal(TERM="dumb")
        terminal.sees("t>")
        terminal.send("hello\r")
        terminal.sees(r"hello\n+Tester 1\.0\n1\]\nhello\n2\]")

    def test_what_is_typed_early(self) -> None:
        """It isn't shown while a line is evaluated, and is the next line then."""
        self.make()
        terminal = self.terminal()
        terminal.sees("t>")
        terminal.send("sleep 1\r")
        terminal.sees("Tester")
        time.sleep(0.3)
        terminal.send("next\r")
        time.sleep(0.2)
        self.assertNotIn("next", terminal.screen.text())
        terminal.sees(r"^1\] sleep 1\nslept\n2\] next\nnext\n3\]\Z")

    def test_hostile_outputs(self) -> None:
        """Nothing of an output or of a prompt reaches the terminal as what steers it."""
        self.make()
        terminal = self.terminal()
        terminal.sees("t>")
        for text in ("\\x1b[2J\\x1b[31mred", "\\x9b2J", "\\u202eback", "\\x07\\r\\x08\\x0e", "\\x1b]0;title\\x07"):
            terminal.send(f"say {text}\r")
        shown = terminal.sees(r"\\x1b\]0;title\\x07\n6\]\Z")
        for text in (r"\x1b[2J\x1b[31mred", r"\x9b2J", r"\u202eback", r"\x07\x0d\x08\x0e"):
            self.assertIn("\n" + text + "\n", shown)
        self.assertTrue(shown.startswith("(%help says what else can be typed)\nTester 1.0\n1] say"))

    def test_an_output_from_a_pipe(self) -> None:
        """Lines that come from a pipe steer the terminal as little."""
        self.make()
        lines = os.path.join(self.folder, "lines")
        with open(lines, "w", encoding="utf-8") as file:
            file.write("say \\x9b2J\\u202ex\n")
        terminal = self.terminal(self.sheet, "t", input=lines)
        terminal.sees(r"\A\\x9b2J\\u202ex\Z")
        self.assertEqual(terminal.ends(), 0)

    def test_history(self) -> None:
        """It has the inputs of this session, of earlier days too, and of no other one."""
        self.make(False, "first", f"two{LINE_END}lines")
        terminal = self.terminal()
        terminal.sees("t>")
        terminal.send("third\r")
        terminal.sees(r"^third\n2\]\Z")
        terminal.send("\x1b[A")
        terminal.sees(r"^2\] third\Z")
        terminal.send("\x1b[A")
        terminal.sees(r"^2\] two\nlines\Z")
        terminal.send("\x1b[A")
        terminal.sees(r"^2\] first\Z")
        terminal.send(" again\r")
        terminal.sees(r"^2\] first again\nfirst again\n3\]\Z")
        terminal.send(f"%session u {' '.join(INTERPRETER)}\r")
        terminal.sees(r"^u>\Z")
        terminal.send("\x1b[A" + "new\r")
        terminal.sees(r"^1\] new\nnew\nu>\Z")

    def test_a_lost_answer(self) -> None:
        self.make()
        terminal = self.terminal()
        terminal.sees("t>")
        terminal.send("die\r")
        terminal.sees(r"\(the interpreter of t has ended: Ended; its variables are gone\)\n\(lost: #1 \(Ended\)\)\nt>\Z")
        terminal.send("count\r")
        terminal.sees(r"^1\] count\n0\n2\]\Z")
        terminal.send("%quit\r")
        self.assertEqual(terminal.ends(), 0)

    def test_eval_all(self) -> None:
        self.make(False, "count", f"a{LINE_END}b")
        terminal = self.terminal()
        terminal.sees("t>")
        terminal.send("%eval-all\r")
        terminal.sees(r"^#1 t\nTester 1\.0\n1\] count\n0\n#2 t\n2\] a\n   b\na\nb\n3\]\Z")
        terminal.send("%list\r%remove 1\r%list\r")
        terminal.sees(r"(?s)^#1 t\n1\] count\n0\n#2 t.*%remove 1\n.*%list\n#2 t\n2\] a\n   b\na\nb\n3\]\Z")


class Control(Case):
    def test_control_c_at_the_prompt(self) -> None:
        """It gives the line up."""
        self.make()
        terminal = self.terminal()
        terminal.sees("t>")
        terminal.send("never")
        terminal.sees(r"^t> never\Z")
        terminal.gives_up()
        terminal.sees(r"never.*\nt>\Z")
        terminal.send("one\\\rtwo")
        terminal.sees(r"two\Z")
        terminal.gives_up()
        terminal.sees(r"two.*\nt>\Z")
        terminal.send("ever\r")
        terminal.sees(r"^ever\n2\]\Z")
        terminal.send("\x04")
        terminal.ends()
        self.assertEqual(self.pairs(), [("ever", "ever")])

    def test_interrupt(self) -> None:
        self.make()
        terminal = self.terminal()
        terminal.sees("t>")
        for number in (1, 2):
            terminal.send("loop\r")
            terminal.sees("Tester" if number == 1 else r"interrupted\n")
            time.sleep(0.7)
            terminal.send("\x03")
            reported = r"1\]\n" if number == 1 else ""  # the second line was typed at its prompt
            terminal.sees(rf"interrupt: sent.*\n{reported}interrupted\n{number + 1}\]\Z")
        terminal.send("count\r")
        terminal.sees(r"^3\] count\n2\n4\]\Z")

    def stuck(self) -> Terminal:
        """Its lines are long, since the interpreter is shown, whose path may be."""
        self.make()
        terminal = self.terminal(columns=400)
        terminal.sees("t>")
        terminal.send("stuck 3\r")
        terminal.sees("Tester")
        time.sleep(0.7)
        terminal.send("\x03")
        terminal.sees("interrupt: sent")
        terminal.send("what is typed before it is no answer\x03")
        terminal.sees(r"Stop the interpreter of t\?.*\Z")
        return terminal

    def test_a_second_one_asks_to_stop(self) -> None:
        terminal = self.stuck()
        terminal.send("y\r")
        terminal.sees(r"lost: #1 \(Stopped\)\)\nt>\Z")

    def test_a_third_one_stops(self) -> None:
        terminal = self.stuck()
        # The question is on the screen a moment before a signal ends the wait for its answer.
        time.sleep(0.3)
        terminal.send("\x03")
        terminal.sees(r"lost: #1 \(Stopped\)\)\nt>\Z")

    def test_no_stop(self) -> None:
        terminal = self.stuck()
        terminal.send("n\r")
        terminal.sees(r"^1\]\nslept\n2\]\Z")

    def test_left_running(self) -> None:
        """Its answer is shown when the next prompt is, and it can be stopped meanwhile."""
        terminal = self.stuck()
        terminal.send("l\r")
        terminal.sees(r"runs on.*\nt>\Z")
        terminal.send("%sessions\r")
        terminal.sees(r"running, 1 waiting\)\nt>\Z")
        terminal.send("%interrupt\r")
        terminal.sees(r"interrupt: sent\)\nt>\Z")
        terminal.send("count\r")
        terminal.sees(r"the answer of #1:\)\n1\]\nslept\n2\]\n1\n3\]\Z")
        terminal.send("stuck\r")
        time.sleep(0.7)
        terminal.send("\x03")
        terminal.sees(r"(?s)slept.*interrupt: sent")
        terminal.send("\x03")
        terminal.sees(r"(?s)slept.*Stop the.*:\Z")
        terminal.send("l\r")
        terminal.sees(r"#3 runs on.*\nt>\Z")
        terminal.send("\x04")
        terminal.sees(r"1 still waiting.*\Z")
        terminal.send("n\r")
        terminal.sees(r"\nt>\Z")
        terminal.send("%stop\r")
        terminal.sees(r"lost: #3 \(Stopped\)\)\nt>\Z")


    def test_a_signal_that_ends_it(self) -> None:
        """The terminal is left as it was."""
        self.make()
        terminal = self.terminal()
        terminal.sees("t>")
        terminal.send("stuck\r")
        terminal.sees("Tester")
        time.sleep(0.5)
        self.assertFalse(termios.tcgetattr(terminal.end)[3] & termios.ECHO)
        os.kill(terminal.pid, signal.SIGTERM)
        self.assertEqual(terminal.ends(), 128 + signal.SIGTERM)
        self.assertTrue(termios.tcgetattr(terminal.end)[3] & termios.ECHO)
        self.assertEqual([field.state for field in self.fields()], ["empty"])


class Completions(Case):
    def test_one_completion(self) -> None:
        self.make(True)
        terminal = self.terminal()
        terminal.sees("t>")
        terminal.send("lo\t")
        terminal.sees(r"^t> loop\Z")
        terminal.send("\x15say \u00e9 sl\t")
        terminal.sees(r"^t> say \u00e9 sleep\Z")
        terminal.send("\r")
        terminal.sees(r"\] say \u00e9 sleep\n\u00e9 sleep\n2\]\Z")
        terminal.send("\x04")
        terminal.ends()
        self.assertEqual(self.pairs(), [("say \u00e9 sleep", "\u00e9 sleep")])

    def test_within_a_line_and_in_a_second_one(self) -> None:
        self.make(True)
        terminal = self.terminal()
        terminal.sees("t>")
        terminal.send("fo end\x01\x1b[C\x1b[C\t")
        terminal.sees(r"^t> formula end\Z")
        terminal.send("\x05\\\rdi\t")
        terminal.sees(r"^..> die\Z")
        terminal.send(" not\r")
        terminal.sees(r"^1\] formula end\n   die not\n\{latex:\$x\$\}\n2\]\Z")

    def test_several_completions(self) -> None:
        self.make(True)
        terminal = self.terminal()
        terminal.sees("t>")
        terminal.send("s\t\t")
        terminal.sees(r"^say  sleep  stuck\nt> s\Z")
        terminal.send("l\t 0\r")
        terminal.sees(r"\] sleep 0\nslept\n2\]\Z")

    def test_names_of_python(self) -> None:
        """By the adapter: what a line has made, and what an object has."""
        terminal = self.terminal("--create", "--tab", self.sheet, "py", os.path.join(ROOT, "adapters/python"))
        terminal.sees("py>")
        terminal.send("import os; naming = 1\r")
        terminal.sees(r"naming = 1\nIn \[2\]:\Z")
        terminal.send("nami\t")
        terminal.sees(r"^In \[2\]: naming\Z")
        terminal.send(" + len(os.getc\t")
        terminal.sees(r"^In \[2\]: naming \+ len\(os.getcwd\Z")
        terminal.send("\t\t")
        terminal.sees(r"os.getcwd  os.getcwdb\nIn \[2\]: naming \+ len\(os.getcwd\Z")
        terminal.send("\x15nami\t * 2\r")
        terminal.sees(r"^In \[2\]: naming \* 2\n2\nIn \[3\]:\Z")

    @unittest.skipUnless(shutil.which("gp"), "there is no gp")
    def test_names_of_gp(self) -> None:
        terminal = self.terminal("--create", "--tab", self.sheet, "gp", os.path.join(ROOT, "adapters/gp"), "--text")
        terminal.sees("gp>")
        terminal.send("naming(t) = t^2 + 1\r")
        terminal.sees(r"\(t\)->t\^2\+1\n\?\Z")
        terminal.send("nami\t(3)\r")
        terminal.sees(r"^\? naming\(3\)\n%2 = 10\n\?\Z")
        terminal.send("ellini\t([0,1]).dis\t\r")
        terminal.sees(r"^\? ellinit\(\[0,1\]\).disc\n%3 = -432\n\?\Z")

    def test_a_line_that_is_given_up(self) -> None:
        """Its cell goes."""
        self.make(True)
        terminal = self.terminal()
        terminal.sees("t>")
        # The first TAB starts the interpreter, whose prompt is known after the next line.
        for prompt, end, shows in (("t>", "\x03", r"\nt>\Z"), ("t>", "\x15%list\r", r"^t> %list\n1\]\Z"), (r"1\]", "\x15\x04", "")):
            terminal.send("lo\t")
            terminal.sees(rf"^{prompt} loop\Z")
            if end == "\x03":
                terminal.gives_up()
            else:
                terminal.send(end)  # what is typed while no line is read is taken otherwise: so the next prompt is waited for
            if shows:
                self.assertNotIn("#", terminal.sees(shows))
        self.assertEqual(terminal.ends(), 0)
        self.assertEqual(self.pairs(), [])

    def test_commands(self) -> None:
        """Words of %; the words of a session, which are listed, are as long as the path of this folder."""
        self.make(False)
        terminal = self.terminal(columns=400)
        terminal.sees("t>")
        terminal.send("%ses\ts\t")
        terminal.sees(r"^t> %sessions\Z")
        terminal.send("\r")
        terminal.sees(r"not running\)\nt>\Z")

    def test_a_session_without(self) -> None:
        self.make(False)
        terminal = self.terminal()
        terminal.sees("t>")
        terminal.send("\tlo\t\top\b\b")
        terminal.sees(r"^t> lo\Z")
        terminal.send("\x15\x04")
        terminal.ends()
        self.assertEqual(self.pairs(), [])


class Opening(Case):
    def test_a_new_worksheet(self) -> None:
        terminal = self.terminal(self.sheet, "t", *INTERPRETER, columns=300)
        terminal.sees("There is no worksheet.*Make it")
        terminal.send("n\r")
        self.assertEqual(terminal.ends(), 2)
        self.assertFalse(os.path.exists(self.sheet))
        terminal = self.terminal(self.sheet, "t", *INTERPRETER, columns=300)
        terminal.sees("Make it")
        terminal.send("y\r")
        terminal.sees("t>")
        terminal.send("hello\r")
        terminal.sees(r"^hello\n2\]\Z")
        terminal.send("\x04")
        self.assertEqual(terminal.ends(), 0)
        self.assertEqual(self.pairs(), [("hello", "hello")])

    def test_answers_that_are_there(self) -> None:
        self.make()
        self.pipe("a\nb\n", self.sheet, "t")
        self.terminal().sees(r"\A\(2 answers are there, but not their variables.*\)\n\(%help says what else can be typed\)\nt>\Z")
