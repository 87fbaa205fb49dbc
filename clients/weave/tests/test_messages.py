"""What standard error says: why an interpreter ended and where, what was evaluated, and what keeps a weave from its end."""
import os
import re
import shutil
import signal
import stat
import subprocess
import sys
import time
from typing import List, Optional, Tuple
from unittest import mock

from .support import COMMAND, KEPT, PROGRAM, ROOT, Case, answers, command_words, environment, fences, heed_interrupts

from tmhost_fences.troubles import Trouble
from tmhost_weave import sheets
from tmhost_weave.weaving import Weave


def line_of(text: str, line: str) -> int:
    return text.split("\n").index(line) + 1


class Messages(Case):
    def said(self, text: str, *words: str) -> Tuple[int, List[str]]:
        """The status, and what is said of the text."""
        self.write(text)
        done = self.run_weave(*words, self.text)
        start = f"{self.text}: "
        lines = done.errors.split("\n")[:-1]
        self.assertTrue(all(line.startswith(start) for line in lines), lines)
        return done.status, [line[len(start) :] for line in lines]


class Ends(Messages):
    def script(self, text: str) -> List[str]:
        self.write(text + "\n", self.place("own.sh"))
        return ["sh", self.place("own.sh")]

    def test_at_its_start(self) -> None:
        """Of any words, how they end and what they say, once for a session, directly after the first field that has no answer."""
        for script, how in (
            ("echo one >&2; echo boom >&2; exit 3", "ended with status 3: one | boom"), ("exit 0", "ended with status 0"), ("kill -SEGV $$", "was ended by SIGSEGV"),
            ("for at in 1 2 3 4; do echo $at >&2; done; exit 1", "ended with status 1: 2 | 3 | 4"),
        ):
            with self.subTest(script):
                words = self.script(script)
                status, said = self.said(self.front("a", x=words) + fences([("x", "u\nv\nw"), ("a", "y"), ("x {pure}", "u")]))
                woven = self.read()
                first = line_of(woven, "u")
                self.assertEqual((status, woven.count("```tmhost-no-answer\nno answer: Ended\n```")), (1, 2))
                self.assertEqual(said[-4:-1], [
                    f"line {first}: x: no answer: its interpreter ended at its start", f"x: {' '.join(words)} {how}",
                    f"2 later fields of x aren't evaluated (lines {first + 1} to {first + 2})",
                ])
                self.assertRegex(said[-1], r"\Aline \d+: x \{pure\}: no answer: its interpreter ended at its start\Z")
                os.remove(self.sheet)
        status, said = self.said(self.front(x=["sh", self.place("nothere.sh")]) + fences([("x", "u")]))
        self.assertRegex(said[-1], r"\Ax: sh \S+/nothere\.sh ended with status [1-9]\d*: .*nothere\.sh")

    def test_by_its_code(self) -> None:
        """Its interpreter isn't started once more."""
        words = self.script(f"echo start >>{self.place('starts')}\nprintf '\\002verbatim:\\005'\nread line\necho its end >&2\nexit 3")
        status, said = self.said(self.front(x=words) + fences([("x", "u\nv\nw")]))
        at = line_of(self.read(), "u")
        self.assertEqual((status, said), (1, [
            "x: 0 evaluated, 3 without an answer", f"line {at}: x: no answer: its interpreter ended at this code (where that is meant: {{ends}} at its fence)", f"2 later fields of x aren't evaluated (lines {at + 1} to {at + 2})",
        ]))
        self.assertEqual(self.read(self.place("starts")), "start\n")
        status, said = self.said(self.front("a") + fences([("a", "x"), ("a", "die"), ("a", "y")]))
        at = line_of(self.read(), "die")
        self.assertEqual((status, said[1:]), (1, [f"line {at}: a: no answer: its interpreter ended at this code (where that is meant: {{ends}} at its fence)", f"1 later field of a isn't evaluated (line {line_of(self.read(), 'y')})"]))

    def test_in_a_replay(self) -> None:
        """The line that ended it is named, which has an answer."""
        words = self.script(f"printf '\\002verbatim:\\005'; while read line; do [ \"$line\" = v ] && [ -e {self.place('now')} ] && exit 3; printf '\\002verbatim:%s\\005' \"$line\"; done")
        self.assertEqual(self.said(self.front(x=words) + fences([("x", "u"), ("x", "v"), ("x", "w")])), (0, ["x: 3 evaluated"]))
        self.write("", self.place("now"))
        status, said = self.said(self.read().replace("\nw\n```\n", "\nother\n```\n", 1))
        woven = self.read()
        self.assertEqual((status, said), (1, [
            "x: 2 kept, 0 evaluated, 1 without an answer, 2 replayed",
            f"line {line_of(woven, 'other')}: x: not evaluated, since the interpreter ended at the replay of line {line_of(woven, 'v')}",
        ]))
        self.assertEqual(answers(woven), ["u", "v"])

    def test_a_session_that_never_answers(self) -> None:
        """It is refused before anything is evaluated."""
        text = self.front("a", x=["sh"], y=["bash"]) + fences([("a", "y"), ("x", "u")])
        why = "x: sh by itself has no blocks for its answers: the words tmhost-sh start it with an adapter"
        for word in ("--longest=9", "--check", "--test"):
            self.assertEqual(self.said(text, word), (1, [why]))
        self.assertEqual((self.read(), sorted(os.listdir(self.folder)), self.logged("a")), (text, ["text.md"], []))
        self.assertEqual(self.said(self.front("a", x=["sh"]) + fences([("a", "y")])), (0, ["a: 1 evaluated"]))

    def test_what_was_done(self) -> None:
        """A session that has other words, or pure fences, is said by its name in the text."""
        blocks = [("a", f"line {at}") for at in range(6)]
        text = self.front("a") + fences(blocks)
        self.assertEqual(self.said(text), (0, ["a: 6 evaluated"]))
        blocks[4] = ("a", "other")
        self.assertEqual(self.said(self.front("a") + fences(blocks)), (0, ["a: 4 kept, 2 evaluated again, 4 replayed"]))
        self.assertEqual(self.said(self.front("a") + fences([*blocks, ("a", "more")])), (0, ["a: 6 kept, 1 evaluated, 6 replayed"]))
        words = [sys.executable, "-u", os.path.join(ROOT, "clients/weave/tests/interpreter.py"), self.place("a.log")]
        changed = self.front(a=words) + fences([*blocks, ("a {pure}", "pure")])
        self.write(changed)
        self.assertEqual(self.run_weave("--check", self.text).output.count(": a: 6 fields would be evaluated"), 1)
        self.assertEqual(self.said(changed), (0, ["a: 6 evaluated", "a {pure}: 1 evaluated"]))
        self.assertEqual(self.said(self.read()), (0, []))


class Troubles(Messages):
    def test_a_folder_that_is_not_there(self) -> None:
        text = self.front("a") + fences([("a", "x")])
        folder = self.place("none")
        for words in (["--output", os.path.join(folder, "x.md")], ["--check", "--output", os.path.join(folder, "x.md")]):
            self.assertEqual(self.said(text, *words), (1, [f"--output: there is no folder {folder}"]))
        self.assertEqual(self.said(text, "--output", self.folder), (1, [f"--output: {self.folder} is a folder"]))
        self.assertEqual((self.logged("a"), os.listdir(self.folder)), ([], ["text.md"]))

    def interrupted(self, *words: str, until: Optional[str] = None, after: float = 0.0) -> Tuple[int, str]:
        """The status and what is said where it is interrupted when a line has come, or after some seconds."""
        with subprocess.Popen(command_words(*words, self.text), env=environment(), stderr=subprocess.PIPE, stdout=subprocess.PIPE, text=True, preexec_fn=heed_interrupts) as weave:
            while until and (not os.path.exists(self.place("a.log")) or until not in self.read(self.place("a.log"))):
                time.sleep(0.02)
            time.sleep(after)
            weave.send_signal(signal.SIGINT)
            errors = weave.communicate(timeout=60)[1]
        return weave.returncode, errors

    def test_what_would_be_lost(self) -> None:
        """No worksheet is written over, the text's own neither, and a misspelt front matter is refused."""
        self.weave(self.front("a") + fences([("a", "x")]))
        for place in (self.sheet, self.sheet + ".alt"):
            done = self.run_weave("--output", place, self.text)
            self.assertEqual((done.status, done.errors), (1, f"{self.text}: --output: {os.path.realpath(place)} would be lost: name another file\n"))
        self.assertEqual(len(self.fields()), 1)
        for key, meant in (("session", "sessions"), ("Sessions", "sessions"), ("fence", "fences")):
            front = self.front("a").replace("sessions", key) if meant == "sessions" else self.front("a").replace("---\n", f"---\n{key}: whole\n", 1)
            self.write(front + fences([("a", "x")]))
            done = self.run_weave()
            self.assertEqual((done.status, done.errors), (1, f"{self.text}: the front matter has '{key}': is {meant} meant?\n"))

    def test_an_interrupt(self) -> None:
        text = self.front("a") + fences([("a", "x"), ("a", "stuck"), ("a", "y")])
        self.write(text)
        self.assertEqual(self.interrupted(until="stuck"), (130, f"{self.text}: broken off: 1 of 3 answered; weave it again\n"))
        self.assertEqual((self.read(), [field["state"] for field in self.fields()]), (text, ["answered", "empty", "empty"]))
        self.logged("a")
        self.assertEqual(self.interrupted("--test", until="stuck"), (130, f"{self.text}: broken off: 1 of 3 answered\n"))

    def test_an_interrupt_while_modules_are_read(self) -> None:
        """A copy whose first module waits."""
        self.write("open('a.log', 'w').write('begun')\nimport time\ntime.sleep(60)\n", self.place("signal_test_waits.py"))
        with open(COMMAND, encoding="utf-8") as file:
            code = file.read()
        self.write(code.replace("import tmhost_fences.python", f"sys.path.insert(0, {self.folder!r})\nimport signal_test_waits\nimport tmhost_fences.python"), self.place("copy"))
        with subprocess.Popen([sys.executable, "-B", self.place("copy")], cwd=self.folder, stderr=subprocess.PIPE, stdout=subprocess.PIPE, preexec_fn=heed_interrupts) as weave:
            while not os.path.exists(self.place("a.log")):
                time.sleep(0.02)
            weave.send_signal(signal.SIGINT)
            self.assertEqual((weave.communicate(timeout=60), weave.returncode), ((b"", b""), 130))

    def test_what_is_no_utf8_and_has_no_fences(self) -> None:
        """It is refused, in UTF-16 also with fences, which aren't seen there."""
        text = self.front("a") + fences([("a", "x")])
        for data, line in ((b"\xff\xfe\n", 1), (b"a\nb\r\ncaf\xe9\n", 3), (text.encode("utf-16"), 1), (b"\x89PNG\r\n\x1a\n\0", 1)):
            with open(self.text, "wb") as file:
                file.write(data)
            for word in ("--seconds=9", "--check", "--test"):
                done = self.run_weave(word, self.text)
                said = f"{self.text}: line {line} has bytes that are no UTF-8, and no fence of a session is found: save the text as UTF-8\n"
                self.assertEqual((done.status, done.output, done.errors), (1, "", said))
        self.assertEqual(os.listdir(self.folder), ["text.md"])

    def test_what_is_said_of_too_long_code(self) -> None:
        """What to do, in the text and on standard error. Of another misfit nothing can be said."""
        for info, code, why in (
            ("a", "x" * 4096, "refused: it has 4,096 bytes, and a field has at most 4,095: cut it into several, or load it from a file"),
            ("a {whole}", "x\n" + "y" * 4096, "refused: it has 4,100 bytes (each end of a line counts three), and a field has at most 4,095: cut it into several, or load it from a file"),
            ("a", "x\x01" + "y" * 4096, "refused: it has a control character"),
        ):
            self.write(self.front("a") + fences([(info, code)]))
            done = self.run_weave()
            self.assertEqual((done.status, done.errors.splitlines()[-1]), (1, f"{self.text}: line 8: a: {why}"))
            self.assertIn(f"```tmhost-no-answer\n{why}\n```", self.read())

    def test_a_full_disk(self) -> None:
        """A limit of the length of files is a fault of the disk, too; whether there is no space says the file system."""
        self.write("x" * 15_000, self.place("long"))
        self.write(f"#!/bin/sh\ntrap '' XFSZ\nulimit -f 40\nexec {PROGRAM} \"$@\"\n", self.place("limited"))
        os.chmod(self.place("limited"), 0o755)
        text = self.front("a") + fences([("a", f"file {self.place('long')}")] * 3)
        self.write(text)
        done = self.run_weave(TMHOST=self.place("limited"))
        self.assertEqual((done.status, done.errors), (1, f"{self.text}: {self.sheet}: fault 21 Disk: a write to the disk failed; make room, then do it again: what was reported is kept\n"))
        full = mock.patch("os.statvfs", return_value=mock.Mock(f_bavail=10, f_frsize=4096))
        with mock.patch.dict(os.environ, TMHOST=self.place("limited")), full, self.assertRaises(Trouble) as caught:
            Weave(self.text, None).weave(None)
        self.assertRegex(str(caught.exception), r"\Ano space left for text\.sheet; (1 of 3 answers is|2 of 3 answers are) kept: make room and weave again\Z")
        self.assertEqual(self.read(), text)
        self.assertEqual(self.weave(text).count("x" * 15_000), 3)

    def test_what_a_full_disk_leaves(self) -> None:
        """Nothing that weave has made and doesn't need: of a worksheet that can't be made, of a text, a picture and a page that don't fit."""
        self.write(f"#!/bin/sh\ntrap '' XFSZ\nulimit -f 0\nexec {PROGRAM} \"$@\"\n", self.place("limited"))
        os.chmod(self.place("limited"), 0o755)
        long = '<svg xmlns="http://www.w3.org/2000/svg" width="9" height="9">' + '<rect width="9" height="9"/>' * 100 + "</svg>"
        text = self.front("a") + fences([("a", "x")])
        self.write(text)
        self.assertEqual(self.run_weave(TMHOST=self.place("limited")).status, 1)
        self.assertEqual((sorted(os.listdir(self.folder)), self.read()), (["limited", "text.md"], text))
        answers = "text.sheet keeps the answers"
        for code, words, what, kept in (
            ("say " + "z" * 3_000, ["--seconds=9"], self.text, f"what is there stays as it is, and {answers}"),
            ("say " + "z" * 3_000, ["--output", self.place("out.md")], self.place("out.md"), f"what is there stays as it is, and {answers}"),
            ("picture |image/svg+xml|" + long, ["--seconds=9"], self.place("text.pictures/"), f"the text stays as it is, and {answers}"),
            ("x", ["--html", self.place("pages/")], self.place("pages/text.html"), "the text is woven, and a page that is there stays as it is"),
        ):
            text = self.front("a") + fences([("a", code)])
            self.write(text)
            self.assertEqual(self.run_weave("--output", "-", self.text).status, 0)
            shutil.rmtree(self.place("text.pictures"), ignore_errors=True)
            limited = ["sh", "-c", 'ulimit -f 2; exec "$@"', "sh", *command_words(*words, self.text)]
            done = subprocess.run(limited, capture_output=True, text=True, env=environment())
            self.assertEqual(done.returncode, 1, done.stderr)
            named = re.escape(f"{self.text}: {what}") + r"([0-9a-f]{20}\.svg)?" + re.escape(f" can't be written (File too large): {kept}\n")
            self.assertRegex(done.stderr, rf"\A(.*: a: .*\n)?{named}\Z")
            self.assertEqual(sorted(os.listdir(self.folder)), ["a.log", "limited", "text.md", "text.sheet", "text.sheet.alt"])
            self.assertEqual(self.read() == text, code != "x")

    def test_a_limit_of_the_length_of_files(self) -> None:
        """What ended an interpreter isn't known, and isn't said to be its code. Of the program it is known."""
        limited = ["sh", "-c", 'ulimit -f 40; exec "$@"', "sh", *command_words(self.text)]
        self.write("---\nsessions: {py: [tmhost-python]}\n---\n" + fences([("py", "'x' * 30_000")]))
        ended = subprocess.run(limited, capture_output=True, text=True, env=environment())
        said = "line 7: py: no answer: its interpreter ended at this code (where that is meant: {ends} at its fence)"
        self.assertEqual((ended.returncode, ended.stderr.split("\n")[1]), (1, f"{self.text}: {said}"))
        os.remove(self.sheet)
        self.write("x" * 15_000, self.place("long"))
        text = self.front("a") + fences([("a", f"file {self.place('long')}")] * 2)
        self.write(text)
        ended = subprocess.run(limited, capture_output=True, text=True, env=environment())
        said = "the limit of the length of files (ulimit -f) leaves no room for text.sheet; 1 of 2 answers is kept: raise it and weave again"
        self.assertEqual((ended.returncode, ended.stderr, self.read()), (1, f"{self.text}: {said}\n", text))
        self.assertEqual(self.weave(text).count("x" * 15_000), 2)

    def device(self, name: str, minor: int) -> str:
        """One of the system, or where this user could replace that, one like it in the folder of the test."""
        if os.geteuid():
            return f"/dev/{name}"
        try:
            os.mknod(self.place(name), stat.S_IFCHR | 0o666, os.makedev(1, minor))
            with open(self.place(name), "wb"):
                return self.place(name)
        except OSError:
            self.skipTest("no device can be made here")

    def test_a_device(self) -> None:
        """It is written to, and stays what it is; one that takes nothing is said to have no space left."""
        null, full = self.device("null", 3), self.device("full", 7)
        text = self.front("a") + fences([("a", "x")])
        self.assertEqual(self.said(text, "--output", null), (0, ["a: 1 evaluated"]))
        self.assertEqual(self.said(text, "--output", full), (1, [f"nothing can be written to {full}: No space left on device"]))
        self.assertEqual((self.run_weave("--check", "--output", full, self.text).status, self.read()), (1, text))
        self.assertEqual([stat.S_ISCHR(os.stat(name).st_mode) for name in (null, full)], [True, True])
        self.assertEqual([name for name in os.listdir(os.path.dirname(null)) if "tmhost-weave" in name], [])

    def test_what_is_no_file(self) -> None:
        """A named pipe is waited for nowhere: as the text, as another place for it, as its page, as a picture."""
        pipe = self.place("pipe.html")
        os.mkfifo(pipe)
        os.symlink(pipe, self.place("pipe.png"))
        for words in ([pipe], ["--check", pipe], ["--test", pipe]):
            self.assertEqual(self.run_weave(*words), (1, "", f"{pipe}: {pipe} is no plain file\n"))
        text = self.front("a") + fences([("a", "x")])
        for option in ("--output", "--html"):
            self.assertEqual(self.said(text, option, pipe), (1, [f"{option}: {pipe} is no plain file"]))
        self.assertEqual((self.logged("a"), sorted(os.listdir(self.folder))), ([], ["pipe.html", "pipe.png", "text.md"]))
        status, said = self.said(text + "![](pipe.png)\n", "--html", self.place("page.html"))
        self.assertEqual((status, said[-1]), (1, f"the picture pipe.png isn't in the page: {self.place('pipe.png')} is no plain file"))

    def test_an_output_that_takes_nothing(self) -> None:
        """No call has succeeded of which something couldn't be printed."""
        self.write(self.front("a") + fences([("a", "x")]))
        for unbuffered in ("", "1"):
            for words in (["--help"], ["--version"], ["--output", "-", self.text], ["--check", "--output", self.place("none.md"), self.text]):
                with open("/dev/full", "wb") as full:
                    done = subprocess.run(command_words(*words), stdout=full, stderr=subprocess.PIPE, text=True, env=environment(PYTHONUNBUFFERED=unbuffered))
                self.assertEqual(done.returncode, 1, words)
                self.assertRegex(done.stderr, r"(?:\A|\n)[^\n]+: No space left on device\n\Z")
                self.assertNotIn("Traceback", done.stderr)

    def test_a_reader_that_has_gone(self) -> None:
        """It has seen enough, as `head` has, so nothing is said, also where Python keeps nothing back."""
        self.weave(self.front("a") + fences([("a", "x")]))
        other = self.place("other.md")
        self.write(self.front("a") + fences([("a", "y")]), other)
        for unbuffered in ("", "1"):
            for words in (["--help"], ["--version"], ["--output", "-", self.text], ["--check", other], ["--test", other]):
                reader, writer = os.pipe()
                os.close(reader)
                with self.subTest(words, unbuffered=unbuffered), os.fdopen(writer, "wb") as gone:
                    done = subprocess.run(command_words(*words), stdout=gone, stderr=subprocess.PIPE, text=True, env=environment(PYTHONUNBUFFERED=unbuffered))
                    self.assertEqual((done.returncode, done.stderr), (1, ""))

    def test_a_reader_that_goes_meanwhile(self) -> None:
        """More is written to it than a pipe holds."""
        self.weave(self.front("a") + fences([("a", "x")]) + "x" * 1_000_000)
        for unbuffered in ("", "1"):
            words, pipe = command_words("--output", "-", self.text), subprocess.PIPE
            with self.subTest(unbuffered=unbuffered), subprocess.Popen(words, stdout=pipe, stderr=pipe, env=environment(PYTHONUNBUFFERED=unbuffered)) as running:
                assert running.stdout and running.stderr
                self.assertEqual(running.stdout.read(4), b"---\n")
                running.stdout.close()
                self.assertEqual((running.stderr.read(), running.wait()), (b"", 1))

    def test_an_output_that_is_closed(self) -> None:
        """By `>&-` of a shell. What prints nothing there goes on as always."""
        self.write(self.front("a") + fences([("a", "x")]))
        for words, wanted in ((["--help"], (1, "tmhost-weave: Bad file descriptor\n")), ([self.text], (0, f"{self.text}: a: 1 evaluated\n"))):
            done = subprocess.run(["sh", "-c", 'exec "$@" >&-', "", *command_words(*words)], stderr=subprocess.PIPE, text=True, env=environment())
            self.assertEqual((done.returncode, done.stderr), wanted)

    def test_how_full_a_disk_is(self) -> None:
        for blocks, is_full in ((0, True), (10, True), (10_000, False)):
            with mock.patch("os.statvfs", return_value=mock.Mock(f_bavail=blocks, f_frsize=4096)):
                self.assertEqual(sheets.has_no_space(self.sheet), is_full)
        self.assertFalse(sheets.has_no_space("/nowhere/at/all"))


class Kept(Messages):
    def test_errors_that_are_kept(self) -> None:
        """Their cause may be gone. Where all are kept it is said how they are evaluated again; where one isn't, a weave has just evaluated it."""
        text = self.front("a", "b") + fences([("a", "error |one"), ("b", "error |two")])
        kept = KEPT.rstrip("\n")
        runs: List[Tuple[List[str], str, bool]] = [([], text, False), ([], text, True), (["--check"], text, True), (["--all"], text, False), (["--test"], text, False), ([], text.replace("two", "2"), False)]
        for words, changed, is_kept in runs:
            status, said = self.said(changed, *words)
            self.assertEqual((status, said[-1].startswith("2 errors: lines "), said[-1].endswith(kept)), (1 if "--check" in words or "--test" in words else 0, True, is_kept), (words, said))


class Shortened(Case):
    def sizes(self) -> Tuple[int, int]:
        return os.path.getsize(self.sheet), os.path.getsize(self.sheet + ".alt")

    def test_a_worksheet_does_not_grow_on(self) -> None:
        """With changes of one long answer, its files have what four of them need, and the answer stays."""
        self.write("x" * 200_000, self.place("long"))
        for at in range(12):
            self.weave(self.front("a") + fences([("a", f"say {at}"), ("a {hide}", f"file {self.place('long')}")]))
        self.assertLess(sum(self.sizes()), 1_700_000)
        self.assertEqual([len(field["shown"]) for field in self.fields()], [2, 200_000])
        before = self.sizes()
        self.weave(self.read())
        self.assertEqual(self.sizes(), before)

    def test_what_is_held_counts(self) -> None:
        """A worksheet whose answers are long is none that is to be written again."""
        self.write("x" * 1_500_000, self.place("long"))
        text = self.front("a") + fences([("a", f"file {self.place('long')}"), ("a", "x")])
        for at in range(2):
            self.weave(text.replace("\nx\n", f"\nx {at}\n"))
        self.assertEqual(self.sizes()[1], 0)
