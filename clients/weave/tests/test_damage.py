"""What is said of a worksheet beside a text that can't be opened: where it is, what that means, and what to do. Done, it is woven again."""
import contextlib
import os
import subprocess
from typing import IO, Iterator, List

from .support import PROGRAM, Case, command_words, environment, fences


class Damaged(Case):
    def setUp(self) -> None:
        super().setUp()
        self.woven = self.weave(self.front("a") + fences([("a", "x"), ("a", "y")]))
        self.second = self.sheet + ".alt"

    def refused(self, *words: str) -> str:
        """What is said, where the status is 1, the text stays as it is, and no interpreter is asked."""
        self.logged("a")
        done = self.run_weave(*words, self.text)
        self.assertEqual((done.status, done.output, self.read(), self.logged("a")), (1, "", self.woven, []))
        self.assertNotIn("Traceback", done.errors)
        self.assertEqual(done.errors.count("\n"), 1)
        return done.errors.removeprefix(f"{self.text}: ").rstrip("\n")

    def put(self, data: bytes, at: int = 0) -> None:
        with open(self.sheet, "r+b") as file:
            file.seek(at)
            file.write(data)

    def names(self) -> List[str]:
        return sorted(name for name in os.listdir(self.folder) if name != "a.log")

    def set_aside(self, fault: str, name: str = "text.sheet.damaged") -> None:
        """The worksheet that can't be read gets this name, and all is evaluated. Until then nothing is changed."""
        before, cause = self.names(), f"{self.text}: text.sheet can't be read ({fault}): "
        kept = [self.bytes_of(path) for path in (self.sheet, self.second)]
        self.logged("a")
        done = self.run_weave("--check", self.text)
        line = self.read().split("\n").index("x") + 1
        self.assertEqual((done.status, done.output), (1, f"{self.text}: a: 2 fields would be evaluated, from line {line} on\n"))
        self.assertEqual(done.errors, f"{cause}a weave gives it the name {name}, and evaluates all again\n")
        done = self.run_weave("--test", self.text)
        self.assertEqual((done.status, done.output, done.errors, self.logged("a")), (0, "", "", ["x", "y"]))
        self.assertEqual((self.names(), [self.bytes_of(path) for path in (self.sheet, self.second)]), (before, kept))
        done = self.run_weave()
        said = f"{cause}it is {name} now, and all is evaluated again; where nobody needs that file, remove it and {name}.alt\n"
        self.assertEqual((done.status, done.errors), (0, f"{said}{self.text}: a: 2 evaluated\n"))
        self.assertEqual((self.read(), self.logged("a")), (self.woven, ["x", "y"]))
        self.assertEqual([self.bytes_of(self.place(name + end)) for end in ("", ".alt")], kept)
        self.assertEqual(self.names(), sorted([*before, name, name + ".alt"]))
        self.assertEqual((self.run_weave().errors, self.logged("a")), ("", []))

    def bytes_of(self, path: str) -> bytes:
        with open(path, "rb") as file:
            return file.read()

    def test_one_that_is_damaged(self) -> None:
        """Another name is taken where something is there already, be it a second file."""
        self.put(b"\xff", 11)  # the length of its first record
        self.set_aside("fault 30 Damaged at 10")
        self.put(b"\xff", 45)  # a record after its own session
        self.write("mine", self.place("text.sheet.damaged1.alt"))
        self.set_aside("fault 30 Damaged at 37", "text.sheet.damaged2")
        self.assertEqual(self.read(self.place("text.sheet.damaged1.alt")), "mine")

    def test_one_that_is_none(self) -> None:
        """It was cut, has lost its front, or is the one of weave but for that."""
        for number, (size, data) in enumerate(((0, b""), (5, b""), (None, bytes(100)), (None, b"x"))):
            if size is not None:
                os.truncate(self.sheet, size)
            self.put(data)
            self.set_aside("fault 31 NotASheet", f"text.sheet.damaged{number or ''}")

    def test_one_of_others(self) -> None:
        """What is known to be somebody else's stays as it is."""
        self.write("My own sheet of music.\n", self.sheet)
        advice = f"{self.sheet}: fault 31 NotASheet: it is no worksheet, or it was cut or is empty; look at the path"
        said = "; it is none of tmhost-weave, so it stays as it is"
        self.assertEqual((self.refused(), self.refused("--check")), 2 * (advice + said,))
        self.assertEqual(self.read(self.sheet), "My own sheet of music.\n")
        os.unlink(self.sheet)
        os.unlink(self.second)
        subprocess.run([PROGRAM, "create", self.sheet], check=True)
        subprocess.run([PROGRAM, "run", self.sheet], input=b"session s plain true\nnew 0 s 1\nnew 0 s 2\n", check=True, stdout=subprocess.DEVNULL)
        self.put(b"\xff", os.path.getsize(self.sheet) - 2)
        kept, said_now = self.bytes_of(self.sheet), self.refused()
        self.assertRegex(said_now, f"\\A{self.sheet}: fault 30 Damaged at \\d+: it can't be read from byte \\d+ on; keep both files: .*{said}\\Z")
        self.assertEqual((self.refused("--check"), self.bytes_of(self.sheet), self.names()), (said_now, kept, ["text.md", "text.sheet", "text.sheet.alt"]))

    def test_one_that_cannot_be_opened(self) -> None:
        kept = self.place("kept")
        said = f"{self.sheet}: fault 32 Disk: "
        os.link(self.sheet, kept)
        self.assertEqual((self.refused(), self.refused("--check")), 2 * (f"{said}it has another name, which is a hard link; `cp` makes a copy of its own",))
        os.unlink(kept)
        os.rename(self.sheet, kept)
        os.mkdir(self.sheet)
        self.assertEqual(self.refused(), f"{said}it is a folder; take another path")
        os.rmdir(self.sheet)
        os.rename(kept, self.sheet)
        self.assertEqual(self.weave(self.woven), self.woven)

    def test_a_second_file_alone(self) -> None:
        """It may have all answers, so it isn't written over. Removed, all is evaluated again."""
        os.unlink(self.sheet)
        self.write("something", self.second)
        said = f"{self.second} is there without {self.sheet}, to which it belongs; put that back, or remove {self.second} and weave again: its answers are lost then"
        self.assertEqual(self.refused(), said)
        self.assertEqual(self.read(self.second), "something")
        os.unlink(self.second)
        self.assertEqual(self.weave(self.woven), self.woven)

    @contextlib.contextmanager
    def in_use(self) -> Iterator[IO[bytes]]:
        """Another program has the worksheet until its input is closed."""
        with subprocess.Popen([PROGRAM, "live", self.sheet], stdin=subprocess.PIPE, stdout=subprocess.PIPE) as other:
            assert other.stdin and other.stdout
            other.stdin.write(b"show\n")
            other.stdin.flush()
            other.stdout.readline()
            try:
                yield other.stdin
            finally:
                other.stdin.close()

    def test_one_in_use(self) -> None:
        """After a moment it is said that it is waited for, once, and after ten seconds it is refused."""
        with self.in_use():
            self.logged("a")
            done = self.run_weave()
        said = f"{self.sheet}: fault 35 InUse: it is in use by another program; `fuser {self.sheet}` says which: wait for its end, or end it"
        self.assertEqual((done.status, done.output, self.read(), self.logged("a")), (1, "", self.woven, []))
        self.assertEqual(done.errors, f"{self.text}: text.sheet is in use by another program; waiting\n{self.text}: {said}\n")

    def test_one_in_use_for_a_while(self) -> None:
        """It goes on when the other program has ended. One that ends at once isn't spoken of."""
        for words in (command_words(self.text), command_words("--check", self.text)):
            with self.in_use() as held, subprocess.Popen(words, stderr=subprocess.PIPE, env=environment()) as weave:
                assert weave.stderr
                line = weave.stderr.readline().decode()
                held.close()
                self.assertEqual((line, weave.stderr.read(), weave.wait()), (f"{self.text}: text.sheet is in use by another program; waiting\n", b"", 0))
        self.assertEqual(self.run_weave().errors, "")

    def test_one_that_cannot_be_made(self) -> None:
        """A program that says why: what it says is shown with the path."""
        self.write("#!/bin/sh\n[ \"$1\" != create ] || { echo 'fault 23 JournalFull' >&2; exit 1; }\nexec " + PROGRAM + " \"$@\"\n", self.place("program"))
        os.chmod(self.place("program"), 0o755)
        names: List[str] = [self.sheet, self.second]
        for name in names:
            os.unlink(name)
        done = self.run_weave(TMHOST=self.place("program"))
        self.assertEqual((done.status, done.errors), (1, f"{self.text}: {self.sheet} can't be made: fault 23 JournalFull: its file is full; the line checkpoint of a script makes it shorter, else begin a new worksheet\n"))
