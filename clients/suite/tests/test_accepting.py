"""How `--accept` writes a text: as a whole, what changed and nothing else, and what stays of the file."""
import os
import re
import shutil
import signal
import stat
import subprocess
import threading
import unittest

from .support import Case, case, environment, heed_interrupts, words

CALL = re.compile(r"^(\d+) +(fsync|rename|openat)\w*\((.*)", re.MULTILINE)


class Written(Case):
    def test_only_what_changed(self) -> None:
        """Of ends of lines, blanks and a text without a last one, each stays; the answer gets the ends that the text has."""
        self.write(case("say 1", "1"), case("say 2", "3"), "Words  \twith blanks. \n\n\n", case("say 4"))
        given = self.read().replace("\n", "\r\n").rstrip() + "  "
        self.make_file("suite.md", given)
        self.assertEqual(self.run_suite(self.path, "--accept").status, 1)
        wanted = given.replace("````answer\r\n3\r\n````", "```answer\r\n2\r\n```")
        self.assertEqual(self.read(), wanted + "\r\n\r\n```answer\r\n4\r\n```\r\n")
        self.assertEqual(self.verdicts(self.path), ["ok"] * 3)

    def test_a_text_that_is_as_wanted_is_not_written(self) -> None:
        self.write(case("say 1", "1"))
        before = os.stat(self.path)
        self.assertEqual(self.run_suite(self.path, "--accept").status, 0)
        after = os.stat(self.path)
        self.assertEqual((after.st_ino, after.st_mtime_ns), (before.st_ino, before.st_mtime_ns))

    def test_its_mode_and_a_link_to_it_stay(self) -> None:
        """What an earlier run, which was killed, left beside it is written over."""
        real = self.place("real.md")
        self.write(case("say 1", "2"), path=real)
        os.chmod(real, 0o640)
        os.symlink(real, self.path)
        self.make_file("real.md.tmhost-weave", "half of it")
        self.assertIn(f"{self.path}: 1 accepted\n", self.run_suite(self.path, "--accept").output)
        self.assertEqual((os.readlink(self.path), stat.S_IMODE(os.stat(real).st_mode)), (real, 0o640))
        self.assertIn("answer\n1\n", self.read(real))
        left = sorted(name for name in os.listdir(self.folder) if name.startswith(("real", "suite")))
        self.assertEqual(left, ["real.md", "suite.md", "suite.md.run", "suite.md.run.alt"])

    def test_a_text_that_was_changed_meanwhile_stays(self) -> None:
        self.write(case("say 1", "2"), self.waiting())
        changed = self.read() + "More words.\n"

        def change() -> None:
            self.wait_for("b", f"until {self.place('go')}")
            self.make_file("suite.md", changed)
            self.make_file("go")

        thread = threading.Thread(target=change)
        thread.start()
        ran = self.run_suite(self.path, "--accept")
        thread.join()
        self.assertEqual((ran.status, ran.errors), (1, f"tmhost-suite: {self.path}: the text was changed while it was run: nothing is accepted\n"))
        self.assertEqual(self.read(), changed)

    @unittest.skipUnless(shutil.which("strace"), "there is no strace")
    def test_it_is_on_the_disk_before_it_has_its_name(self) -> None:
        """The new file is synced, then renamed, and then its folder is synced."""
        self.write(case("say 1", "2"))
        log = self.place("calls")
        traced = subprocess.run(["strace", "-f", "-o", log, "-e", "trace=openat,fsync,rename,renameat,renameat2", *words(self.path, "--accept")], env=environment(), capture_output=True, cwd=self.folder)
        if traced.returncode != 1:
            self.skipTest(f"strace doesn't work here: {traced.stderr.decode(errors='replace')[-200:]}")
        calls = CALL.findall(self.read(log))
        new = f'"{self.path}.tmhost-weave"'
        at = next(place for place, (_, name, rest) in enumerate(calls) if name == "openat" and new in rest)
        own = [(name, rest) for thread, name, rest in calls[at:] if thread == calls[at][0] and (name != "openat" or new in rest)][:4]
        self.assertEqual([name for name, _ in own], ["openat", "fsync", "rename", "fsync"])
        self.assertIn(f'{new}, "{self.path}"', own[2][1])


class Asked(Case):
    def test_one_question_at_a_time(self) -> None:
        """Of several suites, which run side by side: each answer is for the question in front of it, in the order of the suites."""
        paths = [self.place(f"{number}.md") for number in range(4)]
        for number, path in enumerate(paths):
            self.write(case("sleep 0.2" if number == 0 else "quiet", None, "a {may_fail}"), case(f"say {number}", "x"), case(f"say 1{number}", "x"), path=path)
        ran = self.run_suite(*paths, "--accept", "--interactive", "--jobs", "4", given="y\nn\n" * 4)
        asked, _, rest = ran.output.rpartition("accept this? [y/N] ")
        questions = [f"differs: {path}:{line} say {digit}{number}\n  @@ -1 +1 @@\n  -x\n  +{digit}{number}\n" for number, path in enumerate(paths) for line, digit in ((13, ""), (23, "1"))]
        self.assertEqual(asked.split("accept this? [y/N] "), questions)
        self.assertEqual(rest.count("differs: "), 8)
        self.assertEqual([line for line in rest.splitlines() if line.endswith("accepted")], [f"{path}: 1 accepted" for path in paths])
        for number, path in enumerate(paths):
            self.assertEqual([f"answer\n{number}\n" in self.read(path), f"answer\n1{number}\n" in self.read(path)], [True, False])

    def test_an_interrupt_at_a_question(self) -> None:
        """It ends the run at once, and what was evaluated is asked again."""
        self.write(case("say 1", "x"))
        run = subprocess.Popen(words(self.path, "--accept", "--interactive"), stdin=subprocess.PIPE, stdout=subprocess.PIPE, stderr=subprocess.PIPE, env=environment(), preexec_fn=heed_interrupts)
        assert run.stdin and run.stdout and run.stderr
        asked = b""
        while not asked.endswith(b"accept this? [y/N] "):
            asked += run.stdout.read(1)
        run.send_signal(signal.SIGINT)
        self.assertEqual((run.wait(30), run.stderr.read()), (130, b"tmhost-suite: cut off; --resume goes on where it was\n"))
        for stream in (run.stdin, run.stdout, run.stderr):
            stream.close()
        ran = self.run_suite(self.path, "--accept", "--interactive", "--resume", given="y\n")
        self.assertIn("goes on after 1 of 1 cases\n", ran.output)
        self.assertIn(f"{self.path}: 1 accepted\n", ran.output)
        self.assertEqual(self.log("a"), ["say 1"])
