"""Worksheets that are made by the real program, and what is left where none is made."""
import glob
import os
import random
import resource
import shutil
import signal
import subprocess
import sys
import tempfile
import time

from tested import heed_interrupts

from .support import COMMAND, PROGRAM, ROOT, Case, Done, code, needs_program, notebook

PROSE = COMMAND.replace("tmhost-import", "tmhost-prose")
ECHO = f"sh {ROOT}/examples/echo.sh"
# Programs that stand before tmhost, each a text for sh; `$REAL` is tmhost itself.
STOPS = "[ $1 = run ] || exec $REAL \"$@\"\nsed '3s/.*/bad/' | $REAL \"$@\"\n"
WAITS = '[ $1 = run ] || exec $REAL "$@"\nexec sleep 60\n'
MEANWHILE = '[ $1 = run ] || exec $REAL "$@"\nprintf theirs >$TAKEN\nexec $REAL "$@"\n'
SILENT = '[ $1 = run ] || exec $REAL "$@"\nexec cat >/dev/null\n'
# Not the byte 127, which an exported notebook has as four characters.
LETTERS = "abcxyz 019+-*/=()[]{}?#\"'\\\t\u00e9\u2211\U0001f600\u2028\u2029"
NAMES = "abcXYZ019_-"


def random_sheet(rng: random.Random) -> list[tuple[str, str]]:
    """The sessions and inputs of some fields."""
    names = ["".join(rng.choices(NAMES, k=rng.randint(1, 32))) for _ in range(rng.randint(1, 4))]
    return [(rng.choice(names), "".join(rng.choices(LETTERS, k=rng.choice([0, 3, 40, 900])))) for _ in range(rng.randint(1, 25))]


@needs_program
class Making(Case):
    def before(self, text: str) -> dict[str, str]:
        """The environment in which a program stands before tmhost."""
        os.chmod(self.write("before.sh", "#!/bin/sh\n" + text), 0o700)
        return {"TMHOST": self.place("before.sh"), "REAL": os.path.abspath(PROGRAM), "TAKEN": self.place("new")}

    def states(self) -> dict[str, tuple[int, int, int]]:
        """What the system tells of each name in the folder, which changes with what it names."""
        reported = {name: os.lstat(self.place(name)) for name in os.listdir(self.folder)}
        return {name: (state.st_ino, state.st_mtime_ns, state.st_ctime_ns) for name, state in reported.items()}

    def not_made(self, said: str, **environment: str) -> None:
        """Nothing is made of a good notebook, and nothing is left of it."""
        before = set(os.listdir(self.folder))
        done = self.do("new", data=notebook(code("x"), code("y")), **environment)
        self.assertEqual((done.status, done.out), (1, ""), done.errors)
        self.assertIn(said, done.errors)
        self.assertEqual(set(os.listdir(self.folder)), before)

    def test_the_worksheet_is_that_of_the_script(self) -> None:
        text = notebook(code("x = 1\ny = 2"), code("", "gp"), code(" z "))
        document = self.write("a.ipynb", text)
        self.assertEqual(self.do(document, "new").status, 0)
        self.assertEqual(self.host("export", "script", "new"), self.do("--script", document).out)
        self.assertEqual(sorted(os.listdir(self.folder)), ["a.ipynb", "new", "new.alt"])

    def test_what_tmhost_exports_comes_back(self) -> None:
        for seed in range(12):
            fields = random_sheet(random.Random(seed))
            names = list(dict.fromkeys(name for name, _ in fields))
            lines = [f"session {name} plain {ECHO}" for name in names]
            lines += [f"new {after} {name} {given}" for after, (name, given) in enumerate(fields)]
            old, new = f"old{seed}", f"new{seed}"
            self.host("create", old)
            some = next(number for number, (_, given) in enumerate(fields, 1) if given)  # an answer that shows nothing is no output
            self.host("run", old, data="\n".join([*lines, f"eval {some}", "wait"]) + "\n")
            options = [word for name in names for word in ("--session", f"{name}={ECHO}")]
            done = self.do(*options, new, data=self.host("export", "notebook", old))
            self.assertEqual(done.status, 0, done.errors)
            self.assertEqual(self.host("export", "script", new), self.host("export", "script", old))
            self.assertIn('"output_type"', self.host("export", "notebook", old))
            self.assertNotIn('"output_type"', self.host("export", "notebook", new))

    def test_fields_of_several_lines_are_evaluated(self) -> None:
        self.assertEqual(self.do("new", data=notebook(code("def f(n):\n    return n + 1\n\nx = 4"), code("y = x\nf(y)"))).status, 0)
        shown = self.host("run", "new", data="eval 1\neval 2\nwait\nprint\n")
        self.assertTrue(shown.endswith("y = x\n. f(y)\n5\n"), shown)

    def test_what_is_there_stays(self) -> None:
        self.assertEqual(self.do("sheet", data=notebook(code("x"))).status, 0)
        self.write("file", "text")
        self.write("second.alt", "text")
        os.mkdir(self.place("folder"))
        os.symlink("nowhere", self.place("link"))
        before = self.states()
        for name in ("sheet", "file", "second", "folder", "link"):
            done = self.do(name, data=notebook(code("y")))
            self.assertEqual(done.status, 1)
            self.assertIn("is there already, and stays as it is", done.errors)
            self.assertEqual(self.states(), before)

    def test_a_run_that_stops(self) -> None:
        self.not_made("tmhost run ended with status 3: stopped at line 3 (cell 2)", **self.before(STOPS))

    def test_a_run_that_tells_nothing(self) -> None:
        self.not_made("reported something else", **self.before(SILENT))

    def test_programs_that_are_none(self) -> None:
        self.not_made("TMHOST names no program: /nowhere/tmhost", TMHOST="/nowhere/tmhost")
        self.not_made("tmhost create ended with status 1", TMHOST="/bin/false")

    def test_where_no_program_is(self) -> None:
        """A copy of the command in a place without a program."""
        place = tempfile.mkdtemp(prefix="tmhost-import-test.")
        self.addCleanup(shutil.rmtree, place)
        for name in ("import", "fences", "python"):
            shutil.copytree(os.path.join(ROOT, "clients", name), os.path.join(place, "clients", name), ignore=shutil.ignore_patterns("tests", "__pycache__"))
        os.mkdir(os.path.join(place, "bin"))
        os.symlink(sys.executable, os.path.join(place, "bin", "python3"))
        environment = {**os.environ, "TMHOST": "", "PATH": os.path.join(place, "bin")}
        command = os.path.join(place, "clients", "import", "tmhost-import")
        os.makedirs(os.path.join(place, "adapters", "bin"))
        shutil.copy("/bin/true", os.path.join(place, "adapters", "bin", "tmhost-python"))
        done = subprocess.run([command, "new"], input=notebook(code("x")).encode(), capture_output=True, env=environment, cwd=self.folder)
        self.assertEqual((done.returncode, done.stdout), (1, b""))
        self.assertIn(b"there is no tmhost on PATH, and TMHOST names none\n", done.stderr)
        self.assertEqual(os.listdir(self.folder), [])

    def test_a_folder_that_is_not_there(self) -> None:
        done = self.do("nowhere/new", data=notebook(code("x")))
        self.assertEqual(done.status, 1)
        self.assertIn("can't be made: No such file or directory", done.errors)

    def test_files_that_others_make_meanwhile(self) -> None:
        for taken in ("new", "new.alt"):
            environment = self.before(MEANWHILE)
            done = self.do("new", data=notebook(code("x")), **{**environment, "TAKEN": self.place(taken)})
            self.assertEqual((done.status, done.out), (1, ""), done.errors)
            self.assertEqual({name: data for name, data in self.files().items() if name != "before.sh"}, {taken: b"theirs"})
            os.unlink(self.place(taken))

    def test_a_limit_of_the_file_size(self) -> None:
        """The limit is one that the program's file meets when some of its fields are there."""
        document = self.write("a.ipynb", notebook(*[code("x" * 4000)] * 20))
        limit = lambda: resource.setrlimit(resource.RLIMIT_FSIZE, (30_000, 30_000))
        done = subprocess.run([COMMAND, document, "new"], capture_output=True, cwd=self.folder, env={**os.environ, "TMHOST": PROGRAM}, preexec_fn=limit)
        self.assertEqual(done.returncode, 1)
        self.assertIn(f"tmhost run ended with signal {int(signal.SIGXFSZ)}".encode(), done.stderr)
        self.assertEqual(os.listdir(self.folder), ["a.ipynb"])

    def test_signals(self) -> None:
        document = self.write("a.ipynb", notebook(code("x")))
        environment = {**os.environ, **self.before(WAITS)}
        for number, status in ((signal.SIGINT, 130), (signal.SIGTERM, 143), (signal.SIGHUP, 129)):
            process = subprocess.Popen([COMMAND, document, "new"], cwd=self.folder, env=environment)
            while not glob.glob(self.place(".tmhost-import-*/sheet.alt")):
                self.assertIsNone(process.poll())
                time.sleep(0.01)
            process.send_signal(number)
            self.assertEqual(process.wait(60), status)
            self.assertEqual(sorted(os.listdir(self.folder)), ["a.ipynb", "before.sh"])

    def test_two_at_once(self) -> None:
        for turn in range(4):
            new = f"new{turn}"
            documents = [self.write(f"{name}.ipynb", notebook(*[code(name)] * 30)) for name in ("a", "b")]
            environment = {**os.environ, "TMHOST": PROGRAM}
            two = [subprocess.Popen([COMMAND, document, new], cwd=self.folder, env=environment, stderr=subprocess.DEVNULL) for document in documents]
            statuses = [process.wait(300) for process in two]
            self.assertEqual(sorted(statuses), [0, 1])
            self.assertEqual(self.host("export", "script", new), self.do("--script", documents[statuses.index(0)]).out)
            self.assertFalse(glob.glob(self.place(".tmhost-import-*")))


class Words(Case):
    def status(self, *words: str) -> Done:
        return self.do(*words, data=notebook(code("x")))

    def test_refused_words(self) -> None:
        for line in ("", "a b c", "--script a b", "--nothing a", "--format tex a", "--session a b", "--session =a b"):
            done = self.status(*line.split())
            self.assertEqual((done.status, done.out), (2, ""), line)
        for words in ("", " ", "a\tb", "x" * 1025, "x " * 17):
            self.assertEqual(self.status("--session", f"python={words}", "new").status, 2, words)
        self.assertEqual(os.listdir(self.folder), [])

    def test_a_document_without_a_name_for_its_worksheet(self) -> None:
        """It is the document that is there, or was meant, and no new worksheet."""
        self.write("a b.ipynb", notebook(code("x")))
        for name, shown in (("a b.ipynb", "'a b.ipynb'"), ("nope.md", "nope.md")):
            done = self.status(name)
            self.assertEqual((done.status, done.errors.splitlines()[-1]), (2, f"tmhost-import: error: name the new worksheet, too: tmhost-import {shown} NEW"))
        self.assertEqual(os.listdir(self.folder), ["a b.ipynb"])

    @needs_program
    def test_the_version(self) -> None:
        done = self.status("--version")
        self.assertEqual((done.status, done.out), (0, f"tmhost-import: {self.host('--version')}"), done.errors)
        done = self.do("--version", TMHOST="/bin/false")
        self.assertEqual((done.status, done.out, done.errors), (1, "", "tmhost-import: /bin/false --version ended with status 1\n"))

    def test_an_interrupt_while_it_reads_its_modules(self) -> None:
        """It ends in silence. A module that each imports sends the signal."""
        self.write("argparse.py", "import os, signal, time\nos.kill(os.getpid(), signal.SIGINT)\ntime.sleep(60)\n")
        for command in ("tmhost-import", "tmhost-prose"):
            words = [os.path.join(os.path.dirname(COMMAND), command), "new"]
            done = subprocess.run(words, capture_output=True, env={**os.environ, "PYTHONPATH": self.folder}, preexec_fn=heed_interrupts)
            self.assertEqual((done.returncode, done.stdout, done.stderr), (130, b"", b""))

    def test_words_in_any_order(self) -> None:
        document = self.write("a.ipynb", notebook(code("x")))
        for words in ([document, "--script"], ["--script", document, "--split"], ["--script", "-"], ["--script"]):
            self.assertIn("new 0 python3 x\n", self.status(*words).out)

    def test_an_installed_command(self) -> None:
        """It finds its parts and the adapters beside itself, also through a link."""
        share, here = self.place("share/tmhost"), os.path.dirname(COMMAND)
        shutil.copytree(os.path.join(here, "tmhost_import"), os.path.join(share, "clients/import/tmhost_import"))
        for name in ("fences/tmhost_fences", "python/tmhost"):
            shutil.copytree(os.path.join(here, "..", name), os.path.join(share, "clients", name))
        shutil.copy(COMMAND, os.path.join(share, "clients/import"))
        os.symlink("share/tmhost/clients/import/tmhost-import", self.place("link"))
        environment = {**os.environ, "PATH": "/usr/bin:/bin"}
        words = [self.place("link"), "--script"]
        done = subprocess.run(words, input=notebook(code("x")).encode("utf-8"), capture_output=True, env=environment)
        self.assertIn(b"the adapter of python is not where it was installed: say --session python=WORDS", done.stderr)
        os.makedirs(os.path.join(share, "adapters/bin"))
        shutil.copy(os.path.join(ROOT, "adapters/python"), os.path.join(share, "adapters/bin/tmhost-python"))
        done = subprocess.run(words, input=notebook(code("x")).encode("utf-8"), capture_output=True, env=environment)
        self.assertEqual(done.stdout.decode("utf-8"), "session python3 plain tmhost-python\nnew 0 python3 x\n")

    def test_formats(self) -> None:
        self.assertEqual(self.do("--script", data="text").errors, "tmhost-import: its name doesn't say what it is: give --format\n")
        for name, text in (("a.org", "#+begin_src sh\nx\n#+end_src"), ("a.MD", "```sh\nx\n```"), ("b", notebook(code("x")))):
            self.assertIn(" x\n", self.do("--script", self.write(name, text)).out)

    def test_documents_that_can_not_be_read(self) -> None:
        for path, said in (("nowhere.md", "No such file or directory"), ("/", "Is a directory")):
            self.assertEqual(self.status(path, "new").errors, f"tmhost-import: '{path}' can't be read: {said}\n")

    def test_the_longest_document(self) -> None:
        document = notebook(code("x")).encode()
        longest = document + b" " * (67_108_864 - len(document))
        self.assertEqual(self.inputs(longest), [("python3", "x")])
        self.refused(longest + b" ", "it has more than 67,108,864 bytes")

    def test_a_full_output(self) -> None:
        document = self.write("a.ipynb", notebook(code("x")))
        with open("/dev/full", "wb") as full:
            done = subprocess.run([COMMAND, "--script", document], stdout=full, stderr=subprocess.PIPE)
        self.assertEqual((done.returncode, done.stderr), (1, b"tmhost-import: the script can't be written: No space left on device\n"))

    def test_a_help_that_cannot_be_written(self) -> None:
        for command in (COMMAND, PROSE):
            with open("/dev/full", "wb") as full:
                done = subprocess.run([command, "--help"], stdout=full, stderr=subprocess.PIPE, text=True)
            self.assertEqual((done.returncode, done.stderr), (1, f"{os.path.basename(command)}: No space left on device\n"))

    def test_a_reader_that_has_gone(self) -> None:
        """It has seen enough, so nothing is said."""
        document, text = self.write("a.ipynb", notebook(code("x"))), self.write("a.md", "```gp\nx^2\n```\n\n$x^2$\n")
        for words in ([COMMAND, "--help"], [PROSE, "--help"], [COMMAND, "--script", document], [PROSE, text]):
            reader, writer = os.pipe()
            os.close(reader)
            with self.subTest(words), os.fdopen(writer, "wb") as gone:
                done = subprocess.run(words, stdout=gone, stderr=subprocess.PIPE, text=True)
                self.assertEqual((done.returncode, done.stderr), (1, ""))
