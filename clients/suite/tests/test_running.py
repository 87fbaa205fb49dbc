"""Cases over the real program: verdicts, interpreters that end or loop, what is chosen."""
import errno
import os
import shutil
import signal
import subprocess
import tempfile
from typing import Any, List
from unittest import mock

from .support import Case, case, environment, heed_interrupts, without_seconds, words
from tmhost_fences.troubles import Trouble
from tmhost_suite.kept import make


class Verdicts(Case):
    def test_each(self) -> None:
        self.write(
            case("say 1", "1"),
            case("say 2", "3"),
            case("say 4"),
            case("say 5", "6", "a {xfail not yet}"),
            case("say 7", "7", "a {xfail was mended}"),
            case("die", "8", "a {skip needs a net}"),
            case("quiet"),
            case("say 9", "9", "b"),
            case("say 10", "10", "b {may_fail by chance}"),
            case("say 11", "10", "b {may_fail by chance}"),
        )
        self.assertEqual(self.verdicts(self.path), ["ok", "differs", "new", "xfail", "xpass", "skip", "ok", "ok", "ok", "xfail"])
        self.assertEqual(self.outcome.status, 1)
        self.assertEqual(
            without_seconds(self.outcome.output).split("\n"),
            [
                f"differs: {self.path}:17 say 2",
                "  @@ -1 +1 @@",
                "  -3",
                "  +2",
                f"new: {self.path}:27 say 4",
                "  @@ -0,0 +1 @@",
                "  +4",
                f"xpass: {self.path}:43 say 7 (was mended)",
                "  it is wanted to fail, and passes",
                "4 ok, 2 xfail, 1 skip, 1 differs, 1 new, 1 xpass",
                "",
            ],
        )

    def test_a_suite_that_passes(self) -> None:
        self.write(case("say 1\nsay 2\nquiet\nsay 3", "1\n2\n3"))
        ran = self.run_suite(self.path)
        self.assertEqual((ran.status, without_seconds(ran.output)), (0, "1 ok\n"))

    def test_an_interpreter_that_ends_costs_one_case(self) -> None:
        self.write(case("say s", "s", "a {setup}"), case("say x", "x"), case("say t", "t", "a {setup}"), case("die", "? Ended"), case("die", "no"), case("say y", "y"))
        found = self.objects(self.path)
        self.assertEqual([one["verdict"] for one in found], ["ok", "ok", "ok", "ok", "ended", "ok"])
        self.assertEqual([one["startedAgain"] for one in found], [False, False, False, False, True, True])
        # What sets up is evaluated again in each new interpreter, and nothing else is.
        self.assertEqual(self.log("a"), ["say s", "say x", "say t", "die", "say s", "say t", "die", "say s", "say t", "say y"])

    def test_a_case_that_loops(self) -> None:
        self.write(case("stuck", "? over 0.3 s", "a {timeout 0.3}"), case("say y", "y"))
        self.assertEqual(self.verdicts(self.path), ["ok", "ok"])

    def test_a_program_that_is_not_there(self) -> None:
        self.write(case("x", "? StartRefused", "c"))
        with open(self.path, encoding="utf-8") as file:
            text = file.read().replace("sessions:\n", "sessions:\n  c: [./nothing]\n")
        with open(self.path, "w", encoding="utf-8") as file:
            file.write(text)
        self.assertEqual(self.verdicts(self.path), ["ok"])

    def test_the_folder_of_its_interpreters(self) -> None:
        os.mkdir(self.place("below"))
        with open(self.place("below/here"), "w", encoding="utf-8") as file:
            file.write("it is")
        self.write(case("file here", "it is"), more="folder: ./below\n")
        self.assertEqual(self.verdicts(self.path), ["ok"])
        self.write(case("say x", "x", "c"), case("say x", "x"))
        with open(self.path, encoding="utf-8") as file:
            text = file.read().replace("sessions:\n", "sessions:\n  c: [./nothing, here]\n")
        with open(self.path, "w", encoding="utf-8") as file:
            file.write(text)
        self.assertEqual(self.verdicts(self.path), ["ended", "ok"])
        self.assertIn("no case of the session c has an answer: do its words start an interpreter here? ./nothing here\n", self.outcome.output)
        with open(self.path, "w", encoding="utf-8") as file:
            file.write(text.replace("[./nothing, here]", "[cat]").replace("---\n", "---\ntimeout: 0.5\n", 1))
        self.assertEqual(self.verdicts(self.path), ["over", "ok"])
        self.assertIn("no case of the session c has an answer: do its words start an interpreter here? cat\n", self.outcome.output)
        self.assertTrue(self.outcome.output.startswith(f"over: {self.path}:9 say x (its interpreter didn't start)\n"), self.outcome.output)
        self.write(case("say x", "x"), more="folder: none\n")
        self.assertIn("`folder` is " + self.place("none") + ", which is no folder", self.run_suite(self.path).errors)

    def of_words(self, words: str, *parts: str) -> None:
        """A suite whose session c has these words."""
        self.write(*parts)
        text = self.read().replace("sessions:\n", f"sessions:\n  c: [{words}]\n")
        with open(self.path, "w", encoding="utf-8") as file:
            file.write(text)

    def test_an_interpreter_that_does_not_start_is_no_wanted_failure(self) -> None:
        """What is wanted to fail is an answer. One that has no adapter doesn't start either."""
        for these, why in (("./nothing", "do its words start an interpreter here? ./nothing"), ("false", "false"), ("cat", "do its words start an interpreter here? cat")):
            self.of_words(these, case("x", "3", "c {xfail known} {timeout 1}"), case("x", "3", "c {may_fail} {timeout 1}"), case("x", None, "c {setup} {timeout 1}"), case("say x", "x"))
            found = self.objects(self.path)
            verdicts = ["over" if these == "cat" else "ended"] * 3
            self.assertEqual([one["verdict"] for one in found], [*verdicts, "ok"], self.outcome.output)
            self.assertEqual(self.outcome.status, 1)
            self.assertEqual([one["remark"] for one in found][:1], ["known, its interpreter didn't start"])
            self.assertIn(f"no case of the session c has an answer: {why}", self.outcome.output)

    def test_a_program_that_an_adapter_starts_is_named(self) -> None:
        if shutil.which("yacas"):
            self.skipTest("there is a yacas")
        self.of_words("tmhost-yacas", case("1", "3", "c {xfail known}"))
        ran = self.run_suite(self.path)
        self.assertEqual(ran.status, 1)
        self.assertIn("there is no program yacas, which tmhost-yacas starts", ran.output)

    def test_a_wanted_failure_without_an_answer_is_named(self) -> None:
        self.write(case("die", "3", "a {xfail a wrong digit}"), case("say 4", "3", "a {xfail another}"), case("stuck", "3", "a {may_fail} {timeout 0.4}"), case("die", None, "b {setup}"), case("die", None, "b {teardown}"))
        ran = self.run_suite(self.path)
        named = f"xfail, ended: {self.path}:7 die (a wrong digit)\nxfail, over 0.4 s: {self.path}:27 stuck (in an interpreter that was started again after line 7)\nended: {self.path}:37 die\n"
        self.assertTrue(ran.output.startswith(named), ran.output)
        self.assertEqual((ran.status, without_seconds(ran.output).splitlines()[-1]), (1, "3 xfail, 1 ended"))
        self.assertNotIn("do its words start an interpreter", ran.output)  # they did

    def test_why_no_case_has_an_answer(self) -> None:
        """What the adapter of a session says when it ends, which its interpreter's host drops."""
        self.write(case("1", "1", "c"), case("say x", "x"))
        with open(self.path, encoding="utf-8") as file:
            text = file.read().replace("sessions:\n", "sessions:\n  c: [tmhost-python, --no-such-word]\n")
        with open(self.path, "w", encoding="utf-8") as file:
            file.write(text)
        self.assertEqual(self.verdicts(self.path), ["ended", "ok"])
        self.assertIn("no case of the session c has an answer: ", self.outcome.output)
        self.assertIn("python: error: unrecognized arguments: --no-such-word\n", self.outcome.output)

    def test_what_takes_down_comes_last(self) -> None:
        self.write(case("say end", "end", "a {teardown}"), case("say 1", "1"))
        self.assertEqual(self.verdicts(self.path), ["ok", "ok"])
        self.assertEqual(self.log("a"), ["say 1", "say end"])

    def test_a_field_that_is_too_long(self) -> None:
        self.write(case("say " + "x" * 5000, "? refused: it has 5,004 bytes, and a field has at most 4,095: cut it into several, or load it from a file"), case("say y", "y"))
        self.assertEqual(self.verdicts(self.path), ["ok", "ok"])

    def test_flaky(self) -> None:
        # Its third line is the first one that answers so.
        self.write(case("x", "z", "a {flaky 2}"))
        found = self.objects(self.path)[0]
        self.assertEqual((found["verdict"], found["tries"]), ("differs", 3))
        self.write(case("x", str(found["came"]), "a {flaky 5}"))
        found = self.objects(self.path)[0]
        self.assertEqual((found["verdict"], found["tries"], self.outcome.status), ("flaky", 3, 0))


class Shown(Case):
    def test_a_person_is_shown_a_part_of_a_long_difference(self) -> None:
        """The reports have it whole."""
        self.make_file("long", "x" * 20_000)
        self.make_file("many", "\n".join(map(str, range(1_000))))
        self.write(case(f"file {self.place('long')}", "y"), case(f"file {self.place('many')}", "y"))
        came = [str(one["came"]) for one in self.objects(self.path, "--junit", self.place("report.xml"))]
        self.assertEqual([len(one) for one in came], [20_000, 3_889])
        output = self.outcome.output
        self.assertIn("x [19,501 characters left out] x", output)
        self.assertRegex(output, r"  \+97\n  \[802 lines left out\]\n  \+900\n")
        self.assertLess(len(output), 3_000)
        self.assertIn("x" * 20_000, self.read(self.place("report.xml")))
        self.assertIn("\n+500\n", self.read(self.place("report.xml")))
        verbose = self.run_suite(self.path, "--verbose").output
        self.assertLess(len(verbose), 6_000)


class Folders(Case):
    def test_the_suites_in_a_folder(self) -> None:
        """Those of hidden folders and what is no suite are left out; what is named twice by that is one."""
        for name in ("sub/b.md", "sub/a.md", "sub/deep/c.md", "sub/.git/d.md", "sub/.e.md"):
            self.write(case(f"say {name}", name), path=self.make_file(name))
        self.make_file("sub/words.md", "# Words\n")
        self.make_file("sub/code.py", ">>> 1\n2\n")
        found = self.objects("sub", "sub/a.md")
        self.assertEqual([(one["file"], one["verdict"]) for one in found], [(name, "ok") for name in ("sub/a.md", "sub/b.md", "sub/deep/c.md")])
        self.assertEqual(len(self.objects("sub", "--shard", "2/2")), 1)
        self.make_file("sub/wrong.md", "---\nsessions: [\n---\n")
        ran = self.run_suite("sub")
        self.assertEqual((ran.status, ran.output.partition(" in ")[0]), (1, "3 ok"))
        self.assertIn("tmhost-suite: sub/wrong.md: the front matter is no YAML", ran.errors)
        os.mkdir(self.place("none"))
        ran = self.run_suite("none")
        self.assertEqual((ran.status, ran.errors), (1, "tmhost-suite: none: no .md file in this folder names sessions in its front matter\n"))

    def test_its_version(self) -> None:
        ran = self.run_suite("--version")
        self.assertEqual((ran.status, ran.errors), (0, ""))
        self.assertRegex(ran.output, r"\Atmhost-suite: tmhost \d.*\n\Z")

    def test_an_interrupt_while_it_starts(self) -> None:
        """Nothing is said of it. One of the modules that it reads takes its time here."""
        self.make_file("modules/argparse.py", "import time\nprint('reads', flush=True)\ntime.sleep(30)\n")
        variables = {**environment(), "PYTHONPATH": self.place("modules")}
        run = subprocess.Popen(words("none.md"), stdout=subprocess.PIPE, stderr=subprocess.PIPE, text=True, env=variables, preexec_fn=heed_interrupts)
        assert run.stdout
        self.assertEqual(run.stdout.readline(), "reads\n")
        run.send_signal(signal.SIGINT)
        self.assertEqual((run.communicate()[1], run.returncode), ("", 130))

    def test_a_disk_that_is_full(self) -> None:
        with self.assertRaisesRegex(Trouble, "x.run can't be made: no space left on device"), mock.patch.object(tempfile, "TemporaryFile", side_effect=OSError(errno.ENOSPC, "No space left on device")):
            make(self.place("none/x.run"))
        with self.assertRaisesRegex(Trouble, "x.run can't be made: no such file or directory"):
            make(self.place("none/x.run"))


class Worksheets(Case):
    def test_nothing_is_left_where_all_is_as_wanted(self) -> None:
        """What is left else is for `--rerun failed`."""
        self.write(case("say 1", "1"), case("say 2", "3"))
        other = self.place("other.md")
        self.write(case("say 1", "1"), path=other)
        self.assertEqual(self.verdicts(self.path, other), ["ok", "differs", "ok"])
        self.assertEqual([name for name in sorted(os.listdir(self.folder)) if ".run" in name], ["suite.md.run", "suite.md.run.alt"])
        self.write(case("say 1", "1"), case("say 2", "2"))
        self.assertEqual(self.verdicts(self.path, "--rerun", "failed"), ["ok"])
        self.assertEqual([name for name in sorted(os.listdir(self.folder)) if ".run" in name], [])
        self.assertEqual(self.verdicts(self.path, "--rerun", "failed"), [])
        self.assertIn(f"{self.path}: no case of it failed in a run that is kept, so none is run\n", self.outcome.output)

    def test_suites_of_the_same_name_in_one_folder(self) -> None:
        paths = []
        for number in range(3):
            os.mkdir(self.place(str(number)))
            paths.append(self.place(f"{number}/suite.md"))
            self.write(case(f"say {number}", "2"), path=paths[-1])
        self.assertEqual(self.verdicts(*paths, "--runs", self.place("new/runs")), ["differs", "differs", "ok"])
        self.assertEqual(len([name for name in os.listdir(self.place("new/runs")) if name.endswith(".run")]), 2)
        self.assertEqual(self.verdicts(*paths, "--runs", self.place("new/runs"), "--rerun", "failed"), ["differs", "differs"])

    def test_a_suite_that_is_named_twice(self) -> None:
        self.write(case("say 1", "1"))
        ran = self.run_suite(self.path, os.path.join(self.folder, ".", "suite.md"))
        self.assertEqual((ran.status, ran.output), (1, ""))
        self.assertIn("is named twice", ran.errors)

    def test_a_folder_that_is_read_only(self) -> None:
        self.write(case("say 1", "1"))
        os.chmod(self.folder, 0o555)
        # Root may write everywhere, so the run is that of nobody.
        nobody: Any = {"user": 65534} if os.geteuid() == 0 else {}
        if subprocess.run(["test", "-r", self.path], **nobody).returncode:
            self.skipTest("the folder of tests is closed to others")
        ran = subprocess.run(words(self.path), capture_output=True, text=True, env=environment(), cwd="/", **nobody)
        self.assertEqual(ran.returncode, 1)
        self.assertIn(f"nothing can be written into {self.folder}: --runs FOLDER", ran.stderr)

    def test_more_sessions_than_a_worksheet_has(self) -> None:
        names = [f"s{number}" for number in range(70)]
        with open(self.path, "w", encoding="utf-8") as file:
            file.write(self.front(*names) + "\n".join(case("say 1", "1", name) for name in names))
        self.assertIn("the session s63, 64 of 70, is refused: TooManySessions", self.run_suite(self.path).errors)

    def test_more_cases_than_a_worksheet_has_fields(self) -> None:
        self.write(*[case("say 1", "1")] * 4751)
        self.assertIn("its 4,751 cases with 4,751 fields are more than 9,500 in all", self.run_suite(self.path).errors)

    def test_a_line_that_no_field_holds_is_a_difference_of_its_case(self) -> None:
        for length in (4_096, 20_000):
            self.write(case("x" * length + "\n\nsay 1", "1"), case("say 2", "2"))
            self.assertEqual(self.verdicts(self.path), ["differs", "ok"])
            self.assertIn(f"? refused: it has {length:,} bytes, and a field has at most 4,095: cut it into several, or load it from a file", self.outcome.output)

    def test_a_suite_that_cannot_run_takes_no_other_with_it(self) -> None:
        self.write(case("say 1", "1"))
        self.write(*[case("say 1", "1")] * 4751, path=self.place("long.md"))
        report = self.place("report.xml")
        ran = self.run_suite(self.place("long.md"), self.path, "--junit", report)
        self.assertEqual((ran.status, ran.output.split(" in ")[0]), (1, "1 ok"))
        self.assertIn("long.md: its 4,751 cases", ran.errors)
        self.assertIn('tests="1"', self.read(report))

    def test_line_ends_and_a_mark_of_bytes(self) -> None:
        self.write(case("say 1\nsay 2", "1\n2"))
        text = self.read()
        with open(self.path, "w", encoding="utf-8", newline="") as file:
            file.write("\ufeff" + text.replace("\n", "\r\n"))
        self.assertEqual(self.verdicts(self.path), ["ok"])


class Chosen(Case):
    def setUp(self) -> None:
        super().setUp()
        self.write(case("say s", "s", "a {setup}"), case("say 1", "1", "a {tags slow}"), case("say 2", "no"), case("say 3", "3", "b {tags quick slow}"))

    def titles(self, *more: str) -> List[str]:
        return [str(one["code"][0]) for one in self.objects(*more)]

    def test_by_tags(self) -> None:
        self.assertEqual(self.titles(self.path, "--tags", "quick,none"), ["say s", "say 3"])

    def test_what_is_skipped_is_chosen_too(self) -> None:
        self.write(case("say 1", "1"), case("say 2", "2", "a {skip}"), case("say 3", "3", "a {skip} {tags quick}"))
        self.assertEqual(self.verdicts(self.path, "--only", "say 1"), ["ok"])
        self.assertEqual(self.verdicts(self.path, "--tags", "quick"), ["skip"])

    def test_by_name_and_line(self) -> None:
        self.assertEqual(self.titles(self.path, "--only", "say [23]"), ["say s", "say 2", "say 3"])
        self.assertEqual(self.titles(self.path, "--only", "17"), ["say s", "say 1"])

    def test_what_failed(self) -> None:
        self.run_suite(self.path)
        self.assertEqual(self.titles(self.path, "--rerun", "failed"), ["say s", "say 2"])

    def test_none_of_them(self) -> None:
        self.write(case("say 1", "1"))
        ran = self.run_suite(self.path, "--only", "other")
        self.assertEqual(ran.status, 1)
        self.assertEqual(ran.errors, f"tmhost-suite: no case is one of those that are to be run: none has the line, the name or the first line other; there are\n  {self.path}:7 say 1\n")

    def test_a_text_without_a_case_is_no_success(self) -> None:
        self.write(case("say x", info="other"))
        ran = self.run_suite(self.path)
        self.assertEqual(ran.status, 1, ran)
        self.assertIn("there is no case: no fence is of a session that the front matter names", ran.errors)

    def test_shards_are_all(self) -> None:
        others = []
        for number in range(5):
            others.append(self.place(f"suite{number}.md"))
            self.write(case(f"say {number}", str(number)), path=others[-1])
        found = [one["code"][0] for part in (1, 2) for one in self.objects(*others, "--shard", f"{part}/2")]
        self.assertEqual(sorted(found), [f"say {number}" for number in range(5)])

    def test_the_first_failure_ends_it(self) -> None:
        self.write(case("say 1", "1"), case("say 2", "no"), case("say 3", "3"))
        self.assertEqual(self.verdicts(self.path, "--fail-fast", "--jobs", "1"), ["ok", "differs"])

    def test_an_order_by_a_seed(self) -> None:
        self.write(case("say s", "s", "a {setup}"), *(case(f"say {at}", str(at)) for at in range(12)))
        orders = []
        for seed in ("1", "1", "2"):
            if os.path.exists(self.place("a.log")):
                os.unlink(self.place("a.log"))
            self.assertEqual(set(self.verdicts(self.path, "--random", seed)), {"ok"})
            orders.append(self.log("a"))
        self.assertEqual(orders[0], orders[1])
        self.assertNotEqual(orders[0], orders[2])
        self.assertEqual([order[0] for order in orders], ["say s"] * 3)
        self.assertEqual(sorted(orders[0]), sorted(orders[2]))
