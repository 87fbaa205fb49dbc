"""What reports have: of cases, and of suites that can't be read or run; names; TAP of both versions."""
import importlib
import json
import os
import resource
import shutil
import stat
import subprocess
import unittest
import xml.etree.ElementTree
from typing import Any, List, Tuple

from .support import HERE, LIMIT, Case, case, environment, without_seconds, words

SCHEMA = os.path.join(os.path.dirname(HERE), "report.schema.json")
BROKEN = {
    "bad.py": "def f(:\n    '''\n    >>> 1\n    '''\n",
    "prefix.py": "def f():\n    '''\n      >>> 1\n    1\n    '''\n",
    "bad.ipynb": '{"cells": [1]}',
    "text.ipynb": '{"cells": [{"cell_type": "code", "source": 7}]}',
    "none.md": "Words.\n",
    "yaml.md": "---\nsessions: {a: [x\n---\n",
    "mark.md": "---\nsessions: {a: [x]}\n---\n```a {setpu}\nx\n```\n",
}


class Reports(Case):
    def setUp(self) -> None:
        super().setUp()
        self.write(case("say <1>", "<1>"), case("say \\\\x02&#", "]]>\u2028"), case("say 5", "6", "a {xfail n#t}"), case("x", "", "a {skip}"))

    def test_tap(self) -> None:
        lines = self.run_suite(self.path, "--tap", "-").output.split("\n")
        lines = lines[lines.index("TAP version 13") :]
        self.assertEqual(lines[1], "1..4")
        points = [line for line in lines if line.startswith(("ok", "not ok"))]
        self.assertEqual(points[0], f"ok 1 - {self.path}:7 say <1>")
        self.assertTrue(points[1].startswith(f"not ok 2 - {self.path}:17 "))
        self.assertEqual(points[2:], [f"not ok 3 - {self.path}:27 say 5 # TODO n#t", f"ok 4 - {self.path}:37 x # SKIP"])

    def test_errors_are_reported(self) -> None:
        """An answer that its interpreter reports as an error is reported as one, wanted or not, also by a run that goes on."""
        self.write(case("error a\\n|no", "a\nno"), case("error |way", "none"), case("say none", "way"), case("error |new"))
        found = self.objects(self.path)
        self.assertEqual([(one["verdict"], one["isError"]) for one in found], [("ok", True), ("differs", True), ("differs", False), ("new", True)])
        self.assertIn("differs, an error: ", self.outcome.output)
        self.run_suite(self.path, "--junit", self.place("report.xml"))
        tree = xml.etree.ElementTree.parse(self.place("report.xml"))
        self.assertEqual([one.get("type") for one in tree.iter("failure")], ["error", "answer", "error"])

    def test_junit_is_xml(self) -> None:
        report = self.place("report.xml")
        self.run_suite(self.path, "--junit", report)
        suite = xml.etree.ElementTree.parse(report).getroot()[0]
        self.assertEqual((suite.get("tests"), suite.get("failures"), suite.get("skipped")), ("4", "1", "2"))
        self.assertEqual([[child.tag for child in one] for one in suite], [[], ["failure"], ["skipped"], ["skipped"]])

    def test_names_in_all_reports(self) -> None:
        """A case has its own one in each, and by that it is chosen. It isn't changed by what stands above."""
        named = case("say 1", "1", "a {name the first, said again}")
        above: List[List[str]] = [[], [case("say 1", "1"), case("the first, said again")]]
        for more in above:
            self.write(*more, case("say 1", "2"), named)
            line = self.read().split("\n").index("````a {name the first, said again}") + 1
            self.run_suite(self.path, "--junit", self.place("report.xml"), "--tap", self.place("tap"))
            names = [one.get("name", "") for one in xml.etree.ElementTree.parse(self.place("report.xml")).getroot()[0]]
            self.assertEqual(names, (["say 1", "the first, said again (2)", "say 1 (2)"] if more else ["say 1"]) + ["the first, said again"])
            self.assertIn(f"- {self.path}:{line} the first, said again\n", self.read(self.place("tap")))
            self.assertEqual([one["name"] for one in self.objects(self.path)][-2:], ["say 1", "the first, said again"])
        self.write(case("say 1", "2"), named)
        self.assertEqual([one["name"] for one in self.objects(self.path, "--only", "the first*")], ["the first, said again"])
        self.assertEqual([one["verdict"] for one in self.objects(self.path, "--only", "say 1")], ["differs"])

    def test_names_in_junit_stay(self) -> None:
        """Where the text above changes, but for one with the same first line; the line is apart from the name."""
        cases = [case("say 1", "1"), case("x\ny"), case("say 1", "1")]
        names: List[List[Tuple[str, str, str]]] = []
        above: List[List[str]] = [[], [case("say new", "new")]]
        for more in above:
            self.write(*more, *cases)
            self.run_suite(self.path, "--junit", self.place("report.xml"), GITHUB_WORKSPACE=self.folder)
            found = xml.etree.ElementTree.parse(self.place("report.xml")).getroot()[0][len(more) :]
            names.append([(one.get("name", ""), one.get("file", ""), one.get("line", "")) for one in found])
        self.assertEqual([[one[0] for one in these] for these in names], [["say 1", "x", "say 1 (2)"]] * 2)
        self.assertEqual({one[1] for these in names for one in these}, {os.path.basename(self.path)})
        self.assertNotEqual([one[2] for one in names[0]], [one[2] for one in names[1]])

    def test_json_is_by_its_schema(self) -> None:
        try:
            jsonschema: Any = importlib.import_module("jsonschema")
        except ImportError:
            raise unittest.SkipTest("there is no jsonschema") from None
        with open(SCHEMA, encoding="utf-8") as file:
            schema = json.load(file)
        for one in self.objects(self.path):
            jsonschema.validate(one, schema)

    def test_control_characters_are_written_out(self) -> None:
        self.write(case("say \x1b[31m \x85 \u2028 1..2", "1"), case("x", "", "a {skip \u2029 why}"))
        for form in ("tap", "github"):
            output = self.run_suite(self.path, f"--{form}", "-").output
            self.assertEqual([c for c in output if not c.isprintable() and c not in "\n\t"], [], form)
        self.run_suite(self.path, "--junit", self.place("report.xml"))
        self.assertEqual(len(xml.etree.ElementTree.parse(self.place("report.xml")).getroot()[0]), 2)

    def test_remarks(self) -> None:
        github = self.run_suite(self.path, "--github", "-").output
        self.assertIn(f"::error file={self.path},line=17,title=differs%3A ", github)
        inside = self.run_suite(self.path, "--github", "-", GITHUB_WORKSPACE=os.path.dirname(self.path)).output
        self.assertIn(f"::error file={os.path.basename(self.path)},line=17,title=differs%3A ", inside)
        report = self.place("gitlab.json")
        self.run_suite(self.path, "--gitlab", report)
        self.assertEqual([one["location"]["lines"]["begin"] for one in json.loads(self.read(report))], [17])


class Troubles(Case):
    def setUp(self) -> None:
        super().setUp()
        self.broken = [self.place(name) for name in BROKEN]
        for path, text in zip(self.broken, BROKEN.values()):
            with open(path, "w", encoding="utf-8") as file:
                file.write(text)
        os.mkdir(self.place("empty"))
        self.broken += [self.place("gone.md"), self.place("empty")]
        self.write(case("say 1", "1"))

    def test_they_take_no_other_with_them(self) -> None:
        report, quality = self.place("report.xml"), self.place("quality.json")
        lines = self.place("lines")
        ran = self.run_suite(*self.broken[:3], self.path, *self.broken[3:], "--junit", report, "--gitlab", quality, "--json", lines, "--github", "-", "--tap", self.place("tap"))
        self.assertEqual((ran.status, ran.output.partition(" in ")[0]), (1, "1 ok"))
        self.assertEqual([line.partition(": ")[2].partition(": ")[0] for line in ran.errors.splitlines()], self.broken)
        suites = xml.etree.ElementTree.parse(report).getroot()
        self.assertEqual([suite.get("errors") for suite in suites if suite.get("name") != self.path], ["1"] * len(self.broken))
        self.assertEqual(len(list(suites.iter("error"))), len(self.broken))
        self.assertEqual([one["location"]["path"] for one in json.loads(self.read(quality))], self.broken)
        self.assertEqual([json.loads(line)["file"] for line in self.read(lines).splitlines()], [self.path, *self.broken])
        self.assertEqual(ran.output.count("::error file="), len(self.broken))
        self.assertEqual(self.read(self.place("tap")).count("\nnot ok "), len(self.broken))

    def test_the_word_of_tmhost_check(self) -> None:
        """The report has standard output for itself, so that a program reads it there."""
        self.write(case("say 1", "1"), case("say 2", "3"))
        for format in ("tap", "junit", "json"):
            ran = self.run_suite(self.path, "--format", format, f"--{format}", self.place("report"))
            self.assertEqual((ran.status, ran.output), (1, self.read(self.place("report"))))
            self.assertEqual(without_seconds(ran.errors), f"differs: {self.path}:17 say 2\n  @@ -1 +1 @@\n  -3\n  +2\n1 ok, 1 differs\n")
        ran = self.run_suite(self.path, "--format", "tap", "--json", "-")
        self.assertEqual(ran.status, 2)
        self.assertIn("error: --format has standard output for itself: name a file for the other report\n", ran.errors)

    def test_a_report_without_its_place(self) -> None:
        """That is said before anything is evaluated, so no worksheet of a run is there."""
        for option, path, why in (("--tap", self.place("none/tap"), f"there is no folder {self.place('none')}"), ("--junit", self.folder, f"{self.folder} is a folder")):
            ran = self.run_suite(self.path, option, path)
            self.assertEqual((ran.status, ran.output, ran.errors), (1, "", f"tmhost-suite: {option}: {why}\n"))
        self.assertFalse(os.path.exists(self.path + ".run"))

    def test_a_report_for_which_there_is_no_room(self) -> None:
        """What was there stays, whole; the others are written, and what else went wrong is said. A limit of the size of a file stands for a disk that is
        full. What is in the way of XML takes more room there than in the worksheet."""
        self.write(case("\n".join([f"say {'<' * 3_000}"] * 4)))
        self.make_file("report.xml", "<before/>")
        os.symlink("report.xml", self.place("link.xml"))
        os.chmod(self.place("report.xml"), 0o640)
        words_of_run = words(self.path, self.broken[0], "--junit", "link.xml", "--tap", "tap")
        limit = lambda: resource.setrlimit(resource.RLIMIT_FSIZE, (40_000, 40_000))
        ran = subprocess.run(words_of_run, capture_output=True, text=True, env=environment(), cwd=self.folder, timeout=LIMIT, preexec_fn=limit)
        self.assertEqual((ran.returncode, self.read(self.place("report.xml"))), (1, "<before/>"))
        last = "tmhost-suite: --junit: link.xml isn't written: File too large; --resume writes it, by what is kept"
        self.assertEqual([ran.stderr.splitlines()[0].partition(" line ")[0], *ran.stderr.splitlines()[1:]], [f"tmhost-suite: {self.broken[0]}:", last])
        self.assertIn(f"\nnot ok 1 - {self.path}:7 say <", self.read(self.place("tap")))
        self.assertEqual([name for name in os.listdir(self.folder) if "tmhost-weave" in name], [])
        # That evaluates nothing again.
        before = self.log("a")
        ran = subprocess.run([*words_of_run, "--resume"], capture_output=True, text=True, env=environment(), cwd=self.folder, timeout=LIMIT)
        self.assertEqual((self.log("a"), len(ran.stderr.splitlines())), (before, 1), ran.stderr)
        self.assertEqual(xml.etree.ElementTree.parse(self.place("report.xml")).getroot()[0][0].get("name"), f"say {'<' * 53}...")
        self.assertEqual((os.readlink(self.place("link.xml")), stat.S_IMODE(os.stat(self.place("report.xml")).st_mode)), ("report.xml", 0o640))

    def test_a_report_that_is_no_file(self) -> None:
        """It is written to, and stays what it is."""
        self.write(case("say 1", "1"))
        self.assertEqual(self.run_suite(self.path, "--junit", "/dev/null").status, 0)
        self.assertTrue(stat.S_ISCHR(os.stat("/dev/null").st_mode))
        os.mkfifo(self.place("pipe"))
        with subprocess.Popen(["cat", self.place("pipe")], stdout=subprocess.PIPE, text=True) as reader:
            self.assertEqual(self.run_suite(self.path, "--tap", self.place("pipe")).status, 0)
            self.assertEqual(reader.communicate(timeout=LIMIT)[0].splitlines()[:3], ["TAP version 13", "1..1", f"ok 1 - {self.path}:7 say 1"])
        self.assertTrue(stat.S_ISFIFO(os.stat(self.place("pipe")).st_mode))

    def test_lines_of_json_are_by_the_schema(self) -> None:
        try:
            jsonschema: Any = importlib.import_module("jsonschema")
        except ImportError:
            raise unittest.SkipTest("there is no jsonschema") from None
        with open(SCHEMA, encoding="utf-8") as file:
            schema = json.load(file)
        self.run_suite(self.path, self.broken[0], "--json", self.place("lines"))
        found = [json.loads(line) for line in self.read(self.place("lines")).splitlines()]
        self.assertEqual(len(found), 2)
        for one in found:
            jsonschema.validate(one, schema)
        with self.assertRaises(jsonschema.ValidationError):
            jsonschema.validate({**found[0], "trouble": "x"}, schema)

    def test_what_is_converted_has_its_name(self) -> None:
        self.assertIn(f"tmhost-suite: {self.broken[0]}: line 1 is no Python", self.run_suite("--convert", self.broken[0]).errors)


class Tap(Case):
    def setUp(self) -> None:
        super().setUp()
        self.other = self.place("other.md")
        self.write(case("say 1", " 1\n\n2"), case("say # \\\\x", "# \\x"), case("x", "", "a {skip}"), case("say 4", "5", "a {xfail why}"))
        self.write(case("say 1", "1"), path=self.other)

    def blocks(self, lines: List[str]) -> List[Any]:
        """The diagnostics, as a reader of YAML has them."""
        yaml: Any = importlib.import_module("yaml")
        found: List[Any] = []
        while "  ---" in lines:
            begin, end = lines.index("  ---"), lines.index("  ...")
            found.append(yaml.safe_load("\n".join(line[2:] for line in lines[begin + 1 : end])))
            lines = lines[end + 1 :]
        return found

    def test_version_14(self) -> None:
        self.run_suite(self.path, self.other, self.place("gone.md"), "--tap14", self.place("tap"))
        lines = self.read(self.place("tap")).splitlines()
        outer = [line for line in lines if not line.startswith(" ")]
        gone = self.place("gone.md")
        paths = [self.path, self.other, gone]
        points = [f"not ok 1 - {self.path}", f"ok 2 - {self.other}", f"not ok 3 - {gone}"]
        self.assertEqual(outer, ["TAP version 14", "1..3", *(line for pair in zip((f"# Subtest: {path}" for path in paths), points) for line in pair)])
        inner = [line[4:] for line in lines if line.startswith("    ")]
        self.assertEqual([line for line in inner if line.startswith("1..")], ["1..4", "1..1", "1..1"])
        self.assertEqual([line.split(" - ")[0] for line in inner if line.startswith(("ok", "not ok"))], ["not ok 1", "ok 2", "ok 3", "not ok 4", "ok 1", "not ok 1"])
        self.assertIn(f"ok 2 - {self.path}:19 say \\# \\\\\\\\x", inner)
        found = self.blocks(inner)
        self.assertEqual([one["verdict"] for one in found], ["differs", "ok", "xfail", "ok"])
        self.assertIn("\n- 1\n-\n-2\n+1", found[0]["diff"])

    def test_what_would_be_lost(self) -> None:
        """A report is written over no suite, nor over what is kept of one."""
        for place in (self.path, self.other, self.path + ".run", self.path + ".run.alt"):
            done = self.run_suite(self.path, self.other, "--tap", place)
            self.assertEqual((done.status, done.errors), (1, f"tmhost-suite: --tap: {place} would be lost: name another file\n"), place)

    @unittest.skipUnless(shutil.which("prove"), "there is no prove")
    def test_prove_reads_version_13(self) -> None:
        for paths, result in (((self.path, self.other), "FAIL"), ((self.other,), "PASS")):
            self.run_suite(*paths, "--tap", self.place("tap"))
            ran = subprocess.run(["prove", "-e", "cat", self.place("tap")], capture_output=True, text=True)
            self.assertIn(f"Result: {result}", ran.stdout)
            self.assertNotIn("Parse errors", ran.stdout)
