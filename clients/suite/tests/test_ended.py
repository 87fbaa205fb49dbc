"""An interpreter that ends in a case, and a case whose time is over: each is a verdict of its own. What comes after an end is marked to the end of its
session, and not accepted."""
import sys
import xml.etree.ElementTree
from typing import List, Tuple

from .support import Case, case, without_seconds

# It has written, on both its outputs, what is no answer any more.
WRITES = """import os, sys
print("half of it", flush=True)
print("last words", file=sys.stderr, flush=True)
"""


class After(Case):
    def setUp(self) -> None:
        super().setUp()
        self.write(case("x1"), case("die", "? Ended"), case("say 2", "2"), case("x3", "other"), case("x4"), case("x5", "other", "a {independent}"), case("y", None, "b"))

    def marks(self, *more: str) -> List[Tuple[str, str, object]]:
        return [(one["verdict"], one["remark"], one["endedBefore"]) for one in self.objects(self.path, *more)]

    def test_each_later_case_is_marked(self) -> None:
        remark = "in an interpreter that was started again after line 13"
        after = [("ok", remark, 13), ("differs", remark, 13), ("new", remark, 13), ("differs", "", None), ("new", "", None)]
        self.assertEqual(self.marks(), [("new", "", None), ("ok", "", None), *after])
        self.assertIn(f"differs: {self.path}:33 x3 ({remark})\n", self.outcome.output)

    def test_none_of_them_is_accepted(self) -> None:
        ran = self.run_suite(self.path, "--accept")
        self.assertEqual(ran.status, 1)
        said = [
            f"{self.path}: 2 not accepted, since line 13 ended their interpreter, and with it went what was set before: lines 33, 43",
            f"{self.path}: mend line 13; or put {{setup}} at what they need, or {{independent}} at them where they need nothing; --interactive accepts them as they are",
            f"{self.path}: 3 accepted",
        ]
        self.assertEqual(ran.output.splitlines()[-3:], said)
        self.assertEqual([one[0] for one in self.marks()], ["ok", "ok", "ok", "differs", "new", "ok", "ok"])
        # One that is asked may take them.
        self.run_suite(self.path, "--accept", "--interactive", given="y\n" * 2)
        self.assertEqual({one[0] for one in self.marks()}, {"ok"})

    def test_what_is_chosen_is_marked_too(self) -> None:
        self.assertEqual([one[2] for one in self.marks("--only", "x3")], [13])
        self.assertIn("1 not accepted, since line 13 ended", self.run_suite(self.path, "--only", "x3", "--accept").output)

    def test_in_a_run_that_goes_on(self) -> None:
        self.write(case("x1"), case("die", "? Ended"), case("say 2", "2"), case(f"until {self.place('go')}", "other"), case("x4"))
        self.cut_off(3)
        found = self.marks("--resume")
        self.assertEqual([one[2] for one in found], [None, None, 13, 13, 13])
        # Also where the case that ended it is the last one that was done.
        self.write(case("x1"), case("die", "? Ended"), self.waiting(), case(f"until {self.place('go')}", "other"))
        for name in ("go", "suite.md.run", "suite.md.run.alt"):
            self.remove_file(name)
        self.cut_off(2)
        self.assertEqual([one[2] for one in self.marks("--resume")], [None, None, None, 13])


# It answers, and ends after `bye`.
LEAVES = """import sys
said = []
sys.stdout.write("\\x02verbatim:ready\\x05")
sys.stdout.flush()
for line in sys.stdin:
    said.append(line.strip())
    sys.stdout.write("\\x02verbatim:" + " ".join(said) + "\\x05")
    sys.stdout.flush()
    if said[-1] == "bye":
        break
"""


class Leaves(Case):
    def test_an_interpreter_that_ends_after_its_answer(self) -> None:
        """What sets up is evaluated again, and no later answer is accepted."""
        program = self.make_file("leaves.py", LEAVES)
        self.write(*(case(line, None, info) for line, info in (("s", "c {setup}"), ("x", "c"), ("bye", "c"), ("y", "c"), ("z", "c"))))
        text = self.read().replace("sessions:\n", f"sessions:\n  c: [{sys.executable}, {program}]\n")
        with open(self.path, "w", encoding="utf-8") as file:
            file.write(text)
        for _ in range(5):
            found = self.objects(self.path)
            came = [str(one["came"]) for one in found]
            marks = [(one["endedBefore"], one["startedAgain"]) for one in found]
            self.assertEqual((came[:3], marks[:3]), (["s", "s x", "s x bye"], [(None, False)] * 3))
            if found[3]["verdict"] == "ended":  # its line was sent before anybody could know
                self.assertIn((came[3], came[4], marks[4]), [(f"? {why}", "s z", (26, True)) for why in ("Ended", "SendFault")])
            else:
                self.assertEqual((came[3:], marks[3:]), (["s y", "s y z"], [(20, True), (20, False)]))
        self.assertIn(f"{self.path}: 2 accepted\n", self.run_suite(self.path, "--accept").output)
        self.assertEqual([one["came"] for one in self.objects(self.path) if one["verdict"] == "ok"], ["s x", "s x bye"])


class Ends(Case):
    def setUp(self) -> None:
        super().setUp()
        self.ends = [("os.kill(os.getpid(), 11)", None), ("os._exit(5)", "6"), ("os._exit(0)", "? Ended"), ("os._exit(4)", "6")]
        infos = ["py {whole}"] * 3 + ["py {whole} {xfail known}"]
        self.write(*(case(WRITES + code, wanted, info) for (code, wanted), info in zip(self.ends, infos)))
        with open(self.path, encoding="utf-8") as file:
            text = file.read()
        with open(self.path, "w", encoding="utf-8") as file:
            file.write(text.replace("sessions:\n", "sessions:\n  py: [tmhost-python]\n"))

    def test_it_is_a_verdict_of_its_own(self) -> None:
        found = self.objects(self.path, "--tap", self.place("tap"), "--junit", self.place("report.xml"))
        self.assertEqual([one["verdict"] for one in found], ["ended", "ended", "ok", "xfail"])
        said = "half of it | last words"
        self.assertEqual([(one["came"], one["isError"], one["end"], one["said"]) for one in found], [("? Ended", True, "Ended", said)] * 4)
        output = without_seconds(self.outcome.output)
        self.assertTrue(output.startswith(f"ended: {self.path}:8 import os, sys\n  before it ended its interpreter had written: {said}\n  @@ -0,0 +1 @@\n  +? Ended\n"), output)
        self.assertEqual((self.outcome.status, output.splitlines()[-1]), (1, "1 ok, 1 xfail, 2 ended"))
        tap = self.read(self.place("tap"))
        self.assertIn(f"\nnot ok 1 - {self.path}:8 import os, sys\n  ---\n  verdict: ended\n", tap)
        self.assertIn(f'\n  end: "Ended"\n  said: "{said}"\n', tap)
        suite = xml.etree.ElementTree.parse(self.place("report.xml")).getroot()[0]
        self.assertEqual([suite.get(name) for name in ("tests", "failures", "errors", "skipped")], ["4", "0", "2", "1"])
        self.assertEqual([(one.get("type"), one.get("message")) for one in suite.iter("error")], [("ended", f"its interpreter ended (Ended): {said}")] * 2)

    def test_it_failed_and_is_not_accepted(self) -> None:
        before = self.read()
        self.assertIn("2 not accepted, since no answer came to a field", self.run_suite(self.path, "--accept").output)
        self.assertEqual(self.read(), before)
        self.assertEqual([one["line"] for one in self.objects(self.path, "--rerun", "failed")], [8, 17])
        self.assertIn(f"::error file={self.path},line=8,title=ended%3A ", self.run_suite(self.path, "--github", "-").output)

    def test_what_an_answer_had_before_is_none_of_it(self) -> None:
        self.write(case("say half"), case("die"), case("say x", "x"))
        self.assertEqual([(one["end"], one["said"]) for one in self.objects(self.path)], [(None, ""), ("Ended", ""), (None, "")])

    def test_long_last_words_are_kept(self) -> None:
        """Those of other alphabets are longer than what a note of a run holds."""
        self.ends = [("print('\U0001f600' * 300, flush=True)\n" * 3 + "os._exit(1)", "6")]
        self.write(case(WRITES + self.ends[0][0], "6", "py {whole}"), self.waiting())
        with open(self.path, encoding="utf-8") as file:
            text = file.read()
        with open(self.path, "w", encoding="utf-8") as file:
            file.write(text.replace("sessions:\n", "sessions:\n  py: [tmhost-python]\n"))
        self.cut_off(1)
        found = self.objects(self.path, "--resume")
        self.assertIn("goes on after 1 of 2 cases", self.outcome.output)
        self.assertEqual((found[0]["verdict"], found[0]["said"]), ("ended", " | ".join(["\U0001f600" * 300] * 3)))


class Over(Case):
    def setUp(self) -> None:
        super().setUp()
        time = "a {timeout 1}"
        over = [case("stuck 601", "2", f"{time} {{may_fail known}}"), case("stuck 602", "2", time), case("stuck 603", None, time), case("stuck 604", "? over 1 s", time)]
        self.write(case("say 1", "1"), case("say 3", "4"), *over)

    def test_it_is_a_verdict_of_its_own(self) -> None:
        found = self.objects(self.path, "--tap", self.place("tap"), "--junit", self.place("report.xml"))
        self.assertEqual([(one["verdict"], one["over"]) for one in found], [("ok", None), ("differs", None), ("xfail", 1), ("over", 1), ("over", 1), ("ok", 1)])
        self.assertEqual({(one["end"], one["isError"]) for one in found}, {(None, False)})
        output = without_seconds(self.outcome.output)
        again = "(in an interpreter that was started again after line 27)"
        self.assertIn(f"\nxfail, over 1 s: {self.path}:27 stuck 601 (known)\nover: {self.path}:37 stuck 602 {again}\n  @@ -1 +1 @@\n  -2\n  +? over 1 s\nover: {self.path}:47 stuck 603", output)
        self.assertEqual((self.outcome.status, output.splitlines()[-1]), (1, "2 ok, 1 xfail, 1 differs, 2 over"))
        tap = self.read(self.place("tap"))
        self.assertIn(f"\nnot ok 4 - {self.path}:37 stuck 602\n  ---\n  verdict: over\n", tap)
        self.assertEqual(tap.count("\n  over: 1\n"), 4)
        suite = xml.etree.ElementTree.parse(self.place("report.xml")).getroot()[0]
        self.assertEqual([suite.get(name) for name in ("tests", "failures", "errors", "skipped")], ["6", "1", "2", "1"])
        self.assertEqual([(one.get("type"), one.get("message")) for one in suite.iter("error")], [("over", "its time was over (1 s)")] * 2)
        self.assertEqual([one.get("type") for one in suite.iter("failure")], ["answer"])

    def test_it_failed_and_is_not_accepted(self) -> None:
        before = self.read()
        ran = self.run_suite(self.path, "--accept", "--github", "-")
        self.assertIn(f"{self.path}: 2 not accepted, since no answer came to a field\n{self.path}: 1 accepted\n", ran.output)
        self.assertIn(f"::error file={self.path},line=37,title=over%3A stuck 602::its time was over (1 s)%0A", ran.output)
        self.assertEqual(self.read(), before.replace("````answer\n4\n````", "```answer\n3\n```"))
        self.assertEqual([one["line"] for one in self.objects(self.path, "--rerun", "failed")], [17, 37, 47])

    def test_a_run_that_goes_on_knows_it(self) -> None:
        self.write(case("say 1", "1"), case("stuck", "2", "a {timeout 1}"), self.waiting())
        self.cut_off(2)
        self.assertEqual([(one["verdict"], one["over"]) for one in self.objects(self.path, "--resume")], [("ok", None), ("over", 1), ("xfail", None)])
        self.assertIn("goes on after 2 of 3 cases", self.outcome.output)
