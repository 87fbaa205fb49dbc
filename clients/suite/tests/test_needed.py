"""What a case needs is evaluated before it, whatever is chosen: the earlier cases of its session, which are neither compared nor reported."""
import random
from typing import List, Tuple

from .support import Case, case, without_seconds
from .values import expected

LINES = ["x1", "x2", "x3", "x4"]


class Base(Case):
    def forget(self) -> None:
        """What the interpreters got until now."""
        for name in "ab":
            self.remove_file(name + ".log")

    def last_line(self) -> str:
        return without_seconds(self.outcome.output).splitlines()[-1]

    def values(self) -> List[str]:
        return expected([("a", line, False) for line in LINES])


class Needed(Base):
    def test_what_failed_and_is_run_again(self) -> None:
        """It comes to what it came to before, and that is what is accepted."""
        self.write(*(case(line, "other" if line == "x3" else value) for line, value in zip(LINES, self.values())), case("y", None, "b"))
        self.assertEqual(self.verdicts(self.path)[:4], ["ok", "ok", "differs", "ok"])
        self.forget()
        found = self.objects(self.path, "--rerun", "failed", "--accept")
        self.assertEqual([(one["code"], one["came"]) for one in found], [(["x3"], self.values()[2]), (["y"], found[1]["came"])])
        self.assertEqual((self.log("a"), self.log("b")), (["x1", "x2", "x3"], ["y"]))
        self.assertIn("\n1 differs, 1 new, 3 left out, 2 replayed in ", self.outcome.output)
        self.assertIn(f"````answer\n{self.values()[2]}\n".replace("````", "```"), self.read())
        self.assertEqual(set(self.verdicts(self.path)), {"ok"})

    def test_each_one_alone_is_as_in_the_whole(self) -> None:
        """Interpreters end in some of them, and some set up."""
        chance = random.Random(self.id())
        code = []
        for at in range(12):
            line = "die" if at in (3, 8) else f"x{at}"
            code.append((chance.choice("ab"), line, line != "die" and chance.random() < 0.2))
        self.write(*(case(line, value, session + (" {setup}" if is_setup else "")) for (session, line, is_setup), value in zip(code, expected(code))))
        self.assertEqual(set(self.verdicts(self.path)), {"ok"}, self.read())
        for session, line, is_setup in code:
            found = [one["verdict"] for one in self.objects(self.path, "--only", line) if one["code"] == [line]]
            self.assertEqual(set(found), {"ok"}, self.outcome.output)

    def test_by_chance_in_the_order_of_a_seed(self) -> None:
        self.write(*(case(line) for line in LINES))
        whole = {str(one["code"]): one["came"] for one in self.objects(self.path, "--random", "5")}
        self.assertEqual([one["came"] for one in self.objects(self.path, "--random", "5", "--only", "x2")], [whole["['x2']"]])

    def test_nothing_after_the_last_one_is_evaluated(self) -> None:
        self.write(*(case(line) for line in LINES), case("say end", "end", "a {teardown}"), case("y", None, "b"), case("say s", "s", "b {setup}"))
        self.verdicts(self.path, "--only", "x2")
        self.assertEqual((self.log("a"), self.log("b")), (["x1", "x2", "say end"], ["say s"]))
        self.assertEqual(self.last_line(), "2 ok, 1 new, 4 left out, 1 replayed")

    def test_what_is_skipped_is_not_evaluated(self) -> None:
        self.write(case("x1", None, "a {skip}"), case("x2"))
        self.verdicts(self.path, "--only", "x2")
        self.assertEqual((self.log("a"), self.last_line()), (["x2"], "1 new, 1 left out"))


class Independent(Base):
    def test_one_case(self) -> None:
        """Nothing is evaluated for it, and it for none."""
        for word in ("independent", "pure"):
            self.write(case("say s", "s", "a {setup}"), case("x1"), case("x2", None, f"a {{{word}}}"), case("x3"))
            for line, log in (("x2", ["say s", "x2"]), ("x3", ["say s", "x1", "x3"])):
                self.forget()
                self.verdicts(self.path, "--only", line)
                self.assertEqual(self.log("a"), log)

    def test_all_cases(self) -> None:
        self.write(*(case(line) for line in LINES), more="independent: true\n")
        self.verdicts(self.path, "--only", "x4")
        self.assertEqual((self.log("a"), self.last_line()), (["x4"], "1 new, 3 left out"))
        self.write(*(case(line) for line in LINES), more="independent: some\n")
        self.assertIn("`independent` can only be `true` or `false`", self.run_suite(self.path).errors)

    def test_a_run_that_goes_on(self) -> None:
        """What was done is evaluated again only where a case that is left may need it."""
        left = [case(f"until {self.place('go')}"), case("say 6", "6")]
        given: Tuple[Tuple[str, List[str]], ...] = (("", LINES), ("independent: true\n", []))
        for more, log in given:
            self.write(case("say s", "s", "a {setup}"), *(case(line) for line in LINES), *left, more=more)
            self.cut_off(5)
            self.forget()
            self.assertEqual(self.verdicts(self.path, "--resume"), ["ok", "new", "new", "new", "new", "new", "ok"])
            self.assertEqual(self.log("a"), ["say s", *log, f"until {self.place('go')}", "say 6"])
            self.assertEqual(self.last_line(), f"2 ok, 5 new, {len(log) + 1} replayed")
            for name in ("go", "suite.md.run", "suite.md.run.alt", "a.log"):
                self.remove_file(name)


class Only(Base):
    def test_a_part_of_a_first_line(self) -> None:
        self.write(case("say def f"), case("say def g"), case("say x", info="b"))
        ran = self.run_suite(self.path, "--only", "def")
        self.assertEqual((ran.status, ran.errors.splitlines()[0]), (1, "tmhost-suite: no case is one of those that are to be run: none has the line, the name or the first line def, and '*def*' chooses 2; there are"))
        self.assertEqual(self.verdicts(self.path, "--only", "*def*"), ["new", "new"])
        self.assertIn("the first line nothing; there are\n", self.run_suite(self.path, "--only", "nothing").errors)

    def test_a_pattern_with_a_blank_at_its_end(self) -> None:
        """It stands for itself, and that is said."""
        self.write(case("say x", "... "), case("say ... ", "x\n.* (re) "), case("say x\ny", "... ", "a {spaces any}"), case("say x", "y"))
        found = self.objects(self.path)
        said = "line {} of what is wanted ends in a blank, so it is no pattern"
        self.assertEqual([(one["verdict"], one["remark"]) for one in found], [("differs", said.format(1)), ("differs", said.format(2)), ("ok", ""), ("differs", "")])
