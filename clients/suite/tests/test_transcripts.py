"""Test files of GAP and of Octave: how they are read, and what comes of them over the real interpreters."""
import re
import shutil
import unittest
from typing import List, Tuple

from .support import Case
from tmhost_suite.forms import GAP, OCTAVE
from tmhost_suite.readers import as_text
from tmhost_suite.text import Text
from tmhost_suite.transcripts import read_gap, read_octave

GAP_TEXT = """# A remark before the first prompt.
gap> START_TEST("a.tst");
gap> l := [1, 2,
>   3];
[ 1, 2, 3 ]
gap> Print("a\\n\\n#b\\n");
a

# A remark after an empty line,
# and one more.

# And one more.

gap> a := 1; b := 2;
1
2

gap> List([1 .. 30], n -> n^3);
[ 1, 8, 27, 64, 125, 216, 343, 512, 729, 1000, 1331, 1728, 2197, 2744, 3375,
  4096, 4913, 5832, 6859, 8000, 9261, 10648, 12167, 13824, 15625, 17576,
  19683, 21952, 24389, 27000 ]
#@if true
gap> 5;
6
#@fi
gap> a + b;
4
gap> STOP_TEST("a.tst", 1);
"""

OCTAVE_TEXT = """## A function of nobody's.
function a ()
endfunction

%!shared x, y  # a remark
%! x = 3;
%!function z = twice (z)
%!  z = 2 * z;
%!endfunction
%!assert (twice (x), 6)
%!assert (isempty (y))
%!test
%! x = 5;
%! v = 1;
%!
%! assert (x, 5);
%!test
%! assert (x, 5);
%! assert (! exist ("v"));
%!assert (x,
%!        4)
%!error <no such> error ("my:id", "there is no such thing")
%!error <^there> error ("my:id", "there is no such thing")
%!error <^is> error ("my:id", "there is no such thing")
%!error id=my:id error ("my:id", "there is no such thing")
%!error id=my:other error ("my:id", "there is no such thing")
%!error <no such> x = 1;
%!error <syntax error> eval ("1 +")
%!warning <care> warning ("take care")
%!warning <care> x = 1;
%!test <*12345>
%! assert (true);
%!test <12345>
%! assert (false);
%!test <12345>
%! assert (true);
%!xtest assert (false);
%!assert (["abc\\
%! def"], "abc def")
%!testif HAVE_NOTHING_OF_THE_KIND
%! assert (false);
%!testif ; false
%! assert (false);
%!testif ; true
%! assert (true);
%!fail ("error ('of course')", "course")
%!demo
%! plot (1)
"""
OCTAVE_WANTED = (
    ["ok"] * 2 + ["ok"] * 4 + ["differs"]
    + ["ok", "ok", "differs", "ok", "differs", "differs", "ok", "ok", "differs"]
    + ["ok", "xfail", "ok", "xfail", "ok", "skip", "skip", "ok", "ok"]
)
OCTAVE_NAMES = [
    "shared x, y  # a remark", "function z = twice (z)", "assert (twice (x), 6)", "assert (isempty (y))", "x = 5;", "assert (x, 5);", "assert (x,",
    'error <no such> error ("my:id", "there is no such thing")', 'error <^there> error ("my:id", "there is no such thing")', 'error <^is> error ("my:id", "there is no such thing")',
    'error id=my:id error ("my:id", "there is no such thing")', 'error id=my:other error ("my:id", "there is no such thing")', "error <no such> x = 1;",
    'error <syntax error> eval ("1 +")', 'warning <care> warning ("take care")', "warning <care> x = 1;", "assert (true);", "assert (false);", "assert (true);", "assert (false);",
    'assert (["abc\\', "assert (false);", "assert (false);", "assert (true);", "fail (\"error ('of course')\", \"course\")",
]


class Reading(unittest.TestCase):
    def test_of_gap_no_remark_is_wanted(self) -> None:
        suite = read_gap("a.tst", GAP_TEXT, GAP)
        found: List[Tuple[int, Tuple[str, ...], object]] = [(case.line, case.lines, case.wanted) for case in suite.cases[2:4]]
        self.assertEqual(found, [(3, ("l := [1, 2,", "  3];"), "[ 1, 2, 3 ]"), (6, ('Print("a\\n\\n#b\\n");',), "a")])
        self.assertEqual([case.marks.skip is not None for case in suite.cases], [False, True, False, False, False, False, True, False, True])

    def test_remarks_are_left_out_of_the_text_form(self) -> None:
        self.assertEqual(read_gap("a.tst", GAP_TEXT, GAP).left_out, ("4 lines of remarks",))
        self.assertEqual(read_octave("a.tst", OCTAVE_TEXT, OCTAVE).left_out, ("1 line of remarks",))
        self.assertEqual(read_octave("a.tst", "%!assert (1)\n", OCTAVE).left_out, ())

    def test_what_sets_up_is_the_tools_own_and_names_no_folder(self) -> None:
        for suite in (read_gap("/a/b.tst", GAP_TEXT, GAP), read_octave("/a/b.tst", OCTAVE_TEXT, OCTAVE)):
            self.assertEqual([case.is_own for case in suite.cases], [True] + [False] * (len(suite.cases) - 1))
            self.assertNotIn("/a", "\n".join(suite.cases[0].lines))

    def test_a_package_of_gap_is_loaded(self) -> None:
        self.assertIn('LoadPackage("laguna", false);;', read_gap("/usr/share/gap/pkg/laguna/tst/a.tst", GAP_TEXT, GAP).cases[0].lines)

    def test_a_block_that_shares_nothing_is_independent(self) -> None:
        """Each is a function of its own. What it shares changes from block to block."""
        suite = read_octave("a.m", "%!assert (1)\n%!error <x> y\n%!testif ; true\n%! z\n%!shared x\n%! x = 1;\n%!test x = 2;\n%!assert (x, 2)\n", OCTAVE)
        self.assertEqual([case.marks.is_independent for case in suite.cases], [True] * 3 + [False] * 3)
        self.assertEqual(as_text(suite)[0].count("{independent}"), 3)

    def test_a_block_has_the_name_that_its_file_shows(self) -> None:
        """Not that of the function in which it is evaluated. Its text form has that of its code."""
        suite = read_octave("a.m", OCTAVE_TEXT, OCTAVE)
        self.assertEqual([case.title for case in suite.cases], [name if len(name) <= 60 else name[:57] + "..." for name in OCTAVE_NAMES])
        texts = ("%!test <*12345> x = 1;\n", "%!test\n%!\n%! y\n", "%!test\n", "%!error\n%! f (x)\n", "%!error(f)\n", "%!assert <*12> (1)\n", "%!testif HAVE_X\n%! z\n", "%!xtest <1>\n%! u\n")
        names = ["x = 1;", "y", "test", "error f (x)", "error(f)", "assert <*12> (1)", "z", "u"]
        self.assertEqual([read_octave("a.m", text, OCTAVE).cases[0].title for text in texts], names)
        text = as_text(read_octave("a.m", "".join(texts[:2]) + "%!error id=my:id f (x)\n%!shared v\n%!error <a> f (v)\n", OCTAVE))[0]
        self.assertEqual([case.title for case in Text("a.md", text).cases], ["x = 1;", "y", "f (x)", "v = [];", "f (v)"])

    def test_of_octave_no_demonstration_is_read(self) -> None:
        suite = read_octave("a.m", OCTAVE_TEXT, OCTAVE)
        self.assertEqual(len(suite.cases), len(OCTAVE_WANTED))
        self.assertEqual([case.line for case in suite.cases][:5], [5, 7, 10, 11, 12])


class Running(Case):
    def put(self, name: str, text: str) -> str:
        self.write(path=self.place(name))
        with open(self.place(name), "w", encoding="utf-8") as file:
            file.write(text)
        return self.place(name)

    @unittest.skipUnless(shutil.which("gap"), "there is no gap")
    def test_gap(self) -> None:
        found = self.verdicts(self.put("a.tst", GAP_TEXT))
        # The remark that `Print` writes looks like one of the file, as to GAP's own `Test`.
        self.assertEqual(found, ["skip", "ok", "differs", "ok", "ok", "skip", "differs", "skip"], self.outcome.output)

    @unittest.skipUnless(shutil.which("octave-cli"), "there is no octave-cli")
    def test_octave_by_name_and_line(self) -> None:
        """The line is the one that is listed."""
        path = self.put("a.tst", "%!assert (1+1, 2)\n%!test\n%! x = 1;\n%! assert (x, 1);\n%!assert (2+2, 5)\n%!assert (3+3, 6)\n")
        names = ["assert (1+1, 2)", "x = 1;", "assert (2+2, 5)", "assert (3+3, 6)"]
        self.assertEqual([one["name"] for one in self.objects(path, "--junit", self.place("report.xml"))], names)
        self.assertEqual(re.findall(r' line="\d+" name="(.*?)"', self.read(self.place("report.xml"))), names)
        listed = [f"  {path}:{line} {name}" for line, name in zip((1, 2, 5, 6), names)]
        self.assertEqual(self.run_suite(path, "--only", "zzz").errors.splitlines()[1:], listed)
        for given, meant in (("5", "assert (2+2, 5)"), ("assert (2+2, 5)", "assert (2+2, 5)"), ("2", "x = 1;"), ("*3+3*", "assert (3+3, 6)")):
            self.assertEqual([one["name"] for one in self.objects(path, "--only", given)], [meant])

    @unittest.skipUnless(shutil.which("octave-cli"), "there is no octave-cli")
    def test_octave(self) -> None:
        self.assertEqual(self.verdicts(self.put("a.tst", OCTAVE_TEXT)), OCTAVE_WANTED, self.outcome.output)
        text = self.run_suite("--convert", self.place("a.tst")).output
        self.assertNotIn(self.folder, text)
        # Its folder is put on Octave's path first.
        self.assertEqual(self.verdicts(self.put("a.md", text)), ["ok", *OCTAVE_WANTED], text)
