"""What is said, over the real program, of a suite whose front matter or command line most likely is misspelt."""
import os
from unittest import mock

from .support import Case, case
from tmhost_suite import program
from tmhost_suite.telling import standard


NONE = "tmhost-suite: no case is one of those that are to be run"


class Chosen(Case):
    def test_what_there_is_where_only_names_none(self) -> None:
        """Of many cases the nearest ones are listed, in their order."""
        other = self.place("other.md")
        self.write(*(case(f"say {at}", str(at)) for at in range(30)), case("wait 1", "1"))
        self.write(case("say x", "x", "b"), path=other)
        ran = self.run_suite(self.path, other, "--only", "wait 2")
        lines = ran.errors.splitlines()
        self.assertEqual((ran.status, lines[0], lines[-1], len(lines)), (1, f"{NONE}: none has the line, the name or the first line wait 2; there are", "  and 12 others", 22))
        self.assertIn(f"  {self.path}:{self.read().split(chr(10)).index('wait 1')} wait 1", lines)
        self.assertEqual(sorted(lines[1:-1], key=lambda line: int(line.split(":")[1].split()[0]) + (other in line) * 10_000), lines[1:-1])

    def test_the_tags_that_there_are(self) -> None:
        self.write(case("say 1", "1", "a {tags slow, net}"), case("say 2", "2", "a {tags quick}"), case("say 3", "3"))
        for words, said in (
            (("--tags", "none"), ": --tags none; their tags are net, quick, slow"), (("--tags", "quick", "--only", "say 1"), ": --tags quick; their tags are net, slow"),
            (("--tags", "quick", "--only", "say 3"), ": --tags quick; they have no tags"),
        ):
            ran = self.run_suite(self.path, *words)
            self.assertEqual((ran.status, ran.errors), (1, f"{NONE}{said}\n"))


class Programs(Case):
    def test_a_misspelt_program(self) -> None:
        """Its session is named with the adapter that is meant, and words with a space are refused with those that are meant."""
        self.write(case("say 1", "1", "c"))
        text = self.read()
        self.make_file("suite.md", text.replace("sessions:\n", "sessions:\n  c: [tmhost-pg]\n"))
        ran = self.run_suite(self.path)
        self.assertEqual(ran.status, 1)
        self.assertIn("there is no program tmhost-pg: is tmhost-gp meant?", ran.output + ran.errors)
        self.make_file("suite.md", text.replace("sessions:\n", "sessions:\n  c: [gp -q]\n"))
        ran = self.run_suite(self.path)
        self.assertEqual((ran.status, ran.errors), (1, f"tmhost-suite: {self.path}: the session c has a word with a space, 'gp -q': write [gp, -q]\n"))


class Keys(Case):
    def test_a_misspelt_key(self) -> None:
        """Its suite isn't run, and another one is. Before that, each case was compared without the rule."""
        self.write(case("say 1", "2"), more="tolerence: 5\nnormals: {a: b}\n")
        other = self.place("other.md")
        self.write(case("say 3", "3", "b"), path=other)
        ran = self.run_suite(self.path, other)
        said = [f"tmhost-suite: {self.path}: the front matter has '{key}': is {meant} meant?\n" for key, meant in (("tolerence", "tolerance"), ("normals", "normal"))]
        self.assertEqual((ran.status, ran.output[:5], ran.errors), (1, "1 ok ", "".join(said)))
        self.assertEqual((self.log("a"), self.log("b"), os.path.exists(self.path + ".run")), ([], ["say 3"], False))

    def test_misspelt_sessions(self) -> None:
        """Also of a text in a folder, which was left out in silence, and not where such a key is no mapping."""
        self.write(case("say 1", "1"))
        text = self.read()
        for key in ("session", "Sessions"):
            self.make_file("folder/suite.md", text.replace("sessions:", key + ":"))
            self.make_file("folder/other.md", "---\nsession: 3\n---\nText.\n")
            for word in ("folder", "folder/suite.md"):
                ran = self.run_suite(word)
                self.assertEqual((ran.status, ran.errors), (1, f"tmhost-suite: folder/suite.md: the front matter has '{key}': is sessions meant?\n"))
        self.assertEqual(self.log("a"), [])

    def test_a_folder_is_walked_once(self) -> None:
        self.write(case("say 1", "1"))
        given = program.arguments([self.folder, "--tap", self.place("report")])
        with mock.patch.object(program, "suites_of", return_value=[]) as walked:
            self.assertTrue(program.Runner(given, standard()).run())
        walked.assert_called_once_with(self.folder)
