"""A session of a worksheet, as TeXmacs talks with it."""
import os
import queue
import threading
import time
import unittest

from .support import PROGRAM, Case, TeXmacs, Worksheet, read_blocks
from tmhost import Block
from tmhost_texmacs.speech import Speech


class Lines(Case):
    def test_a_line_is_a_field(self) -> None:
        self.make()
        texmacs = self.texmacs()
        self.assertIn("t, kept in " + self.sheet, texmacs.banner.text)
        first = texmacs.evaluate("say one")
        second = texmacs.evaluate("say two\nthree", before=first.id)
        self.assertEqual((first.text, second.text), ("one", "two\u2028three"))
        self.assertEqual((first.id, second.id, second.prompt), ("1", "2", "3] "))
        self.assertEqual(self.kept(), {"1": ("say one", "one"), "2": ("say two\u2028three", "two\u2028three")})

    def test_a_folder_with_a_long_path(self) -> None:
        """The socket is there, whose path is longer than a socket's may be."""
        self.make()
        home = os.path.join(self.folder, "x" * 60, "y" * 60)
        os.makedirs(home)
        texmacs = TeXmacs(home, self.sheet, "t:x", "/d/a.tm")
        self.open.append(texmacs)
        self.assertEqual(texmacs.evaluate("say one").text, "one")
        places = os.listdir(os.path.join(home, ".cache", "tmhost-texmacs"))
        self.assertEqual(len([name for name in places if name.endswith(".socket")]), 1)

    def test_a_line_that_is_evaluated_again_is_the_same_field(self) -> None:
        self.make()
        texmacs = self.texmacs()
        first, second = texmacs.evaluate("say one"), texmacs.evaluate("say two")
        again = texmacs.evaluate("say other", first.id)
        self.assertEqual((again.id, again.text), (first.id, "other"))
        self.assertNotEqual(again.mark, first.mark)
        self.assertEqual(self.kept(), {"1": ("say other", "other"), "2": ("say two", "two")})
        self.assertEqual(second.id, "2")

    def test_a_line_between_others_stands_between_them(self) -> None:
        self.make()
        texmacs = self.texmacs()
        first, last = texmacs.evaluate("say first"), texmacs.evaluate("say last")
        texmacs.evaluate("say between", before=first.id, after=last.id)
        texmacs.evaluate("say front", after=first.id)
        self.assertEqual([input for input, _ in self.kept().values()], ["say front", "say first", "say between", "say last"])

    def test_it_is_acknowledged_before_its_answer(self) -> None:
        self.make()
        texmacs = self.texmacs()
        texmacs.begin("sleep 60")
        while b"tmhost-accepted" not in texmacs.data:
            self.assertTrue(texmacs.hear())
        self.assertFalse(texmacs.is_whole())
        self.assertEqual(self.kept(), {"1": ("sleep 60", None)})

    def test_what_has_meaning_in_blocks_and_strings(self) -> None:
        self.make()
        texmacs = self.texmacs()
        self.assertEqual(texmacs.evaluate('say "a\\\\b" \u00e9\u03b1').text, '"a\\b" \u00e9\u03b1')
        self.assertEqual(texmacs.evaluate("bytes 610562026331").text, "a\x05b\x02c1")
        self.assertEqual(texmacs.evaluate("formula").text, "{latex:$x$}")

    def test_what_is_not_taken(self) -> None:
        self.make()
        texmacs = self.texmacs()
        self.assertIn("4,095 bytes", texmacs.evaluate("x" * 5000).text)
        self.assertIn("doesn't know", texmacs.asks("(nonsense)").text)
        self.assertEqual(texmacs.evaluate("say still").text, "still")

    def test_an_interpreter_that_ends(self) -> None:
        self.make()
        texmacs = self.texmacs()
        self.assertEqual(texmacs.evaluate("die").text, "? Ended")
        self.assertEqual(texmacs.evaluate("say again").text, "again")

    def test_errors(self) -> None:
        """They are marked as TeXmacs marks those of its own sessions, with letters of its encoding."""
        self.make()
        reported = self.texmacs().evaluate('error a <b> "c" \\ \u4e2d').text
        self.assertEqual(reported, r'{scheme:(errput (document "a <less>b<gtr> \"c\" \\ <#4E2D>"))}')

    def test_both_forms_of_an_error(self) -> None:
        """docs/use/PROTOCOL.md has two; a channel `output` that stands in no other one is text."""
        for error in (Block("error", "channel", ("no\n\tway",)), Block("output", "channel", ("yes ", Block("output", "channel", ("no\n\tway",))))):
            reported = read_blocks(Speech(self.folder).part(Block("verbatim", "format", ("ok\n", error))))
            self.assertEqual(reported.text.replace("yes ", ""), 'ok\n{scheme:(errput (document "no" "        way"))}')

    def test_completions(self) -> None:
        self.make()
        texmacs = self.texmacs()
        texmacs.evaluate("say one")
        self.assertEqual(texmacs.completes("sl"), '{scheme:(tuple "sl" "eep")}')
        self.assertEqual(texmacs.completes("nothing"), "{scheme:(tuple)}")

    def test_an_interrupt(self) -> None:
        self.make()
        texmacs = self.texmacs()
        texmacs.evaluate("say one")
        texmacs.begin("loop")
        time.sleep(1)
        texmacs.interrupt()
        self.assertEqual(texmacs.answer().text, "interrupted")
        self.assertEqual(texmacs.evaluate("count").text, "2")
        texmacs.interrupt()  # between lines it does nothing
        self.assertEqual(texmacs.evaluate("count").text, "3")
        self.assertEqual([answer for _, answer in self.kept().values()], ["one", "interrupted", "2", "3"])

    def test_an_interrupt_that_is_not_heeded(self) -> None:
        self.make()
        texmacs = self.texmacs()
        texmacs.evaluate("say one")  # one that begins heeds no interrupt yet
        texmacs.begin("stuck 3")
        time.sleep(1)
        texmacs.interrupt()
        self.assertEqual(texmacs.answer().text, "slept")
        self.assertEqual(texmacs.evaluate("say mine").text, "mine")

    def test_a_closed_session_has_no_interpreter(self) -> None:
        self.make()
        texmacs, other = self.texmacs(), self.texmacs("sh:x")
        texmacs.evaluate("count")
        texmacs.begin("stuck 60")
        time.sleep(1)
        texmacs.kill()
        other.evaluate("sleep 1")
        again = self.texmacs()
        self.assertEqual(again.evaluate("count").text, "0")


class Documents(Case):
    def test_sessions_of_a_document_share_its_worksheet(self) -> None:
        self.make()
        one, other = self.texmacs("t:x"), self.texmacs("sh:x")
        self.assertEqual((one.evaluate("say a").id, other.evaluate("echo b").id), ("1", "2"))
        self.assertEqual(other.evaluate("%tmhost interrupt t").text, "interrupt of t: idle")
        self.assertEqual([answer for _, answer in self.kept().values()], ["a", "b"])

    def test_sessions_that_begin_at_once(self) -> None:
        self.make()
        found: "queue.SimpleQueue[str]" = queue.SimpleQueue()
        threads = [threading.Thread(target=lambda name=name: found.put(self.texmacs(name).banner.text)) for name in ("t:x", "sh:x", "python:x")]
        for thread in threads:
            thread.start()
        for thread in threads:
            thread.join()
        for _ in threads:
            self.assertIn("kept in " + self.sheet, found.get())

    def test_two_documents_are_refused(self) -> None:
        self.make()
        texmacs = self.texmacs()
        texmacs.evaluate("say one")
        other = self.texmacs(document="/d/b.tm")
        self.assertIn("is at work for the document /d/a.tm", other.banner.text)
        self.assertIn("is at work for the document /d/a.tm", other.evaluate("say two").text)
        texmacs.kill()
        time.sleep(0.5)
        self.assertEqual(other.evaluate("say two").text, "two")
        self.assertEqual(list(self.kept()), ["1", "2"])

    def test_a_second_document_at_a_session_is_refused(self) -> None:
        """Two documents of one TeXmacs that have the same session share its program."""
        self.make()
        texmacs = self.texmacs()
        first = texmacs.evaluate("say one")
        texmacs.document = "/d/copy.tm"
        self.assertIn("not taken: the worksheet", texmacs.evaluate("say two", first.id).text)
        self.assertEqual(self.kept(), {"1": ("say one", "one")})

    def test_another_texmacs_is_refused(self) -> None:
        self.make()
        self.texmacs()
        self.assertRegex(self.texmacs(is_another=True).banner.text, r"of another TeXmacs \(process \d+\)")

    def test_a_worksheet_that_another_program_has(self) -> None:
        self.make()
        with Worksheet(self.sheet, program=PROGRAM):
            self.assertIn("is in use by another program", self.texmacs().banner.text)
        self.assertEqual(self.open[0].evaluate("say one").text, "one")

    def test_no_such_session(self) -> None:
        self.make()
        self.assertRegex(self.texmacs("nobody:x").banner.text, "there is no session nobody in .*there are: t, ")

    def test_a_worksheet_that_cannot_be_read(self) -> None:
        with open(self.sheet, "w", encoding="utf-8") as file:
            file.write("this is none")
        self.assertIn("?", self.texmacs().banner.text)

    def test_what_is_older_than_its_input(self) -> None:
        self.make()
        texmacs = self.texmacs()
        one, two, three = (texmacs.evaluate(f"say {word}") for word in ("one", "two", "three"))
        self.assertEqual(texmacs.evaluate("%tmhost check", shown=(("1", one.mark, "say one"), ("2", two.mark, "say two"), ("3", three.mark, "say three"))).text,
                         "this document shows what the worksheet has")
        texmacs.evaluate("say changed", one.id)
        texmacs.kill()
        again = self.texmacs()
        reported = again.evaluate("say four", before="3", shown=(("1", one.mark, "say one"), ("2", two.mark, "say two"), ("7", "x", "say seven")))
        self.assertIn("[another input than when it was answered: #1 say changed]", reported.text)
        self.assertIn("[an answer that is older than the inputs above it: #2 say two]", reported.text)
        self.assertIn("[not in the worksheet any more: #7]", reported.text)
        self.assertIn("#3 say three", reported.text)
        self.assertTrue(reported.text.endswith("four"))
        self.assertNotIn("#4", reported.text)  # the line itself isn't reported as missing
        self.assertEqual(self.kept()["4"], ("say four", "four"))  # the remarks are no part of the answer

    def test_what_a_document_lacks_is_put_in(self) -> None:
        self.make(True, "say one", "say two", "formula")
        texmacs = self.texmacs()
        reported = texmacs.evaluate("%tmhost restore", shown=(("2", "x", "say two"),))
        self.assertEqual(reported.commands, [["tmhost-restore", "t:x", "1", "say one", "", "3", "formula", "2"]])
        kept = texmacs.asks('(kept "1" "3" "7")')
        self.assertRegex(kept.text, r'^\{scheme:\(tmhost-kept "1" "\w+" "1\] "\)\}\none\n\{scheme:\(tmhost-kept "3" "\w+" "3\] "\)\}\n\{latex:\$x\$\}\n$')

    def test_history_and_all_again(self) -> None:
        self.make(True, "say one", "count")
        texmacs = self.texmacs()
        self.assertIn("2 fields are there, 2 with answers", texmacs.banner.text)
        self.assertEqual(texmacs.evaluate("%tmhost show").text, "#1 1] say one\none\n#2 2] count\n1\n")
        self.assertEqual(texmacs.evaluate("%tmhost again").text, "2 fields have the same answers")
        texmacs.evaluate("say front", after="1")
        self.assertIn("#2 count: another answer", texmacs.evaluate("%tmhost again").text)
        self.assertIn("ended", texmacs.evaluate("%tmhost stop").text)
        self.assertIn(" ".join(("t:",)), texmacs.evaluate("%tmhost sessions").text)
        self.assertEqual(texmacs.evaluate("%tmhost file").text, self.sheet)
        self.assertEqual(len(self.kept()), 3)

    def test_a_worksheet_of_its_own(self) -> None:
        """Where none is named one in the folder ~/tmhost is made."""
        self.sheet = os.path.join(self.folder, "tmhost", "sh.tmhost")
        self.open.append(TeXmacs(self.folder, "", "sh:x", ""))
        self.assertIn(self.sheet, self.open[0].banner.text)
        self.assertEqual(self.open[0].evaluate("echo one").text, "one")


if __name__ == "__main__":
    unittest.main()
