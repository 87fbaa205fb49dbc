"""The plugin in GNU TeXmacs itself, where that is installed: forty lines in each of three systems, a completion, an interrupt, documents that are opened again."""
import os
import shutil
import subprocess
import sys
import time
from typing import List

from .lines import BUSY, COMPLETED, LINES, PROGRAMS
from .real import WITHIN, RealTeXmacs, lacking
from .support import COMMAND, PROGRAM, ROOT, Case, Worksheet, fields_of

EMPTY = "<TeXmacs|2.1.4>\n\n<style|generic>\n\n<\\body>\n  \\;\n</body>\n"
# An interpreter that answers each line with itself, as a formula or as a text.
ECHO = r"""
import sys
def write(text):
    sys.stdout.write("\2verbatim:" + text + "\5")
    sys.stdout.flush()
write("")
for line in sys.stdin:
    line = line.rstrip("\n")
    write("\2latex:$" + line + "$\5" if sys.argv[1] == "formula" else line)
"""
IMPORT = os.path.join(ROOT, "clients/import/tmhost-import")


class Real(Case):
    """A document with a worksheet beside it."""

    def setUp(self) -> None:
        super().setUp()
        if why := lacking():
            self.skipTest(why)
        self.document = os.path.join(self.folder, "sheet.tm")
        self.sheet = os.path.join(self.folder, "sheet.tmhost")
        with open(self.document, "w", encoding="utf-8") as file:
            file.write(EMPTY)
        self.number = 0

    def texmacs_of(self, document: str = "") -> RealTeXmacs:
        self.number += 1
        texmacs = RealTeXmacs(self.folder, self.number, document or self.document)
        self.addCleanup(texmacs.end)
        texmacs.shows(document or self.document)
        return texmacs

    def begins(self, texmacs: RealTeXmacs, name: str) -> str:
        texmacs.does(f'(begin (make-session "tmhost" "{name}") "made")')
        session = texmacs.session()
        self.assertRegex(session, f"^{name}:\\w+$")
        texmacs.waits(session)
        return session

    def says(self, texmacs: RealTeXmacs, session: str, line: str) -> None:
        texmacs.types(line)
        texmacs.waits(session)

    def enters(self, texmacs: RealTeXmacs, session: str, at: int = -1) -> None:
        """Puts the cursor into an input of the document's session, the last one or the one at that place."""
        place = "(- (length l) 1)" if at < 0 else str(at)
        texmacs.does(f"""(let* ((s (car (tree-search (buffer-tree) (lambda (t) (tree-is? t 'session)))))
                                (l (list-filter (tree-children (tree-ref s 2)) field-context?)))
                           (tree-go-to (list-ref l {place}) 1 :end) "there")""")
        self.assertEqual(texmacs.session(), session)

    def restores(self, texmacs: RealTeXmacs, session: str, ids: List[str]) -> None:
        """Puts in what the document lacks, which comes after the answer that says so; it has these fields then."""
        self.says(texmacs, session, "%tmhost restore")
        until = time.monotonic() + WITHIN
        while list(texmacs.fields()) != ids and time.monotonic() < until:
            time.sleep(0.5)
        texmacs.waits(session)
        self.assertEqual(list(texmacs.fields()), ids)

    def keeps_document(self, texmacs: RealTeXmacs) -> None:
        texmacs.does(f'(begin (buffer-save (system->url "{self.document}")) "saved")')


class Systems(Real):
    def system(self, name: str) -> None:
        if shutil.which(PROGRAMS[name]) is None:
            self.skipTest(f"there is no {PROGRAMS[name]}")
        texmacs = self.texmacs_of()
        session = self.begins(texmacs, name)
        lines = [line for line, _ in LINES[name] if line]  # TeXmacs sends no empty one
        for line in lines:
            self.says(texmacs, session, line)
        texmacs.does('(define tmhost-completed "")')
        text, has = COMPLETED[name]
        quoted = f'(complete \\"{text}\\" {len(text)})'
        texmacs.does(f'(begin (plugin-command "tmhost" "{session}" "{quoted}" (lambda (x) (set! tmhost-completed x)) (list)) "asked")')
        texmacs.waits(session)
        self.assertIn(has.strip(), texmacs.does("tmhost-completed"))
        texmacs.types(BUSY[name])
        time.sleep(3)
        texmacs.does('(begin (plugin-interrupt) "interrupted")')
        self.says(texmacs, session, "6 * 7")
        texmacs.shoots(name)
        noted, shown = texmacs.fields(), texmacs.answers()
        texmacs.end()
        fields = self.fields()
        self.assertEqual(["\n".join(field.lines) for field in fields], [*lines, BUSY[name], "6 * 7"])
        self.assertGreaterEqual(len(fields), 40)
        self.assertEqual([str(field.id) for field in fields], list(noted))
        self.assertNotIn(None, [field.answer for field in fields])
        self.assertIn("42", str(fields[-1].answer))
        errors = {str(field.id) for field in fields if field.answer and field.answer.errors}
        self.assertEqual({id for id, reported in shown.items() if "errput" in reported.output}, errors)
        self.assertGreater(len(errors), 2)

    def test_gp(self) -> None:
        self.system("gp")

    def test_python(self) -> None:
        self.system("python")

    def test_maxima(self) -> None:
        self.system("maxima")


class Documents(Real):
    def test_two_documents(self) -> None:
        texmacs = self.texmacs_of()
        session = self.begins(texmacs, "python")
        self.says(texmacs, session, "1 + 1")
        self.keeps_document(texmacs)
        other = os.path.join(self.folder, "other.tm")
        shutil.copy(self.document, other)
        texmacs.does(f'(begin (load-buffer (system->url "{other}")) "loaded")')
        self.enters(texmacs, session)
        self.says(texmacs, session, "2 + 2")
        said = texmacs.saves(os.path.join(self.folder, "seen.tm"))
        self.assertIn("is at work for the document", " ".join(said.split()))
        texmacs.end()
        self.assertEqual([field.input for field in self.fields()], ["1 + 1"])

    def test_a_worksheet_is_shown(self) -> None:
        """A document gets the sessions of a worksheet, with formulas as TeXmacs has them."""
        if shutil.which("gp") is None:
            self.skipTest("there is no gp")
        sheet = os.path.join(self.folder, "old")
        adapters = os.path.join(ROOT, "adapters")
        with Worksheet(sheet, create=True, program=PROGRAM) as worksheet:
            worksheet.session("a", [f"{adapters}/gp"])
            worksheet.session("b", ["python3", f"{adapters}/python"])
            for session, text in (("a", "1/3"), ("b", "x = 5"), ("a", "[1, 2; 3, 4]"), ("b", "print('\u00e9', x)\nx + 1"), ("a", "1/0")):
                worksheet.new(session, text).evaluate(120)
        texmacs = self.texmacs_of()
        texmacs.does(f'(begin (tmhost-open (system->url "{sheet}")) "opened")')
        until = time.monotonic() + 60
        while set(texmacs.fields()) != {"1", "2", "3", "4", "5"} and time.monotonic() < until:
            time.sleep(0.5)
        time.sleep(1)
        texmacs.shoots("shown")
        text = texmacs.saves(os.path.join(self.folder, "seen.tm"))
        self.assertEqual(list(texmacs.fields()), ["1", "3", "5", "2", "4"])
        self.assertNotIn("in use", text)
        self.assertIn("<frac|1|3>", text)
        self.assertRegex(text, r"(?s)<\\errput>(?:(?!</errput>).)*impossible inverse")
        self.assertIn("\xe9 5", text)
        self.assertEqual(text.count("<\\session|tmhost|"), 2)

    def test_a_document_that_is_opened_again(self) -> None:
        """It was saved before its first line was changed: it finds its fields, and says which answers are older than their inputs."""
        texmacs = self.texmacs_of()
        session = self.begins(texmacs, "python")
        for line in ("x = 5; x", "x + 1", "'last'"):
            self.says(texmacs, session, line)
        self.keeps_document(texmacs)
        self.enters(texmacs, session, 0)
        texmacs.does("(with-innermost t field-context? (tree-set! t 1 '(document \"\")) (tree-go-to t 1 :start) \"emptied\")")
        self.says(texmacs, session, "x = 7; x")
        texmacs.end()
        self.assertEqual([field.input for field in self.fields()], ["x = 7; x", "x + 1", "'last'"])
        texmacs = self.texmacs_of()
        self.assertEqual(list(texmacs.fields()), ["1", "2", "3"])
        self.enters(texmacs, session)
        self.says(texmacs, session, "%tmhost check")
        texmacs.shoots("opened")
        said = " ".join(texmacs.saves(os.path.join(self.folder, "seen.tm")).split())
        self.assertIn("another input than when it was answered: #1 x = 7; x", said)
        self.assertIn("an answer that is older than the inputs above it: #2 x + 1, #3 'last'", said)
        self.enters(texmacs, session, 0)
        texmacs.does("(session-evaluate)")
        texmacs.waits(session)
        self.assertEqual(list(texmacs.fields())[:3], ["1", "2", "3"])
        texmacs.end()
        self.assertEqual([field.input for field in self.fields()], ["x = 5; x", "x + 1", "'last'"])

    def test_what_is_lacking_is_put_in(self) -> None:
        """Fields that were taken out of the document, the first one, two in a row and one that has no answer, stand in their places again."""
        texmacs = self.texmacs_of()
        session = self.begins(texmacs, "python")
        for line in ("'a'", "'b'", "1/0", "'d'", "x = 5", "'f'"):
            self.says(texmacs, session, line)
        shown = texmacs.answers()
        for at in (4, 2, 1, 0):
            self.enters(texmacs, session, at)
            texmacs.does("(with-innermost t field-context? (tree-remove! (tree-ref t :up) (tree-index t) 1) \"removed\")")
        self.assertEqual(list(texmacs.fields()), ["4", "6"])
        self.enters(texmacs, session)
        self.restores(texmacs, session, ["1", "2", "3", "4", "5", "6"])
        texmacs.shoots("put-in")
        self.assertEqual(texmacs.answers(), shown)
        self.enters(texmacs, session)
        self.says(texmacs, session, "%tmhost check")
        self.assertIn("this document shows what the worksheet has", " ".join(texmacs.saves(os.path.join(self.folder, "seen.tm")).split()))

    def test_lines_that_wait_for_their_turns(self) -> None:
        """They stand in the worksheet as they do in the document, though none of them had a field when they were given."""
        texmacs = self.texmacs_of()
        session = self.begins(texmacs, "python")
        lines = ["import time; time.sleep(2)", "'b'", "'c'", "'d'"]
        for line in lines:
            texmacs.types(line)
        texmacs.waits(session)
        shown = texmacs.answers()
        texmacs.end()
        self.assertEqual([field.input for field in self.fields()], lines)
        self.assertEqual([reported.output for reported in shown.values()], ["'b'", "'c'", "'d'"])

    def test_an_exported_document(self) -> None:
        """It is opened and saved by TeXmacs, and read back."""
        old, again = os.path.join(self.folder, "old"), os.path.join(self.folder, "again")
        echo = os.path.join(self.folder, "echo.py")
        with open(echo, "w", encoding="ascii") as file:
            file.write(ECHO)
        wanted = [("a", "\\frac{1}{2}+x^2"), ("a", "\\sqrt{\\alpha}"), ("b", "first <line>\u2028a | b \\ c"), ("b", "\u00e9 \u4e2d")]
        with Worksheet(old, create=True, program=PROGRAM) as worksheet:
            for name, kind in (("a", "formula"), ("b", "text")):
                worksheet.session(name, [sys.executable, "-X", "utf8", echo, kind])
            worksheet.session("prose", ["true"])
            worksheet.new("prose", "# A title\u2028\u2028A text.")
            for name, text in wanted:
                worksheet.new(name, text).evaluate(60)
        environment = {**os.environ, "TMHOST": PROGRAM}
        with open(self.document, "wb") as file:
            subprocess.run([sys.executable, "-B", COMMAND, "--export", old], check=True, stdout=file, env=environment)
        texmacs = self.texmacs_of()
        texmacs.shoots("exported")
        text = texmacs.saves(self.document)
        texmacs.end()
        for part in ("<chapter*|A title>", "<frac|1|2>", "x<rsup|2>", "<sqrt|\\<alpha\\>>", "\\<#4E2D\\>", "\\<less\\>line\\<gtr\\>"):
            self.assertIn(part, text)
        words = [sys.executable, "-B", IMPORT, "--no-prose", "--session", "a=true", "--session", "b=true", self.document, again]
        subprocess.run(words, check=True, stderr=subprocess.PIPE, env=environment)
        self.assertEqual([(field.session, field.input) for field in fields_of(again)], wanted)
