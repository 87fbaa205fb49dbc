"""What an interpreter says of a word, asked of a second one with the same words, in a worksheet of the server's own that ends with it. So a question changes
nothing: no cell, no variable, no number of an answer; and it is answered while the session is at work. The worksheet's files are open, and in no folder any
more, so nothing of them stays, whatever ends the server."""

import keyword
import os
import re
import tempfile
import threading
from typing import Dict, Iterable, List, Optional, Set

from tmhost import Answer, Field, Lost, Session, TimedOut, Worksheet

ANSWERED_WITHIN = 15.0  # seconds, in which the interpreter has to start, too
WORD = re.compile(r"[^\W\d]\w{0,99}(?:\.\w{1,100}){0,8}")
QUESTIONS = {"gp": "?{}", "python": "help({})", "maxima": "describe({}, exact)", "r": 'help("{}")', "octave": "help {}"}  # by language
IMPORT = re.compile(r"(?:import [\w., ]+|from [\w.]+ import [\w, ]+)", re.ASCII)
MOST_IMPORTS = 50


class NoHelp(Exception):
    """There is none, for a reason that is reported to people."""


class Helper:
    def __init__(self, program: Optional[str]) -> None:
        self.program = program
        self.sheet: Optional[Worksheet] = None
        self.lock = threading.Lock()
        self.imported: Dict[str, Set[str]] = {}  # of each session

    def close(self) -> None:
        sheet, self.sheet = self.sheet, None
        if sheet is not None:
            sheet.close()

    def _opened(self) -> Worksheet:
        if self.sheet is None or self.sheet.error is not None:
            self.close()
            self.imported = {}
            with tempfile.TemporaryDirectory(prefix="tmhost-help-") as folder:
                self.sheet = Worksheet(os.path.join(folder, "help"), create=True, program=self.program, timeout=ANSWERED_WITHIN)
        return self.sheet

    def ask(self, session: Session, language: str, word: str, fields: Iterable[Field]) -> Answer:
        """What the interpreter of a session says of a word. Of Python it knows also what the session's cells import. Raises NoHelp."""
        question = QUESTIONS.get(language)
        if question is None:
            raise NoHelp("this interpreter has no help that is known here")
        if not WORD.fullmatch(word):
            raise NoHelp("there is no word at the cursor")
        with self.lock:
            sheet = self._opened()
            known = sheet.sessions.get(session.name)
            if known is not None and known.words != session.words:
                self.close()  # the worksheet has other words for it now
                sheet = self._opened()
            sheet.ensure_session(session.name, session.words, session.tab)
            for line in imports(fields) if language == "python" else ():
                if line not in self.imported.setdefault(session.name, set()):
                    self.imported[session.name].add(line)
                    self._evaluated(sheet, session.name, line)
            asked = f'"{word}"' if language == "python" and keyword.iskeyword(word) else word
            answer = self._evaluated(sheet, session.name, question.format(asked))
        if answer is None:
            self.imported.pop(session.name, None)
            raise NoHelp("its interpreter gave no help")
        return answer

    def _evaluated(self, sheet: Worksheet, session: str, line: str) -> Optional[Answer]:
        cell = sheet.new(session, line)
        try:
            return cell.evaluate(ANSWERED_WITHIN)
        except TimedOut:
            sheet.stop(session)
            return None
        except Lost:
            return None
        finally:
            cell.remove()


def imports(fields: Iterable[Field]) -> List[str]:
    """The imports that stand alone on a line of some cells."""
    found = (line for field in fields for line in field.lines if IMPORT.fullmatch(line.strip()) and not line[:1].isspace())
    return list(dict.fromkeys(line.strip() for line in found))[:MOST_IMPORTS]
