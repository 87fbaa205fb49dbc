"""A text woven or checked, over the worksheet beside it."""
import difflib
import itertools
import os
import signal
import sys
from typing import Dict, List, Optional, Sequence, Set

from tmhost import Died, Field, Session, Worksheet
from tmhost.advice import SECOND, advised
from tmhost.starting import doubt, never_answers, why_it_ends

from .answers import ANSWER, FORMULA, NO_ANSWER, Piece, Shown
from .cutting import LONGEST, cut
from .damage import refuse_others
from .document import ERRORS_FAIL, ERRORS_WANTED, FOLD, HIDE, TEXTLESS, Document
from .evaluation import NOT_ENDED, UNTRIED, Evaluator
from .files import Changed, bytes_of, is_device, new_name, put, put_in_folder, read, read_other, refuse_other_than_files, text_of, write_to, writing
from .inline import codes_in, why_unevaluated
from .lives import AT_START
from .matter import Matter, matter_of
from .page import Page
from .pictures import Pictures
from .pieces import ENDED, piece_of, pieces_of
from .plan import Plan, Wanted
from .sheets import AGAIN, fit, has_no_space, make, opened, remove, sheet_path, shorten
from .targets import page_of, pages_of, place_of
from .telling import done_in, early, later_ones, reason_of, said_of_errors, why_nothing
from .unstarted import doubts, left, note_missing, said_of_left
from .watching import Watched, lives_of
from tmhost_fences.aside import fault_of, free_name, set_aside
from tmhost_fences.blocks import cut as cut_line
from tmhost_fences.targets import refuse_target
from tmhost_fences.troubles import Trouble

LEFT, NOT_COMPARED = "left as they stand", "not compared"  # what is done with answers of a session that never started
CLEAR = "\r\x1b[K"  # takes a line of a terminal away


def refuse_other_bytes(data: bytes) -> None:
    """Refuses what isn't a text in UTF-8: one in UTF-16, of which no fence is seen, or no text at all."""
    try:
        data.decode("utf-8")
    except UnicodeDecodeError as error:
        line = data.count(b"\n", 0, error.start) + 1
        raise Trouble(f"line {line} has bytes that are no UTF-8, and no fence of a session is found: save the text as UTF-8") from None


def first_other_line(old: bytes, new: bytes) -> int:
    pairs = zip(old.split(b"\n"), new.split(b"\n"))
    return 1 + sum(1 for _ in itertools.takewhile(lambda pair: pair[0] == pair[1], pairs))


class Weave:
    """`output` is where the woven text goes: None for the text itself, "-" for standard output. `folder` is where the worksheet lies, if not beside the text.
    `no_errors` is whether an error is a failure where the options of its fence don't say, and a formula of a page that can't be set; `longest` is how many bytes of
    an answer's text are shown. `page` is where a page of it goes, a file or a folder, if anywhere, and `texts` are all those that get one by the same call. `watched`
    is what goes on after it, if anything. `renews` is whether all is evaluated again, of a text that is watched by the first weave."""

    def __init__(
        self, name: str, output: Optional[str], folder: Optional[str] = None, no_errors: bool = False, longest: int = LONGEST, page: Optional[str] = None,
        texts: Sequence[str] = (), watched: Optional[Watched] = None, renews: bool = False,
    ) -> None:
        self.name, self.path, self.watched = name, os.path.realpath(name), watched
        self.renews = renews and not (watched and watched.is_renewed)
        self.no_errors, self.longest = no_errors, longest
        self.target = None if output == "-" else self.path if output is None else os.path.realpath(output)
        self.sheet_path = sheet_path(os.path.join(folder, os.path.basename(self.path)) if folder else self.path)
        self.keeps = folder is None  # what was evaluated
        self.shows_progress = sys.stderr.isatty()
        if self.sheet_path == self.path:
            raise Trouble("the text has the name of its worksheet")
        if self.target and self.target != self.path and not is_device(self.target):
            refuse_other_than_files("--output", self.target)
            refuse_target("--output", self.target, (self.sheet_path, self.sheet_path + ".alt"))
        self.page = page_of(page, name) if page else None
        self.pages = pages_of(page, texts) if page else {}
        kept = (self.path, self.target or "", self.sheet_path, self.sheet_path + ".alt")
        self.page_place = place_of(page, self.page, kept) if page and self.page else ""
        self.data = read(self.path)
        self.document = Document(text_of(self.data))
        if not self.document.fences:
            refuse_other_bytes(self.data)
        self.matter = matter_of([cut_line(line)[0] for line in self.document.lines]) if self.document.sessions or page else Matter()
        self.start = self.matter.start(self.path)  # the folder in which interpreters start
        self.fields: Dict[int, Field] = {}
        self.left_out: Dict[int, int] = {}  # how many bytes of an answer, by the number of its field
        self.plan: Optional[Plan] = None
        self.pictures = Pictures(self.target or self.path)
        self.tell_doubts()

    def tell_doubts(self) -> None:
        """What in the text may not be meant as it stands."""
        for line in self.document.strays:
            self.say(f"line {line}: an answer that is after no fence of a session stays as text")
        for line, why in self.document.doubts:
            self.say(f"line {line}: {why}")
        ignored = dict(self.document.ignored)
        for name, line in self.document.of_pages.items() if not self.page else ():
            ignored[name] = min(line, ignored.get(name, line))
        codes = codes_in(self.document)
        if codes:
            self.say(why_unevaluated(codes))
        for what, named in (("options that are ignored", ignored), ("settings of knitr, which change nothing here, are left out", self.document.settings)):
            if named:
                self.say(f"{what}: " + ", ".join(f"{name} (line {line})" for name, line in sorted(named.items())))
        if not self.document.fences:
            self.say(why_nothing(self.document))

    def say(self, text: str) -> None:
        print(f"{CLEAR * self.shows_progress}{self.name}: {text}", file=sys.stderr)

    def begun(self, wanted: Wanted, before: int, count: int) -> None:
        """Shows on a terminal how far it is."""
        if self.shows_progress:
            print(f"{CLEAR}{self.name}: line {wanted.line}, {before} of {count} evaluated", end="", file=sys.stderr, flush=True)

    def late(self, wanted: Wanted, seconds: float) -> None:
        self.say(f"line {wanted.line}: {wanted.session_in_text}: no answer after {seconds:g} seconds, and it waits on (--seconds N ends a field)")

    # ---- the worksheet

    def refuse_bare_sessions(self) -> None:
        """A session that certainly never answers isn't waited for."""
        for name in dict.fromkeys(fence.session for fence in self.document.fences):
            why = never_answers(self.document.sessions[name])
            if why:
                raise Trouble(f"{name}: {why}")

    def evaluated(self, seconds: Optional[float]) -> Plan:
        """Evaluates what is stale, and takes the fields as they are then."""
        if not self.document.fences:
            return Plan(self.document, {}, [])
        self.refuse_bare_sessions()
        try:
            return self._evaluated(seconds)
        except KeyboardInterrupt:
            if self.plan:
                self.say(f"broken off: {self.plan.answered} of {len(self.plan.wanted)} answered" + "; weave it again" * self.keeps)
            raise
        except Died as died:
            is_limited = died.status == -signal.SIGXFSZ
            if not self.plan or not (is_limited or has_no_space(self.sheet_path)):
                raise Trouble(advised(died, self.sheet_path, AGAIN)) from died
            kept, all = self.plan.answered, len(self.plan.wanted)
            are = "is" if kept == 1 else "are"
            why, what = ("the limit of the length of files (ulimit -f) leaves no room", "raise it") if is_limited else ("no space left", "make room")
            raise Trouble(f"{why} for {os.path.basename(self.sheet_path)}; {kept} of {all} answers {are} kept: {what} and weave again") from died

    def opened_or_none(self, is_kept: bool) -> Optional[Worksheet]:
        """The worksheet, where there is one that can be read. Another one is set aside, but where all is kept as it is."""
        try:
            return opened(self.sheet_path, self.say, not is_kept and self.document.has_ends) if os.path.lexists(self.sheet_path) else None
        except Died as died:
            refuse_others(died, self.sheet_path)
            cause = f"{os.path.basename(self.sheet_path)} can't be read ({fault_of(died, self.sheet_path)})"
            if is_kept:
                self.say(f"{cause}: a weave gives it the name {os.path.basename(free_name(self.sheet_path))}, and evaluates all again")
            else:
                new = os.path.basename(set_aside(self.sheet_path))
                self.say(f"{cause}: it is {new} now, and all is evaluated again; where nobody needs that file, remove it and {new}{SECOND}")
            return None

    def opened_or_made(self) -> Worksheet:
        sheet = self.opened_or_none(False)
        if sheet is None:
            make(self.sheet_path)
        return sheet or opened(self.sheet_path, self.say, self.document.has_ends)

    def _evaluated(self, seconds: Optional[float]) -> Plan:
        with lives_of(self.watched, self.sheet_path, self.opened_or_made, self.document.has_ends) as lives:
            sheet = lives.sheet
            self.plan = plan = Plan(self.document, sheet.sessions, sheet.fields, lives.all_answered, self.renews)
            fit(sheet, plan)
            if self.watched:
                self.watched.is_renewed = True
            for why in dict.fromkeys(doubts(plan)):
                self.say(why)
            evaluator = Evaluator(lives, plan, seconds, self.begun, self.late, self.watched.is_outdated if self.watched else None)
            try:
                evaluator.evaluate_all()
            finally:
                print(CLEAR * self.shows_progress, end="", file=sys.stderr, flush=True)
            note_missing(plan)
            self.fields = {field.id: field for field in sheet.fields}
            if self.keeps and plan.is_stale:
                shorten(sheet, self.sheet_path)
            if self.watched:
                lives.end_all_but(plan.flowing)
        for text in done_in(plan, evaluator.replayed, evaluator.others) if self.keeps else ():
            self.say(text)
        return plan

    def as_it_is(self) -> Plan:
        """Takes what the worksheet has, without a change of it."""
        sessions: Dict[str, Session] = {}
        fields: List[Field] = []
        kept = self.opened_or_none(True) if self.document.fences else None
        if kept:
            with kept as sheet:
                sessions, fields = dict(sheet.sessions), sheet.fields
        self.fields = {field.id: field for field in fields}
        return Plan(self.document, sessions, fields)

    # ---- the text

    def shown(self, plan: Plan) -> List[Shown]:
        """What is to stand after each fence. After the first field without an answer nothing more is said of a fence, and where no interpreter started, all stays."""
        pieces: Dict[int, List[Piece]] = {fence.begin: [] for fence in self.document.fences}
        self.left_out = {}
        failed = set()
        for wanted in plan.wanted:
            fence = wanted.fence
            if fence.begin not in failed and wanted.failure in (None, NOT_ENDED) and HIDE not in fence.flags and not wanted.is_skipped:
                pieces[fence.begin] += self.answer_of(wanted)
            if fence.begin not in failed and wanted.failure:
                failed.add(fence.begin)
                pieces[fence.begin].append(Piece(NO_ANSWER, wanted.failure))
        staying = left(plan)
        for one in staying.values():
            self.pictures.leave(one)
        shown = [(fence, tuple(pieces[fence.begin])) for fence in self.document.fences]
        return [staying.get(fence.begin) or Shown(these, bool(these) and FOLD in fence.flags) for fence, these in shown]

    def answer_of(self, wanted: Wanted) -> List[Piece]:
        """What is shown of a field: its answer, and where it has ended its interpreter, what that wrote then, and that it has."""
        if wanted.id is None:
            return []
        field = self.fields[wanted.id]
        found = pieces_of(field, wanted.fence.is_in_container, self.pictures) if field.answer else []
        found += [piece_of(wanted.said, ANSWER)] if wanted.said and wanted.said.strip() else []
        found = [piece for piece in found if not (TEXTLESS in wanted.fence.flags and piece.kind in (ANSWER, FORMULA))]
        short, left_out = cut(found, self.longest)
        self.left_out.update({wanted.id: left_out} if left_out else {})
        return [*short, ENDED] if wanted.said is not None else short

    def woven(self, plan: Plan) -> bytes:
        return bytes_of(self.document.checked(self.shown(plan)))

    def write(self, woven: bytes) -> None:
        """The pictures first, which the text names then."""
        kept = f"{os.path.basename(self.sheet_path)} keeps the answers"
        self.pictures.write(f"the text stays as it is, and {kept}")
        if self.target is None:
            sys.stdout.buffer.write(woven)
            sys.stdout.buffer.flush()
            return
        if is_device(self.target):
            write_to(self.target, woven)
            return
        remove(new_name(self.target))
        with writing(self.name if self.target == self.path else self.target, f"what is there stays as it is, and {kept}"):
            if self.target == self.path:
                self.write_over(woven)
            elif read_other(self.target) != woven:
                put(self.target, woven)
        self.pictures.remove_others()

    def write_over(self, woven: bytes) -> None:
        """Writes over the text, as long as it is the one that was woven."""
        if read(self.path) != self.data:
            raise Changed
        if woven != self.data:
            stamp = put(self.path, woven, self.data)
            if self.watched:
                self.watched.wrote(stamp)

    # ---- what is asked for

    def weave(self, seconds: Optional[float]) -> bool:
        """Whether all is answered that is meant to be evaluated, and no error is a failure."""
        plan = self.evaluated(seconds)
        shown = self.shown(plan)
        self.write(bytes_of(self.document.checked(shown)))
        if self.target == self.path:
            plan.move(self.document.moved(shown))
        if self.watched and self.document.fences and not plan.is_stale and not self.page:
            self.say("nothing was to evaluate")
        is_answered = self.is_answered(plan, LEFT)
        return self.write_page(shown, is_answered) and is_answered

    def write_page(self, shown: Sequence[Shown], is_answered: bool) -> bool:
        """Whether the page that is wanted is written, and whole. Of a text that isn't answered as it is meant there is none."""
        if not self.page or not is_answered:
            if self.page:
                self.say(f"{self.page} isn't written, since the text isn't answered as it is meant")
            return not self.page
        counts = self.document.counts_with(shown) if self.target == self.path else self.document.counts
        page = Page(self.document, shown, self.pictures.wanted, self.matter, os.path.dirname(self.path), self.pages, counts)
        html = page.html(os.path.splitext(os.path.basename(self.path))[0])
        with writing(self.page, "the text is woven, and a page that is there stays as it is"):
            put_in_folder(self.page_place, html)
        self.say(f"{self.page} is written")
        if self.watched:
            self.watched.takes(page.files)
        for text in page.reported:
            self.say(text)
        return page.is_whole and not (self.no_errors and page.has_unset)

    def is_answered(self, plan: Plan, what: str) -> bool:
        """The same; says what isn't, what is done with answers that stay as they stand, and where a figure may be shown too early."""
        failures = [wanted for wanted in plan.wanted if wanted.failure]
        self.tell_failures(failures, plan)
        for text in said_of_left(plan, what):
            self.say(text)
        self.tell_errors(plan)
        self.tell_left_out(plan)
        for line in early(plan, self.fields):
            self.say(f"line {line}: its figure is shown before the lines after it draw: {{whole}} at the fence, or `fences: whole` in the front matter, makes them one field")
        return not failures and not self.document.is_doubtful and not self.fails(plan)

    def tell_failures(self, failures: List[Wanted], plan: Plan) -> None:
        """Each cause, once for a session why its interpreter ends at its start, and how many later fields a cause took with it."""
        later: Dict[str, List[Wanted]] = {}
        ended: Set[str] = set()
        for wanted in failures:
            if wanted.failure == UNTRIED:
                later.setdefault(wanted.session, []).append(wanted)
        for wanted in failures:
            if wanted.failure != UNTRIED:
                self.say(f"line {wanted.line}: {wanted.session_in_text}: {reason_of(wanted)}")
            elif wanted is later[wanted.session][0]:
                self.say(later_ones(later[wanted.session]))
            if wanted.end == AT_START and wanted.fence.session not in ended:
                ended.add(wanted.fence.session)
                self.tell_end(wanted.fence.session, plan.words[wanted.session])

    def tell_end(self, name: str, words: Sequence[str]) -> None:
        why = None if doubt(words) else why_it_ends(words)
        if why:
            self.say(f"{name}: {why}")

    def tell_left_out(self, plan: Plan) -> None:
        for wanted in plan.wanted:
            left_out = self.left_out.get(wanted.id or 0)
            if left_out:
                held = f": {os.path.basename(self.sheet_path)} has them, and" if self.keeps else ";"
                self.say(f"line {wanted.line}: {left_out:,} bytes of its answer are left out{held} --longest BYTES shows more")

    def tell_errors(self, plan: Plan) -> None:
        """How many answers are errors that nobody wanted, and in which lines their code stands, also where it is hidden."""
        if found := self.errors(plan):
            self.say(said_of_errors(found))

    def errors(self, plan: Plan) -> List[Wanted]:
        return [wanted for wanted in plan.wanted if self.is_error(wanted) and ERRORS_WANTED not in wanted.fence.flags]

    def fails(self, plan: Plan) -> bool:
        """Whether any of them is a failure."""
        return any(self.no_errors or ERRORS_FAIL in wanted.fence.flags for wanted in self.errors(plan))

    def is_error(self, wanted: Wanted) -> bool:
        field = None if wanted.failure or wanted.id is None else self.fields.get(wanted.id)
        return bool(field and field.answer and field.answer.errors)

    def test(self, seconds: Optional[float]) -> bool:
        """Whether all is answered, and as the text shows it. The worksheet is one that nobody keeps, and nothing is written."""
        plan = self.evaluated(seconds)
        woven = self.woven(plan)
        old, new = (text_of(data).splitlines() for data in (self.data, woven))
        for line in difflib.unified_diff(old, new, self.name, f"{self.name}, evaluated now", lineterm=""):
            print(line.encode("utf-8", "surrogateescape").decode("utf-8", "backslashreplace"))
        missing = self.pictures.missing() if woven == self.data else []
        for name in missing:
            print(f"{self.name}: the picture {name} isn't there")
        return self.is_answered(plan, NOT_COMPARED) and woven == self.data and not missing

    def check(self) -> bool:
        """Whether all is answered that is meant to be evaluated, and nothing would change; says what would."""
        self.refuse_bare_sessions()
        plan = self.as_it_is()
        for name in plan.words:
            stale = plan.stale(name)
            kept = 0 if not stale or stale[0].fence.is_pure else len(plan.of(name)) - len(stale)
            after = f", after {kept} that would be replayed" if kept else ""
            if stale:
                print(f"{self.name}: {stale[0].session_in_text}: {len(stale)} fields would be evaluated, from line {stale[0].line} on{after}")
        if plan.is_stale:
            return False
        woven = self.woven(plan)
        old = (read_other(self.target) if self.target else None) or b""
        if woven != old:
            print(f"{self.name}: nothing would be evaluated, and the text would change from line {first_other_line(old, woven)} on")
        for name in self.pictures.missing():
            print(f"{self.name}: the picture {name} isn't there")
        self.tell_errors(plan)
        self.tell_left_out(plan)
        return woven == old and not self.pictures.missing() and not self.document.is_doubtful and not self.fails(plan)
