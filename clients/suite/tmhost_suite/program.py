"""The command line of tmhost-suite."""
import argparse
import contextlib
import os
import random
import re
import stat
import sys
import threading
import time
from concurrent.futures import ThreadPoolExecutor
from typing import Dict, Iterator, List, NamedTuple, Optional, Tuple

from tmhost import Died, TmhostError, Worksheet
from tmhost.program import show_building
from tmhost.version import ShowVersion
from tmhost_fences.output import Parser, run_and_flush
from tmhost_fences.targets import refuse_target
from tmhost_fences.troubles import Trouble
from tmhost_weave.files import put

from . import kept as worksheets
from . import reports
from .accepting import accept
from .cases import Suite
from .choosing import chooser, refuse_bare_sessions, why_none
from .marks import seconds
from .reports import FORMATS, Reported, SuiteTrouble, reported_of
from .running import Plan, run
from .telling import Teller, cut, standard
from .readers import as_text, read_other
from .results import PASSED
from .text import Text, looks_like_a_suite, names_sessions

ABOUT = "Runs test suites that are texts: evaluates the code in their fences, and compares what comes with the answers after them."
NOTES = """
The front matter of SUITE names the sessions, as `sessions: {py: [tmhost-python]}`, and may have `normal`, `tolerance` and
`timeout`. A fence of a session is a case, and a fence `answer` after it what is wanted. After the session may stand {setup},
{teardown}, {xfail REASON}, {may_fail REASON}, {skip REASON}, {timeout SECONDS}, {tags A B}, {flaky N}, {whole} and others
(clients/suite/README.md).
A SUITE that is a folder is the .md files in it, and in its folders, whose front matter names sessions; hidden ones are left out.
What came is kept in the worksheet SUITE.run while the suite runs, so --resume goes on where a run was cut off. Where all is as
wanted it is removed at the end, else --rerun failed reads it.
In the interpreters TMHOST_SUITE_FOLDER is the folder of the suite.
The program is the one that TMHOST names, tmhost on PATH, or the one that was built or installed with this.
The status is 0 where all is as wanted, 1 where it isn't, 2 where the words are refused, and 130 where control-C ended it.
"""
INTERRUPTED = 130
MARKDOWN = ".md"
NO_FILE = "it is no plain file"  # but a pipe or a device, from which nothing may ever come
OF_CHECK = ("tap", "junit", "json")  # reports that `tmhost check` has, too


def shard(word: str) -> Tuple[int, int]:
    found = re.fullmatch(r"(\d+)/(\d+)", word)
    if not found or not 1 <= int(found[1]) <= int(found[2]):
        raise ValueError
    return int(found[1]), int(found[2])


def positive(word: str) -> int:
    if int(word) < 1:
        raise ValueError
    return int(word)


def arguments(words: List[str]) -> argparse.Namespace:
    parser = Parser("tmhost-suite", None, ABOUT, NOTES, formatter_class=argparse.RawDescriptionHelpFormatter, add_help=False)
    parser.add_argument("-h", "--help", action="help", help="show this help")
    parser.add_argument("suites", nargs="+", metavar="SUITE")
    parser.add_argument("--version", action=ShowVersion)
    parser.add_argument("--accept", action="store_true", help="put what came into the text where it isn't what is wanted")
    parser.add_argument("--interactive", action="store_true", help="with --accept: ask for each case")
    parser.add_argument("--only", metavar="PATTERN", help="run the cases whose line number, name or whole first line is this, with * and ? as in names of files ('*text*': a part of it)")
    parser.add_argument("--tags", metavar="TAGS", help="run the cases that have one of these tags, with commas between them")
    parser.add_argument("--shard", type=shard, default=(1, 1), metavar="I/N", help="run the I-th of N parts of the suites")
    parser.add_argument("--rerun", choices=["failed"], help="run the cases that weren't as wanted in the last run")
    parser.add_argument("--resume", action="store_true", help="go on with a run that was cut off")
    parser.add_argument("--jobs", type=positive, metavar="N", help="evaluate so many cases at a time, also of several sessions of a suite (without it: each suite in the order of its text)")
    parser.add_argument("--random", metavar="SEED", help="take the cases of each session in the order of this seed ('new': a new one)")
    parser.add_argument("--fail-fast", action="store_true", help="begin no case after one that isn't as wanted")
    parser.add_argument("--seconds", type=seconds, default=60.0, metavar="N", help="how long a case may take that says nothing else (60)")
    parser.add_argument("--slowest", type=positive, default=0, metavar="N", help="list the N cases that took longest")
    parser.add_argument("--verbose", action="store_true", help="list all cases, and what the rules made of what came")
    parser.add_argument("--runs", metavar="FOLDER", help="where the worksheets of runs lie (beside the suites)")
    parser.add_argument("--words", metavar="WORDS", help="the interpreter of suites of another form, as 'tmhost-R'")
    parser.add_argument("--convert", action="store_true", help="run nothing, and write the text form of a suite of another form")
    for format in FORMATS:
        parser.add_argument(f"--{format}", metavar="FILE", help=f"write a report in the form of {format} (-: standard output)")
    parser.add_argument("--format", choices=OF_CHECK, help="write this report to standard output, and what is for people to standard error, as of tmhost check")
    given = parser.parse_args(words)
    if given.interactive and not given.accept:
        parser.error("--interactive is for --accept")
    if given.resume and given.rerun:
        parser.error("--resume goes on with a run, and --rerun begins one")
    if given.format and "-" in [getattr(given, name) for name in FORMATS]:
        parser.error("--format has standard output for itself: name a file for the other report")
    return given


Read = Tuple[Suite, Optional[Text]]


def read(path: str, words: Optional[str]) -> Read:
    """A suite, with its text where it is of the text form. The words are those of the session of another form."""
    if os.path.isdir(path):
        raise Trouble(f"no {MARKDOWN} file in this folder names sessions in its front matter")
    if not stat.S_ISREG(os.stat(path).st_mode):
        raise Trouble(NO_FILE)
    with open(path, "rb") as file:
        data = file.read()
    try:
        text = data.decode("utf-8")
    except UnicodeDecodeError:
        raise Trouble("the text is no UTF-8") from None
    other = read_other(path, text, names_sessions(text), words)
    if other is not None:
        return other, None
    found = Text(path, text)
    return found.suite, found


def converted(path: str, words: Optional[str]) -> Tuple[str, List[str]]:
    """The text form of a suite, and what is to be said of what it doesn't have."""
    if os.path.isdir(path):
        raise Trouble(f"{path} is a folder: --convert takes the suites in it by their names")
    try:
        return as_text(read(path, words)[0])
    except Trouble as trouble:
        raise Trouble(f"{path}: {trouble}") from None


def suites_of(path: str) -> List[str]:
    """The suites that a word of the command line names: those in a folder in the order of their names, or the folder itself where it has none. A text
    that can't be read is one of them, so that this is reported."""
    if not os.path.isdir(path):
        return [path]
    found = []
    for folder, inner, names in os.walk(path):
        inner[:] = [name for name in inner if not name.startswith(".")]
        places = (os.path.normpath(os.path.join(folder, name)) for name in names if name.endswith(MARKDOWN) and not name.startswith("."))
        found += [place for place in places if is_suite(place)]
    return sorted(found) or [path]


def is_suite(path: str) -> bool:
    if not os.path.isfile(path):
        return True
    try:
        with open(path, encoding="utf-8", errors="replace", newline="") as file:
            return looks_like_a_suite(file.read())
    except (OSError, Trouble):
        return True


class Ran(NamedTuple):
    """A suite that came to its end, and what its worksheet was then."""

    path: str
    sheet: str
    trace: worksheets.Trace
    is_ok: bool


class Runner:
    """Runs the suites of a command line."""

    def __init__(self, given: argparse.Namespace, teller: Teller) -> None:
        self.given, self.teller = given, teller
        self.jobs: int = given.jobs or os.cpu_count() or 1
        self.slots, self.ended, self.is_cut_off = threading.Semaphore(self.jobs), threading.Event(), threading.Event()
        self.sheets: List[Worksheet] = []  # those of suites that have begun
        self.accepted: List[str] = []  # what is said of texts that were changed
        self.ran: List[Ran] = []
        self.replayed: List[int] = []  # of each suite how many cases were evaluated only for those after them
        self.chosen = 0  # how many cases were to be run
        self.troubles: List[SuiteTrouble] = []  # why suites weren't run to their end; the others are
        self.counting = threading.Lock()  # of the threads of suites
        self.seed = str(random.randrange(10**6)) if given.random == "new" else given.random

    def run(self) -> bool:
        number, parts = self.given.shard
        paths = self._paths()
        self._refuse_places(paths)
        if self.given.runs:
            os.makedirs(self.given.runs, exist_ok=True)
        suites = [found for found in map(self._read, paths[number - 1 :: parts]) if found is not None]
        for doubt in (doubt for suite, _ in suites for doubt in suite.doubts):
            self.teller.say(doubt)
        self.teller.begin(sum(suite.count for suite, _ in suites))
        if self.given.random:
            self.teller.say(f"in the order of --random {self.seed}")
        began = time.monotonic()
        reported = self._run_all(suites)
        self._tell(reported, time.monotonic() - began)
        unwritten = self._write_reports(reported)
        if not unwritten:
            self._finish()
        for trouble in self.troubles:
            for line in trouble.why.split("\n"):
                print(f"tmhost-suite: {trouble.path}: {cut(line)}", file=sys.stderr)
        for why in unwritten:
            print(f"tmhost-suite: {why}", file=sys.stderr)
        if not self.chosen and parts == 1 and (self.given.only or self.given.tags):
            raise Trouble(why_none(self.given, [suite for suite, _ in suites]))
        return not unwritten and not self.troubles and all(one.verdict in PASSED or one.verdict == "out" for one in reported)

    def _run_all(self, suites: List[Read]) -> List[Reported]:
        """Runs suites side by side. What came of them is accepted in this thread alone, one suite after another. Where that is asked, it is when all have run:
        so one question stands at a time, and nothing else is shown below it."""
        ran: List[Tuple[Read, List[Reported]]] = []
        with ThreadPoolExecutor(max(1, min(len(suites), self.jobs))) as pool:
            try:
                for pair, found in zip(suites, pool.map(lambda pair: self._run_one(*pair), suites)):
                    if found is None:
                        continue
                    ran.append((pair, found))
                    if not self.given.interactive:
                        self._accept(pair, found)
            except BaseException:
                self._cut_off()
                raise
        self.teller.end_progress()
        if self.given.interactive:
            for pair, found in ran:
                self._accept(pair, found)
        return [one for _, found in ran for one in found]

    def _paths(self) -> List[str]:
        """The suites, in the order in which they are named. One that is named, and is in a folder that is, too, is one."""
        named = [path for path in self.given.suites if not os.path.isdir(path)]
        real = [os.path.realpath(path) for path in named]
        for at, path in enumerate(real):
            if path in real[:at]:
                raise Trouble(f"{named[at]} is named twice")
        found: Dict[str, str] = {}
        for word in self.given.suites:
            for path in suites_of(word):
                found.setdefault(os.path.realpath(path), path)
        return list(found.values())

    def _finish(self) -> None:
        """All is reported: there is nothing to go on with, and what a suite keeps is for `--rerun failed` alone."""
        for ran in self.ran:
            with self._reported_of(ran.path):
                worksheets.finish(ran.sheet, ran.trace, ran.is_ok)

    def _refuse_places(self, paths: List[str]) -> None:
        """A report that can't be written where it is wanted is refused before anything is evaluated, which may take hours."""
        suites = [os.path.realpath(path) for path in paths]
        kept = [*suites, *(end for path in suites for run in [os.path.realpath(worksheets.sheet_path(path, self.given.runs))] for end in (run, run + ".alt"))]
        for name in FORMATS:
            path: Optional[str] = getattr(self.given, name)
            if path is not None and path != "-":
                refuse_target(f"--{name}", path, kept)

    def _cut_off(self) -> None:
        """Ends what runs, at once: what is done stands in the worksheets, and another run goes on from there."""
        self.is_cut_off.set()
        self.ended.set()
        for sheet in self.sheets:
            sheet.close(0)

    def _read(self, path: str) -> Optional[Read]:
        with self._reported_of(path):
            return read(path, self.given.words)
        return None

    def _run_one(self, suite: Suite, text: Optional[Text]) -> Optional[List[Reported]]:
        with self._reported_of(suite.path):
            return self._run_suite(suite, text)
        return None

    @contextlib.contextmanager
    def _reported_of(self, path: str) -> Iterator[None]:
        """What goes wrong with a suite is reported at the end, and the others are run."""
        try:
            yield
        except (Trouble, TmhostError, OSError) as trouble:
            why = trouble.strerror if isinstance(trouble, OSError) else None
            needs = "--resume" if self.given.resume else "--rerun failed" if self.given.rerun else None
            if isinstance(trouble, Died):
                why = worksheets.why_ended(trouble, worksheets.sheet_path(path, self.given.runs), needs)
            if not self.is_cut_off.is_set():
                self.troubles.append(SuiteTrouble(path, why or str(trouble)))

    def _run_suite(self, suite: Suite, text: Optional[Text]) -> List[Reported]:
        path = worksheets.sheet_path(suite.path, self.given.runs)
        if self.is_cut_off.is_set():
            return []
        if text is not None and not suite.cases:
            raise Trouble("there is no case: no fence is of a session that the front matter names")
        chosen = chooser(self.given, suite.path)
        count = sum(chosen(at, case) for at, case in enumerate(suite.cases))
        with self.counting:
            self.chosen += count
        refuse_bare_sessions(suite, chosen)
        if self.given.rerun and not count:
            self.teller.say(f"{suite.path}: no case of it failed in a run that is kept, so none is run")
        found = worksheets.resume(path, suite) if self.given.resume else None
        if found is not None:
            self.teller.say(f"{suite.path}: {found.said}")
        kept = found.kept if found is not None and found.kept is not None else worksheets.begin(path, suite, self.teller.say)
        with kept.sheet:
            self.sheets.append(kept.sheet)
            is_side_by_side = (self.given.jobs or 1) > 1
            plan = Plan(chosen, self.given.seconds, self.slots, self.ended, self.is_cut_off, self.given.fail_fast, self.seed, is_side_by_side)
            self.replayed.append(run(kept, plan, lambda at: self.teller.one_more()))
        reported = reported_of(suite, kept.results, chosen)
        broken = list(reports.broken_in(suite, kept.results))
        self.troubles += broken
        # A run that its first failure ended has cases to go on with.
        left = self.ended.is_set() and any(chosen(at, case) and case.marks.skip is None and at not in kept.results for at, case in enumerate(suite.cases))
        if not left:
            is_ok = not broken and all(one.verdict in PASSED or one.verdict == "out" for one in reported)
            self.ran.append(Ran(suite.path, path, worksheets.trace_of(path), is_ok))
        return reported

    # ---- what is accepted

    def _accept(self, read: Read, reported: List[Reported]) -> None:
        suite, text = read
        if self.given.accept:
            with self._reported_of(suite.path):
                self.accepted += accept(text, reported, self._is_wanted if self.given.interactive else None)

    def _is_wanted(self, reported: Reported) -> bool:
        self.teller.tell(reported)
        self.teller.out.write("accept this? [y/N] ")
        self.teller.out.flush()
        return sys.stdin.readline().strip().lower() in ("y", "yes")

    # ---- what is reported

    def _tell(self, reported: List[Reported], taken: float) -> None:
        for one in reported:
            if one.is_wrong:
                self.teller.tell(one)
            elif self.given.verbose and one.verdict != "out":
                self.teller.tell(one)
                self.teller.tell_normalised(one)
            elif one.verdict == "xfail" and one.is_lost:
                self.teller.tell(one)
        if self.given.slowest:
            self.teller.tell_slowest(reported, self.given.slowest)
        self.teller.tell_unstarted_sessions(reported)
        self.teller.tell_idle_rules(reported)
        self.teller.tell_counts(reported, sum(self.replayed), taken)
        for line in self.accepted:
            self.teller.say(line)

    def _write_reports(self, reported: List[Reported]) -> List[str]:
        """Says which files of reports couldn't be written, and why."""
        unwritten: List[str] = []
        for name, write in FORMATS.items():
            path: Optional[str] = getattr(self.given, name)
            if path is None and name != self.given.format:
                continue
            text = "".join(line + "\n" for line in write(reported, self.troubles))
            if path == "-" or name == self.given.format:
                sys.stdout.write(text)
            if path is not None and path != "-":
                try:
                    write_report(path, text.encode("utf-8"))
                except OSError as error:
                    unwritten.append(f"--{name}: {path} isn't written: {error.strerror or error}; --resume writes it, by what is kept")
        return unwritten


def write_report(path: str, data: bytes) -> None:
    """A file is replaced as a whole, or stays as it was. What is none, as a pipe, is written to."""
    real = os.path.realpath(path)
    if os.path.exists(path) and not os.path.isfile(real):
        with open(path, "wb") as file:
            file.write(data)
    else:
        put(real, data)


def ran(words: List[str]) -> int:
    given = arguments(words)
    if given.convert:
        for text, said in [converted(path, given.words) for path in given.suites]:
            sys.stdout.write(text)
            sys.stderr.write("".join(f"tmhost-suite: {line}\n" for line in said))
        return 0
    show_building()
    return 0 if Runner(given, standard(given.format is None)).run() else 1


def main(words: List[str]) -> int:
    try:
        return run_and_flush("tmhost-suite", ran, words)
    except (Trouble, TmhostError) as trouble:
        print(f"tmhost-suite: {trouble}", file=sys.stderr)
    except KeyboardInterrupt:
        print("tmhost-suite: cut off; --resume goes on where it was", file=sys.stderr)
        return INTERRUPTED
    return 1
