"""The worksheet beside a suite in which a run keeps its answers, so that one that was killed goes on."""
import contextlib
import dataclasses
import hashlib
import json
import os
import subprocess
import sys
import tempfile
import time
from typing import Callable, Dict, List, NamedTuple, Optional, Tuple

from tmhost import Cell, Died, InUse, NoWorksheet, Refused, Worksheet, find_program
from tmhost.advice import SECOND, advised, reason_of_end
from tmhost_fences.aside import UNREADABLE, fault_of, set_aside
from tmhost_fences.troubles import Trouble

from .cases import Suite
from .forms import FOLDER
from .results import BROKEN, LATER, WRONG, Losses, Result
from .shown import Shown, shown_of

# The session of notes: what a run is of, and what came of each case. It is never started.
NOTES, NEVER = "tmhost-suite", ("true",)
MOST = 9_500  # of the fields of a suite and a note for each case; a worksheet has 10,000, and long answers have notes, too
PART = 250  # characters, each of which JSON writes in up to 12
PATIENCE, PAUSE = 10.0, 0.05  # seconds; the program of a run that was killed needs a moment to end
MOMENT = 0.3  # seconds; that a worksheet is waited for longer is said
DISK = "Disk"  # the faults of a disk that fails, or is full
AGAIN = "run the suite again"  # makes a worksheet again that was removed
ENDED = "ended"  # in the last note of a run that came to its end, so there is nothing in it to go on with
ROOM = 65_536  # bytes that a new worksheet finds on a disk that isn't full


@dataclasses.dataclass
class Kept:
    """The worksheet of a run: the cells of each case, and what came of those that are done."""

    sheet: Worksheet
    suite: Suite
    cells: List[List[Cell]]
    misfits: Dict[int, str]
    results: Dict[int, Result]

    def __post_init__(self) -> None:
        self.losses = Losses(self.sheet)

    def note(self, at: int, result: Result) -> None:
        """A case is done when this has returned. What came isn't kept twice where the case's own cells show it, and stands in notes of its own
        where it may be too long for one."""
        short = dataclasses.asdict(result)
        kept = self.shown(at)
        for name, own in (("got", kept.text), ("errors", kept.errors), ("said", "")):
            said = short[name]
            if said == own:
                del short[name]
            elif len(said) > PART:
                parts = [said[begin : begin + PART] for begin in range(0, len(said), PART)]
                for part in parts:
                    self.sheet.new(NOTES, json.dumps({"case": at, "of": name, "part": part}, ensure_ascii=True))
                short[name] = len(parts)
        # So that an earlier version can go on, too.
        short = {name: value for name, value in short.items() if name not in LATER or value != LATER[name]}
        self.sheet.new(NOTES, json.dumps({"case": at, "digest": self.suite.cases[at].digest, **short}, ensure_ascii=True))

    def shown(self, at: int) -> Shown:
        """What the cells of a case show, one after another."""
        rules = self.suite.rules_of(self.suite.cases[at])
        return joined([shown_of(cell.answer, rules) if cell.answer else Shown(f"? {cell.reason}") for cell in self.cells[at] if cell.state != "empty"])


def joined(parts: List[Shown]) -> Shown:
    """What the fields of a case show, one after another. A field that says nothing leaves no line."""
    return Shown("\n".join(part.text for part in parts if part.text), "\n".join(part.errors for part in parts if part.errors))


def sheet_path(path: str, folder: Optional[str]) -> str:
    """Where the worksheet of a suite lies. In a folder for many, suites of the same name have one each."""
    if folder is None:
        return path + ".run"
    mark = hashlib.sha256(os.fsencode(os.path.realpath(path))).hexdigest()[:8]
    return os.path.join(folder, f"{os.path.basename(path)}.{mark}.run")


def remove(path: str) -> None:
    for name in (path, path + SECOND):
        with contextlib.suppress(FileNotFoundError):
            os.unlink(name)


def program_of(suite: Suite) -> List[str]:
    """The words of the program, from which the interpreters of a suite have the variable with its folder, and the folder in which they are started."""
    program = find_program()
    words = ["env", f"{FOLDER}={os.path.dirname(os.path.abspath(suite.path))}", os.path.abspath(program) if os.sep in program else program]
    return words if suite.folder is None else ["sh", "-c", 'cd -- "$0" && exec "$@"', suite.folder, *words]


def opened(path: str, suite: Optional[Suite] = None) -> Worksheet:
    """The worksheet of a suite. With the suite it is opened for a run."""
    began = time.monotonic()
    is_said = False
    while True:
        try:
            return Worksheet(os.path.abspath(path), program=program_of(suite) if suite else None, partial=suite is not None)
        except InUse as used:
            waited = time.monotonic() - began
            if waited > PATIENCE:
                raise Trouble(advised(used, path)) from None
            if waited > MOMENT and not is_said:
                is_said = True
                print(f"tmhost-suite: {path}: another program has it; waiting", file=sys.stderr)
            time.sleep(PAUSE)


def opened_or_none(path: str, suite: Optional[Suite] = None) -> Optional[Worksheet]:
    """None where there is none, as where a run that was waited for has removed it."""
    if not os.path.lexists(path):
        return None
    try:
        return opened(path, suite)
    except NoWorksheet:
        return None


def why_ended(died: Died, path: str, needs: Optional[str]) -> str:
    """Why the program of a worksheet has ended, as a user is shown it. Of a disk it may be that there is no room. `needs` is the option that needs what the
    last run kept."""
    if needs and died.number in UNREADABLE:
        return f"{path}: {fault_of(died, path)}: it can't be read, so {needs} can't go by it; run the suite without {needs}: that file is set aside then"
    room = no_room(os.path.dirname(path) or ".") if died.fault == DISK else None
    return room or advised(died, path, AGAIN)


def clear(path: str, of: str, say: Callable[[str], None]) -> None:
    """Takes away what an earlier run kept. Where that can't be read, it gets another name. One of a run that goes on isn't touched, nor is one of others."""
    try:
        sheet = opened_or_none(path)
    except Died as died:
        if died.number not in UNREADABLE:
            raise
        say(f"{of}: what an earlier run kept can't be read ({fault_of(died, path)}): it is {set_aside(path)} now, and the suite begins again")
        return
    if sheet is not None:
        is_own = NOTES in sheet.sessions or not (sheet.sessions or sheet.cells)
        sheet.close()
        if not is_own:
            raise Trouble(f"{path} is a worksheet, but not one of tmhost-suite: it stays as it is; move it away, or give --runs FOLDER")
    remove(path)


def no_room(folder: str) -> Optional[str]:
    """What the system says where a file in a folder can't grow. None where it can."""
    try:
        with tempfile.TemporaryFile(dir=folder) as file:
            file.write(bytes(ROOM))
            file.flush()
    except OSError as error:
        return (error.strerror or str(error)).lower()
    return None


def make(path: str) -> None:
    """Makes the worksheet under another name first: a run that is killed meanwhile leaves none here, and not a file that doesn't open."""
    fresh = path + ".new"
    remove(fresh)
    made = subprocess.run([find_program(), "create", os.path.join(".", fresh)], stdin=subprocess.DEVNULL, capture_output=True)
    if made.returncode != 0:
        said = made.stderr.decode("utf-8", "backslashreplace").strip()
        why = no_room(os.path.dirname(path) or ".") or reason_of_end(said, made.returncode, path)
        remove(fresh)
        raise Trouble(f"{path} can't be made: {why}")
    with contextlib.suppress(FileNotFoundError):
        os.replace(fresh + SECOND, path + SECOND)
    os.replace(fresh, path)


def begin(path: str, suite: Suite, say: Callable[[str], None]) -> Kept:
    """A new run, in the place of an earlier one."""
    folder = os.path.dirname(path) or "."
    if not os.access(folder, os.W_OK | os.X_OK):
        raise Trouble(f"nothing can be written into {folder}: --runs FOLDER puts the worksheet of a run elsewhere")
    fields, notes = sum(len(case.fields) for case in suite.cases), len(suite.cases)
    if fields + notes > MOST:
        raise Trouble(f"its {notes:,} cases with {fields:,} fields are more than {MOST:,} in all, which a run can keep: make two suites of it")
    clear(path, suite.path, say)
    make(path)
    sheet = opened(path, suite)
    try:
        return fill(sheet, suite)
    except BaseException:
        sheet.close()
        raise


def fill(sheet: Worksheet, suite: Suite) -> Kept:
    """Makes the cells of all cases, and says at the end of which suite they are."""
    sheet.session(NOTES, NEVER)
    kept = Kept(sheet, suite, [], {}, {})
    for name, words in suite.sessions.items():
        try:
            sheet.session(name, words)
        except Refused as refused:
            raise Trouble(f"the session {name}, {len(sheet.sessions)} of {len(suite.sessions)}, is {refused}") from None
    for at, case in enumerate(suite.cases):
        kept.cells.append([])
        for field in case.fields:
            if field.misfit is None:
                kept.cells[at].append(sheet.new(case.session, field.input))
            else:
                kept.misfits.setdefault(at, field.misfit)
    sheet.new(NOTES, json.dumps({"suite": suite.digest}))
    return kept


class Resumed(NamedTuple):
    """A run that was cut off, and what is said of it. Where there is none the suite is run from its beginning."""

    kept: Optional[Kept]
    said: str


def resume(path: str, suite: Suite) -> Resumed:
    sheet = opened_or_none(path, suite)
    if sheet is None:
        return Resumed(None, "no run of it was cut off, so it begins")
    try:
        notes = notes_in(sheet) if NOTES in sheet.sessions else []
        has_ended = bool(notes) and ENDED in notes[-1]
        if notes and not has_ended:
            kept = found_in(sheet, suite, notes)
            done = sum(not suite.cases[at].is_own for at in kept.results)
            return Resumed(kept, f"goes on after {done} of {suite.count} cases")
    except BaseException:
        sheet.close()
        raise
    sheet.close()
    return Resumed(None, "its last run came to its end, so it is run again" if has_ended else "no run of it was cut off after a case, so it begins")


def notes_in(sheet: Worksheet) -> List[Dict[str, object]]:
    return [json.loads(cell.input) for cell in sheet.cells if cell.session == NOTES]


def found_in(sheet: Worksheet, suite: Suite, notes: List[Dict[str, object]]) -> Kept:
    if notes[0].get("suite") != suite.digest:
        raise Trouble("the code of the suite isn't that of the run that was cut off: begin again, without --resume")
    kept = Kept(sheet, suite, [], {}, {})
    cells = {name: [cell for cell in sheet.cells if cell.session == name] for name in suite.sessions}
    for at, case in enumerate(suite.cases):
        fitting = [field for field in case.fields if field.misfit is None]
        kept.cells.append([cells[case.session].pop(0) for _ in fitting])
        if len(fitting) < len(case.fields):
            kept.misfits[at] = next(field.misfit for field in case.fields if field.misfit) or ""
    parts: Dict[Tuple[int, str], List[str]] = {}
    for note in notes[1:]:
        at = int(str(note.pop("case")))
        if "part" in note:
            parts.setdefault((at, str(note["of"])), []).append(str(note["part"]))
            continue
        note.pop("digest")
        for name, own in (("got", kept.shown(at).text), ("errors", kept.shown(at).errors), ("said", "")):
            count = note.setdefault(name, own)
            if isinstance(count, int):
                # Those of a run that was cut off between two of them stand in front.
                note[name] = "".join(parts[at, name][-count:])
        kept.results[at] = Result(**note)  # type: ignore[arg-type]
    for left in cells.values():
        for cell in left:  # of a replay that was cut off
            cell.remove()
    return kept


def last_failed(path: str) -> Optional[List[str]]:
    """The digests of the cases that weren't passed in the last run. None where what the tool sets up for them went wrong, so that none was run."""
    sheet = opened_or_none(path)
    if sheet is None:
        return []
    with sheet:
        notes = notes_in(sheet)[1:]
    if any(note.get("verdict") == BROKEN for note in notes):
        return None
    return [str(note["digest"]) for note in notes if note.get("verdict") in WRONG]


Trace = Tuple[Tuple[int, int, int], ...]


def trace_of(path: str) -> Trace:
    """What a worksheet's files are, by which one is known to which nothing was done since. Nothing where one of them can't be seen."""
    try:
        found = [os.stat(name) for name in (path, path + SECOND)]
    except OSError:
        return ()
    return tuple((one.st_ino, one.st_size, one.st_mtime_ns) for one in found)


def finish(path: str, trace: Trace, is_ok: bool) -> None:
    """The run of a suite came to its end, and is reported: its worksheet is left for `--rerun failed` alone, where a case failed. One that another
    run has taken meanwhile is left alone."""
    if not trace or trace_of(path) != trace:
        return
    if is_ok:
        remove(path)
        return
    with opened(path) as sheet:
        sheet.new(NOTES, json.dumps({ENDED: True}))
