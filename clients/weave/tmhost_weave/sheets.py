"""The worksheet beside a text: made, opened, and made to have the fields of the text."""
import contextlib
import os
import subprocess
import time
from typing import Callable, Dict, List

from tmhost import Died, Field, InUse, Refused, TmhostError, Worksheet, find_program
from tmhost.advice import SECOND, advised, reason_of_end

from .plan import ENDED, MARK, Plan, Wanted
from tmhost_fences.aside import UNREADABLE, sync
from tmhost_fences.troubles import Trouble

PATIENCE = 10.0  # seconds for which a worksheet may be in use, since a program whose weave was killed needs a moment to end
PAUSE = 0.05
MOMENT = 0.5  # seconds after which it is said that it is in use
AGAIN = "weave again"  # makes a worksheet again that was removed
LARGE = 1_000_000  # bytes of a worksheet's file from which on it may be written again
MOST_DEAD = 4  # times what its fields hold, which a file may have
NEARLY_FULL = 1_048_576  # bytes
OF_A_FIELD = 100  # bytes that one has beside its texts, about


def sheet_path(text: str) -> str:
    return os.path.splitext(text)[0] + ".sheet"


def make(path: str) -> None:
    """Makes a worksheet beside its place, and puts it there when it is whole: what a kill leaves of the making is made again."""
    new = path + ".new"
    remove(new, new + SECOND)
    if os.path.lexists(path + SECOND) and os.path.getsize(path + SECOND):
        raise Trouble(f"{path + SECOND} is there without {path}, to which it belongs; put that back, or remove {path + SECOND} and {AGAIN}: its answers are lost then")
    try:
        make_at(new, path)
        # The second file of a new worksheet is empty, so one that is there alone may go.
        os.replace(new + SECOND, path + SECOND)
        os.rename(new, path)
    except BaseException:
        remove(new, new + SECOND)
        raise
    sync(os.path.dirname(path))


def remove(*paths: str) -> None:
    """Removes the files that are there."""
    for path in paths:
        with contextlib.suppress(FileNotFoundError):
            os.unlink(path)


def make_at(new: str, path: str) -> None:
    """Makes the worksheet that is to be at a path in another place."""
    made = subprocess.run([find_program(), "create", os.path.join(".", new)], stdin=subprocess.DEVNULL, capture_output=True)
    if made.returncode != 0 and has_no_space(path):
        raise Trouble(f"no space left for {os.path.basename(path)}: make room and weave again")
    if made.returncode != 0:
        said = made.stderr.decode("utf-8", "backslashreplace").strip()
        raise Trouble(f"{path} can't be made: {reason_of_end(said, made.returncode, path)}")


def opened(path: str, say: Callable[[str], None], is_partial: bool) -> Worksheet:
    """The worksheet at a path. One that is in use is waited for, which is said. Where it can't be read, that is raised as it is. `is_partial` is whether it is heard
    what its interpreters write before an answer is whole."""
    began = time.monotonic()
    is_said = False
    while True:
        try:
            sheet = Worksheet(path, partial=is_partial)
            break
        except Died as died:
            if died.number in UNREADABLE:
                raise
            waited = time.monotonic() - began
            if not isinstance(died, InUse) or waited > PATIENCE:
                raise Trouble(advised(died, path, AGAIN)) from None
            if waited > MOMENT and not is_said:
                is_said = True
                say(f"{os.path.basename(path)} is in use by another program; waiting")
            time.sleep(PAUSE)
    if MARK.name not in sheet.sessions and (sheet.sessions or sheet.fields):
        sheet.close()
        raise Trouble(f"{path} is a worksheet, but not one of tmhost-weave: it stays as it is")
    return sheet


def largest_file(path: str) -> int:
    return max(os.path.getsize(name) for name in (path, path + SECOND) if os.path.exists(name))


def held(sheet: Worksheet) -> int:
    """How many bytes the fields have, about."""
    answers = sum(len(field.answer.shown_bytes) for field in sheet.fields if field.answer)
    return answers + sum(len(field.input.encode("utf-8", "surrogatepass")) + OF_A_FIELD for field in sheet.fields)


def shorten(sheet: Worksheet, path: str) -> None:
    """Has the worksheet written again where most of its file is of answers that others took the place of. That goes into the other of its two files, over
    what stands there, so neither grows on; none becomes shorter. Where there is no room for it, all stays as it is."""
    if largest_file(path) > max(LARGE, MOST_DEAD * held(sheet)):
        with contextlib.suppress(TmhostError):
            sheet.checkpoint()


def has_no_space(path: str) -> bool:
    """Whether the file system of a path is full, or nearly so, since what didn't fit may be longer than what is left."""
    with contextlib.suppress(OSError):
        found = os.statvfs(os.path.dirname(path) or ".")
        return found.f_bavail * found.f_frsize < NEARLY_FULL
    return False


def fit(sheet: Worksheet, plan: Plan) -> None:
    """Makes the fields those of the text, in its order. The answers that aren't kept go from the last one on, so that whatever a kill leaves
    of a session, its answers are those to the fields in front of them."""
    sheet.ensure_session(MARK.name, MARK.words)
    if any(wanted.fence.ends for wanted in plan.wanted):
        sheet.ensure_session(ENDED.name, ENDED.words)
    kept = plan.kept_notes
    for field in [*reversed(plan.left), *(note for note in plan.all_notes if note.id not in kept)]:
        sheet.remove(field.id)
    spare = spares(sheet, plan)
    for name in plan.words:
        make_session(sheet, plan, name)
    for wanted in plan.wanted:
        if not wanted.is_kept and not wanted.misfit and spare.get(wanted.session):
            reuse(sheet, wanted, spare[wanted.session].pop(0))
    for fields in spare.values():
        for field in reversed(fields):
            sheet.remove(field.id)
    arrange(sheet, plan)


def spares(sheet: Worksheet, plan: Plan) -> Dict[str, List[Field]]:
    """The fields that aren't kept, by their session, without answers."""
    kept = plan.kept_ids
    spare: Dict[str, List[Field]] = {}
    for field in reversed(plan.fields):
        if field.id not in kept:
            if field.state != "empty":
                sheet.clear(field.id)
            spare.setdefault(field.session, []).insert(0, field)
    return spare


def make_session(sheet: Worksheet, plan: Plan, name: str) -> None:
    """Makes a session where it isn't there; where that is refused, its fields fail by that."""
    try:
        sheet.ensure_session(name, plan.words[name])
    except Refused as refused:
        for wanted in plan.of(name):
            wanted.misfit, wanted.is_unstarted = str(refused), True


def reuse(sheet: Worksheet, wanted: Wanted, field: Field) -> None:
    """Numbers of fields are finite, so a field that is there gets the new input."""
    if field.input != wanted.input:
        sheet.set(field.id, wanted.input)
    wanted.id = field.id


def arrange(sheet: Worksheet, plan: Plan) -> None:
    """Makes the fields that are wanting, and puts all into the order of the text. A field that moves goes to the front of those that
    weren't looked at, so the order within a session stays."""
    order = [cell.id for cell in sheet.cells]
    after, place = 0, 0
    for wanted in plan.wanted:
        if wanted.misfit:
            continue
        if wanted.id is None:
            try:
                wanted.id = sheet.new(wanted.session, wanted.input, after).id
            except Refused as error:
                wanted.misfit = str(error)
                continue
            order.insert(place, wanted.id)
        for id in (wanted.id, wanted.note):
            if id is None:
                continue
            if order[place] != id:
                sheet.move(id, after)
                order.remove(id)
                order.insert(place, id)
            after, place = id, place + 1
