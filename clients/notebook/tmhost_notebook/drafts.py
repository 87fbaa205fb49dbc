"""Texts that were typed into cells which wait for their answer. The program gives such a cell no other text, so till then they are kept
beside the worksheet: in SHEET.drafts.json, or, where that folder can't be written, in a folder of the user's. Where there is no draft there
is no file."""

import contextlib
import dataclasses
import hashlib
import json
import os
import stat
from typing import Any, Dict, List, Optional

END = ".drafts.json"
NEW = ".new"  # after the name of a file that takes the place of another when it is whole


@dataclasses.dataclass(frozen=True)
class Draft:
    """`base` is the text of the cell that it was typed over."""

    session: str
    base: str
    text: str


class NotKept(Exception):
    """A draft is not on the disk, or it is still there; for a reason that is reported to people."""


def places_of(sheet: str) -> List[str]:
    """Where its drafts are written, and where else they may be: the folder may have been another one's before."""
    path = os.path.abspath(sheet)
    state = os.environ.get("XDG_STATE_HOME") or os.path.expanduser("~/.local/state")
    elsewhere = os.path.join(state, "tmhost-notebook", hashlib.sha256(os.fsencode(path)).hexdigest()[:32] + END)
    places = [path + END, elsewhere]
    return places if os.access(os.path.dirname(path), os.W_OK, effective_ids=True) else places[::-1]


class Drafts:
    """The drafts of a worksheet, by the numbers of their cells. To be used by one that has the worksheet's lock: `of` is what the file has."""

    def __init__(self, sheet: str) -> None:
        self.sheet, self.places = sheet, places_of(sheet)
        self.of: Dict[int, Draft] = {}  # never changed, only replaced
        self.trouble = ""  # why what is there can't be read: it is left as it is

    def read(self) -> None:
        """Reads what was kept last, by this server or by another one."""
        self.of, self.trouble = {}, ""
        for place in self.places:
            try:
                self.of = drafts_in(read(place, owners=(os.geteuid(), os.stat(self.sheet).st_uid)))
            except FileNotFoundError:
                continue
            except (OSError, ValueError) as error:
                self.trouble = f"{place} can't be read ({error})"
            return

    def keep(self, id: int, draft: Optional[Draft]) -> None:
        """Gives a cell a draft, or none any more. Raises NotKept; else it is on the disk."""
        of = {other: known for other, known in self.of.items() if other != id}
        if draft is not None:
            of[id] = draft
        if of != self.of:
            self._write(of)

    def _write(self, of: Dict[int, Draft]) -> None:
        if self.trouble:
            raise NotKept(self.trouble)
        place, *others = self.places
        reported = {"drafts": {str(id): dataclasses.asdict(draft) for id, draft in of.items()}}
        try:
            if of:
                replace(place, json.dumps(reported).encode(), stat.S_IMODE(os.stat(self.sheet).st_mode) & 0o666)
            else:
                remove(place)
        except OSError as error:
            raise NotKept(f"{place} can't be written ({error.strerror})") from error
        for other in others:
            with contextlib.suppress(OSError):  # a folder that can't be written
                remove(other)
        self.of = of


def drafts_in(data: bytes) -> Dict[int, Draft]:
    reported: Any = json.loads(data)
    try:
        return {int(id): Draft(*(text_of(one[name]) for name in ("session", "base", "text"))) for id, one in reported["drafts"].items()}
    except (AttributeError, KeyError, TypeError):
        raise ValueError("it has no drafts") from None


def text_of(value: Any) -> str:
    if not isinstance(value, str):
        raise TypeError
    return value


def read(place: str, owners: "tuple[int, int]") -> bytes:
    """What a file has. One that somebody else has put there, as others can in a folder for all, isn't taken for ours."""
    with open(os.open(place, os.O_RDONLY | os.O_NOFOLLOW | os.O_NONBLOCK | os.O_CLOEXEC), "rb") as file:
        if os.fstat(file.fileno()).st_uid not in owners:
            raise ValueError("it is somebody else's")
        return file.read()


def replace(place: str, data: bytes, mode: int) -> None:
    """Gives a file these bytes: whenever the machine stops it has them, or those that it had. They are on the disk after this."""
    os.makedirs(os.path.dirname(place), 0o700, exist_ok=True)
    with contextlib.suppress(FileNotFoundError):
        os.unlink(place + NEW)  # of a server that was killed
    with open(os.open(place + NEW, os.O_WRONLY | os.O_CREAT | os.O_EXCL | os.O_NOFOLLOW | os.O_CLOEXEC, 0o600), "wb") as file:
        os.fchmod(file.fileno(), mode)
        file.write(data)
        file.flush()
        os.fsync(file.fileno())
    os.replace(place + NEW, place)
    sync_folder(place)


def remove(place: str) -> None:
    with contextlib.suppress(FileNotFoundError):
        os.unlink(place)
        sync_folder(place)


def sync_folder(place: str) -> None:
    folder = os.open(os.path.dirname(place), os.O_RDONLY | os.O_DIRECTORY | os.O_CLOEXEC)
    try:
        os.fsync(folder)
    finally:
        os.close(folder)
