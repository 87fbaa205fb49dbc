"""One file for a colleague: a worksheet with its drafts, the files that its sessions' words name (adapters of the user's own), and the pictures of its prose.

An adapter of the repository that is named by its path becomes its command, which other machines have. Unpacking runs nothing, takes the place of no file,
and writes below the folder alone.
"""

import json
import os
import re
import shutil
import tempfile
import zipfile
from typing import Any, Dict, List, Optional, Tuple

from tmhost.program import search_path
from tmhost.starting import missing_program

from . import in_prose
from .drafts import END, places_of
from .exported import FILES, NotExported, copy_of
from .folder import NotDone, free_path, is_name, sync_folder
from .rewording import reword, reported

FORMAT = 1
MANIFEST = "manifest.json"
LARGEST_FILE = 1_000_000  # bytes of a file that words name
LARGEST = 1_000_000_000  # bytes of all that is unpacked
OF_THE_SYSTEM = ("/usr/", "/bin/", "/lib", "/opt/", "/nix/", "/sbin/")
PICTURE = re.compile(r"!\[[^\]]*\]\(\s*<?([^)>\s]+)")

Words = Dict[str, List[str]]


def command_of(word: str) -> Optional[str]:
    """The command of an adapter of a repository, whose path this is."""
    command = f"tmhost-{os.path.basename(word)}"
    is_adapter = os.path.isfile(os.path.join(os.path.dirname(word), "bin", command))
    return command if is_adapter and shutil.which(command, path=search_path()) else None


def is_own_file(word: str) -> bool:
    """Whether a word names a file of a user's own, as an adapter."""
    is_elsewhere = os.path.isabs(word) and not os.path.realpath(word).startswith(OF_THE_SYSTEM)
    return is_elsewhere and os.path.isfile(word) and os.path.getsize(word) <= LARGEST_FILE


class Packed:
    """What a file for a colleague has: the words of sessions that change, and its members by their names."""

    def __init__(self) -> None:
        self.words: Words = {}  # a word that is the name of a member stands for that file
        self.members: Dict[str, str] = {}  # the paths of files
        self.files: Dict[str, str] = {}  # the members of those that words name
        self.pictures: List[str] = []

    def take_session(self, name: str, words: List[str]) -> None:
        new = [command_of(words[0]) or words[0], *words[1:]]
        for place, word in enumerate(new):
            if is_own_file(word):
                new[place] = self.files.setdefault(word, f"files/{len(self.files)}/{os.path.basename(word)}")
                self.members[new[place]] = word
        if new != words:
            self.words[name] = new

    def take_pictures(self, folder: str, text: str) -> None:
        for address in PICTURE.findall(text):
            try:
                path = os.path.normpath(in_prose.path_of(address))
                in_prose.read(folder, path)
            except (in_prose.NoPicture, OSError, ValueError):
                continue
            if not path.startswith("..") and path not in self.pictures:
                self.pictures.append(path)
                self.members["pictures/" + path] = os.path.join(folder, path)


def need_folder(path: str) -> None:
    if not os.path.isdir(path):
        raise NotDone(f"there is no folder {path}")


def pack(sheet: str, target: str, program: Optional[str]) -> List[str]:
    """Writes a worksheet as one file, also while it is open, and gives the names of what is in it. Raises NotDone."""
    need_folder(os.path.dirname(target) or ".")
    if os.path.lexists(target):
        raise NotDone(f"there is a file {target} already")
    sheet = os.path.abspath(sheet)
    if not is_name(os.path.basename(sheet)):
        raise NotDone("a worksheet of this name can't be packed: give it a plain one")
    packed = Packed()
    with tempfile.TemporaryDirectory(prefix=".tmhost-notebook-", dir=os.path.dirname(os.path.abspath(target))) as place:
        try:
            copy = copy_of(sheet, place)
            lines = reported(copy, program)
        except NotExported as error:
            raise NotDone(str(error)) from None
        for line in lines:
            for one in line.get("sessions", ()):
                packed.take_session(one["name"], one["words"])
            packed.take_pictures(os.path.dirname(sheet), line.get("field", {}).get("input", ""))
        packed.members.update({"sheet" + end: copy + end for end in FILES})
        packed.members.update({"sheet" + END: path for path in places_of(sheet)[::-1] if os.path.exists(path)})
        manifest = {"format": FORMAT, "name": os.path.basename(sheet), "words": packed.words, "pictures": packed.pictures}
        new = os.path.join(place, "packed.zip")
        with zipfile.ZipFile(new, "x", zipfile.ZIP_DEFLATED) as file:
            file.writestr(MANIFEST, json.dumps(manifest))
            for name, path in packed.members.items():
                file.write(path, name)
        os.rename(new, target)
    return sorted(packed.members)


# ---- at the colleague's


def read(file: zipfile.ZipFile) -> Tuple[str, Words, List[str]]:
    """The name of the worksheet, words of sessions, and the pictures. Raises NotDone where the file isn't one that was packed."""
    try:
        reported: Any = json.loads(file.read(MANIFEST))
        name, words, pictures = str(reported["name"]), reported["words"], reported["pictures"]
        are_words = all(isinstance(one, list) and all(isinstance(word, str) for word in one) for one in words.values())
        is_fit = reported["format"] == FORMAT and is_name(name) and are_words and all(isinstance(one, str) for one in pictures)
    except (KeyError, ValueError, TypeError, AttributeError):
        is_fit = False
    if not is_fit or sum(one.file_size for one in file.infolist()) > LARGEST:
        raise NotDone("that is no packed worksheet, or it is too large")
    return name, words, pictures


def is_below(folder: str, path: str) -> bool:
    return not os.path.isabs(path) and ".." not in path.split("/") and os.path.realpath(os.path.join(folder, path)).startswith(os.path.realpath(folder) + "/")


def write(file: zipfile.ZipFile, member: str, path: str) -> None:
    """Writes a member to a new file."""
    os.makedirs(os.path.dirname(path), exist_ok=True)
    with open(path, "xb") as written, file.open(member) as given:
        shutil.copyfileobj(given, written)
        written.flush()
        os.fsync(written.fileno())


def unpack(source: str, folder: str, program: Optional[str]) -> List[str]:
    """Makes the worksheet of a packed file in a folder, and gives what has to be said of it. Raises NotDone."""
    need_folder(folder)
    folder = os.path.realpath(folder)
    try:
        with zipfile.ZipFile(source) as file:
            return unpacked(file, folder, program)
    except (zipfile.BadZipFile, KeyError, NotExported) as error:
        raise NotDone(f"{source} can't be unpacked: {error}") from None


def unpacked(file: zipfile.ZipFile, folder: str, program: Optional[str]) -> List[str]:
    name, words, pictures = read(file)
    path, own, says = free_path(folder, name), name + ".files", [f"made {name}"]
    if os.path.lexists(os.path.join(folder, own)) or os.path.lexists(path + END):
        raise NotDone(f"there is a file {own} or {name + END} already")
    with tempfile.TemporaryDirectory(prefix=".tmhost-notebook-", dir=folder) as place:
        new, files = os.path.join(place, "sheet"), os.path.join(place, "files")
        ends = [end for end in (END, *reversed(FILES)) if "sheet" + end in file.namelist()]
        for end in ends:
            write(file, "sheet" + end, new + end)
        for session, given in words.items():
            reword(new, session, [word_of(file, files, os.path.join(folder, own), word) for word in given], program)
        sessions = [one for line in reported(new, program) for one in line.get("sessions", ())]
        for picture in pictures:
            if is_below(folder, picture) and not os.path.lexists(os.path.join(folder, picture)):
                write(file, "pictures/" + picture, os.path.join(folder, picture))
            else:
                says.append(f"left out {picture}: there is one already, or it isn't in this folder")
        if os.path.isdir(files):
            os.rename(files, os.path.join(folder, own))
        for end in ends:
            os.rename(new + end, path + end)
        sync_folder(folder)
    missing = [(one["name"], missing_program(one["words"])) for one in sessions]
    return says + [f"session {name}: there is no program {found[0]} here" for name, found in missing if found]


def word_of(file: zipfile.ZipFile, place: str, own: str, word: str) -> str:
    """A word at the colleague's: the path that a file which is unpacked into a place will have, or the word as it is."""
    if word not in file.namelist() or not re.fullmatch(r"files/\d+/(?!\.\.?$)[^/]+", word):
        return word
    parts = word.split("/")[1:]
    path = os.path.join(place, *parts)
    if not os.path.exists(path):
        write(file, word, path)
        os.chmod(path, 0o755 if file.getinfo(word).external_attr >> 16 & 0o100 else 0o644)
    return os.path.join(own, *parts)
