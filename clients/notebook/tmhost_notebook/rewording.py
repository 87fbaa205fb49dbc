"""A session gets other words, as where its worksheet comes from a machine on which its interpreter lies elsewhere. The program has no command for that, so
the journal (docs/trust/FORMAT.md) is written again with these words in place of the old ones: each answer, number and text stays.

What was written is opened by the program and compared with the worksheet as it was. Then it takes the place of the first file, in one step: all of it
is in that one, whose selector says so, and the second file means nothing until it is written again. So a crash leaves the one or the other.
"""

import json
import os
import shutil
import tempfile
from typing import Any, Dict, Iterator, List, Optional, Sequence

from tmhost.program import path_word, words_of_program

from .exported import FILES, NotExported, written_by
from .folder import MAGIC, NotDone, held, sync_folder

VERSION = b"\x01"
HEAD, SELECTOR = 10, 9
OPEN, CLOSED = b"\x52", b"\x00"
LENGTH = 4  # bytes of a record's length
OF_SESSION = 1  # the first byte of an op that makes one
LARGEST = 500_000_000  # bytes of a journal: all of it is in memory


def payloads_of(area: bytes) -> Iterator[bytes]:
    """The payloads of an area up to its closed gate. Raises NotDone where it ends before that."""
    at = HEAD
    while area[at : at + 1] == OPEN:
        end = at + 1 + LENGTH + int.from_bytes(area[at + 1 : at + 1 + LENGTH], "big")
        yield area[at + 1 + LENGTH : end]
        at = end
    if at >= len(area):
        raise NotDone("the worksheet is damaged: `tmhost rescue` keeps what can be read")


def payload_of(payload: bytes, session: bytes, words: Sequence[bytes]) -> bytes:
    """An op as it is, but with other words where it makes this session."""
    name_end = 2 + payload[1]
    if payload[0] != OF_SESSION or payload[2:name_end] != session:
        return payload
    flag = payload[name_end : name_end + 1]
    return payload[:name_end] + flag + bytes([len(words)]) + b"".join(len(word).to_bytes(2, "big") + word for word in words)


def journal_of(path: str, session: str, words: Sequence[str]) -> bytes:
    """The first file of a worksheet with other words for a session, which has all of it."""
    areas = []
    for end in FILES:
        with open(path + end, "rb") as file:
            areas.append(file.read(LARGEST + 1))
    if any(len(area) > LARGEST for area in areas):
        raise NotDone(f"the worksheet has more than {LARGEST:,} bytes")
    if not areas[0].startswith(MAGIC + VERSION):
        raise NotDone("it is no worksheet")
    area = areas[areas[0][SELECTOR : SELECTOR + 1] == b"B"]
    given = [word.encode() for word in words]
    new = (payload_of(payload, session.encode(), given) for payload in payloads_of(area))
    records = b"".join(OPEN + len(payload).to_bytes(LENGTH, "big") + payload for payload in new)
    return MAGIC + VERSION + b"A" + records + CLOSED


def reported(path: str, program: Optional[str]) -> List[Dict[str, Any]]:
    """What the program says of a worksheet."""
    lines = written_by([*words_of_program(program), "export", "json", path_word(path)], of=path).splitlines()
    return [json.loads(line) for line in lines]


def has_other_words(old: List[Dict[str, Any]], new: List[Dict[str, Any]], session: str, words: Sequence[str]) -> bool:
    """Whether two worksheets are the same, but that a session of the new one has these words."""
    for line in old:
        for one in line.get("sessions", ()):
            if one["name"] == session:
                one["words"] = list(words)
    return old == new and any(one["name"] == session for line in old for one in line.get("sessions", ()))


def reword(path: str, session: str, words: Sequence[str], program: Optional[str]) -> None:
    """Gives a session of a worksheet that nobody has open other words. Raises NotDone, and then nothing was changed."""
    path = os.path.realpath(path)
    folder = os.path.dirname(path)
    with held(path), tempfile.TemporaryDirectory(prefix=".tmhost-notebook-", dir=folder) as place:
        old, new = os.path.join(place, "old"), os.path.join(place, "new")
        for end in FILES:
            shutil.copyfile(path + end, old + end)
        with open(new, "wb") as file:
            file.write(journal_of(path, session, words))
            file.flush()
            os.fsync(file.fileno())
        open(new + ".alt", "wb").close()
        try:
            is_right = has_other_words(reported(old, program), reported(new, program), session, words)
        except NotExported as error:
            raise NotDone(f"nothing was changed: {error}") from None
        if not is_right:
            raise NotDone("nothing was changed: with these words the worksheet would be another one")
        shutil.copymode(path, new)
        os.replace(new, path)
        sync_folder(folder)
