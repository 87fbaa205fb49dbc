"""What an interpreter has written of an answer that isn't whole yet: a text to look at, without promise, that is never kept.

The bytes are those of docs/use/PROTOCOL.md, in pieces that may be cut anywhere. Whatever they are there is a text, and it is bounded.
"""

import codecs
import re
from typing import Dict, List, Optional, Tuple

from tmhost import Event, OfLife, Partial

LONGEST = 20_000  # characters that are kept, the last ones
LAST_LINES, LAST_SHOWN = 5, 1_000  # lines and characters of its end that are kept where its interpreter has ended
LONGEST_TAG = 65  # bytes, with the separator
DEEPEST = 32
BEGIN, END, ESCAPE = b"\x02", b"\x05", b"\x1b"
MARK = re.compile(rb"[\x02\x05\x1b]")
BARE = (b"verbatim:", b"output#", b"output:", b"verbatim#", b"error#")  # shown without the tag
UNSHOWN = (b"prompt#", b"input#")
PICTURE = b"image/"


def seen(text: str) -> str:
    """A text of which some lines were written over, as progress bars do. The last line is there until more comes."""
    if "\r" not in text:
        return text
    *lines, last = text.split("\n")
    end = "\r" if last.endswith("\r") else ""
    return "\n".join(line.rstrip("\r").rpartition("\r")[2] for line in [*lines, last]) + end


class Text:
    """What blocks have, as `tmhost show` prints it: no prompt, no next input, and in the place of a picture a word."""

    def __init__(self) -> None:
        self._open: List[Tuple[bytes, bool]] = []  # the tags of the blocks that are open, and whether what stands in them is shown
        self._tag: Optional[bytearray] = None  # the one that is being read
        self._is_escaped = False
        self._decoder = codecs.getincrementaldecoder("utf-8")("backslashreplace")
        self._said: List[str] = []
        self._kept, self.is_cut = "", False

    def feed(self, piece: bytes) -> None:
        at = 0
        while at < len(piece):
            at = self._read_text(piece, at) if self._tag is None else self._read_tag(self._tag, piece, at)
        text = seen(self._kept + "".join(self._said))
        self._said.clear()
        self._kept, self.is_cut = text[-LONGEST:], self.is_cut or len(text) > LONGEST

    @property
    def text(self) -> str:
        return self._kept.rstrip("\r")

    @property
    def end(self) -> str:
        """The last lines that have something in them."""
        return "\n".join([line for line in self.text.splitlines() if line.strip()][-LAST_LINES:])[-LAST_SHOWN:]

    @property
    def _is_shown(self) -> bool:
        """Also what stands beside blocks, which adapters write before an answer."""
        return not self._open or self._open[-1][1]

    def _read_text(self, piece: bytes, at: int) -> int:
        """Reads on to what means something there."""
        if self._is_escaped:
            self._is_escaped = False
            self._add(piece[at : at + 1] if MARK.match(piece, at) else ESCAPE + piece[at : at + 1])
            return at + 1
        found = MARK.search(piece, at)
        end = found.start() if found else len(piece)
        self._add(piece[at:end])
        mark = piece[end : end + 1]
        if mark == BEGIN:
            self._end_text()
            self._tag = bytearray()
        elif mark == END and self._open:
            self._close()
        elif mark == ESCAPE and self._open:
            self._is_escaped = True
        return end + 1

    def _read_tag(self, tag: bytearray, piece: bytes, at: int) -> int:
        """Reads on to the separator. What can't be a tag is text: the interpreter will be ended for it, and till then all is shown."""
        while at < len(piece):
            byte = piece[at : at + 1]
            if byte < b" " or len(tag) == LONGEST_TAG:
                self._begin(b"verbatim:")
                self._add(bytes(tag))
                return at
            tag += byte
            at += 1
            if byte in b":#":
                self._begin(bytes(tag))
                break
        return at

    def _begin(self, tag: bytes) -> None:
        is_outer_shown = self._is_shown
        is_picture = tag.startswith(PICTURE)
        self._tag = None
        self._open[DEEPEST - 1 :] = [(tag, is_outer_shown and not is_picture and tag not in UNSHOWN)]
        if is_picture and is_outer_shown:
            self._said.append("[a picture]")
        elif self._is_shown and tag not in BARE:
            self._said.append("{" + tag.decode("utf-8", "backslashreplace"))

    def _close(self) -> None:
        self._end_text()
        if self._is_shown and self._open[-1][0] not in BARE:
            self._said.append("}")
        self._open.pop()

    def _add(self, text: bytes) -> None:
        said = self._decoder.decode(text) if text and self._is_shown else ""
        if said:
            self._said.append(said)

    def _end_text(self) -> None:
        """What is left of a character is no part of the next text."""
        said = self._decoder.decode(b"", final=True)
        if said:
            self._said.append(said)


class Partials:
    """Of each session what its interpreter has written since the last thing that was reported of it."""

    def __init__(self) -> None:
        self._of: Dict[str, Tuple[int, Text]] = {}

    def take(self, event: Event) -> Optional[str]:
        """The session of which another text is there by an event, if there is one."""
        if not isinstance(event, OfLife):
            return None
        if not isinstance(event, Partial):
            _, gone = self._of.pop(event.session, (0, None))
            return event.session if gone and gone.text else None
        life, text = self._of.get(event.session, (event.life, Text()))
        if life != event.life:
            text = Text()
        self._of[event.session] = event.life, text
        text.feed(event.data)
        return event.session

    def of(self, session: str) -> Optional[Text]:
        """None where nothing is to be seen."""
        _, text = self._of.get(session, (0, None))
        return text if text and text.text else None
