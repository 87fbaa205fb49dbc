"""What a person is shown of an error of a worksheet: its path, what it means and what to do, in a line. docs/use/FAULTS.md has it whole of faults,
docs/use/SCRIPT.md of commands that are refused, docs/use/PROTOCOL.md of lines that are lost."""

import os
from typing import Dict, Iterator, Optional

from .errors import DISK, Died, Lost, NoWorksheet, Refused, plain
from .program import death, fault_in, with_reason
from .starting import doubt

SECOND = ".alt"  # of a worksheet's second file
DAMAGED, NOT_A_SHEET = 30, 31
IN_SECOND = (9, b"B")  # the place of a byte, and what it is where the worksheet lies in the second file

# By the number of a fault. {path} is the worksheet, {at} the place of a damage, {cause} why it can't be opened.
ADVICE: Dict[int, str] = {
    21: "a write to the disk failed; make room, then do it again: what was reported is kept",
    22: "there wasn't memory enough for what an interpreter wrote; what was reported is kept",
    23: "its file is full; the line checkpoint of a script makes it shorter, else begin a new worksheet",
    DAMAGED: "it can't be read from byte {at} on; keep both files: `tmhost rescue {path} NEW` writes what stands before that to a new worksheet",
    NOT_A_SHEET: "it is no worksheet, or it was cut or is empty; look at the path",
    DISK: "{cause}",
    33: "there wasn't memory enough to open it; nothing was changed: do it again with more",
    34: "a file is there already, by this name or with .alt after it; nothing was made: take another path",
    35: "it is in use by another program; `fuser {path}` says which: wait for its end, or end it",
    36: "a session has a word with a space, so no script makes it; `tmhost export html {path}` shows it",
    37: "it has no field with this number; `tmhost show {path}` has the numbers",
    38: "this is the second file of a worksheet; give the path without .alt",
    39: "it has fewer changes; `tmhost history {path}` has the numbers",
    40: "the input of tmhost is closed or can't be read; do it again: what was reported is kept",
    41: "the input of tmhost is too long; cut it into parts",
    42: "the output of tmhost is closed or can't be written; `tmhost show {path}` says where it stands",
    43: "there wasn't memory enough; what was reported is kept: do the rest again with more",
    44: "the program of a session isn't here; install it, or put its folder into PATH",
}
# The same, of one that can be made again: by {again}.
OF_A_CACHE: Dict[int, str] = {
    DAMAGED: "it can't be read from byte {at} on; remove {path} and {path}.alt and {again}: the answers in them are lost",
    NOT_A_SHEET: "it is no worksheet, or it was cut or is empty; where nobody needs them, remove {path} and {path}.alt and {again}",
}
# By the ending of a file that is no worksheet: what takes it.
BY_END = {
    **dict.fromkeys((".md", ".markdown", ".rmd", ".qmd"), "for a Markdown text use tmhost-weave or tmhost-import"),
    **dict.fromkeys((".ipynb", ".org", ".tm"), "tmhost-import makes one of it"),
}
# By the name of a refusal.
OF_REFUSALS: Dict[str, str] = {
    "NoSession": "there is no session of this name; make it first",
    "NoField": "there is no field with this number; `tmhost show` has the numbers",
    "InFlight": "the field waits for its answer; wait for that, or interrupt or stop its session",
    "SessionExists": "a session has this name already; use that one, or take another name",
    "BadName": "a name has 1 to 32 letters, digits, _ and -",
    "BadWords": "an interpreter has 1 to 16 words, each of at most 1,024 bytes and without control characters",
    "BadInput": "an input has at most 4,095 bytes, and no control characters; cut it into several",
    "SamePlace": "the field stands there already, so there is nothing to do",
    "TooManySessions": "there are 64 sessions; use one of them, or begin a new worksheet",
    "TooManyFields": "there are 10,000 fields; remove some, or begin a new worksheet",
    "IdsSpent": "the last number for a field was given out; begin a new worksheet",
    "NoTab": "the session completes nothing; a session that does is made with its flag for that",
    "BadCursor": "the cursor is past the end of the text, or inside a character; it counts bytes",
    "QueueFull": "1,024 lines wait in this session; wait for their answers, or stop it",
    "LivesSpent": "100,000 interpreters were started since the worksheet was opened; open it again",
    "JournalFull": "the file of the worksheet is full; a checkpoint makes it shorter, else begin a new worksheet",
    "OutOfMemory": "there wasn't memory enough for it; do it again with more",
}
# By the reason for which a line was lost.
AGAIN = "evaluate it again, after what it needs"
ADAPTER = "is it started by an adapter, as tmhost-gp?"
OF_LOSSES: Dict[str, str] = {
    "StartRefused": "the interpreter can't be started; install it, or put its folder into PATH",
    "Ended": f"the interpreter ended before it answered, and what was set in it is gone; {AGAIN}",
    "ReadFault": f"what the interpreter wrote couldn't be read, so it was ended; {AGAIN}",
    "SendFault": f"the line couldn't be sent, since the interpreter had ended; {AGAIN}",
    "Stalled": f"its time was over, so the interpreter was ended; {AGAIN}, with more time",
    "BadTag": f"the interpreter wrote a block with a bad tag, so it was ended; {ADAPTER}",
    "TooDeep": f"the interpreter wrote blocks too deep in one another, so it was ended; {ADAPTER}",
    "TooLong": "the interpreter wrote a block that is too long, so it was ended; have it print less",
    "Stopped": f"the session was stopped, and what was set in it is gone; {AGAIN}",
}
UNSEEN = "it can't be opened, read or written; look at the path, at who may write there, and for room on the disk"


def advised(error: BaseException, path: str, again: Optional[str] = None) -> str:
    """What a user is shown of an error of the worksheet at this path. Of one that is a cache `again` says how it is made again, as "weave again"."""
    return f"{path}: {reason(error, path, again)}" if has_advice(error) else plain(error)


def reason(error: BaseException, path: str, again: Optional[str] = None) -> str:
    """The same without the path in front, where that was named."""
    if isinstance(error, Refused):
        return plain(error) + (f": {OF_REFUSALS[error.name]}" if has_advice(error) else "")
    if isinstance(error, Lost):
        return plain(error) + (f": {why_lost(error)}" if has_advice(error) else "")
    if not isinstance(error, Died) or not has_advice(error):
        return plain(error)
    at = "" if error.offset is None else f" at {error.offset}"
    advice = {**ADVICE, **(OF_A_CACHE if again else {})}[error.number or 0]
    taken_by = BY_END.get(os.path.splitext(path)[1].lower())
    if error.number == NOT_A_SHEET and taken_by:
        advice = "it is no worksheet; " + taken_by
    cause = cause_of(path) if error.number == DISK else None
    return f"fault {error.number} {error.fault}{at}: " + advice.format(path=path, at=error.offset, again=again, cause=cause or UNSEEN)


def has_advice(error: BaseException) -> bool:
    if isinstance(error, Refused):
        return error.name in OF_REFUSALS
    if isinstance(error, Lost):
        return error.reason in OF_LOSSES
    return isinstance(error, Died) and not isinstance(error, NoWorksheet) and error.number in ADVICE


def why_lost(lost: Lost) -> str:
    """What a reason means and what to do: of an interpreter that can't be started its words, and what is known of them."""
    if lost.reason == "StartRefused" and lost.words:
        why = doubt(lost.words)
        return why if why else f"{' '.join(lost.words)}: {OF_LOSSES[lost.reason]}"
    return OF_LOSSES[lost.reason]


def reason_of_end(said: str, status: int, path: str) -> str:
    """Why a program has ended, by what stands on its standard error, of a worksheet whose path was named."""
    return reason(death(fault_in(said), with_reason(said, status, path), status, None), path)


def cause_of(path: str) -> Optional[str]:
    """Why a worksheet can't be opened, as far as that can be seen."""
    try:
        return next(causes(path), None)
    except OSError as error:
        return plain(error)


def causes(path: str) -> Iterator[str]:
    second, folder = path + SECOND, os.path.dirname(path) or "."
    if not os.path.lexists(path):
        yield from causes_of_folder(folder)
        return
    if os.path.islink(path) and not os.path.exists(path):
        yield "it is a link that leads nowhere; remove it, or put back what it leads to"
    elif not os.path.isfile(path):
        yield "it is a folder; take another path" if os.path.isdir(path) else "it is no plain file; take another path"
    for name, it in ((path, "it"), (second, second)):
        if os.path.exists(name) and not os.access(name, os.R_OK | os.W_OK):
            yield f"you may not read and write {it}; `ls -l` says who may"
    if os.stat(path).st_nlink > 1:
        yield "it has another name, which is a hard link; `cp` makes a copy of its own"
    if os.path.islink(second):
        yield f"{second} is a link; put the file itself there"
    if not os.path.exists(second) and is_in_second(path):
        yield f"the worksheet lies in {second}, which isn't there; put that file back"


def causes_of_folder(folder: str) -> Iterator[str]:
    """Why nothing can be made in a folder."""
    if not os.path.isdir(folder):
        yield f"there is no folder {folder}; make it, or take another path"
    elif not os.access(folder, os.W_OK | os.X_OK):
        yield f"you may not write into {folder}; take another path"


def is_in_second(path: str) -> bool:
    at, byte = IN_SECOND
    with open(path, "rb") as file:
        return file.read(at + 1)[at:] == byte
