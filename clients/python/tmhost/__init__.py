"""Worksheets of `tmhost` in Python: `Worksheet` for blocking calls from any thread, `AsyncWorksheet` for asyncio.

    with Worksheet("notes", create=True) as sheet:
        sheet.ensure_session("py", ["tmhost-python"])
        print(sheet.new("py", "6 * 7").evaluate(timeout=5).text)

What a call returned is on the disk: a crash of this process, of the program or of the machine leaves it.
"""

from .aio import AsyncCell, AsyncCellLike, AsyncEvaluation, AsyncWorksheet
from .blocking import Cell, CellLike, Evaluation, Worksheet
from .checks import Checked, CheckWords, Compared, Took, check
from .errors import BadLine, Closed, Died, Gone, InUse, Lost, NoScript, NoWorksheet, ProtocolError, Refused, TimedOut, TmhostError, Undone
from .events import Answered, Banner, Completed, Default, Done, Ended, Event, Finished, OfLife, Partial, Stopped, Warned
from .program import find_program
from .protocol import Protocol
from .reading import Asked, Exported, Interrupted, Made, NothingDone, OneField, Refusal, Reply, Sheet, StopReply, Waited
from .runs import run
from .together import Change
from .values import Answer, Block, Completions, Field, LostItem, Session, Text, Turn, readable

__all__ = [
    "Answer",
    "Answered",
    "Asked",
    "AsyncCell",
    "AsyncCellLike",
    "AsyncEvaluation",
    "AsyncWorksheet",
    "BadLine",
    "Banner",
    "Block",
    "Cell",
    "Change",
    "CellLike",
    "CheckWords",
    "Checked",
    "Closed",
    "Compared",
    "Completed",
    "Completions",
    "Default",
    "Died",
    "Done",
    "Ended",
    "Evaluation",
    "Event",
    "Exported",
    "Field",
    "Finished",
    "Gone",
    "InUse",
    "Interrupted",
    "Lost",
    "LostItem",
    "Made",
    "NoScript",
    "NoWorksheet",
    "NothingDone",
    "OfLife",
    "OneField",
    "Partial",
    "Protocol",
    "ProtocolError",
    "Refusal",
    "Refused",
    "Reply",
    "Session",
    "Sheet",
    "StopReply",
    "Stopped",
    "Text",
    "Took",
    "TimedOut",
    "TmhostError",
    "Turn",
    "Undone",
    "Waited",
    "Warned",
    "Worksheet",
    "check",
    "find_program",
    "readable",
    "run",
]
