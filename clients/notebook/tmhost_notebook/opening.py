"""Opens a worksheet, also one that another program has for a moment yet."""

import time
from typing import Optional

from tmhost import InUse, Worksheet

REPLY_WITHIN = 60.0  # seconds that a command may take
OPENED_WITHIN = 3.0  # seconds that another program has to let go of the worksheet, as one whose server was just killed


def opened(path: str, program: Optional[str], create: bool) -> Worksheet:
    """The worksheet; InUse where another program has it and keeps it."""
    end = time.monotonic() + OPENED_WITHIN
    while True:
        try:
            return Worksheet(path, create=create, program=program, timeout=REPLY_WITHIN, partial=True)
        except InUse:
            if time.monotonic() > end:
                raise
            time.sleep(0.1)
