"""Makes a worksheet by the program `tmhost`.

It is made in a folder of its own beside its place, which goes in any case, and is put in its place when it is whole. So whatever stops the
program, no part of a worksheet is left there, and no file is touched that somebody else has made there meanwhile.
"""
import os
import re
import signal
import subprocess
import tempfile

from tmhost import find_program
from tmhost.advice import reason_of_end
from tmhost.program import fault_in, show_building
from tmhost_fences.troubles import Trouble

from .fields import Sheet

SUFFIX = ".alt"  # of a worksheet's second file
ENDING = (signal.SIGINT, signal.SIGTERM, signal.SIGHUP)


def program() -> str:
    """The path of tmhost."""
    try:
        return find_program()
    except FileNotFoundError as error:
        raise Trouble(str(error)) from None


def refuse_taken(new: str) -> None:
    """Refuses a place where something is: a file, a folder, or a link that leads nowhere."""
    for path in (new, new + SUFFIX):
        if os.path.lexists(path):
            raise Trouble(f"{ascii(path)} is there already, and stays as it is")


def do(words: list[str], script: bytes, why: str, new: str) -> str:
    """What the program writes; a Trouble with what it says of a failure to make the worksheet `new`."""
    try:
        done = subprocess.run(words, input=script, capture_output=True)
    except OSError as error:
        raise Trouble(f"{ascii(words[0])} can't be started: {error.strerror}") from error
    if done.returncode != 0:
        how = f"signal {-done.returncode}" if done.returncode < 0 else f"status {done.returncode}"
        said = done.stderr.decode("utf-8", "replace").strip("\n")
        said = ascii(reason_of_end(said, done.returncode, new) if fault_in(said) else said)[1:-1]
        raise Trouble(f"{why} with {how}: {said}")
    return done.stdout.decode("utf-8", "replace")


def put(old: str, new: str) -> None:
    """Gives a file its name where nothing has that name. (`rename` would take the place of what is there.)"""
    os.link(old, new)
    os.unlink(old)


def publish(made: str, new: str) -> None:
    """Puts a whole worksheet in its place: the second file first, so that where the first is there the other one is."""
    signal.pthread_sigmask(signal.SIG_BLOCK, ENDING)  # up to the end of the program, which is near: it is done whole
    put(made + SUFFIX, new + SUFFIX)
    try:
        put(made, new)
    except OSError:
        os.unlink(new + SUFFIX)
        raise


def sync(folder: str) -> None:
    """Brings the names in a folder onto the disk."""
    opened = os.open(folder, os.O_RDONLY)
    os.fsync(opened)
    os.close(opened)


def fill(made: str, sheet: Sheet, new: str) -> None:
    """Makes the worksheet `new` in its first place."""
    host = program()
    show_building()
    do([host, "create", made], b"", "tmhost create ended", new)
    script = "".join(line + "\n" for line in sheet.script()).encode("utf-8")
    try:
        reported = do([host, "run", "--strict", made], script, "tmhost run ended", new)
    except Trouble as trouble:
        stopped = re.search(r"stopped at line (\d+)", str(trouble))
        place = f" ({sheet.place_of_line(int(stopped[1]))})" if stopped else ""
        raise Trouble(f"{trouble}{place}") from trouble
    if reported.split("\n")[:-1] != sheet.replies():
        raise Trouble("tmhost run reported something else than that all was made")


def make(new: str, sheet: Sheet) -> None:
    refuse_taken(new)
    place = os.path.dirname(new) or "."
    try:
        with tempfile.TemporaryDirectory(prefix=".tmhost-import-", dir=place) as folder:
            made = os.path.join(folder, "sheet")
            fill(made, sheet, new)
            publish(made, new)
    except OSError as error:
        raise Trouble(f"{ascii(new)} can't be made: {error.strerror}") from error
    try:
        sync(place)
    except OSError as error:
        raise Trouble(f"{ascii(new)} is made, but its name may not be on the disk: {error.strerror}") from error
