"""The command line: opens the worksheet, and serves its page until it is ended."""

import argparse
import contextlib
import html
import os
import signal
import sys
import tempfile
import threading
import webbrowser
from typing import Iterator, List, NoReturn, Optional, Union

from tmhost import Died, InUse, ProtocolError, TimedOut
from tmhost.advice import reason
from tmhost.errors import plain
from tmhost.program import show_building
from tmhost.version import ShowVersion

from . import packing
from .book import Book
from .files import Files
from .folder import NotDone
from .looking import MaybeLooking
from .running import running
from .server import Server, served
from .shelf import Alone, Shelf


def words() -> argparse.ArgumentParser:
    parser = argparse.ArgumentParser(
        prog="tmhost-notebook",
        usage="tmhost-notebook [-h] [--no-browser] [--look] [--port N] [--libraries FOLDER] SHEET|FOLDER\n"
        "       tmhost-notebook pack SHEET FILE.zip\n       tmhost-notebook unpack FILE.zip FOLDER",
        description="Opens a worksheet of tmhost as a page in the browser, and prints its address. Where there is no worksheet it is made. "
        "What the page shows as saved is on the disk. Of a folder it opens a page with the list of its worksheets.",
        epilog="The program is the one that TMHOST names, tmhost on PATH, or the one that was built or installed with this. Interpreters are started in the folder in which this is started, "
        "and those of FOLDER in that. `pack` writes a worksheet, with its drafts, own adapters and pictures of prose, as one file for a colleague; `unpack` makes "
        "it in a folder, and runs nothing.",
    )
    parser.add_argument("sheet", metavar="SHEET", help="the worksheet, or a folder with some")
    parser.add_argument("--no-browser", action="store_true", help="print the address alone")
    parser.add_argument("--look", action="store_true", help="show a worksheet that another program has open, and change nothing; a folder's page does so by itself")
    parser.add_argument("--port", type=int, default=0, metavar="N", help="the port on 127.0.0.1; if it isn't given the one that the worksheet had "
                        "last, or one that is free")
    parser.add_argument("--version", action=ShowVersion)
    parser.add_argument("--libraries", default="/usr/share", metavar="FOLDER", help="where KaTeX and markdown-it are looked for (/usr/share)")
    return parser


def tell(text: str) -> int:
    print(f"tmhost-notebook: {text}", file=sys.stderr)
    return 1


def why_in_use(path: str) -> str:
    """Who has a worksheet open, as a user can go there."""
    place = running(path)
    who = f"it is open at {place}" if place else "another program, as a second tmhost-notebook, has it open"
    return f"{path} is in use: {who}; --look shows it as it is on the disk"


def why_not(path: str, error: Exception) -> str:
    """Why a worksheet can't be opened."""
    return f"{path} can't be opened: {reason(error, path)}"


@contextlib.contextmanager
def leading_file(address: str) -> Iterator[str]:
    """A file for this user alone that leads to the address: words of a program, as those of a browser, can be seen by all users."""
    with tempfile.TemporaryDirectory(prefix="tmhost-notebook-") as folder:
        path = os.path.join(folder, "worksheet.html")
        with open(path, "w", encoding="utf-8") as file:
            file.write(f'<!doctype html><meta charset="utf-8"><meta http-equiv="refresh" content="0;url={html.escape(address)}">')
        yield "file://" + path


def leave(*_: object) -> NoReturn:
    raise KeyboardInterrupt


def serve(server: Server, has_browser: bool) -> None:
    """Serves until a signal comes."""
    for number in (signal.SIGINT, signal.SIGTERM, signal.SIGHUP):
        signal.signal(number, leave)
    try:
        with leading_file(server.address) as place:
            print(server.address, flush=True)
            if has_browser:
                threading.Thread(target=webbrowser.open, args=(place,), daemon=True).start()
            server.serve_forever()
    except KeyboardInterrupt:
        pass  # this is how a user ends it
    finally:
        server.server_close()


def shelf_of(path: str) -> Shelf:
    """The worksheets of a folder, which becomes the one in which interpreters are started."""
    program = os.environ.get("TMHOST", "")
    if "/" in program:
        os.environ["TMHOST"] = os.path.abspath(program)
    shelf = Shelf(path, None)
    os.chdir(shelf.path)
    return shelf


def alone(path: str, may_look: bool) -> Union[Alone, Shelf]:
    return Alone(MaybeLooking(path, None) if may_look else Book(path, None))


def pack_or_unpack(given: List[str]) -> int:
    """Does `pack SHEET FILE` or `unpack FILE FOLDER`."""
    try:
        if given[0] == "pack":
            reported = ["packed " + name for name in packing.pack(given[1], given[2], None)]
        else:
            reported = packing.unpack(given[1], given[2], None)
    except (NotDone, OSError) as error:
        return tell(plain(error))
    print("\n".join(reported))
    return 0


def main(given: Optional[List[str]] = None) -> int:
    given = sys.argv[1:] if given is None else given
    if len(given) == 3 and given[0] in ("pack", "unpack"):
        return pack_or_unpack(given)
    asked = words().parse_args(given)
    if asked.look and not os.path.exists(asked.sheet):
        return tell(f"there is no worksheet {asked.sheet} to look at")
    tell(f"opening {asked.sheet}; the address of its page follows")
    show_building()
    try:
        place = shelf_of(asked.sheet) if os.path.isdir(asked.sheet) else alone(asked.sheet, asked.look)
    except InUse:
        return tell(why_in_use(asked.sheet))
    except (Died, ProtocolError, TimedOut, OSError) as error:
        return tell(why_not(asked.sheet, error))
    try:
        server = served(place, asked.port, Files(asked.libraries))
    except (OSError, OverflowError) as error:
        place.close()
        return tell(f"port {asked.port} can't be taken: {error}")
    serve(server, not asked.no_browser)
    place.close()
    return 0
