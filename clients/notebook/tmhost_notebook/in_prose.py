"""Pictures that prose names: files of the worksheet's folder, and those with all of their bytes in their address. The page gets what was looked at, as of
pictures in answers."""

import os
import re
import stat
import urllib.parse

from .pictures import LONGEST, NotDrawn, Picture, decoded, of_bytes, of_svg
from .shown import Part

LARGEST = LONGEST * 3 // 4  # bytes of a file
DATA = re.compile(r"data:image/(png|jpeg|svg\+xml);base64,(.*)", re.DOTALL)
SCHEME = re.compile(r"[A-Za-z][A-Za-z0-9+.-]*:")


class NoPicture(Exception):
    """There is none, for a reason that is reported to people."""


def part_at(folder: str, address: str) -> Part:
    """The picture of an address, as the page shows it. Raises NoPicture."""
    try:
        found = DATA.fullmatch(address)
        data = decoded(found[2]) if found else read(folder, path_of(address))
        picture = picture_of(data)
    except NotDrawn:
        raise NoPicture("it is no PNG, JPEG or SVG that is drawn here") from None
    except (OSError, ValueError) as error:
        raise NoPicture(f"it can't be read: {getattr(error, 'strerror', None) or error}") from None
    return {"heavy" if picture.weight > 1 else "picture": picture.address, "text": picture.about}


def path_of(address: str) -> str:
    """The path of a file that an address names."""
    return urllib.parse.unquote(address)


def picture_of(data: bytes) -> Picture:
    return of_bytes(data) if data[:1] in (b"\x89", b"\xff") else of_svg(data.decode("utf-8"))


def read(folder: str, path: str) -> bytes:
    """The bytes of a file that lies in a folder or below, also where links are followed."""
    own, real = os.path.realpath(folder), os.path.realpath(os.path.join(folder, path))
    if SCHEME.match(path) or os.path.isabs(path) or os.path.commonpath([own, real]) != own:
        raise NoPicture("it isn't in the worksheet's folder")
    file = os.open(real, os.O_RDONLY | os.O_NOFOLLOW | os.O_NONBLOCK | os.O_CLOEXEC)
    with open(file, "rb") as opened:
        status = os.fstat(file)
        if not stat.S_ISREG(status.st_mode) or status.st_size > LARGEST:
            raise NoPicture(f"it is no file of at most {LARGEST:,} bytes")
        return opened.read(LARGEST)
