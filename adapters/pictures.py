"""Pictures as parts of an answer. Each is a block with one text, whose format is the picture's MIME type: so all of it is in the answer,
and as safe as that."""
import base64
import os
import re
from typing import Iterator, List, Optional

import blocks
from blocks import Part

BASE64 = ((b"\x89PNG\r\n\x1a\n", b"image/png;base64"), (b"\xff\xd8\xff", b"image/jpeg;base64"))
SVG = b"image/svg+xml"
EMPTY = re.compile(rb"<svg\b[^>]*>\s*(?:<g\b[^>]*>\s*</g>\s*)?</svg>\s*\Z")  # as R's device writes it where nothing was drawn
# What may stand before the picture itself: a mark of the byte order, the declaration of XML, comments, and the type of the document.
IS_SVG = re.compile(rb"(?:\xef\xbb\xbf)?\s*(?:<\?xml\b([^>]*)>\s*)?(?:<!--.*?-->\s*)*(?:<!DOCTYPE\b[^>]*>\s*)?(?:<!--.*?-->\s*)*(?=<svg[\s>/])", re.DOTALL)
ENCODING = re.compile(rb"\bencoding\s*=\s*[\"'](?!utf-8|us-ascii)", re.IGNORECASE)  # another than UTF-8

# The element that a picture is, with the size of what it shows; and whether it has one of its own.
ROOT = re.compile(rb"\A<svg\b([^>]*?\bviewBox\s*=\s*[\"']\s*[-+.\d]+[\s,]+[-+.\d]+[\s,]+([.\d]+)[\s,]+([.\d]+)\s*[\"'][^>]*>)")
SIZE = re.compile(rb"\s(?:width|height)\s*=")


def picture(data: bytes) -> Optional[Part]:
    """The picture of these bytes; None where they are none that is known."""
    for begin, format in BASE64:
        if data.startswith(begin):
            return Part(base64.b64encode(data), format)
    return Part(bare(data), SVG) if IS_SVG.match(data) else None


def bare(data: bytes) -> bytes:
    """An SVG without what stands before it: readers of notebooks put it into a page, and some refuse one that declares an encoding. It has a
    size, without which an image may have none in a page: that of what it shows."""
    found = IS_SVG.match(data)
    if not found or ENCODING.search(found[1] or b""):
        return data
    return ROOT.sub(lambda root: root[0] if SIZE.search(root[0]) else b'<svg width="%s" height="%s"%s' % (root[2], root[3], root[1]), data[found.end():], count=1)


def written_to(folder: str) -> Iterator[bytes]:
    """What the files of a folder have, which are taken away. One that a later line may write on to stays."""
    for name in sorted(os.listdir(folder)):
        path = os.path.join(folder, name)
        with open(path, "rb") as file:
            data = file.read()
        if data and (data.rstrip().endswith(b"</svg>") or not IS_SVG.match(data)):
            os.unlink(path)
            yield data


def clear(folder: str) -> None:
    for name in os.listdir(folder):
        os.unlink(os.path.join(folder, name))


def drawn(folder: str) -> List[Part]:
    """The pictures of a line, which are in its folder: a file has some, or a text that was drawn in characters."""
    files = [re.split(rb"(?=<\?xml\s)", data) if IS_SVG.match(data) else [data] for data in written_to(folder)]
    return [picture(data) or Part(data[:blocks.LONGEST].strip(b"\n\f")) for file in files for data in file if data and not EMPTY.search(data)]
