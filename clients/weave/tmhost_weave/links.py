"""Links of a page: one to a text of the same call leads to its page, `a.md#part` to `a.html#part`."""
import os
import re
import urllib.parse
from typing import Any, Mapping, Sequence

ELSEWHERE = re.compile(r"[A-Za-z][A-Za-z0-9+.-]*:|//")  # how the address of what is no file begins


def address_in(address: str, folder: str, pages: Mapping[str, str]) -> str:
    """The address for a link of a text in a folder. `pages` are the names of pages beside it, by the paths of their texts."""
    path, mark, part = address.partition("#")
    if not path or ELSEWHERE.match(path):
        return address
    try:
        page = pages.get(os.path.realpath(os.path.join(folder, urllib.parse.unquote(path))))
    except (OSError, ValueError):
        return address
    return address if page is None else urllib.parse.quote(os.fsencode(page)) + mark + part


def lead_to_pages(tokens: Sequence[Any], folder: str, pages: Mapping[str, str]) -> None:
    for token in tokens:
        if token.type == "link_open":
            token.attrSet("href", address_in(str(token.attrGet("href") or ""), folder, pages))
        lead_to_pages(token.children or (), folder, pages)
