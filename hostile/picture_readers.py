"""What Jupyter, pandoc and the notebook in the browser make of hostile pictures."""

from __future__ import annotations

import importlib
import json
import os
import re
import subprocess
import sys
import time
from typing import Any

from formula_readers import CMARK, NOTEBOOKS, PANDOC, Element, elements_in, output_of
from model import Difference
from picture_pages import Watched, apart
from picture_sheets import SESSION, Sheets, Worksheet, drawn_in_page, same
from program import ROOT

nbformat: Any = importlib.import_module("nbformat")  # by its name: mypy needs no stubs of it

PROSE = [f"{ROOT}/clients/import/tmhost-prose", "--png"]
WEAVE = f"{ROOT}/clients/weave/tmhost-weave"
SHARED = "file:///usr/share/javascript/"  # from where Debian's nbconvert takes scripts of its own
DRAWN = re.compile(r"data:image/(?:png|jpeg);base64,[A-Za-z0-9+/=\n]*")
LONG = 100_000  # characters
QUICK = 20.0  # seconds in which the notebook shows a key, on a busy machine too
# The elements in the answers of the notebook's page, each with the names of its attributes, but what it has for long texts and for pictures to be asked for.
OWN = ".more, .more *, [data-do=showPicture]"
IN_ANSWERS = (
    "[...document.querySelectorAll('#cells .output, #cells .output *')].filter((one) => !one.matches('%s'))"
    ".map((one) => [one.localName, ...one.getAttributeNames().sort()].join(' '))" % OWN
)
ADDRESSES = "[...document.querySelectorAll('#cells .output img')].map((one) => one.src.slice(0, 30))"
HEAVY = "document.querySelectorAll('[data-do=showPicture]').length"


def nbconverted(sheets: Sheets, name: str, text: str) -> str:
    file = sheets.hostile.program.write(f"{name}.ipynb", text)
    return output_of([*NOTEBOOKS.line.split(), "--log-level=ERROR", "--to", "html", "--stdout", file])


def without_scripts(page: str) -> list[Element]:
    """The elements of a page but the scripts of Jupyter's own."""
    return elements_in(re.sub(r"(?s)<script\b.*?</script>", "", page))


def with_png(text: str) -> str:
    return subprocess.run(PROSE, input=text.encode(), capture_output=True, check=True).stdout.decode()


def check_png(sheets: Sheets, texts: list[str]) -> str:
    """Of a notebook whose SVG are PNG: its page has images with their bytes in them, and else what one of harmless pictures has."""
    pages = [nbconverted(sheets, f"png{number}", with_png(text)) for number, text in enumerate(texts)]
    (pictures, others), (_, harmless) = (apart(without_scripts(page)) for page in pages)
    for tag, attributes in pictures:
        if not DRAWN.fullmatch(attributes["src"].removeprefix(" ")) or not set(attributes) <= {"src", "class", "alt", "width", "height"}:
            raise Difference(f"nbconvert, with PNG: the image {attributes!r:.500}")
    for element in others:
        if element not in harmless:
            raise Difference(f"nbconvert, with PNG: the element {element!r:.500}")
    seen = sheets.seen("nbconvert, with PNG", pages[0])
    same("what the page of nbconvert asks for, with PNG", [one for one in seen.asked if not one.startswith(SHARED)] if seen else [], [])
    return f"{len(pictures)} images"


def check_as_is(sheets: Sheets, notebook: dict[str, Any]) -> str:
    """Of a notebook as it is: no script runs. nbconvert 6.5 ends at an SVG that declares an encoding, and takes minutes for a long one."""
    if not sheets.watched:
        return ""
    outputs = ((cell, json.dumps(cell["outputs"])) for cell in notebook["cells"])
    notebook["cells"] = [cell for cell, told in outputs if "encoding=" not in told and len(told) < LONG]
    path = sheets.hostile.program.write("as-is.html", nbconverted(sheets, "as-is", json.dumps(notebook)))
    asked = [one for one in sheets.watched.see("nbconvert", path).asked if not one.startswith(SHARED)]
    return f"; with SVG no script runs, and {len(asked)} addresses are asked for: {' '.join(asked)}"


def check_notebook(sheets: Sheets) -> str:
    texts = [sheet.exported("notebook") for sheet in (sheets.hostile, sheets.harmless)]
    notebook = json.loads(texts[0])
    nbformat.validate(notebook)
    for field, cell in zip(sheets.hostile.fields, notebook["cells"]):
        kinds = [output["output_type"] for output in cell["outputs"]]
        is_drawn, is_picture = drawn_in_page(field.case) is not None, field.case.format.startswith(b"image/") and field.case.text != b""
        same(field.case.tries, kinds, ["display_data" if is_drawn else "stream" if is_picture else "execute_result"])
    if not NOTEBOOKS.is_there():
        return "notebook: valid (jupyter nbconvert isn't there)"
    return f"notebook: valid; the page of nbconvert, with PNG for SVG: {check_png(sheets, texts)}{check_as_is(sheets, notebook)}"


def is_woven(element: Element, folder: str) -> bool:
    """What a reader may make of woven Markdown."""
    tag, attributes = element
    if tag == "a remark":
        return attributes["text"].strip() in ("tmhost-answer", "/tmhost-answer")
    if tag == "img":
        return set(attributes) <= {"src", "alt"} and re.fullmatch(rf"{folder}/[0-9a-f]+\.(svg|png|jpe?g)", attributes["src"]) is not None and not attributes.get("alt")
    return tag == "p" and not attributes


def check_woven(sheets: Sheets) -> str:
    """A woven text: its pictures are files beside it, which alone are loaded."""
    sheet, name = sheets.hostile, f"{sheets.hostile.name}-woven"
    fences = "".join(f"```{SESSION}\n{number}\n```\n\n" for number in range(1, len(sheet.fields) + 1))
    path = sheet.program.write(f"{name}.md", f"---\nsessions: {{{SESSION}: {json.dumps(sheet.words)}}}\n---\n\n{fences}")
    output_of([WEAVE, path])
    with open(path, "rb") as file:
        woven = file.read()
    files, count = os.path.join(os.path.dirname(path), f"{name}.pictures"), 0
    for reader in filter(lambda one: one.is_there(), (PANDOC, CMARK)):
        page = reader.html_of(woven.partition(b"\n---\n")[2])
        wrong = [element for element in elements_in(page) if not is_woven(element, f"{name}.pictures")]
        same(f"elements that {reader.line} makes of a woven text", wrong, [])
        count = page.count("<img")
        if sheets.watched:
            seen = sheets.watched.see(f"{reader.line}, woven", sheet.program.write(f"{name}.html", f"<!doctype html><title>x</title>{page}"), files)
            same(f"what the page of a woven text by {reader.line} asks for", seen.asked, [])
    return f"woven: {count} images of {len(os.listdir(files)) if os.path.isdir(files) else 0} files"


def answers_of(watched: Watched, sheet: Worksheet) -> tuple[set[str], str]:
    """The elements in the answers of the notebook's page, and what was seen of it."""
    os.environ["TMHOST"] = os.path.abspath(sheet.program.path)
    sys.path.append(f"{ROOT}/clients/notebook/tests")
    from harness import Server, opened

    watched.clear()
    server = Server(sheet.path)
    try:
        begin = time.monotonic()
        tab = opened(watched.browser, server)
        tab.until("document.querySelectorAll('.cell[data-state=answered]').length", len(sheet.fields))
        watched.look(tab, "the notebook")
        shown = time.monotonic()
        tab.click("#cell-1 .number")
        tab.key("Enter")
        tab.type("x")
        tab.until("document.querySelector('#cell-1 textarea').value.endsWith('x')")
        typed = time.monotonic() - shown
        if typed > QUICK:
            raise Difference(f"the notebook: a key is shown after {typed:.1f} s")
        same("what the notebook asks for", watched.asked(f"http://{server.host}/"), [])
        same("what the notebook's policy refuses", watched.browser.trouble, [])
        addresses = tab.value(ADDRESSES)
        same("the images of the notebook", [one for one in addresses if not one.startswith(("data:image/svg+xml;base64,", "data:image/png;base64,", "data:image/jpeg;base64,"))], [])
        found = set(tab.value(IN_ANSWERS))
        told = f"{len(addresses)} images, {tab.value(HEAVY)} that a user may ask for; seen in {shown - begin:.1f} s, a key shown in {typed:.2f} s"
        tab.close()
    finally:
        server.kill()
    return found, told


def check_page_of_notebook(sheets: Sheets) -> str:
    """The notebook in the browser: what stands in answers has the elements of harmless ones."""
    with Watched() as watched:
        found, told = answers_of(watched, sheets.hostile)
        harmless, _ = answers_of(watched, sheets.harmless)
    same("elements that the notebook has of hostile answers alone", sorted(found - harmless), [])
    return f"the notebook: {told}"
