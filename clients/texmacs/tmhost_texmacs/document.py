"""A worksheet as a document of GNU TeXmacs: its fields stand in sessions of TeXmacs, with their answers, and prose between them.

    tmhost-texmacs --export SHEET >sheet.tm
"""
import base64
import re
from typing import Iterator, List, Union

from tmhost import Answer, Block, Field, Worksheet, readable

from .speech import PICTURES, data_of
from .trees import formula, line, paragraphs

HEAD = "<TeXmacs|2.1.4>\n\n<style|generic>\n\n<\\body>\n"
TAIL = "</body>\n\n<\\initial>\n  <\\collection>\n  </collection>\n</initial>\n"
HEADINGS = {"#": "chapter*", "##": "section*", "###": "subsection*"}
PROSE = ["true"]  # the words of a session of prose
CONTROL = re.compile(r"[\x00-\x08\x0b-\x1f\x7f]")
IN_PROSE = re.compile(r"(\$\$[^$]+\$\$|\$(?!\s)[^$]+(?<!\s)\$)")  # a formula


def printed(text: Union[str, bytes]) -> str:
    """A text as `tmhost show` prints it."""
    return CONTROL.sub(lambda found: f"\\x{ord(found[0]):02x}", readable(text))


def picture(block: Block) -> str:
    """The image that a block is; nothing where it is none."""
    kind = PICTURES.get(readable(block.tag)) if block.kind == "format" else None
    if kind is None or len(block.items) != 1 or isinstance(block.items[0], Block):
        return ""
    data = data_of(block.items[0])
    try:
        data = data if kind == "svg" else base64.b64decode(data, validate=True)
    except ValueError:
        return ""
    return f"<image|<tuple|<#{data.hex().upper()}>|{kind}>|0.6par|||>"


def parts(item: Union[str, bytes, Block]) -> Iterator[str]:
    """The paragraphs of an answer, or of a part of it."""
    if not isinstance(item, Block):
        yield from paragraphs(printed(item).strip("\n")) if printed(item).strip("\n") else ()
        return
    tag = readable(item.tag)
    tree = picture(item) or (formula(readable(item.plain)) if (item.kind, tag) == ("format", "latex") else None)
    if tree:
        yield tree
    elif (item.kind, tag) in (("format", "verbatim"), ("format", "utf8"), ("channel", "output")):
        for inner in item.items:
            yield from parts(inner)
    else:
        yield from paragraphs(f"{{{printed(item.tag)}{':' if item.kind == 'format' else '#'}{printed(item.plain)}}}")


def inside(lines: List[str], indent: str) -> str:
    return "\n\n".join(indent + one for one in lines or [r"\;"]) + "\n"


def answered(answer: Answer, indent: str) -> str:
    """What stands below an input. An error is marked as TeXmacs does."""
    lines = list(parts(answer.output))
    if not answer.errors:
        return inside(lines, indent)
    return f"{indent}<\\errput>\n{inside(lines, indent + '  ')}{indent}</errput>\n"


def field_of(field: Field) -> str:
    """A field within its session. One without an answer is an input that waits for being evaluated."""
    indent = " " * 6
    prompt = inside([line(printed(field.answer.prompt) if field.answer else "> ")], indent)
    text = inside([line(one) for one in field.lines], indent)
    if field.answer is None:
        return f"    <\\input>\n{prompt}    <|input>\n{text}    </input>\n"
    return f"    <\\unfolded-io>\n{prompt}    <|unfolded-io>\n{text}    <|unfolded-io>\n{answered(field.answer, indent)}    </unfolded-io>\n"


def words(text: str) -> str:
    """A line of prose. Formulas between dollars are TeXmacs' own, where they are known."""
    reported = ""
    for one in IN_PROSE.split(text):
        tree = formula(one) if one.startswith("$") else None
        reported += tree or (" " * one.startswith(" ") + line(one.strip()) + " " * one.endswith(" ") if one.strip() else one)
    return reported or line("")


def prose(field: Field) -> Iterator[str]:
    """The paragraphs and headings of a text."""
    for one in re.split(r"\n\s*\n", "\n".join(field.lines)):
        mark, _, title = one.partition(" ")
        name = HEADINGS.get(mark) if "\n" not in one else None
        large = formula(one) if one.startswith("$$") else None
        if large:
            yield f"  <\\equation*>\n    {large[len('<math|') : -1]}\n  </equation*>\n"
        else:
            yield f"  <{name}|{words(title.strip())}>\n" if name else f"  {words(' '.join(one.split()))}\n"


def sessions(sheet: Worksheet, fields: List[Field]) -> Iterator[str]:
    """The text, and the sessions: one for each run of fields of the same session."""
    opened = ""
    for field in fields:
        is_prose = list(sheet.sessions[field.session].words) == PROSE
        if opened and (is_prose or opened != field.session):
            yield "  </session>\n\n"
            opened = ""
        if is_prose:
            yield "\n".join(prose(field)) + "\n"
            continue
        if not opened:
            opened = field.session
            yield f"  <\\session|tmhost|{opened}>\n"
        yield field_of(field) + "\n"
    if opened:
        yield "  </session>\n"


def document(sheet: Worksheet) -> bytes:
    """The document, whose bytes are letters of the Cork encoding."""
    return (HEAD + "".join(sessions(sheet, sheet.fields)) + TAIL).encode("latin-1")
