"""Lines of JSON that `live --json` tells (docs/use/JSON.md), read strictly, and put into the words that `live` tells of the same (docs/use/SCRIPT.md)."""

from __future__ import annotations

import base64
import json
from typing import Any, Callable, NoReturn, Optional

from area import escaped
from json_blocks import MOST_DEPTH, MOST_PROMPT, Block, Item, printed, quoted, read, shown
from model import Difference

Object = dict[str, Any]

KINDS = {"format": b":", "channel": b"#"}


def once(pairs: list[tuple[str, Any]]) -> Object:
    """The members of an object, each once."""
    members = dict(pairs)
    if len(members) < len(pairs):
        raise Difference(f"a member stands twice in {pairs}")
    return members


def no_number(text: str) -> NoReturn:
    raise Difference(f"{text} stands for a number")


def number(text: str) -> int:
    return int(text) if len(text) <= 20 and 0 <= int(text) < 2**64 else no_number(text)


def object_of(line: bytes) -> Object:
    """The object of a line with its line feed: in its one text, without spaces, its members in order."""
    try:
        text = line.decode()
        it = json.loads(text, object_pairs_hook=once, parse_float=no_number, parse_constant=no_number, parse_int=number)
        again = json.dumps(it, ensure_ascii=False, sort_keys=True, separators=(",", ":")) + "\n"
    except (ValueError, RecursionError) as fault:
        raise Difference(f"no line of JSON ({fault}): {line[:300]!r}")
    if not isinstance(it, dict) or again != text:
        raise Difference(f"not the one text of an object: {line[:300]!r}, and that is {again[:300]!r}")
    return it


def members(it: Any, *names: str) -> list[Any]:
    """The values of an object's members, which are these and no others."""
    if not isinstance(it, dict) or set(it) != set(names):
        raise Difference(f"wanted the members {names}: {str(it)[:300]}")
    return [it[name] for name in names]


def text_of(it: Any) -> bytes:
    if not isinstance(it, str):
        raise Difference(f"wanted a string: {str(it)[:300]}")
    return it.encode()


def number_of(it: Any) -> int:
    if type(it) is not int:
        raise Difference(f"wanted a number: {str(it)[:300]}")
    return it


def list_of(it: Any) -> list[Any]:
    if not isinstance(it, list):
        raise Difference(f"wanted an array: {str(it)[:300]}")
    return it


def bytes_of(it: Any) -> bytes:
    """Bytes: a string where they are UTF-8, else their base64."""
    if isinstance(it, str):
        return it.encode()
    [coded] = members(it, "base64")
    try:
        found = base64.b64decode(text_of(coded), validate=True)
    except ValueError:
        raise Difference(f"no base64: {coded[:300]!r}")
    if base64.b64encode(found).decode() != coded:
        raise Difference(f"not the base64 of {found[:300]!r}: {coded[:300]!r}")
    try:
        found.decode()
    except UnicodeDecodeError:
        return found
    raise Difference(f"base64 of UTF-8: {coded[:300]!r}")


def item_of(it: Any, depth: int) -> Item:
    return block_of(it, depth) if isinstance(it, dict) and "kind" in it else bytes_of(it)


def block_of(it: Any, depth: int = 1) -> Block:
    """A block: no text in it is empty, and no two stand side by side."""
    items, kind, tag = members(it, "items", "kind", "tag")
    if depth > MOST_DEPTH or not isinstance(kind, str) or kind not in KINDS:
        raise Difference(f"too deep, or of no kind: {str(it)[:300]}")
    block = Block(bytes_of(tag), KINDS[kind], tuple(item_of(item, depth + 1) for item in list_of(items)))
    texts = [isinstance(item, bytes) for item in block.items]
    if b"" in block.items or (True, True) in zip(texts, texts[1:]):
        raise Difference(f"texts that are empty or side by side: {str(it)[:300]}")
    return block


def output_of(output: Any, as_shown: Any) -> Block:
    """An output, beside how a worksheet shows it."""
    block = block_of(output)
    if bytes_of(as_shown) != shown(block):
        raise Difference(f"shown as {bytes_of(as_shown)[:300]!r}: {str(output)[:300]}")
    return block


def field_text(field: Any) -> bytes:
    """A field in print."""
    state = field.get("state") if isinstance(field, dict) else None
    more: dict[str, list[str]] = {"answered": ["output", "prompt", "shown"], "lost": ["reason"], "waiting": [], "empty": []}
    if not isinstance(state, str) or state not in more:
        raise Difference(f"a field of no state: {str(field)[:300]}")
    id, given, session, _, *rest = members(field, "id", "input", "session", "state", *more[state])
    prompt, output = b"> ", b"?"
    if state == "answered":
        prompt, output = bytes_of(rest[1]), shown(output_of(rest[0], rest[2]))
    elif state == "lost":
        output += b" " + text_of(rest[0])
    return head_of(id, session, prompt, given) + ended_line(output)


def head_of(id: Any, session: Any, prompt: bytes, given: Any) -> bytes:
    """The two lines of a field, or more where its input has more."""
    return b"#%d %s\n%s%s\n" % (number_of(id), text_of(session), escaped(prompt), b"\n. ".join(map(escaped, text_of(given).split(b"\n"))))


def ended_line(output: bytes) -> bytes:
    return output + (b"" if output.endswith(b"\n") else b"\n")


def hello(it: Object, _: bytes) -> bytes:
    form, program, protocol, version = members(it, "format", "program", "protocol", "version")
    if (number_of(form), program, number_of(protocol)) != (1, "tmhost", 2) or not text_of(version):
        raise Difference(f"another program: {it}")
    return b""


def end(it: Object, _: bytes) -> bytes:
    members(it)
    return b""


def fault(it: Object, _: bytes) -> bytes:
    """Words stand on standard error alone."""
    fault_text(it)
    return b""


def fault_text(it: Object) -> bytes:
    """What standard error tells of a fault."""
    name, found, *offset = members(it, "name", "number", *["offset"] * ("offset" in it))
    return b"fault %d %s%s\n" % (number_of(found), text_of(name), b"".join(b" %d" % number_of(at) for at in offset))


def done(it: Object, _: bytes) -> bytes:
    members(it, "line")
    return b"ok\n"


def made(it: Object, _: bytes) -> bytes:
    return b"field %d\n" % number_of(members(it, "line", "id")[1])


def asked(it: Object, _: bytes) -> bytes:
    number_of(members(it, "line", "life")[1])
    return b"asked\n"


def refused(it: Object, _: bytes) -> bytes:
    _line, name, found = members(it, "line", "name", "number")
    return b"refused %d %s\n" % (number_of(found), text_of(name))


def bad(it: Object, _: bytes) -> bytes:
    return b"bad line %d\n" % members(it, "line")[0]


def nothing(it: Object, _: bytes) -> bytes:
    members(it, "line")
    return b""


def waited(it: Object, _: bytes) -> bytes:
    if members(it, "line", "over")[1] not in ("idle", "time"):
        raise Difference(f"over by nothing: {it}")
    return b""


def field(it: Object, _: bytes) -> bytes:
    _line, found, *more = members(it, "line", "field", *["more"] * ("more" in it))
    if more not in ([], [True]):
        raise Difference(f"more or not: {str(it)[:300]}")
    return field_text(found)


def sheet(it: Object, _: bytes) -> bytes:
    """What stands behind the fields of a print, of which the words have nothing."""
    _line, ids, following, sessions = members(it, "line", "fields", "next", "sessions")
    for one in [*list_of(ids), following]:
        number_of(one)
    for session in list_of(sessions):
        life, name, tab, waiting, words = members(session, "life", "name", "tab", "waiting", "words")
        for word in [name, *list_of(words)]:
            text_of(word)
        if life is not None and number_of(life) < 1 or number_of(waiting) > 0 and life is None or not isinstance(tab, bool):
            raise Difference(f"a session without sense: {session}")
    return b""


def lost_count(lost: Any) -> int:
    for item in list_of(lost):
        id, text, *cursor = members(item, "id", "text", *["cursor"] * ("cursor" in item))
        text_of(text)
        for one in [id, *cursor]:
            number_of(one)
    return len(lost)


def stopped(it: Object, _: bytes) -> bytes:
    _line, _life, lost, session = members(it, "line", "life", "lost", "session")
    return b"ended %s Stopped lost %d\n" % (text_of(session), lost_count(lost))


def interrupted(it: Object, line: bytes) -> bytes:
    """The line has the name of the session, and its object has none; one without a line has it."""
    if "line" in it:
        outcome, name = members(it, "outcome", "line")[0], line.removeprefix(b"interrupt ")
    else:
        outcome, session, _life = members(it, "outcome", "session", "life")
        name = text_of(session)
    words = {"sent": b"interrupted ", "idle": b"idle ", "failed": b"failed "}
    if not isinstance(outcome, str) or outcome not in words:
        raise Difference(f"no outcome: {it}")
    return words[outcome] + name + b"\n"


def prompt_or_none(it: Any) -> Optional[bytes]:
    """The prompt of the next line, and nothing where the interpreter has ended meanwhile."""
    return None if it is None else bytes_of(it)


def banner(it: Object, _: bytes) -> bytes:
    _life, session, following, output, as_shown = members(it, "life", "session", "next", "output", "shown")
    output_of(output, as_shown)
    prompt_or_none(following)
    return b"banner %s\n" % text_of(session)


def answered(it: Object, _: bytes) -> bytes:
    _life, _session, id, following, output, prompt, as_shown = members(it, "life", "session", "id", "next", "output", "prompt", "shown")
    output_of(output, as_shown)
    prompt_or_none(following)
    bytes_of(prompt)
    return b"answered %d\n" % number_of(id)


def completed(it: Object, _: bytes) -> bytes:
    _life, _session, id, told = members(it, "life", "session", "id", "told")
    if told is None:
        return b"completed %d bad\n" % number_of(id)
    rest, root = members(told, "rest", "root")
    return b"completed %d %s\n" % (number_of(id), b" ".join(quoted(bytes_of(text)) for text in [root, *list_of(rest)]))


def default(it: Object, _: bytes) -> bytes:
    _life, session, text = members(it, "life", "session", "text")
    return b"default %s %s\n" % (text_of(session), escaped(bytes_of(text)))


def ended(it: Object, _: bytes) -> bytes:
    _life, session, lost, reason = members(it, "life", "session", "lost", "reason")
    return b"ended %s %s lost %d\n" % (text_of(session), text_of(reason), lost_count(lost))


TYPES: dict[str, Callable[[Object, bytes], bytes]] = {
    made.__name__: made
    for made in (hello, end, fault, done, made, asked, refused, bad, nothing, waited, field, sheet, stopped, interrupted, banner, answered, completed, default, ended)
}


def words_of(it: Object, line: bytes) -> bytes:
    """The words of `live` for an object, which is about this line of the input where it is about one."""
    kind = it.get("type")
    if not isinstance(kind, str) or kind not in TYPES:
        raise Difference(f"of no type: {str(it)[:300]}")
    for name in ("line", "life"):
        if name in it and number_of(it[name]) < 1:
            raise Difference(f"numbers begin at 1: {str(it)[:300]}")
    return TYPES[kind]({name: value for name, value in it.items() if name != "type"}, line)


def shown_words(objects: list[Object]) -> bytes:
    """The words of `show` for the objects of `show --json`, which are about no line, and of a worksheet that no program runs."""
    kinds = [it.get("type") for it in objects]
    if kinds != ["hello"] + ["field"] * (len(objects) - 3) + ["sheet", "end"] or any("line" in it or "more" in it for it in objects):
        raise Difference(f"not the objects of a worksheet: {kinds}")
    *fields, whole = objects[1:-1]
    words = [words_of(it | {"line": 1}, b"") for it in [*fields, whole]]
    states = {it["field"]["state"] for it in fields} | {session["life"] for session in whole["sessions"]}
    if whole["fields"] != [it["field"]["id"] for it in fields] or not states <= {"answered", "lost", "empty", None}:
        raise Difference(f"not as its fields are, or something runs: {str(whole)[:300]}")
    return b"".join([words_of(objects[0], b""), *words, words_of(objects[-1], b"")])


# ---- the words of `check`, which has neither lines nor lives


def answer_of(it: Any) -> tuple[bytes, bytes]:
    """The prompt of an answer, and its output as it is shown."""
    output, prompt, as_shown = members(it, "output", "prompt", "shown")
    return bytes_of(prompt), shown(output_of(output, as_shown))


def marked(mark: bytes, output: bytes) -> bytes:
    """The lines of an output, each behind a mark."""
    return b"".join(mark + line + b"\n" for line in ended_line(output)[:-1].split(b"\n"))


def changed(old: bytes, new: bytes) -> bytes:
    """The hunk of a unified diff that turns an output into another."""
    olds, news = (ended_line(one)[:-1].split(b"\n") for one in (old, new))
    if olds == news:
        return b"= the same in print\n"
    least = min(len(olds), len(news))
    front = next((at for at in range(least) if olds[at] != news[at]), least)
    back = next((at for at in range(least - front) if olds[-1 - at] != news[-1 - at]), least - front)
    before, behind = olds[max(0, front - 3) : front], olds[len(olds) - back :][:3]
    gone, came = olds[front : len(olds) - back], news[front : len(news) - back]
    around, first = len(before) + len(behind), front - len(before) + 1
    place = b"@@ -%d,%d +%d,%d @@\n" % (first, around + len(gone), first, around + len(came)) if max(front, back) > 3 else b""
    parts = [(b"  ", before), (b"- ", gone), (b"+ ", came), (b"  ", behind)]
    return place + b"".join(mark + line + b"\n" for mark, lines in parts for line in lines)


def took_of(it: Any) -> None:
    """Looks at what an evaluation took: null where fields go side by side."""
    if it is None:
        return
    millis, started = members(it, "millis", "started")
    number_of(millis)
    if not isinstance(started, bool):
        raise Difference(f"wanted true or false: {started!r}")


def checked(it: Object, reasons: dict[int, str]) -> bytes:
    verdict = it.get("verdict")
    more: dict[str, list[str]] = {"same": [], "left_out": [], "differs": ["came", "input", "shows"], "unanswered": ["input", "reason", "shows"], "new": ["came", "input"]}
    if not isinstance(verdict, str) or verdict not in more:
        raise Difference(f"no verdict: {str(it)[:300]}")
    id, session, took, _, *_ = members(it, "id", "session", "took", "verdict", *more[verdict])
    number_of(id), text_of(session)
    took_of(took)
    if not more[verdict]:
        return b""
    if verdict == "new":
        return head_of(id, session, b"> ", it["input"]) + marked(b"+ ", answer_of(it["came"])[1])
    none = [b"?" if why is None else b"? " + text_of(why) for why in (reasons.get(id), it.get("reason"))]
    prompt, old = (b"> ", none[0]) if it["shows"] is None else answer_of(it["shows"])
    head = head_of(id, session, prompt, it["input"])
    if verdict == "differs":
        return head + changed(old, answer_of(it["came"])[1])
    return head + marked(b"- ", old) + marked(b"+ ", none[1])


def compared(it: Object) -> bytes:
    counts = tuple(map(number_of, members(it, "same", "differ", "unanswered", "left_out", "errors", "new")))
    more = b"".join(b" %s %d" % (name, count) for name, count in zip((b"left out", b"errors", b"new"), counts[3:]) if count)
    return b"same %d differ %d unanswered %d" % counts[:3] + more + b"\n"


def checked_words(objects: list[Object], reasons: dict[int, str]) -> bytes:
    """The words of `check` for the objects of `check --json`, which count as they say, of a worksheet whose fields show these reasons."""
    kinds = [it.get("type") for it in objects]
    if kinds != ["hello"] + ["checked"] * (len(objects) - 3) + ["compared", "end"]:
        raise Difference(f"not the objects of a check: {kinds}")
    rests = [{name: value for name, value in it.items() if name != "type"} for it in objects]
    verdicts = [it["verdict"] for it in objects[1:-2]]
    counts = [objects[-2][name] for name in ("same", "differ", "unanswered", "left_out", "new")]
    if counts != [verdicts.count(one) for one in ("same", "differs", "unanswered", "left_out", "new")]:
        raise Difference(f"counted {counts}: {verdicts}")
    words_of(objects[0], b""), words_of(objects[-1], b"")
    return b"".join(checked(it, reasons) for it in rests[1:-2]) + compared(rests[-2])


# ---- the words of `blocks`


def channel_of(it: Any) -> Any:
    return None if it is None else bytes_of(it)


def outer(it: Object) -> bytes:
    """The line of an outer block, of which a host takes what stands beside it."""
    block, default, output, prompt, as_shown, start, stop = members(it, "block", "default", "output", "prompt", "shown", "start", "stop")
    whole = block_of(block)
    wanted = read(whole)
    found_prompt, found_default, found_output = channel_of(prompt), channel_of(default), output_of(output, as_shown)
    cut = None if found_prompt is None else found_prompt[:MOST_PROMPT]
    if (cut, found_default, found_output) != wanted:
        raise Difference(f"not the prompt, default input and output of its block: {str(it)[:600]}")
    return b"%d %d %s\n" % (number_of(start), number_of(stop), printed(whole))


def blocks_words(objects: list[Object]) -> tuple[int, bytes]:
    """The status and the words of `blocks` for the objects of `blocks --json`."""
    kinds = [str(it.get("type")) for it in objects]
    blocks = kinds.count("block")
    if kinds[: 1 + blocks] != ["hello"] + ["block"] * blocks or kinds[1 + blocks :] not in (["end"], ["unfinished", "end"], ["fault"]):
        raise Difference(f"not the objects of a stream: {kinds}")
    words_of(objects[0], b"")
    rests = [{name: value for name, value in it.items() if name != "type"} for it in objects]
    words = b"".join(map(outer, rests[1 : 1 + blocks]))
    if kinds[-1] == "fault":
        name, found, offset = members(rests[-1], "name", "number", "offset")
        return 1, words + b"fault %d %s %d\n" % (number_of(found), text_of(name), number_of(offset))
    members(rests[-1])
    if kinds[-2] == "unfinished":
        return 1, words + b"unfinished %d\n" % number_of(members(rests[-2], "start")[0])
    return 0, words
