"""A client that follows lines of JSON (docs/use/JSON.md): which line each object is about, which lines and requests wait in which life, and what the
worksheet must be by that. Each banner and answer must be what the play of its interpreter has there."""

from __future__ import annotations

from collections import Counter
from typing import Any, NamedTuple, Optional

from area import Sheet
from json_blocks import completions_in
from json_plays import Play
from json_words import Object, block_of, bytes_of, prompt_or_none
from model import Difference

# What an object may say of a line of each form, beside that it is refused or bad.
ABOUT = {
    b"session": {"done"}, b"new": {"made"}, b"set": {"done"}, b"remove": {"done"}, b"move": {"done"}, b"clear": {"done"}, b"eval": {"asked"}, b"complete": {"asked"},
    b"stop": {"done", "stopped"}, b"checkpoint": {"done"}, b"wait": {"waited"}, b"print": {"field", "sheet"}, b"interrupt": {"interrupted"},
}

EVENTS = {"banner", "answered", "completed", "default", "ended"}


class Asked(NamedTuple):
    """A line, or a request of completions, that waits."""

    id: int
    text: bytes
    cursor: Optional[int]

    def lost(self) -> Object:
        return {"id": self.id, "text": self.text.decode()} | ({} if self.cursor is None else {"cursor": self.cursor})


class Life:
    """A life, with what waits in it, and how many acts of its play it has done, -1 before the banner."""

    def __init__(self, number: int, session: bytes) -> None:
        self.number, self.session, self.at, self.prompt, self.waiting = number, session, -1, b"> ", list[Asked]()


class Client:
    """`sessions` has of each session in the worksheet whether it answers requests of completions, and its words."""

    def __init__(self, lines: list[bytes], sheet: Sheet, sessions: dict[bytes, tuple[bool, list[bytes]]], plays: dict[bytes, Optional[Play]]) -> None:
        self.lines, self.plays, self.ended, self.begun = lines, plays, 0, 0
        self.last: Object = {}
        # The life whose default input must be reported next, and that.
        self.due: Optional[tuple[int, bytes]] = None
        # Lives that have no next prompt, whose end is reported before anything about a line.
        self.over: set[int] = set()
        self.lives: dict[bytes, Life] = {}
        self.inputs = {id: field[1] for id, field in sheet.fields.items()}
        self.owners = {id: field[0] for id, field in sheet.fields.items()}
        self.order, self.next, self.sessions = list(sheet.order), sheet.next, dict(sessions)
        # Of each field the answer that was reported last, an empty one where it has none, and nothing where it isn't known.
        self.answers: dict[int, Object] = {}
        self.parts: list[int] = []
        self.counts: Counter[str] = Counter()

    def must(self, is_so: bool, it: Object, why: str) -> None:
        if not is_so:
            raise Difference(f"{why}, behind {self.ended} lines: {str(it)[:600]}")

    def take(self, it: Object) -> bytes:
        """Takes an object, and gives the line that it is about, if it is about one."""
        kind = it["type"]
        self.must(self.last.get("type") not in ("end", "fault"), it, "told behind the end")
        self.must((kind == "default") == (self.due is not None), it, f"the default input {self.due}")
        self.must((kind == "hello") == (not self.last) or (kind == "fault" and not self.last), it, "`hello` isn't first, or not alone")
        line = b""
        self.must(not self.over or kind in (*EVENTS, "fault"), it, f"the lives {self.over} have no next prompt, and go on")
        if "line" in it:
            line = self.take_reply(it, kind)
        elif kind in EVENTS:
            self.take_event(it, kind)
        elif kind == "end":
            self.must(self.ended == len(self.lines), it, f"the input has {len(self.lines)} lines")
        self.last = it
        self.counts[kind] += 1
        return line

    def take_reply(self, it: Object, kind: str) -> bytes:
        self.must(it["line"] == self.ended + 1 <= len(self.lines), it, "not about the next line")
        line = self.lines[self.ended]
        verb = line.split(b" ")[0]
        may = {"nothing", "bad"} if line[:1] in (b"", b"#") else ABOUT.get(verb, set()) | {"bad"} | ({"refused"} if verb in ABOUT else set())
        self.must(kind in may, it, f"not of {line[:100]!r}")
        if "more" in it:
            self.must(line == b"print", it, "no part of a print")
            self.check_field(it["field"], it)
            self.parts.append(it["field"]["id"])
            return line
        self.ended += 1
        take = {"made": self.made, "asked": self.asked, "done": self.done, "stopped": self.stopped, "sheet": self.sheet, "field": self.field}
        take |= {"waited": self.waited, "interrupted": self.interrupted}
        if kind in take:
            take[kind](it, line.split(b" "))
        return line

    def made(self, it: Object, words: list[bytes]) -> None:
        self.must(it["id"] == self.next, it, f"not {self.next}")
        self.next += 1
        self.owners[it["id"]], self.inputs[it["id"]] = words[2], b" ".join(words[3:])
        self.answers[it["id"]] = {}
        self.put(it["id"], int(words[1]))

    def put(self, id: int, after: int) -> None:
        self.order.insert(self.order.index(after) + 1 if after else 0, id)

    def done(self, it: Object, words: list[bytes]) -> None:
        verb, id = words[0], int(words[1]) if words[0] in (b"set", b"remove", b"move", b"clear") else 0
        if verb == b"session":
            self.sessions[words[1]] = words[2] == b"tab", words[3:]
        elif verb == b"stop":
            self.must(words[1] not in self.lives, it, "its interpreter ran")
        if verb in (b"move", b"remove"):
            self.order.remove(id)
        if verb == b"move":
            self.put(id, int(words[2]))
        elif verb in (b"set", b"clear"):
            self.answers[id] = {}
        if verb == b"set":
            self.inputs[id] = b" ".join(words[2:])

    def asked(self, it: Object, words: list[bytes]) -> None:
        id = int(words[1])
        name = self.owners[id]
        if name not in self.lives:
            self.begun += 1
            self.lives[name] = Life(self.begun, name)
        self.must(it["life"] == self.lives[name].number, it, f"{name!r} has the life {self.lives[name].number}")
        text = b" ".join(words[3:]) if words[0] == b"complete" and words[3:] else self.inputs[id]
        self.lives[name].waiting.append(Asked(id, text, int(words[2]) if words[0] == b"complete" else None))
        if words[0] == b"eval":
            self.answers[id] = {}

    def end_life(self, it: Object) -> Life:
        """The life of an object that says how it ended."""
        life = self.lives.pop(it["session"].encode(), Life(0, b""))
        self.over.discard(life.number)
        self.must(it["life"] == life.number and it["lost"] == [item.lost() for item in life.waiting], it, f"life {life.number} with {life.waiting}")
        if life.waiting and life.waiting[0].cursor is None:
            # Whether the field keeps the reason isn't reported where the same event may have answered an item.
            self.answers.pop(life.waiting[0].id, None)
        return life

    def stopped(self, it: Object, words: list[bytes]) -> None:
        self.must(words[1] == it["session"].encode(), it, "another session")
        life = self.end_life(it)
        if life.waiting and life.waiting[0].cursor is None:
            self.answers[life.waiting[0].id] = {"reason": "Stopped"}

    def waited(self, it: Object, words: list[bytes]) -> None:
        self.must(not any(life.waiting for life in self.lives.values()), it, "something waits")
        # Its time is over where something waits, and that stalled then.
        is_late = self.last["type"] == "ended" and self.last["reason"] == "Stalled"
        self.must((it["over"] == "time") == is_late and (not is_late or len(words) == 2), it, f"that something stalled is {is_late}")

    def interrupted(self, it: Object, words: list[bytes]) -> None:
        waits = words[1] in self.lives and self.lives[words[1]].waiting
        self.must((it["outcome"] == "idle") == (not waits), it, f"what waits is {waits}")

    def sheet(self, it: Object, _: list[bytes]) -> None:
        self.must(it["fields"] == self.parts == self.order and it["next"] == self.next, it, f"the fields {self.parts} and {self.next}")
        self.parts = []
        wanted = []
        for name, (tab, words) in self.sessions.items():
            life = self.lives.get(name)
            row = {"life": life.number if life else None, "name": name.decode(), "tab": tab, "waiting": len(life.waiting) if life else 0}
            wanted.append(row | {"words": [word.decode() for word in words]})
        self.must(it["sessions"] == wanted, it, f"the sessions {wanted}")

    def field(self, it: Object, words: list[bytes]) -> None:
        self.must(len(words) == 2 and it["field"]["id"] == int(words[1]), it, "another field")
        self.check_field(it["field"], it)

    def check_field(self, field: Any, it: Object) -> None:
        """A field is as it must be by what was told."""
        id, state = field["id"], field["state"]
        self.must(id in self.order and field["input"].replace("\n", "\u2028").encode() == self.inputs[id] and field["session"].encode() == self.owners[id], it, "another field")
        waits = any((item.id, item.cursor) == (id, None) for life in self.lives.values() for item in life.waiting)
        self.must((state == "waiting") == waits, it, f"that its line waits is {waits}")
        if id in self.answers and not waits:
            told = {name: field[name] for name in ("output", "prompt", "shown", "reason") if name in field}
            self.must(told == self.answers[id], it, f"told was {str(self.answers[id])[:300]}")

    def take_event(self, it: Object, kind: str) -> None:
        name = it["session"].encode()
        if kind == "ended":
            self.end_life(it)
            return
        life = self.lives.get(name, Life(0, b""))
        self.must(it["life"] == life.number, it, f"{name!r} has the life {life.number}")
        if kind == "default":
            self.must((life.number, bytes_of(it["text"])) == self.due, it, f"the default input {self.due}")
            self.due = None
            return
        self.take_act(it, kind, life)

    def take_act(self, it: Object, kind: str, life: Life) -> None:
        """A banner or an answer, which must be the next act."""
        play = self.plays.get(life.session)
        told = play.act(life.at).told if play else None
        self.must(told is not None and (kind == "banner") == (life.at < 0), it, f"behind {life.at} answers")
        assert told
        if kind == "banner":
            self.must(block_of(it["output"]) == told.output, it, f"wanted {told.output}")
        else:
            self.must(len(life.waiting) > 0, it, "nothing waits")
            item = life.waiting.pop(0)
            self.must((item.id, item.cursor is None) == (it["id"], kind == "answered"), it, f"{item} is first")
            if kind == "completed":
                found = it["told"] and [bytes_of(text) for text in [it["told"]["root"], *it["told"]["rest"]]]
                self.must(found == completions_in(told.output), it, f"wanted {completions_in(told.output)} of {told.output}")
            else:
                self.must(block_of(it["output"]) == told.output and bytes_of(it["prompt"]) == life.prompt, it, f"wanted {life.prompt!r} and {told.output}")
                self.answers[item.id] = {name: it[name] for name in ("output", "prompt", "shown")}
        self.due = None if told.default is None else (life.number, told.default)
        life.at += 1
        life.prompt = life.prompt if told.prompt is None else told.prompt
        if kind != "completed":
            following = prompt_or_none(it["next"])
            self.must(following in (life.prompt, None), it, f"the next prompt is {life.prompt!r}")
            self.over |= {life.number} if following is None else set()
