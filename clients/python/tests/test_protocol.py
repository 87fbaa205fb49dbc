"""The protocol without a program: the talk of docs/use/JSON.md, and lines that are not of it."""

import concurrent.futures
import dataclasses
import json
import os
import re
import unittest
from typing import Any, Dict, List, Tuple

from support import ROOT

from tmhost import Answer, Answered, Banner, Block, BadLine, Field, Lost, Partial, Protocol, ProtocolError, Refused, Session, Stopped, Warned
from tmhost import commands
from tmhost.protocol import Lines, Taken
from tmhost.reading import read

PAGE = os.path.join(ROOT, "docs/use/JSON.md")
HELLO: Dict[str, Any] = {"format": 1, "program": "tmhost", "protocol": 2, "type": "hello", "version": "0"}
BLOCK: Dict[str, Any] = {"items": [], "kind": "format", "tag": "verbatim"}
BANNER: Dict[str, Any] = {"life": 1, "output": BLOCK, "session": "a", "shown": "", "type": "banner"}


class Talk:
    """A talk in which what the program writes is given by hand."""

    def __init__(self) -> None:
        self.opened: "concurrent.futures.Future[Any]" = concurrent.futures.Future()
        self.protocol = Protocol(self.opened)

    def send(self, command: "commands.Command[Any]") -> "concurrent.futures.Future[Any]":
        future: "concurrent.futures.Future[Any]" = concurrent.futures.Future()
        self.line = self.protocol.send(command, future)
        return future

    def reported(self, *objects: object) -> Taken:
        all_taken = Taken()
        for reported in objects:
            line = reported if isinstance(reported, bytes) else json.dumps(reported).encode()
            taken = self.protocol.feed(line)
            for settle in taken.settled:
                settle()
            all_taken.events += taken.events
            all_taken.lines += taken.lines
        return all_taken


class Pages(unittest.TestCase):
    @unittest.skipUnless(os.path.isfile(PAGE), "the page isn't there")
    def test_the_talk_of_the_page(self) -> None:
        """Each line of the talk is what its command sends, each object is taken, and the worksheet after it is as the page says."""
        with open(PAGE, encoding="utf-8") as file:
            talk = [line[:-1] for line in file if re.match("[<>] ", line)]
        output = Block("verbatim", "format", (Block("latex", "format", ("$x^2$",)), "\n"))
        answer = Answer("In 1] ", output, "{latex:$x^2$}\n")
        first: "concurrent.futures.Future[Any]" = concurrent.futures.Future()
        again: "concurrent.futures.Future[Any]" = concurrent.futures.Future()
        made = [
            commands.MakeSession("a", ("sh", "slow.sh"), False),
            commands.New(0, "a", "x^2"),
            commands.Eval(1, first),
            commands.Set(1, "y"),
            commands.Wait(10),
            commands.Look(1),
            commands.Eval(1, again),
            commands.Stop("a"),
        ]
        end = next(place for place, line in enumerate(talk) if '"type":"stopped"' in line) + 1  # after it a look is sent
        waits, events = self.held(Talk(), talk[:end], iter(made))
        self.assertEqual([type(one.exception(0)) for one in waits], [type(None)] * 4 + [Refused] + [type(None)] * 4)
        self.assertEqual(first.result(0), answer)
        self.assertEqual((type(again.exception(0)), waits[8].result()), (Lost, events[-1].lost))
        self.assertEqual(self.protocol.mirror.fields(), [Field(1, "a", "x^2", "lost", None, "Stopped")])
        self.assertEqual([type(event).__name__ for event in events], ["Done", "Done", "Done", "Banner", "Answered", "Done", "Stopped"])
        self.assertEqual((events[3].next, events[4]), ("In 1] ", Answered("a", 1, 1, answer, "In 1] ")))
        self.protocol.feed(talk[-1][2:].encode())
        self.assertTrue(self.protocol.is_over)

    def held(self, talk: Talk, lines: List[str], made: Any) -> Any:
        """The futures of the lines that were sent, and the events that were reported."""
        waits, events = [], []
        self.protocol = talk.protocol
        for line in lines:
            if line.startswith("<"):
                waits.append(talk.send(Raw(line[2:]) if line.startswith("< #") else next(made)))
                self.assertEqual(talk.line, line[2:].encode() + b"\n")
            else:
                taken = talk.reported(line[2:].encode())
                events += taken.events
        self.assertEqual(taken.lines, [b"print 1\n"])
        return waits, events


class Raw(commands.Command[None]):
    """A line that no call sends."""

    is_reported = False

    def __init__(self, line: str) -> None:
        self.text = line

    @property
    def line(self) -> str:
        return self.text

    def taken(self, mirror: Any, reply: Any) -> None:
        assert reply.type == "nothing"


class Objects(unittest.TestCase):
    def test_what_is_not_known_is_passed_over(self) -> None:
        talk = Talk()
        taken = talk.reported(HELLO, {"type": "weather", "of": [1.5, None]}, {**BANNER, "more than that": {}})
        self.assertEqual((len(taken.events), talk.opened.result().version), (1, "0"))
        waits = talk.send(commands.Checkpoint())
        talk.reported({"line": 1, "more": True, "type": "progress", "part": 0.5}, {"line": 1, "new": [], "type": "done"})
        self.assertIsNone(waits.result(0))

    def test_lines_that_are_broken(self) -> None:
        lines: List[object] = [
            b"", b"no", b"[]", b'"x"', b"{", b'{"type":"hello"} x', b'{"type":NaN}', b'{"type":"a","type":"a"}', b'{"type":"\xff"}',
            b'{"type":"\\ud800"}', b'{"type":"x","y":' + 100_000 * b"[" + 100_000 * b"]" + b"}",
            b'{"line":' + b"1" * 5000 + b',"type":"done"}',
            {}, {"type": 1}, {"line": "1", "type": "done"}, {"line": True, "type": "done"}, {"line": -1, "type": "done"},
            {"line": 1.0, "type": "done"}, {"line": 2**64, "type": "done"}, {"line": 1, "more": 1, "type": "done"},
            {"line": 1, "type": "made"},
            {**HELLO, "protocol": "1"}, {**HELLO, "version": 1}, {"number": 1, "type": "fault"},
        ]  # fmt: skip
        parts: List[Dict[str, Any]] = [{"items": {}}, {"items": [1]}, {"kind": "other"}, {"tag": None}]
        parts += [{"tag": {"base64": value}} for value in ("6Q", "YQ==", "6\nQ==", "6Q==6Q==", "\u00e9", None)]
        for broken in parts:
            lines.append({**BANNER, "output": {**BLOCK, **broken}})
        lines += [{key: value for key, value in BANNER.items() if key != name} for name in BANNER if name != "type"]
        for line in lines:
            with self.subTest(line=str(line)[:80]), self.assertRaises(ProtocolError):
                read(line if isinstance(line, bytes) else json.dumps(line).encode())

    def test_limits_of_time(self) -> None:
        """What comes of one has no line: of a wait it is about an interpreter, and no command asks for one of a field."""
        self.assertEqual(read(b'{"life":2,"outcome":"failed","session":"a","type":"interrupted"}'), Warned("a", 2, "failed"))
        self.assertIsNone(read(b'{"id":3,"outcome":"sent","type":"over"}'))

    def test_the_prompt_of_the_next_line(self) -> None:
        """None where the interpreter has ended, and where an older program doesn't tell it."""
        answered: Dict[str, Any] = {"id": 1, "life": 1, "output": BLOCK, "prompt": "", "session": "a", "shown": "", "type": "answered"}
        empty = Block("verbatim", "format", ())
        banner, answer = Banner("a", 1, empty, ""), Answered("a", 1, 1, Answer("", empty, ""))
        for reported, it in ((BANNER, banner), (answered, answer)):
            self.assertEqual(read(json.dumps(reported).encode()), it)
            for value, text in ((None, None), ("In [2]: ", "In [2]: "), ("", ""), ({"base64": "/yA="}, b"\xff ")):
                self.assertEqual(read(json.dumps({**reported, "next": value}).encode()), dataclasses.replace(it, next=text))
            for broken in (1, [], False, {"base64": "YQ=="}, BLOCK):
                self.assertRaises(ProtocolError, read, json.dumps({**reported, "next": broken}).encode())

    def test_what_is_no_answer_yet(self) -> None:
        """It has its bytes as they came, and changes nothing of what is shown."""
        reported: Dict[str, Any] = {"life": 1, "session": "a", "type": "partial"}
        for value, data in (("\u0002verbatim:\u00e9", b"\x02verbatim:\xc3\xa9"), ({"base64": "wwL/"}, b"\xc3\x02\xff"), ("", b"")):
            self.assertEqual(read(json.dumps({**reported, "bytes": value}).encode()), Partial("a", 1, data))
        for broken in (b"null", b"1", b'{"base64":"YQ=="}', b'{"items":[]}'):
            self.assertRaises(ProtocolError, read, b'{"bytes":%b,"life":1,"session":"a","type":"partial"}' % broken)
        talk, evaluation = self.asked()
        held = talk.protocol.mirror.fields()
        self.assertEqual(talk.reported({**reported, "bytes": "x"}).events, [Partial("a", 1, b"x")])
        self.assertEqual((talk.protocol.mirror.fields(), evaluation.done()), (held, False))

    def test_halves_of_a_character_that_are_together(self) -> None:
        reported = read(b'{"line":1,"name":"\\ud83d\\ude00","number":1,"type":"refused"}')
        self.assertEqual(getattr(reported, "name"), "\U0001f600")

    def test_objects_that_come_out_of_step(self) -> None:
        objects = [
            {"line": 2, "type": "nothing"}, {"line": 1, "type": "done"}, {"line": 3, "type": "done"}, {"id": 1, "line": 2, "type": "made"},
            {"life": 1, "line": 2, "lost": [{"id": 1, "text": "x"}], "session": "a", "type": "stopped"},
            {"id": 2, "life": 1, "output": BLOCK, "prompt": "", "session": "a", "shown": "", "type": "answered"},
            {"id": 1, "life": 1, "output": BLOCK, "prompt": "", "session": "b", "shown": "", "type": "answered"},
            {"id": 1, "life": 1, "session": "a", "told": None, "type": "completed"},
            {"life": 1, "lost": [{"id": 2, "text": "x"}], "reason": "Ended", "session": "a", "type": "ended"},
            {"life": 1, "lost": [{"cursor": 0, "id": 1, "text": "x"}], "reason": "Ended", "session": "a", "type": "ended"},
            {"life": 1, "lost": [], "reason": "Ended", "session": "a", "type": "ended"},
            {"life": 1, "lost": [], "reason": "Ended", "session": "b", "type": "ended"},
        ]  # fmt: skip
        for reported in objects:
            with self.subTest(reported=reported):
                talk, evaluation = self.asked()
                waits = talk.send(commands.Checkpoint())
                self.assertRaises(ProtocolError, talk.reported, reported)
                talk.protocol.break_off(ProtocolError("broken"))
                for settle in talk.protocol.finish(False, 0, "").settled:
                    settle()
                for future in (waits, evaluation):
                    self.assertRaises(ProtocolError, future.result, 0)

    def asked(self) -> "Tuple[Talk, concurrent.futures.Future[Any]]":
        """A talk whose first line has asked session `a` for the answer to cell 1."""
        talk = Talk()
        talk.protocol.mirror.add_session(Session("a", ("p",), False))
        talk.protocol.mirror.insert(Field(1, "a", "x"), 0)
        evaluation: "concurrent.futures.Future[Any]" = concurrent.futures.Future()
        talk.send(commands.Eval(1, evaluation))
        talk.reported({"life": 1, "line": 1, "type": "asked"})
        return talk, evaluation

    def test_turns(self) -> None:
        """A line runs from when it was sent: after the banner of its interpreter, and after the answers to those before it."""
        talk, _ = self.asked()
        mirror, waits = talk.protocol.mirror, commands.Eval(2, concurrent.futures.Future())
        mirror.insert(Field(2, "a", "y"), 1)
        mirror.insert(Field(3, "a", "z"), 2)
        answer: Dict[str, Any] = {"life": 1, "output": BLOCK, "prompt": "", "session": "a", "shown": "", "type": "answered"}

        def turns() -> List[Any]:
            return [mirror.turn(id) for id in (1, 2, 3)]

        self.assertEqual(turns(), ["queued", None, None])
        talk.reported(BANNER)
        self.assertEqual(turns(), ["running", None, None])
        talk.send(commands.Complete(3, 0, concurrent.futures.Future()))
        talk.send(waits)
        talk.reported({"life": 1, "line": 2, "type": "asked"}, {"life": 1, "line": 3, "type": "asked"})
        self.assertEqual(turns(), ["running", "queued", None])
        talk.reported({**answer, "id": 1})
        self.assertEqual(turns(), [None, "queued", None])
        talk.reported({"id": 3, "life": 1, "session": "a", "told": None, "type": "completed"})
        self.assertEqual(turns(), [None, "running", None])
        talk.reported({"life": 1, "lost": [{"id": 2, "text": "y"}], "reason": "Ended", "session": "a", "type": "ended"})
        self.assertEqual(turns(), [None, None, None])
        talk.send(commands.Eval(1, concurrent.futures.Future()))
        look = {"id": 2, "input": "y", "reason": "Ended", "session": "a", "state": "lost"}
        talk.reported({"field": look, "line": 4, "type": "field"}, {"life": 2, "line": 5, "type": "asked"})
        self.assertEqual(turns(), ["queued", None, None])
        talk.reported({**BANNER, "life": 2})
        self.assertEqual(turns(), ["running", None, None])

    def test_deep_blocks(self) -> None:
        block: Any = {**BLOCK, "items": ["x"]}
        for _ in range(31):
            block = {**BLOCK, "items": [block, {"base64": "6Q=="}]}
        (event,) = Talk().reported({**BANNER, "output": block}).events
        self.assertEqual(getattr(event, "output").plain, b"x" + 31 * b"\xe9")
        self.assertEqual(len(getattr(event, "output").find("verbatim")), 32)

    def test_lines_that_come_in_pieces(self) -> None:
        data = b"one\ntwo\n\nthree, which has no end"
        for size in range(1, len(data) + 1):
            lines, found = Lines(), []
            for place in range(0, len(data), size):
                found += lines.feed(data[place : place + size])
            self.assertEqual(found, [b"one", b"two", b""])

    def test_a_bad_line(self) -> None:
        talk = Talk()
        waits = talk.send(Raw("evil 1"))
        self.assertEqual(talk.reported({"line": 1, "type": "bad"}).events, [])
        self.assertIsInstance(waits.exception(0), BadLine)

    def test_exports(self) -> None:
        talk = Talk()
        waits = [talk.send(commands.Export(format)) for format in ("script", "html", "markdown")]
        reported: Dict[str, Any] = {"type": "exported"}
        talk.reported({**reported, "format": "script", "line": 1, "text": None}, {**reported, "format": "html", "line": 2, "text": "<p>"})
        talk.reported({**reported, "format": "markdown", "line": 3, "text": {"base64": "6Q=="}})
        self.assertEqual([one.result(0) for one in waits], [None, "<p>", b"\xe9"])
        talk.send(commands.Export("json"))
        self.assertRaises(ProtocolError, talk.reported, {**reported, "format": "html", "line": 4, "text": ""})

    def test_a_look_after_a_loss(self) -> None:
        """Whether a lost line keeps its reason isn't reported, so its cell is looked at; who listens hears where it was another."""
        talk, evaluation = self.asked()
        taken = talk.reported({"life": 1, "lost": [{"id": 1, "text": "x"}], "reason": "BadTag", "session": "a", "type": "ended"})
        self.assertIsInstance(evaluation.exception(0), Lost)
        self.assertEqual((taken.lines, talk.protocol.mirror.field(1).reason), ([b"print 1\n"], "BadTag"))
        taken = talk.reported({"field": {"id": 1, "input": "x", "session": "a", "state": "empty"}, "line": 2, "type": "field"})
        self.assertEqual(len(taken.events), 1)
        self.assertEqual((talk.protocol.mirror.field(1).reason, talk.protocol.mirror.field(1).state), (None, "empty"))

    def test_inputs_of_several_lines(self) -> None:
        """A field is reported with line feeds; its input is what the worksheet has, which is what would be sent."""
        talk, _ = self.asked()
        talk.send(commands.Look(1))
        talk.reported({"field": {"id": 1, "input": "a\n\tb\n", "session": "a", "state": "empty"}, "line": 2, "type": "field"})
        field = talk.protocol.mirror.field(1)
        self.assertEqual((field.input, field.lines), (commands.input_of("a\n\tb\n"), ["a", "\tb", ""]))

    def test_lines_are_one_line(self) -> None:
        for text in ("x\n", "a\nb", "\n", "x\r", "x\r\n"):
            line = commands.bytes_of(commands.Set(1, commands.input_of(text)).line)
            self.assertEqual((line.count(b"\n"), line[-1:]), (1, b"\n"))
        self.assertEqual(commands.bytes_of("set 1 x\r"), b"set 1 x\r\r\n")


if __name__ == "__main__":
    unittest.main()
