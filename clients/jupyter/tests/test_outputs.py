"""What is sent for an answer."""
import unittest

import tests.support  # noqa: F401
from tmhost import Answer, Block
from tmhost_jupyter.outputs import Shown, error_of


def shown(*items: "str | bytes | Block", tag: str = "verbatim", kind: str = "format") -> Shown:
    return Shown(Answer("", Block(tag, kind, items), ""), 3)


class Outputs(unittest.TestCase):
    def test_nothing(self) -> None:
        self.assertEqual(shown().messages, [])
        self.assertEqual(shown("\n").messages, [])

    def test_bytes_that_are_no_text(self) -> None:
        self.assertEqual(shown(b"a\xff").messages[0].content["data"], {"text/plain": "a\\xff"})

    def test_other_blocks_have_their_tags(self) -> None:
        reported = shown("a", Block("html", "format", ("<b>", Block("latex", "format", ("x",)), "</b>")), Block("output", "channel", ("c",)))
        self.assertEqual([message.kind for message in reported.messages], ["stream", "display_data", "execute_result"])
        self.assertEqual([message.content.get("text") or message.content["data"]["text/plain"] for message in reported.messages], ["a{html:<b>\n", "x", "</b>}c"])

    def test_what_stands_after_an_error(self) -> None:
        reported = shown("before\n", Block("error", "channel", ("E: x",)), "after", Block("image/png;base64", "format", ("iV\nBO",)))
        self.assertEqual([message.kind for message in reported.messages], ["stream", "error", "stream", "display_data"])
        self.assertEqual(reported.messages[3].content["data"], {"image/png": "iVBO", "text/plain": "<image/png>"})
        self.assertEqual([message.kind for message in shown(Block("error", "channel", ("E: x",)), "after").messages], ["error", "stream"])

    def test_an_error_alone(self) -> None:
        reported = shown("KeyboardInterrupt", tag="error", kind="channel")
        self.assertEqual([message.kind for message in reported.messages], ["error"])
        self.assertEqual(reported.error and reported.error.content, {"ename": "Error", "evalue": "KeyboardInterrupt", "traceback": ["KeyboardInterrupt"]})

    def test_an_output_in_an_output_is_an_error(self) -> None:
        inner = Block("output", "channel", ("NameError: name 'x' is not defined\n",))
        reported = shown("before\n", Block("output", "channel", (inner,)))
        self.assertEqual([message.kind for message in reported.messages], ["stream", "error"])
        self.assertEqual(reported.error and reported.error[:2], ("NameError", "name 'x' is not defined"))
        reported = shown("before\n", Block("output", "channel", (Block("verbatim", "format", (inner,)),)))
        self.assertIsNone(reported.error)

    def test_a_format_error_is_no_error(self) -> None:
        self.assertIsNone(shown("x", tag="error", kind="format").error)

    def test_names_of_errors(self) -> None:
        for text, name, value in (
            ("Traceback\n  x\nZeroDivisionError: division by zero\n", "ZeroDivisionError", "division by zero"),
            ("  ***   at top-level: 1/0\n  *** _/_: impossible inverse in gdiv: 0.\n", "Error", "*** _/_: impossible inverse in gdiv: 0."),
            ("Error in f() : no", "Error", "Error in f() : no"),
            ("", "Error", ""),
        ):
            self.assertEqual(error_of(text)[:2], (name, value))
