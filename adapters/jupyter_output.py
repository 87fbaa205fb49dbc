"""What a line of a kernel puts out, as the block that answers it."""
import re
from typing import Any, Dict, Iterator, List, NamedTuple

import blocks
import pictures
from terminal import folded

Message = Dict[str, Any]

FORMULA = re.compile(r"\s*(\${1,2})([^$]+)\1\s*")
PICTURES = ("image/svg+xml", "image/png", "image/jpeg")  # the best first
TEXTS = ("text/plain", "text/markdown", "text/latex")
ERROR = blocks.ERROR.decode()
FRAME = 12  # bytes of a part's blocks besides its format and its text


def as_bytes(text: str) -> bytes:
    return text.encode("utf-8", "backslashreplace")


class Part(NamedTuple):
    """A part of an answer: what was printed, or a value."""

    text: str
    format: str = ""  # of what is no text, or ERROR
    is_printed: bool = False
    display: str = ""  # the name by which it can be replaced

    @property
    def size(self) -> int:
        return len(as_bytes(self.text)) + len(self.format) + FRAME

    @property
    def shared(self) -> blocks.Part:
        """The part as all adapters have it."""
        return blocks.Part(as_bytes(self.text), self.format.encode())

    def cut(self, size: int) -> "Part":
        """No more than so many bytes of a text, and nothing of what would be spoilt by that."""
        left = b"" if self.format not in ("", ERROR) else as_bytes(self.text)[:max(0, size)]
        return Part(left.decode("utf-8", "ignore"), self.format if left else "", self.is_printed)


def of_value(data: Dict[str, Any], display: str, is_text: bool) -> Part:
    """The richest form of a value that is shown: a formula, a picture, or its text."""
    reported = {name: one if isinstance(one, str) else "".join(one) for name, one in data.items() if isinstance(one, (str, list))}
    formula = FORMULA.fullmatch(reported.get("text/latex", ""))
    if formula and not is_text:
        return Part("$" + " ".join(formula[2].replace("\\displaystyle", "").split()) + "$", "latex", display=display)
    name = next((name for name in PICTURES if name in reported), "")
    if name and not is_text and len(reported[name]) < blocks.LONGEST:
        has_base64 = name != "image/svg+xml"
        picture = "".join(reported[name].split()) if has_base64 else pictures.bare(as_bytes(reported[name])).decode()
        return Part(picture, name + ";base64" * has_base64, display=display)
    return Part(folded(next((reported[kind] for kind in TEXTS if kind in reported), f"[{', '.join(data)}]")), display=display)


class Output:
    """What a line puts out, as it comes."""

    def __init__(self, is_text: bool) -> None:
        self.is_text = is_text
        self.next_input = ""
        self.preview = blocks.Preview()
        self.clear()

    def clear(self) -> None:
        self.parts: List[Part] = []
        self.size = self.left_out = 0
        self.is_to_be_cleared = False

    def add(self, part: Part) -> None:
        """Another part, as far as an answer may be so long."""
        if self.is_to_be_cleared:
            self.clear()
        if self.size + part.size > blocks.LONGEST:
            whole, part = part, part.cut(blocks.LONGEST - self.size - FRAME)
            self.left_out += whole.size - part.size
        if part.text or part.display:
            self.size += part.size
            self.parts.append(part)

    def add_value(self, data: Dict[str, Any], display: str = "") -> None:
        self.add(of_value(data, display, self.is_text))

    def add_error(self, content: Message) -> None:
        """An error. One that was printed already isn't shown twice."""
        reported = folded("\n".join(content.get("traceback", ())) or f"{content.get('ename', 'Error')}: {content.get('evalue', '')}").strip("\n")
        if self.parts and self.parts[-1].is_printed and (printed := folded(self.parts[-1].text).rstrip("\n")).endswith(reported):
            self.parts[-1] = Part(printed.removesuffix(reported), is_printed=True)
        self.add(Part(reported, ERROR))

    def replace(self, display: str, data: Dict[str, Any]) -> None:
        """Shows another value where a named one is shown. Where it would be too long, all that is shown is cut again."""
        new = of_value(data, display, self.is_text)
        parts, is_to_be_cleared = self.parts, self.is_to_be_cleared
        self.clear()
        for part in parts:
            self.add(new if part.display == display else part)
        self.is_to_be_cleared = is_to_be_cleared

    def take(self, kind: str, content: Message) -> None:
        """A message about what is put out."""
        display = str(content.get("transient", {}).get("display_id", ""))
        if kind == "stream":
            self.preview.add(as_bytes(content["text"]))
            self.add(Part(content["text"], is_printed=True))
        elif kind in ("execute_result", "display_data"):
            self.add_value(content["data"], display)
        elif kind == "update_display_data" and display:
            self.replace(display, content["data"])
        elif kind == "error":
            self.add_error(content)
        elif kind == "clear_output":
            self.is_to_be_cleared = True
            if not content.get("wait"):
                self.clear()

    def take_reply(self, reply: Message) -> bool:
        """What the reply to a line shows, as its help, and offers as the next input; whether the kernel ends by it. An error that was reported by the
        reply alone is shown, too."""
        is_end = False
        if reply.get("status") == "error" and not any(part.format == ERROR for part in self.parts):
            self.add_error(reply)
        for payload in reply.get("payload", ()):
            source = payload.get("source")
            if source == "page":
                self.add_value(payload.get("data", {}))
            elif source == "set_next_input":
                self.next_input = str(payload.get("text", "")).rstrip("\n").replace("\n", blocks.LINE_SEPARATOR.decode())
            is_end = is_end or source == "ask_exit" and not payload.get("keepkernel")
        return is_end

    def joined(self) -> Iterator[Part]:
        """Its parts, where all that was printed in one go is one."""
        printed: List[str] = []
        for part in [*self.parts, Part("", "end")]:
            if part.is_printed:
                printed.append(part.text)
                continue
            if printed:
                yield Part(folded("".join(printed)))
                printed = []
            if part.text:
                yield part
        if self.left_out:
            yield Part(f"[{self.left_out} bytes more]")

    def block(self, prompt: bytes) -> bytes:
        """The answer: a value alone as it is, or a text with the values in it, each on lines of its own."""
        parts = [part.shared for part in self.joined()]
        offered = blocks.block(b"input#", blocks.escaped(as_bytes(self.next_input))) if self.next_input else b""
        if len(parts) == 1 and parts[0].format not in (b"", blocks.ERROR):
            return blocks.with_prompt(parts[0].format + b":", blocks.escaped(parts[0].text) + offered, prompt)
        body = bytearray()
        for part in parts:
            if body and not body.endswith(b"\n"):
                body += b"\n"
            body += part.shown
        return blocks.with_prompt(b"verbatim:", bytes(body).removesuffix(b"\n") + offered, prompt)
