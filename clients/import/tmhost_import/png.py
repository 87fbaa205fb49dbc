"""The SVG in a notebook as PNG, which each reader of notebooks shows. An SVG they show of a notebook alone that is trusted, and nbconvert 6.5 not at all.

rsvg-convert draws them: it runs no script and loads nothing. What it can't draw in so much time and memory is left out.
"""
import base64
import dataclasses
import json
import re
import resource
import subprocess

from tmhost_fences.troubles import Trouble

from .exported import STRING

# An output as tmhost export writes it. In a text of JSON each quote has a backslash in front of it, so this stands at an output and nowhere else.
SVG = re.compile(
    rb'\{"data":\{"image/svg\+xml":(?P<text>' + STRING + rb'),"text/plain":"A picture \(SVG\)"\},"metadata":\{\},"output_type":"display_data"\}'
)
WORDS = ["rsvg-convert", "--format", "png", "--zoom", "2"]  # two dots for each, which screens and paper want
SECONDS, MEMORY = 10, 2_000_000_000
LONGEST = 8_000_000  # bytes of a PNG
PNG = b"\x89PNG\r\n\x1a\n"
LEFT_OUT = b'{"name":"stdout","output_type":"stream","text":"A picture (SVG)"}'


@dataclasses.dataclass
class Drawn:
    """A notebook, how many of its pictures were drawn, and how many couldn't be."""

    data: bytes
    count: int = 0
    failed: int = 0


def limit() -> None:
    resource.setrlimit(resource.RLIMIT_AS, (MEMORY, MEMORY))
    resource.setrlimit(resource.RLIMIT_CPU, (SECONDS, SECONDS))


def png_of(svg: bytes) -> bytes | None:
    try:
        made = subprocess.run(WORDS, input=svg, capture_output=True, timeout=6 * SECONDS, preexec_fn=limit).stdout
    except OSError as error:
        raise Trouble(f"rsvg-convert can't be started: {error.strerror} (Debian's package librsvg2-bin has it)") from error
    except subprocess.TimeoutExpired:
        return None
    return made if made.startswith(PNG) and made.endswith(b"IEND\xaeB`\x82") and len(made) <= LONGEST else None


def output_of(png: bytes) -> bytes:
    """The output of a cell, in which a picture has half as many dots as it has of its own."""
    width, height = (int.from_bytes(png[at : at + 4], "big") // 2 for at in (16, 20))
    size = b'{"image/png":{"height":%d,"width":%d}}' % (height, width)
    return b'{"data":{"image/png":"' + base64.b64encode(png) + b'","text/plain":"A picture (SVG)"},"metadata":' + size + b',"output_type":"display_data"}'


def with_png(data: bytes) -> Drawn:
    """A notebook that tmhost export wrote with its SVG as PNG, and all else byte for byte."""
    drawn = Drawn(data)

    def output(found: re.Match[bytes]) -> bytes:
        png = png_of(json.loads(found["text"]).encode("utf-8", "surrogatepass"))
        drawn.count += png is not None
        drawn.failed += png is None
        return LEFT_OUT if png is None else output_of(png)

    drawn.data = SVG.sub(output, data)
    return drawn
