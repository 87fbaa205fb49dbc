#!/usr/bin/env python3
"""A run of six events with a crash in the fourth, for docs/trust/THEOREM.md: its replies, the bytes on the disk, what a crash may leave of them,
and what opens.

    theorem/worked.py            prints the tables
    theorem/worked.py PROGRAM    does the same run by a build of tmhost too, shows images of the crash by it, and says whether all agree

The bytes, and what opens, are those of the definitions of crates/worked_run, whose contract says that they are so. The same bytes are made
here by hostile/records.py from the format, and images of the crash are opened by hostile/area.py, which reads files by the format: neither
shares anything with the program or the definitions, and where they differ from them this ends with status 1.
"""
from __future__ import annotations

import os
import re
import subprocess
import sys
import tempfile
from collections.abc import Iterator
from typing import NamedTuple

sys.dont_write_bytecode = True
ROOT = os.path.dirname(os.path.dirname(os.path.realpath(__file__)))
RUN = os.path.join(ROOT, "crates", "worked_run", "specs", "Run.antt")
sys.path.insert(0, os.path.join(ROOT, "hostile"))
from area import rescued  # noqa: E402
from records import area_of, long, number, record, short  # noqa: E402


class Event(NamedTuple):
    """An event, its reply and effect, what the program prints of it, and the record of its op, if it gives one."""

    event: str
    outcome: str
    printed: str
    op: str
    record: bytes


SESSION = record(b"\x01", short(b"a"), b"\x00\x01", long(b"sh"))
BANNER = b"\x02verbatim:\x02prompt#> \x05\x05"
ANSWER = b"\x02verbatim:A\x05"
EVENTS = [
    Event("`New 0 a x`", "`Field 1`", "field 1", "`New 0 a x`", record(b"\x02", number(0), short(b"a"), long(b"x"))),
    Event("`Eval 1`", "`Asked 1`; `Start a 1 sh`", "asked", "`Clear 1`", record(b"\x06", number(1))),
    Event("a piece of `a 1`: the banner, with the prompt `> `", "`Banner`; `Send a 1 x`", "banner a", "", b""),
    Event("a piece of `a 1`: `verbatim:A`", "`Line 1`", "answered 1", "`Answer 1`", record(b"\x07", number(1), long(b"> "), ANSWER)),
    Event("`Set 1 y`", "", "", "", b""),
    Event("`Stop a`", "", "", "", b""),
]
CRASHED = 3  # the place of the event in which the crash comes


def area_after(count: int) -> bytes:
    """The first area after so many events: the records of their ops, and the closed gate."""
    return area_of([SESSION, *(event.record for event in EVENTS[:count])])


def numbers_of(name: str) -> list[int]:
    """The numbers that the definition with this name has."""
    with open(RUN, encoding="utf-8") as file:
        found = re.search(rf"^{name} = (.*)$", file.read(), re.M)
    if not found:
        raise SystemExit(f"{RUN}: no {name}")
    return [int(number) for number in re.findall(r"\d+", found[1])]


def overwritten(old: bytes, write: list[int]) -> bytes:
    """Bytes over which a write of the definitions, its offset and then its bytes, was made."""
    at, new = write[0], bytes(write[1:])
    return old[:at] + new + old[at + len(new) :]


KEPT, *ADDED = numbers_of("bytes_before")
OPENED = bytes(numbers_of("bytes_found"))
BEFORE = OPENED[:KEPT] + bytes(ADDED)
WRITTEN = overwritten(BEFORE, numbers_of("record_write"))
AFTER = overwritten(WRITTEN, numbers_of("gate_write"))
GATE = len(BEFORE) - 1  # the closed gate at the end
if [OPENED, BEFORE, AFTER] != [area_after(count) for count in (0, CRASHED, CRASHED + 1)]:
    raise SystemExit(f"{RUN} has other bytes than hostile/records.py")


class Moment(NamedTuple):
    """A call on the disk, what a crash after it may leave, in words, to what that opens, and images of it."""

    call: str
    left: str
    opens: str
    images: list[bytes]


def torn(old: bytes, at: int, new: bytes) -> Iterator[bytes]:
    """A write that grows an area, of which some first bytes came, or the same byte at each place, and any of the length."""
    fills = [new[:n] + bytes(len(new) - n) for n in range(len(new) + 1)] + [bytes([byte]) * len(new) for byte in range(256)]
    for length in range(len(old), at + len(new) + 1):
        yield from {(old[:at] + fill)[:length] for fill in fills}


def moments() -> list[Moment]:
    """The four calls of the append of event 4."""
    first = list(torn(BEFORE, GATE + 1, AFTER[GATE + 1 :]))
    gates = [AFTER[:GATE] + bytes([byte]) + AFTER[GATE + 1 :] for byte in range(256)]
    return [
        Moment("none yet", f"the {len(BEFORE)} bytes", "without the answer", [BEFORE]),
        Moment(
            f"write {len(first[-1]) - GATE - 1} bytes at {GATE + 1}",
            f"any bytes from {GATE + 1} on, any length from {len(BEFORE)} to {len(AFTER)}",
            "without the answer",
            first,
        ),
        Moment("sync", f"these {len(AFTER)} bytes; the gate at {GATE} is `00`", "without the answer", [WRITTEN]),
        Moment(f"write `52` at {GATE}", f"any byte at {GATE}", "with the answer where it is `52`, else without", gates),
        Moment("sync", f"the {len(AFTER)} bytes with `52` at {GATE}", "with the answer", [AFTER]),
    ]


def opens(area: bytes) -> bytes:
    """The worksheet that opens, in print."""
    found = rescued(area, b"")
    if found is None or found[1] is not None:
        raise SystemExit(f"an image that doesn't open: {area.hex(' ')}")
    shown: bytes = found[2].text()
    return shown


def record_of(event: Event) -> str:
    return f"{event.op}: `{event.record.hex(' ')}`" if event.op else "none"


def event_rows() -> Iterator[str]:
    for place, event in enumerate(EVENTS):
        row = f"| {place + 1} | {event.event} |"
        if place < CRASHED:
            yield f"{row} {event.outcome} (prints `{event.printed}`) | {record_of(event)} | {len(area_after(place + 1))} |"
        elif place == CRASHED:
            yield f"{row} {event.outcome}, which nobody sees | {record_of(event)} | ? |"
        else:
            yield f"{row} not taken | | |"


def moment_rows() -> Iterator[str]:
    names = {opens(BEFORE): "without the answer", opens(AFTER): "with the answer"}
    for moment in moments():
        found = [names[opens(image)] for image in moment.images]
        counts = ", ".join(f"{found.count(name):,} {name}" for name in names.values() if name in found)
        yield f"| {moment.call} | {moment.left} | {moment.opens} | {counts} |"


def text() -> str:
    """The part of the page."""
    shown = [opens(area).decode().rstrip("\n").replace("\n", "` / `") for area in (BEFORE, AFTER)]
    return "\n".join(
        [
            f"A host was opened on a worksheet with one session, `a` with the word `sh`: its first area has {len(area_after(0))} bytes,",
            f"`{area_after(0).hex(' ')}`.",
            "It is given six events, and the machine stops within the fourth.",
            "",
            "| | Event | Outcome | Op, and its record on the disk | Bytes after it |",
            "|---|---|---|---|---|",
            *event_rows(),
            "",
            f"Events 1 to 3 are acknowledged. The record of event 4 begins at the gate at {GATE}, by the four calls of an append"
            ' ([FORMAT](FORMAT.md), "Append"). A crash after',
            "each of them, or within the next, leaves an image of these in the first area. (The second is empty, and stays so.) It",
            "opens so:",
            "",
            "| Last call | What may be left | Each such image opens to the worksheet | Of these a reader opened |",
            "|---|---|---|---|",
            *moment_rows(),
            "",
            f"Without the answer is `{shown[0]}`, the worksheet after the first three events; with it `{shown[1]}`, that after four.",
            "Only after the last sync does `step` return, and is `answered 1` printed.",
            "No image opens to anything else, none to less than what was acknowledged, and none is damaged. By hand:",
            "{host_laws.Turns.Turned} has `taken` = events 1 to 3, or 1 to 4, with the others as `lost`, and `reported` = the first three outcomes.",
        ]
    )


# The same by the program.


def run_by(program: str, folder: str) -> bytes:
    """The first area after the program has done the first four events, with an interpreter of its own."""
    path, shell = os.path.join(folder, "sheet"), os.path.join(folder, "sh")
    with open(shell, "wb") as file:
        file.write(b"#!/bin/sh\nprintf '%s'\nread -r line\nprintf '%s'\nread -r line\n" % (BANNER, ANSWER))
    os.chmod(shell, 0o755)
    subprocess.run([program, "create", path], check=True)
    script = b"session a plain sh\nnew 0 a x\neval 1\nwait\n"
    around = dict(os.environ, PATH=folder + ":" + os.environ["PATH"])
    ran = subprocess.run([program, "run", path], input=script, capture_output=True, check=True, env=around)
    if ran.stdout.decode().split("\n") != ["ok", *(event.printed for event in EVENTS[: CRASHED + 1]), ""]:
        raise SystemExit(f"the program replied otherwise: {ran.stdout.decode()}")
    with open(path, "rb") as file:
        return file.read()


def shown_by(program: str, folder: str, area: bytes) -> bytes:
    path = os.path.join(folder, "image")
    with open(path, "wb") as file:
        file.write(area)
    return subprocess.run([program, "show", path], capture_output=True, check=True).stdout


def compare(program: str) -> str:
    """Does the run by the program, and shows one of eight images of each moment by it, the first and the last among them."""
    with tempfile.TemporaryDirectory() as folder:
        if (found := run_by(program, folder)) != AFTER:
            raise SystemExit(f"the program wrote other bytes: {found.hex(' ')}")
        images = [image for moment in moments() for image in [*moment.images[::8], moment.images[-1]]]
        for image in images:
            if shown_by(program, folder, image) != opens(image):
                raise SystemExit(f"the program shows another worksheet: {image.hex(' ')}")
    return f"the program writes the same {len(AFTER)} bytes, replies the same, and shows {len(images)} images so"


if __name__ == "__main__":
    print(text() if len(sys.argv) == 1 else compare(os.path.abspath(sys.argv[1])))
