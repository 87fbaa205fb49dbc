"""Which field of a worksheet a cell of a notebook is."""
import json
import os
from typing import Dict, List, Optional

from tmhost import Cell, Field, Worksheet
from tmhost.values import LINE_END


class Names:
    """The names that a front end has for cells, each with its field, in a file beside the worksheet. They are a help and no more: a cell whose name
    isn't there is found by its text."""

    def __init__(self, path: str) -> None:
        self.path = path
        self.fields: Dict[str, int] = {}
        try:
            with open(path, encoding="utf-8") as file:
                for line in file:
                    self.take(line)
        except (OSError, UnicodeDecodeError):
            pass  # cells without a known name are found by their texts

    def take(self, line: str) -> None:
        """A line of the file. One that was cut by a crash says nothing."""
        try:
            name, field = json.loads(line)
        except (ValueError, TypeError):
            return
        if isinstance(name, str) and isinstance(field, int):
            self.fields[name] = field

    def add(self, name: str, field: int) -> None:
        """What stands in the file may have been cut in a line."""
        if self.fields.get(name) == field:
            return
        self.fields[name] = field
        with open(self.path, "a+b") as file:
            end = file.seek(0, os.SEEK_END)
            is_cut = bool(end) and os.pread(file.fileno(), 1, end - 1) != b"\n"
            file.write(b"\n" * is_cut + json.dumps([name, field]).encode() + b"\n")


class Cells:
    """The cells that a kernel has run. `last` is the field of the one before.

    A cell is the field of its name. One without a known name is the field that has its text and nobody's name, the next one after the cell
    before it, or else the nearest in front of it. Where a whole notebook is run into a worksheet of its own, by a front end that
    names no cells, each is the field after that of the cell before it. Any other is a new field there.
    """

    def __init__(self, worksheet: Worksheet, session: str, names: Names) -> None:
        self.worksheet, self.session, self.names = worksheet, session, names
        self.last: Optional[int] = None

    def field(self, code: str, name: str, is_in_order: bool) -> Cell:
        """The field of a cell, with its text."""
        input = code.replace("\n", LINE_END)
        found = self.find(input, name, is_in_order)
        cell = self.worksheet.cell(found.id) if found else self.worksheet.new(self.session, code, after=self.last)
        if found and found.input != input:
            cell.set(code)
        if name:
            self.names.add(name, cell.id)
        self.last = cell.id
        return cell

    def find(self, input: str, name: str, is_in_order: bool) -> Optional[Field]:
        mine = self.mine()
        if name in self.names.fields:
            named = next((field for field in mine if field.id == self.names.fields[name]), None)
            if named:
                return named
        at = next((at for at, field in enumerate(mine, 1) if field.id == self.last), 0)
        before, after = mine[:at], mine[at:]
        if is_in_order and not name:
            return after[0] if after else None
        taken = set(self.names.fields.values())
        free = [field for field in [*after, *reversed(before)] if field.id not in taken]
        spare = [field for field in free[:1] if field is mine[-1] and self.is_unused(field)]
        return next((field for field in free if field.input == input), spare[0] if spare else None)

    def mine(self) -> List[Field]:
        return [field for field in self.worksheet.fields if field.session == self.session]

    @staticmethod
    def is_unused(field: Field) -> bool:
        return field.input == "" and field.state == "empty"

    def for_completions(self) -> Cell:
        """A field to ask by. Where there is none, the one that is made is that of the next new cell."""
        mine = self.mine()
        return self.worksheet.cell(mine[-1].id) if mine else self.worksheet.new(self.session, "")
