"""Which field a cell is, over the real program."""
import json
import os
import subprocess
from typing import List

from tests.support import INTERPRETER, PROGRAM, Case, eventually, needs_program
from tmhost import Worksheet
from tmhost_jupyter.cells import Cells, Names


@needs_program
class Fields(Case):
    def setUp(self) -> None:
        super().setUp()
        subprocess.run([PROGRAM, "create", self.place("sheet")], check=True)

    def opened(self) -> Cells:
        """As a kernel opens it."""
        worksheet: Worksheet = eventually(self.place("sheet"))
        self.addCleanup(worksheet.close)
        worksheet.ensure_session("a", INTERPRETER)
        return Cells(worksheet, "a", Names(self.place("sheet.cells")))

    def inputs(self, cells: Cells) -> List[str]:
        return [field.input for field in cells.worksheet.fields]

    def test_names(self) -> None:
        cells = self.opened()
        ids = [cells.field(text, name, False).id for text, name in (("one", "x"), ("two", "y"), ("three", "z"))]
        self.assertEqual(cells.field("other", "x", False).id, ids[0])
        self.assertEqual(cells.field("new", "w", False).id, 4)  # after the cell that was run before it
        self.assertEqual(self.inputs(cells), ["other", "new", "two", "three"])
        cells.worksheet.close()
        cells = self.opened()
        self.assertEqual(cells.field("again", "y", False).id, ids[1])
        self.assertEqual(cells.field("two", "v", False).id, 5)  # since nobody's field has that text any more
        self.assertEqual(self.inputs(cells), ["other", "new", "again", "two", "three"])

    def test_a_copy_of_a_cell(self) -> None:
        cells = self.opened()
        self.assertEqual([cells.field("same", name, False).id for name in ("x", "y", "", "x")], [1, 2, 3, 1])

    def test_the_file_of_names_is_lost(self) -> None:
        cells = self.opened()
        ids = [cells.field(text, text, False).id for text in ("one", "two", "one ", "two ")]
        cells.worksheet.close()
        os.unlink(self.place("sheet.cells"))
        cells = self.opened()
        self.assertEqual([cells.field(text, text, False).id for text in ("one", "two", "one ", "two ")], ids)

    def test_the_file_of_names_is_cut(self) -> None:
        with open(self.place("names"), "w", encoding="utf-8") as file:
            file.write('["x", 1]\n[3, "y"]\n7\n["z", 2]\n["w", ')
        names = Names(self.place("names"))
        self.assertEqual(names.fields, {"x": 1, "z": 2})
        names.add("w", 3)
        self.assertEqual(Names(self.place("names")).fields, {"x": 1, "z": 2, "w": 3})

    def test_by_text(self) -> None:
        cells = self.opened()
        ids = [cells.field(text, "", False).id for text in ("a", "show", "b", "show")]
        self.assertEqual(len(set(ids)), 3)  # the second "show" is the same cell, for all that is known
        cells = self.reopened(cells)
        self.assertEqual([cells.field(text, "", False).id for text in ("a", "show", "b")], ids[:3])
        self.assertEqual(cells.field("a", "", False).id, ids[0])
        self.assertEqual(cells.field("changed", "", False).id, 4)
        self.assertEqual(self.inputs(cells), ["a", "changed", "show", "b"])  # nothing was overwritten

    def reopened(self, cells: Cells) -> Cells:
        cells.worksheet.close()
        return self.opened()

    def test_in_order(self) -> None:
        cells = self.opened()
        texts = ["a", "show", "b", "show"]
        self.assertEqual([cells.field(text, "", True).id for text in texts], [1, 2, 3, 4])
        cells = self.reopened(cells)
        self.assertEqual([cells.field(text, "", True).id for text in ["a", "show", "changed", "show", "more"]], [1, 2, 3, 4, 5])
        self.assertEqual(self.inputs(cells), ["a", "show", "changed", "show", "more"])

    def test_fields_of_other_sessions(self) -> None:
        cells = self.opened()
        cells.worksheet.session("b", INTERPRETER)
        cells.worksheet.new("b", "mine")
        self.assertEqual([cells.field(text, "", True).input for text in ("one", "two")], ["one", "two"])
        self.assertEqual([(field.session, field.input) for field in cells.worksheet.fields], [("b", "mine"), ("a", "one"), ("a", "two")])
        self.assertEqual(cells.field("mine", "", False).session, "a")

    def test_a_name_whose_field_is_gone(self) -> None:
        cells = self.opened()
        cells.field("one", "x", False)
        cells.worksheet.remove(1)
        cells = self.reopened(cells)
        self.assertEqual(cells.field("one", "x", False).id, 2)
        with open(self.place("sheet.cells"), encoding="utf-8") as file:
            self.assertEqual([json.loads(line) for line in file], [["x", 1], ["x", 2]])
