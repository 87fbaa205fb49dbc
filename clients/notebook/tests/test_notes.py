"""What is known beside the worksheet: which answers are stale, which cell is evaluated; and how answers are cut for a page."""

import os
import random
import sys
import unittest
from typing import Any, Dict, List, Optional, Set, Tuple, Union

import harness

sys.path[:0] = [harness.NOTEBOOK, harness.REPOSITORY + "/clients/python"]

from tmhost import Answer, Answered, Block, Completed, Done, Ended, Field, LostItem  # noqa: E402

from tmhost_notebook import places, prose, shown  # noqa: E402
from tmhost_notebook.notes import Notes  # noqa: E402
from tmhost_notebook.places import Places  # noqa: E402

ANSWER = Answer("> ", Block("verbatim", "format", ("x",)), "x")


def cell(id: int, input: str, session: str = "a", state: str = "answered") -> Field:
    return Field(id, session, input, state, ANSWER if state == "answered" else None)


class Stale(unittest.TestCase):
    def setUp(self) -> None:
        self.fields = [cell(1, "x"), cell(2, "y"), cell(3, "z", "b"), cell(4, "w")]
        self.places = Places(self.fields)

    def stale(self) -> Set[int]:
        return {id for id in self.places.ids if self.places.is_stale(id)}

    def edited(self, id: int, input: str, session: str = "a") -> Set[int]:
        """A cell gets another text, which takes its answer away."""
        return self.places.know(cell(id, input, session, "empty"), None)

    def evaluated(self, id: int, input: str, session: str = "a") -> Set[int]:
        chain = self.places.chain(id)
        return self.places.know(cell(id, input, session, "waiting"), None) | self.places.know(cell(id, input, session), chain)

    def test_nothing_changed(self) -> None:
        self.assertEqual(self.stale(), set())

    def test_a_change_above_in_its_session_alone(self) -> None:
        self.assertEqual((self.edited(1, "x"), self.stale()), ({1}, set()))
        self.assertEqual((self.edited(1, "changed"), self.stale()), ({2, 4}, {2, 4}))
        self.assertEqual((self.edited(3, "changed", "b"), self.stale()), ({3}, {2, 4}))

    def test_moved_made_and_removed(self) -> None:
        self.places.move(2, 0)
        self.assertEqual((self.places.ids, self.stale()), ([2, 1, 3, 4], {1, 2, 4}))
        self.places.move(2, 3)
        self.assertEqual((self.places.ids, self.stale()), ([1, 3, 2, 4], set()))
        self.places.put(cell(5, "new", state="empty"), 4)
        self.assertEqual(self.stale(), set())
        self.places.put(cell(6, "new", state="empty"), 1)
        self.assertEqual((self.places.ids, self.stale()), ([1, 6, 3, 2, 4, 5], {2, 4}))
        self.places.drop(6)
        self.assertEqual(self.stale(), set())
        self.places.drop(2)
        self.assertEqual(self.stale(), {4})

    def test_a_change_that_is_taken_back_or_evaluated(self) -> None:
        self.edited(1, "changed")
        self.evaluated(1, "changed")
        self.assertEqual(self.stale(), {2, 4})
        self.evaluated(2, "y")
        self.evaluated(4, "w")
        self.assertEqual(self.stale(), set())
        self.edited(1, "x")
        self.assertEqual(self.stale(), {2, 4})
        self.edited(1, "changed")
        self.assertEqual(self.stale(), set())

    def test_answers_that_were_there_at_the_opening(self) -> None:
        one, two, three, four = self.fields
        for fields, stale in (
            ([one, cell(2, "y", state="lost"), three, four], {4}),
            ([cell(1, "  ", state="empty"), two, three, four], set()),
            ([cell(1, "x", "prose", "empty"), two, three, four], set()),
        ):
            self.places = Places(fields)
            self.assertEqual(self.stale(), stale)

    def test_it_stays_so_when_the_cell_above_is_evaluated(self) -> None:
        self.places = Places([self.fields[0], cell(2, "y", state="lost"), *self.fields[2:]])
        self.evaluated(2, "y")
        self.assertEqual(self.stale(), {4})
        self.evaluated(4, "w")
        self.assertEqual(self.stale(), set())


class Model:
    """The same by comparing whole rows of inputs."""

    def __init__(self, fields: List[Field]) -> None:
        self.fields = fields
        self.asked: Dict[int, Optional[Tuple[str, ...]]] = {}
        unanswered: Set[str] = set()
        for field in fields:
            if field.state != "answered" and field.input.strip():
                unanswered.add(field.session)
            self.asked[field.id] = None if field.session in unanswered else self.row(field.id)

    def row(self, id: int) -> Tuple[str, ...]:
        place = self.ids.index(id)
        return tuple(field.input for field in self.fields[: place + 1] if field.session == self.fields[place].session)

    @property
    def ids(self) -> List[int]:
        return [field.id for field in self.fields]

    @property
    def stale(self) -> Set[int]:
        return {field.id for field in self.fields if field.state == "answered" and self.asked[field.id] != self.row(field.id)}


class ManyPlaces(unittest.TestCase):
    """Random changes of worksheets of some blocks: order and stale answers are those of the model, and who became stale or fresh is reported."""

    def setUp(self) -> None:
        self.seed = int(os.environ.get("TMHOST_SEED", str(random.randrange(10**6))))
        self.random = random.Random(self.seed)
        kept, places.LONGEST = places.LONGEST, 8
        self.addCleanup(setattr, places, "LONGEST", kept)

    def field(self, id: int, is_answered: bool) -> Field:
        return cell(id, self.random.choice(["x", "y", "z", ""]), self.random.choice("ab"), "answered" if is_answered else "empty")

    def begin(self) -> None:
        self.count = self.random.randrange(40)
        self.model = Model([self.field(id, self.random.random() < 0.7) for id in range(1, self.count + 1)])
        self.places = Places(self.model.fields)

    def test_they_agree_with_the_model(self) -> None:
        for _ in range(60):
            self.begin()
            known = self.model.stale
            for _ in range(50):
                id, touched = self.change()
                now = self.model.stale
                said = f"seed {self.seed}"
                self.assertEqual((self.places.ids, {one for one in self.places.ids if self.places.is_stale(one)}), (self.model.ids, now), said)
                self.assertLessEqual((now ^ known) & set(self.model.ids) - {id}, touched, said)
                self.assertEqual([self.places.before(one) for one in self.model.ids], [0, *self.model.ids][: len(self.model.ids)], said)
                known = now

    def change(self) -> Tuple[int, Set[int]]:
        """A random change of one cell. Gives its number, and what was reported of it."""
        does = self.random.choice([self.put, self.edit, self.evaluate, self.evaluate, self.move, self.drop])
        return does() if self.model.fields else self.put()

    def put(self) -> Tuple[int, Set[int]]:
        self.count += 1
        field, after = self.field(self.count, False), self.some_place()
        self.model.fields.insert(after, field)
        self.model.asked[field.id] = None
        return field.id, self.places.put(field, self.in_front(after))

    def some_place(self) -> int:
        return self.random.randrange(len(self.model.fields) + 1)

    def in_front(self, place: int) -> int:
        return self.model.ids[place - 1] if place else 0

    def some(self) -> Tuple[int, Field]:
        place = self.random.randrange(len(self.model.fields))
        return place, self.model.fields[place]

    def edit(self) -> Tuple[int, Set[int]]:
        place, field = self.some()
        self.model.fields[place] = cell(field.id, self.random.choice(["x", "y", "z"]), field.session, "empty")
        return field.id, self.places.know(self.model.fields[place], None)

    def evaluate(self) -> Tuple[int, Set[int]]:
        place, field = self.some()
        self.model.fields[place] = cell(field.id, field.input, field.session)
        self.model.asked[field.id] = self.model.row(field.id)
        return field.id, self.places.know(self.model.fields[place], self.places.chain(field.id))

    def move(self) -> Tuple[int, Set[int]]:
        place, field = self.some()
        del self.model.fields[place]
        to = self.some_place()
        after = self.in_front(to)
        self.model.fields.insert(to, field)
        return field.id, self.places.move(field.id, after)

    def drop(self) -> Tuple[int, Set[int]]:
        place, field = self.some()
        del self.model.fields[place]
        return field.id, self.places.drop(field.id)


class Running(unittest.TestCase):
    def test_the_first_of_a_row_runs(self) -> None:
        notes = Notes()
        for id in (1, 2):
            notes.ask(id, 0)
            notes.take(Done("eval", id, None), "a")
        self.assertEqual([notes.of[id].since is not None for id in (1, 2)], [True, False])
        notes.take(Answered("a", 1, 1, ANSWER), None)
        self.assertEqual([notes.of[id].since is not None for id in (1, 2)], [False, True])
        notes.take(Ended("a", 1, "Ended", (LostItem(2, "y"),)), None)
        self.assertIsNone(notes.of[2].since)

    def test_a_request_of_completions_runs_first(self) -> None:
        notes = Notes()
        notes.take(Done("complete", 1, None), "a")
        notes.ask(2, 0)
        notes.take(Done("eval", 2, None), "a")
        self.assertIsNone(notes.of[2].since)
        notes.take(Completed("a", 1, 1, None), None)
        self.assertIsNotNone(notes.of[2].since)


class Shown(unittest.TestCase):
    def facts(self, *items: Union[str, bytes, Block], tag: str = "verbatim") -> List[shown.Part]:
        parts: List[shown.Part] = shown.facts_of(Answer("> ", Block(tag, "format", items), "text"))["parts"]
        return parts

    def test_texts_and_formulas(self) -> None:
        formula = Block("latex", "format", ("$x$",))
        self.assertEqual(self.facts("a ", formula, "b", "c"), [{"text": "a "}, {"tex": "$x$"}, {"text": "bc"}])
        self.assertEqual(self.facts("$x$", tag="latex"), [{"tex": "$x$"}])
        self.assertEqual(self.facts(b"\xff", tag="latex"), [{"text": "{latex:\\xff}"}])
        self.assertEqual(self.facts("a", formula, tag="latex"), [{"text": "{latex:a"}, {"tex": "$x$"}, {"text": "}"}])
        self.assertEqual(self.facts("<b>", tag="html"), [{"text": "{html:<b>}"}])
        self.assertEqual(self.facts(Block("warning", "channel", ("w",))), [{"text": "{warning#w}"}])
        self.assertEqual(self.facts(), [])

    def test_a_long_answer_is_cut(self) -> None:
        text = "x" * (shown.LONGEST + 5)
        facts = shown.facts_of(Answer("> ", Block("verbatim", "format", (text,)), text))
        self.assertEqual((len(facts["text"]), facts["isCut"], facts["length"]), (shown.LONGEST, True, shown.LONGEST + 5))
        self.assertEqual(sum(len(part["text"]) for part in facts["parts"]), shown.LONGEST)
        self.assertEqual(shown.piece_of(Answer("> ", Block("verbatim", "format", (text,)), text), shown.LONGEST)["text"], "xxxxx")

    def test_long_formulas(self) -> None:
        """They aren't counted with the texts of an answer, but all of its long ones together. What is more is text."""
        def formula(length: int) -> str:
            return "$" + "x" * (length - 2) + "$"

        def facts(*lengths: int, text: str = "so") -> Tuple[List[Any], bool, int]:
            items = [Block("latex", "format", (formula(length),)) for length in lengths]
            block = Block("verbatim", "format", (text, *items))
            reported = shown.facts_of(Answer("> ", block, shown.text_of(block, {})))
            return [*(len(part["tex"]) if "tex" in part else "text" for part in reported["parts"])], reported["isCut"], reported["unset"]

        most, one = shown.LONGEST_FORMULAS, shown.LONG_FORMULA
        self.assertEqual(facts(3), (["text", 3], False, 0))
        self.assertEqual(facts(one, one + 1, most - one - 1), (["text", one, one + 1, most - one - 1], False, 0))
        self.assertEqual(facts(most), (["text", most], False, 0))
        self.assertEqual(facts(most + 1), (["text"], True, most + 1))
        self.assertEqual(facts(most - 10, one + 1), (["text", most - 10, "text"], False, one + 1))
        self.assertEqual(facts(most - 10, one + 1, 3), (["text", most - 10, "text", 3], False, one + 1))
        self.assertEqual(facts(most, text="x" * (shown.LONGEST + 1)), (["text"], True, 0))
        self.assertEqual(facts(*[one] * 5), (["text", one, one, one, "text"], True, one))
        tex = formula(one + 1)
        reported = shown.facts_of(Answer("> ", Block("latex", "format", (tex,)), "{latex:" + tex + "}"))
        self.assertEqual((reported["text"], reported["length"]), ("{latex:" + tex + "}", one + 9))


class Prose(unittest.TestCase):
    def test_its_name(self) -> None:
        self.assertEqual(prose.free_name(["a"]), "prose")
        self.assertEqual(prose.free_name(["prose", "prose-2"]), "prose-3")


if __name__ == "__main__":
    unittest.main()
