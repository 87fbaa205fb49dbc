"""What a script over a worksheet may tell and leave, by docs/use/SCRIPT.md: a model apart from the program's own text.

A `Model` follows what a run of a script wrote, line by line, and then knows which worksheets may be on the disk: that
after all that was said, and those to which the line that was being done may have led.
"""

from __future__ import annotations

import itertools
import random
from collections.abc import Callable, Iterable, Sequence

# What a field shows: the prompt, and the output as it is printed.
Answer = tuple[str, str]
# What waits: the field, the input, and whether it is a completion.
Item = tuple[int, str, bool]


class Kind:
    """An interpreter: its text for the shell, how many lines it answers before it ends in the middle of a block (None: all), the
    prompt and the printed output of its answer to a line, after so many, and what is said of a completion."""

    def __init__(self, shell: str, most: int | None = None, answer: Callable[[int, str], Answer] = lambda count, given: ("> ", given), completed: str = "bad") -> None:
        self.shell, self.most, self.answer, self.completed = shell, most, answer, completed


BANNER = "printf '\\002verbatim:\\005'\n"

KINDS = {
    # Answers each line with the line itself.
    "echo": Kind(BANNER + "while IFS= read -r l; do printf '\\002verbatim:%s\\005' \"$l\"; done\n"),
    # The same of three lines, and then half a block.
    "mortal": Kind(
        BANNER + "for n in 1 2 3; do IFS= read -r l || exit; printf '\\002verbatim:%s\\005' \"$l\"; done\n"
        "IFS= read -r l; printf '\\002verbatim:hal'\n",
        most=3,
    ),
    # Its blocks have the line at both ends, and lie on several pages of a file.
    "long": Kind(
        "z=$(printf %03000d 0)\n" + BANNER + "while IFS= read -r l; do printf '\\002verbatim:%s%s%s\\005' \"$l\" \"$z\" \"$l\"; done\n",
        answer=lambda count, given: ("> ", given + "0" * 3000 + given),
    ),
    # Its prompts stand in its blocks.
    "prompts": Kind(
        "printf '\\002verbatim:Hello\\002prompt#Input 1] \\005\\005'\nn=1\n"
        "while IFS= read -r l; do n=$((n + 1)); printf '\\002verbatim:\\002latex:$%s$\\005\\002prompt#Input %s] \\005\\005' \"$l\" $n; done\n",
        answer=lambda count, given: (f"Input {count + 1}] ", "{latex:$" + given + "$}"),
    ),
    # A second block after the first answer, which is dropped.
    "twice": Kind(
        BANNER + "IFS= read -r l; printf '\\002verbatim:A\\005\\002verbatim:B\\005'\n"
        "while IFS= read -r l; do printf '\\002verbatim:C\\005'; done\n",
        answer=lambda count, given: ("> ", "C" if count else "A"),
    ),
    # It answers each line, and each request, with the same completions.
    "completes": Kind(
        BANNER + "while IFS= read -r l; do printf '\\002scheme:(tuple \"h\" \"ello\" \"i there\" \"ola\" \"opsakee\")\\005'; done\n",
        completed='"h" "ello" "i there" "ola" "opsakee"',
    ),
}

REFUSALS = {
    1: "NoSession",
    2: "NoField",
    3: "InFlight",
    4: "SessionExists",
    5: "BadName",
    6: "BadWords",
    7: "BadInput",
    8: "SamePlace",
    12: "NoTab",
    13: "BadCursor",
    17: "OutOfMemory",
}


class Difference(Exception):
    """The program said or left what the model doesn't allow."""


def refused(number: int) -> str:
    return f"refused {number} {REFUSALS[number]}"


class Session:
    def __init__(self, kind: str, tab: bool) -> None:
        self.kind, self.tab = KINDS[kind], tab
        self.is_up = False  # whether a life goes on
        self.has_banner = False
        self.count = 0  # how many items this life has answered
        self.waiting: list[Item] = []


class Model:
    def __init__(self, kinds: dict[str, str]) -> None:
        self.kinds = kinds  # the kind of an interpreter by the words that start it
        self.sessions: dict[str, Session] = {}
        self.order, self.next_id = list[int](), 1
        self.fields: dict[int, tuple[str, str, Answer | None]] = {}  # the session, the input, and the answer that is shown

    # What is printed of a worksheet whose further answers are these.
    def printed(self, more: Iterable[tuple[int, Answer]] = ()) -> str:
        further: dict[int, Answer | None] = dict(more)
        lines = []
        for id in self.order:
            session, given, answer = self.fields[id]
            prompt, output = further.get(id, answer) or ("> ", "?")
            lines += [f"#{id} {session}", prompt + given, output]
        return "".join(line + "\n" for line in lines)

    def show(self, id: int, answer: Answer | None) -> None:
        session, given, _ = self.fields[id]
        self.fields[id] = session, given, answer

    def in_flight(self, id: int) -> bool:
        return any((id, False) == (at, completes) for s in self.sessions.values() for at, _, completes in s.waiting)

    # The first refusal of a command, or None.
    def refusal(self, verb: str, words: list[str]) -> int | None:
        field: Callable[[str], bool] = lambda word: int(word) in self.fields
        if verb == "session":
            name, flag, *rest = words
            return 5 if not name.isalnum() else 4 if name in self.sessions else 6 if not any(rest) else None
        if verb == "new":
            after, name, text = words
            return 1 if name not in self.sessions else 2 if after != "0" and not field(after) else self.bad_input(text)
        if verb == "checkpoint":
            return None
        if verb == "stop":
            return None if words[0] in self.sessions else 1
        if not field(words[0]):
            return 2
        if verb == "complete":
            return self.bad_request(int(words[0]), int(words[1]), *words[2:])
        if verb == "move":
            return self.bad_place(int(words[0]), int(words[1]))
        return 3 if self.in_flight(int(words[0])) else self.bad_input(words[1]) if verb == "set" else None

    def bad_input(self, text: str) -> int | None:
        return 7 if "\x10" in text or len(text.encode()) > 4095 else None

    # A request without a text of its own asks for the input of its field.
    def bad_request(self, id: int, cursor: int, text: str | None = None) -> int | None:
        session, given, _ = self.fields[id]
        if not self.sessions[session].tab:
            return 12
        text = given if text is None else text
        fronts = [len(text[:n].encode()) for n in range(len(text) + 1)]
        return self.bad_input(text) or (None if cursor in fronts else 13)

    def bad_place(self, id: int, after: int) -> int | None:
        if after and after not in self.fields:
            return 2
        at = self.order.index(id)
        return 8 if after == id or after == (self.order[at - 1] if at else 0) else None

    # Puts a field directly after another one, first for 0.
    def put(self, id: int, after: int) -> None:
        self.order.insert(self.order.index(after) + 1 if after else 0, id)

    # Does a command that isn't refused, and gives what is reported of it.
    def do(self, verb: str, words: list[str]) -> list[str]:
        if verb == "session":
            # One whose words are no interpreter is made where the session of that name was refused for lack of memory. It can't be started.
            self.sessions[words[0]] = Session(self.kinds.get(" ".join(words[2:]), "echo"), words[1] == "tab")
        elif verb == "new":
            id, self.next_id = self.next_id, self.next_id + 1
            self.fields[id] = words[1], words[2], None
            self.put(id, int(words[0]))
            return [f"field {id}"]
        elif verb == "stop":
            session, ended = self.sessions[words[0]], f"ended {words[0]} Stopped lost "
            if session.is_up:
                return [ended + str(self.end(session, "Stopped"))]
        elif verb != "checkpoint":
            return self.change(verb, int(words[0]), words)
        return ["ok"]

    def change(self, verb: str, id: int, words: list[str]) -> list[str]:
        session, _, _ = self.fields[id]
        if verb == "set":
            self.fields[id] = session, words[1], None
        elif verb == "clear":
            self.show(id, None)
        elif verb == "remove":
            self.order.remove(id)
            del self.fields[id]
        elif verb == "move":
            self.order.remove(id)
            self.put(id, int(words[1]))
        else:
            self.ask(self.sessions[session], id, verb == "complete")
            return ["asked"]
        return ["ok"]

    def ask(self, session: Session, id: int, completes: bool) -> None:
        if not session.is_up:
            session.is_up, session.has_banner, session.count = True, False, 0
        if not completes:
            self.show(id, None)
        session.waiting.append((id, self.fields[id][1], completes))

    # Ends a life, and gives how many items were lost. The first, where it is a line, keeps the reason.
    def end(self, session: Session, reason: str) -> int:
        lost = len(session.waiting)
        for id, shown in self.reasons(session.waiting, reason):
            self.show(id, shown)
        session.is_up, session.waiting = False, []
        return lost

    # What the end of a life shows that leaves these items: of the first alone, and only of a line.
    def reasons(self, items: list[Item], reason: str) -> list[tuple[int, Answer]]:
        return [(id, ("> ", f"? {reason}")) for id, _, completes in items[:1] if not completes]

    # The items of a session that its interpreter answers in a wait.
    def answered(self, session: Session) -> list[Item]:
        most = session.kind.most
        return session.waiting if most is None else session.waiting[: most - session.count]

    # The answers of these items, by their fields: of lines alone.
    def answers(self, session: Session, items: list[Item]) -> list[tuple[int, Answer]]:
        counted = enumerate(items, session.count)
        return [(id, session.kind.answer(count, given)) for count, (id, given, completes) in counted if not completes]

    # What is reported of a session in a wait, in order.
    def told_in_wait(self, name: str, session: Session) -> list[str]:
        told = [] if session.has_banner else [f"banner {name}"]
        answered = self.answered(session)
        completed = session.kind.completed
        told += [f"completed {id} {completed}" if completes else f"answered {id}" for id, _, completes in answered]
        rest = len(session.waiting) - len(answered)
        return told + [f"ended {name} Ended lost {rest}"] * (rest > 0)

    # Which worksheets a wait that reported so much may have led to: of each session some of its first lines are answered.
    def sheets_in_wait(self, told: list[str]) -> set[str]:
        fronts: list[list[list[tuple[int, Answer]]]] = []
        for session in self.sessions.values():
            answered = self.answered(session)
            lines = self.answers(session, answered)
            least = sum(f"answered {id}" in told for id, _ in lines)
            lines += self.reasons(session.waiting[len(answered) :], "Ended")
            fronts.append([lines[:n] for n in range(least, len(lines) + 1)])
        return {self.printed(itertools.chain(*chosen)) for chosen in itertools.product(*fronts)}

    def wait(self) -> None:
        for session in self.sessions.values():
            if not session.waiting:
                continue
            answered = self.answered(session)
            for id, answer in self.answers(session, answered):
                self.show(id, answer)
            session.has_banner, session.count = True, session.count + len(answered)
            session.waiting = session.waiting[len(answered) :]
            if session.waiting:
                self.end(session, "Ended")


EDITS = {"session", "new", "set", "remove", "move", "clear"}
VERBS = EDITS | {"eval", "complete", "stop", "checkpoint"}


def words_of(line: str) -> tuple[str, list[str]]:
    """The verb and the words of a line that `scripts` makes."""
    verb, _, rest = line.partition(" ")
    parts = {"session": 2, "new": 2, "set": 1, "move": 1, "complete": 2}.get(verb, 0)
    words = rest.split(" ", parts)
    return verb, words + [""] * (parts + 1 - len(words)) if verb in ("new", "set") else words


class Followed:
    """How far a run came by what it wrote: the worksheets that may be on the disk, and whether it is at its end."""

    def __init__(self, sheets: set[str], is_whole: bool, refusals: int) -> None:
        self.sheets, self.is_whole, self.refusals = sheets, is_whole, refusals


def waited(model: Model, told: list[str], number: int) -> bool:
    """Whether all that a `wait` says was said, which is taken away then."""
    wanted = [model.told_in_wait(*item) for item in model.sessions.items() if item[1].waiting]
    count = sum(map(len, wanted))
    merge(wanted, told[:count], number)
    if len(told) < count:
        return False
    model.wait()
    del told[:count]
    return True


def follow(script: Sequence[str], output: Iterable[str], kinds: dict[str, str], memory: bool = False) -> Followed:
    """Follows a run of the script by the lines that it wrote. With `memory` a command may be refused for want of it, and a
    start too."""
    model, told, refusals = Model(kinds), list(output), 0
    for number, line in enumerate(script, 1):
        verb, words = words_of(line)
        before = model.printed()
        if line == "" or line.startswith("#"):
            continue
        if verb == "wait":
            if not waited(model, told, number):
                return Followed(model.sheets_in_wait(told), False, refusals)
            continue
        if verb == "print":
            wanted = before.splitlines()
        elif verb not in VERBS:
            wanted = [f"bad line {number}"]
        else:
            refusal = model.refusal(verb, words)
            if memory and refusal is None and told[:1] == [refused(17)]:
                refusals += 1
                del told[0]
                continue
            wanted = [refused(refusal)] if refusal else model.do(verb, words)
        if len(told) < len(wanted):
            if told != wanted[: len(told)]:
                raise Difference(f"line {number}, {line!r}: told {told}, wanted {wanted}")
            return Followed(sheets_in_group(model, before, script[:number], script[number:], memory), False, refusals)
        if told[: len(wanted)] != wanted:
            raise Difference(f"line {number}, {line!r}: told {told[: len(wanted)]}, wanted {wanted}")
        del told[: len(wanted)]
        if memory and verb in ("eval", "complete"):
            refusals += start_refused(model, words, told)
    if told:
        raise Difference(f"said after the end: {told}")
    return Followed({model.printed()}, True, refusals)


def is_skipped(line: str) -> bool:
    return line == "" or line.startswith("#")


# What the worksheet may be where a run said nothing of the last of these lines, after which the model stands: without it, or with it.
# Commands one after another that only change the worksheet are a group, of which all is there or nothing, and all where a reply of it
# was said, unless memory was refused for the line after it. (A script has fewer than a group may have.)
def sheets_in_group(model: Model, before: str, done: Sequence[str], later: Sequence[str], memory: bool) -> set[str]:
    commands = [line for line in done if not is_skipped(line)]
    if words_of(commands[-1])[0] not in EDITS:
        return {before, model.printed()}
    for line in later:
        verb, words = words_of(line)
        if not is_skipped(line) and verb not in EDITS:
            break
        if not is_skipped(line) and not model.refusal(verb, words):
            model.do(verb, words)
    is_told = len(commands) > 1 and words_of(commands[-2])[0] in EDITS
    return {model.printed()} if is_told and not memory else {before, model.printed()}


# A start for which there was no memory ends its life at once.
def start_refused(model: Model, words: list[str], told: list[str]) -> int:
    name = model.fields[int(words[0])][0] if int(words[0]) in model.fields else None
    if name is None or told[:1] != [f"ended {name} StartRefused lost 1"]:
        return 0
    model.end(model.sessions[name], "StartRefused")
    del told[0]
    return 1


# What was reported of a wait so far must be the first of what is reported of each session, merged in some way.
def merge(wanted: list[list[str]], told: list[str], number: int) -> None:
    names = {line: n for n, lines in enumerate(wanted) for line in lines}
    parts: list[list[str]] = [[] for _ in wanted]
    for line in told:
        if line in names:
            parts[names[line]].append(line)
    if sum(map(len, parts)) < len(told) or any(lines[: len(part)] != part for lines, part in zip(wanted, parts)):
        raise Difference(f"line {number}, a wait: told {told}, wanted {wanted}")


def scripts(rng: random.Random, length: int, kinds: dict[str, str], completes: bool) -> list[str]:
    """A script of random lines of all commands over several sessions. `kinds` has the words of each interpreter."""
    names = ["a", "b", "c"]
    words = [words for words, kind in kinds.items() if kind in ("echo", "mortal")]
    lines = [f"session {name} {rng.choice(['plain', 'tab'])} {rng.choice(words)}" for name in names]
    lines += [f"new 0 {name} first of {name}" for name in names]
    made = len(names)
    for _ in range(length):
        some: Callable[[], int] = lambda: rng.randint(0 if rng.random() < 0.05 else 1, made + (rng.random() < 0.05))
        after = rng.choice([0, some()])
        text = "".join(rng.choices("abcxyz 0123456789+-*/=()[]{}?#\\\"\t", k=rng.randint(0, 12))).replace("\t", "t")
        text += rng.choice(["", "é", "∑", "x" * rng.randint(1, 300)])
        kind = rng.random()
        if kind < 0.25:
            made += 1
            lines.append(f"new {after} {rng.choice(names)} {text}")
        elif kind < 0.5:
            lines.append(f"eval {some()}")
        elif kind < 0.65:
            lines.append("wait")
        else:
            lines.append(
                rng.choice(
                    [f"set {some()} {text}", f"clear {some()}", f"move {some()} {after}", f"stop {rng.choice(names)}"]
                    + [f"remove {some()}", "# remark", "", "print", "no command", "stop nobody", f"set {some()} \x10"]
                    + ["checkpoint"] * 2
                    + [f"complete {some()} {rng.randint(0, 3)}", f"complete {some()} {rng.randint(0, 3)} {text}"] * completes
                    + [f"complete {some()} 0 \x10"] * completes
                    + [f"session {rng.choice(names)} plain p"] * (rng.random() < 0.2)
                )
            )
    return lines + ["wait", "print"]
