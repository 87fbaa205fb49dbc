"""What .ci/causes judges: each place that gives a failure has to follow one, and so has each None that stands for one.

Not seen is a None that a call of KIT gives, or that is an argument of a function.
"""

from __future__ import annotations

import re
from collections import Counter, defaultdict
from typing import NamedTuple, Optional

from causes_forms import Failure, failure_around, is_made
from causes_source import PLAIN, Function, Source, words_in
from causes_words import CAUSES, KIT, NONES, SAYING, WORDS, kind_of

# A reason's key: a file, a function, and the call or what else is asked there.
Key = tuple[str, str, str]
WORD = re.compile(rf"\b(?:{'|'.join(sorted(WORDS))})\b")
RENAMED = re.compile(r"\b(\w+) as (\w+)")
# All of a body: calls, each with `.is_ok()`, joined by `&&`.
WENT_WELL = re.compile(r"\s*(?:[\w.]+!?\([^()]*\)\.is_ok\(\)\s*(?:&&\s*|$))+")
# What hands a None out, or may: the word, a `?`, and a call that is no method.
HANDS_OUT = re.compile(r"\bNone\b|\?|(?<![.\w])(?:\w+::)?\w+\(")
# What follows a call whose answer isn't handed out whole.
TAKEN_APART = re.compile(r"\s*(?:\{|else\b|[?.])")
# A call at the end of a text: the type in front, the name, and the sign of a macro.
CALL = re.compile(r"(?:\b(\w+)\s*::\s*)?\b(\w+)(?:::<[^()]*>)?(!?)\s*[(\[][^()\[\]]*[)\]]$")
INNER_CALL = re.compile(r"(\w+)!?\(")


class Question(NamedTuple):
    """What is asked of a call: whether its "Err", or its "None", is there for this kind of failure alone. With the
    function in which it stands, and the place that asks."""

    wants: str
    kind: str
    function: Function
    here: str


class NoneOf(NamedTuple):
    """A function whose None is a failure of this kind, by what `why` says."""

    function: Function
    kind: str
    why: str


class Finding(NamedTuple):
    """What is refused: "place", "none", "bool", "import" or "stale"; the line; and of a place its key for a reason."""

    of: str
    line: str
    key: Optional[Key] = None


def gives_wanted(gives: str, wants: str) -> bool:
    """Whether a type has what is wanted: a Result for its Err, and else an Option."""
    return "Result<" in gives if wants == "Err" else gives.startswith("Option<")


def fails_for(gives: str, kind: str) -> bool:
    """Whether the Err of a Result is this kind of failure, by the last argument of its type."""
    return bool(CAUSES[kind] & words_in(gives.rpartition(",")[2])) or (kind, gives) == ("output", "io::Result<()>")


class Check:
    """What is found in files: `findings`, how many places have each form, and which reasons were needed."""

    def __init__(self, sources: list[Source], reasons: dict[Key, str]) -> None:
        """Reads all files: first each word of a failure, then each None that stands for one, then each bool."""
        self.functions: dict[str, list[Function]] = defaultdict(list)
        self.forms: Counter[str] = Counter()
        self.reasons, self.used = reasons, set[Key]()
        for function in (it for source in sources for it in source.functions):
            self.functions[function.name].append(function)
        self.nones = [NoneOf(it, "memory", "NONES") for name in NONES for it in self.named(name)]
        self.renamed = {new: old for it in sources for old, new in RENAMED.findall(it.uses)}
        self.findings: list[Finding] = []
        self.look_at_imports()
        for source in sources:
            for it in WORD.finditer(source.code):
                self.look_at(source, it, kind_of(it[0]), "")
        for none in self.nones:  # which grows meanwhile
            self.look_into(none)
        for function in (it for name in sorted(KIT["memory"]) for it in self.named(name) if it.gives == "bool"):
            self.look_at_bool(function)

    def named(self, name: str) -> list[Function]:
        """The functions of a name, in all crates."""
        return self.functions.get(name, [])

    def refuse(self, of: str, line: str, key: Optional[Key] = None) -> None:
        """Keeps what is wrong."""
        self.findings.append(Finding(of, line, key))

    def look_at_imports(self) -> None:
        """Reads the names that imports give: a word of a failure keeps its name, or becomes another such word."""
        for new, old in self.renamed.items():
            if old in WORDS and new not in WORDS:
                self.refuse("import", f"an import gives {old} the name {new}")

    def look_at_bool(self, function: Function) -> None:
        """Reads the body of a function that has the name of a call of KIT and answers with a bool. It has to say
        whether calls of its own went well, and only those of SAYING may."""
        body = function.file.body(function)
        if function.name not in SAYING or not WENT_WELL.fullmatch(body):
            what = f"{function.name} answers with a bool, and not whether calls went well: {' '.join(body.split())}"
            self.refuse("bool", f"{function.file.place(function.opened)}: {what}")

    def look_into(self, none: NoneOf) -> None:
        """Reads the body of a function whose None is a failure: each None is a place, each `?` needs a call that gives
        one, and a function whose answer is handed on is asked too."""
        function, kind, why = none.function, none.kind, f"; None is a failure at {none.why}"
        file = function.file
        for it in HANDS_OUT.finditer(file.code, function.opened, file.pair[function.opened]):
            question = Question("None", kind, function, file.place(it.start()))
            if it[0] == "None":
                if not file.is_given(it.start()):
                    self.look_at(file, it, kind, why)
            elif it[0] == "?":
                if not self.gives(file.front(it.start())[1], question):
                    self.refuse("none", f"{question.here}: {function.name} hands a None on, and no call failed{why}")
            elif not TAKEN_APART.match(file.code, file.pair[it.end() - 1] + 1):
                self.gives(it[0] + ")", question)

    def look_at(self, file: Source, it: re.Match[str], kind: str, why: str) -> None:
        """Reads whether a failure is made at a word, and whether it follows one: goes out from bracket to bracket, up
        to the function's own, until one is for a failure. Where none is, a reason has to stand there."""
        if not is_made(file, it.start(), it.end()):
            return
        function, here, at, said = file.within(it.start()), file.place(it.start()), it.start(), ""
        form = "from" if self.turns_into_one(function, kind) else ""
        while not form and at not in (function.opened, -1):
            around = failure_around(file, at, kind)
            said, at = said or self.key_of(around), file.front(at)[0]
            follows = not around.call or self.gives(around.call, Question(around.wants, kind, function, here))
            form = around.form if follows else ""
        self.forms[form or "row"] += 1
        key = (file.path, function.name, said)
        if not form:
            self.used.add(key)
        if not form and key not in self.reasons:
            self.refuse("place", f"{here}: {function.name} gives {it[0]}, and no call failed: {said}{why}", key)

    @staticmethod
    def turns_into_one(function: Function, kind: str) -> bool:
        """Whether a function is there to make a failure: it has the name of one, or is a `from` that takes one."""
        is_from = function.name == "from" and bool(CAUSES[kind] & words_in(function.takes))
        return function.name in WORDS or is_from

    @staticmethod
    def key_of(around: Failure) -> str:
        """What a reason's key says of a place: the call where the form is known, and else what is asked."""
        said = re.split(r"[;=]", around.call)[-1] if around.form else around.asked
        return " ".join(said.translate(PLAIN).split())

    def gives(self, call: str, question: Question) -> Optional[bool]:
        """Whether a call, or a value, gives what is wanted for this kind of failure alone; None where that isn't known.
        Reads the end of a text: a call, a function's argument, a name that a `let` has, or a block."""
        call = call.strip().rstrip("?")
        if it := CALL.search(call):
            return self.called_gives(it[1] or "", it[2], bool(it[3]), question)
        name, function = re.findall(r"\w*$", call)[0], question.function
        typed = function.file.type_of(function, name) if name else None
        if typed is not None:
            return self.argument_gives(name, typed, question)
        bound = function.file.bound_to(function, name) if name else None
        block = call[call.rfind("{") :].translate(PLAIN) if call.endswith("}") else ""
        return self.all_give(INNER_CALL.findall(bound or block), question)

    def all_give(self, names: list[str], question: Question) -> bool:
        """Whether those of these calls that may fail all give it, and there is one. Those are the kit's, and functions
        of this crate that give a Result."""
        crate, kit = question.function.file.crate, KIT[question.kind]
        known = [
            self.gives(f"{name}()", question)
            for name in names
            if name in kit or any(it.file.crate == crate and "Result<" in it.gives for it in self.named(name))
        ]
        return False not in known and True in known

    def argument_gives(self, name: str, typed: str, question: Question) -> Optional[bool]:
        """Whether an argument of a function gives it, by its type. Where its None came from isn't known."""
        if not gives_wanted(typed, question.wants):
            return self.kit_gives(name, question)
        return question.wants != "None" and fails_for(typed, question.kind)

    def called_gives(self, of: str, name: str, is_macro: bool, question: Question) -> Optional[bool]:
        """Whether each function that a call may mean gives it, by its type. A None is asked of the function's body."""
        found = [] if is_macro else self.meant(of, name, question)
        if not found:
            return self.kit_gives(name, question)
        if question.wants != "None":
            return all(fails_for(it.gives, question.kind) for it in found)
        known = [(it.function, it.kind) for it in self.nones]
        new = [it for it in found if (it, question.kind) not in known]
        self.nones.extend(NoneOf(it, question.kind, question.here) for it in new)
        return True

    @staticmethod
    def kit_gives(name: str, question: Question) -> Optional[bool]:
        """Whether a name is one of the kit's calls, of which the Err alone is known."""
        return (question.wants == "Err" and name in KIT[question.kind]) or None

    def meant(self, of: str, name: str, question: Question) -> list[Function]:
        """The functions that a call may mean: those of the name that give what is wanted and, after a type, that type.
        Those of a crate from which it is imported go first, then those of this crate, then any, but for the kit's."""
        file = question.function.file
        found = self.named(name) or self.named(self.renamed.get(name, name))
        found = [it for it in found if gives_wanted(it.gives, question.wants)]
        if of and not of.islower():
            found = [it for it in found if re.search(rf"\b({of}|Self)\b", it.gives)]
        crates = file.imported_from(name)
        imported = [it for it in found if it.file.crate in crates]
        own = [it for it in found if it.file.crate == file.crate]
        return imported or own or ([] if name in KIT[question.kind] else found)
