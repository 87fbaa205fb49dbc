"""The definitions of crates/*/specs, the types and clauses of crates/*/src, and what each word of them names.

It reads text, not the prover's terms: a word names what its file defines or imports by that word, unless a binder takes it.
"""
from __future__ import annotations

import dataclasses
import glob
import itertools
import os
import re
import sys
from collections.abc import Iterator

ROOT = os.path.dirname(os.path.dirname(os.path.abspath(__file__)))

# A module and a name: ("worksheet.Ops", "sheet_of"), and of a type of the code its crate and name: ("worksheet::", "Op").
Key = tuple[str, str]

WORD = re.compile(r"[A-Za-z_][\w']*(?:\.[\w']+)*")
GHOST_IMPORT = re.compile(r"use Rattle\.(\w+)\.\w+\.([\w.]+?)(?:\.\{([^}]*)\}| as (\w+))")
RUST_IMPORT = re.compile(r"^(pub )?use ((?:\w+::)*)(?:(\w+)|\{([^}]*)\});", re.M)
BEGINS = re.compile(r"(?:abbrev |unfoldable )?pub (?:record |data )?([^\s:]+)[\s:]")
TYPE = re.compile(r"^pub(?:\(\w+\))? (?:enum|struct|trait) (\w+)")
MODEL = re.compile(r"^impl(?:<[^>]*>)? Model for (\w+).*?ghost Value = \{ (.*?) \};", re.M | re.S)
LAW = re.compile(r"^pub fn (\w+)\(\)\s+ensures \{ (\w+) \}", re.M)
BINDERS = re.compile(r"[({]([^(){}:]*) : ")
LAMBDA = re.compile(r"λ ([\w' ]+)\.")
FIELD = re.compile(r"\s+(?:pub(?:\(\w+\))? )?([\w']+)\s?:")
VARIANT = re.compile(r"    [A-Z]\w*(?=\s?[,({])")
GENERIC = re.compile(r"pub\S* (?:struct|enum) \w+<(\w+)")
NAMED = re.compile(r"\{[\w']+ = ([\w']+)\}")  # an argument of a pattern, by its name
LABEL = re.compile(r"(?:[{;] |^\s+)([\w']+) =(?= |$)")
STRING = re.compile(r'"(?:[^"\\]|\\.)*"')


# Words that no file imports.
BUILT_IN = {"Type", "Unit"}
BUILT_INTO_RUST = BUILT_IN | {"Option", "Result", "Vec", "Self", "Drop"}


@dataclasses.dataclass
class Scope:
    """What the words of a file name: definitions, modules and enums of the repository by the words that it takes them under, and the
    words that are of the kit's library."""

    module: str
    names: dict[str, Key] = dataclasses.field(default_factory=dict)
    modules: dict[str, str] = dataclasses.field(default_factory=dict)
    enums: dict[str, Key] = dataclasses.field(default_factory=dict)
    kit: set[str] = dataclasses.field(default_factory=set)


@dataclasses.dataclass
class Definition:
    """A definition, a type or a clause: where it is, the sentences above it, and its lines."""

    key: Key
    file: str
    line: int
    sentences: list[str]
    lines: list[str]
    scope: Scope
    variables: set[str] = dataclasses.field(default_factory=set)  # those that it has from around it

    @property
    def is_type(self) -> bool:
        return self.key[0].endswith("::")

    @property
    def place(self) -> str:
        return f"../../{self.file}#L{self.line}"

    def code(self) -> list[str]:
        return [line for line in self.lines if not is_comment(line)]

    def constructors(self) -> list[str]:
        """Those of a `data`."""
        if " data " not in " " + self.lines[0]:
            return []
        return [match[1] for line in self.lines[1:] if (match := re.match(r"\s+(\w+)\s*:", line))]


@dataclasses.dataclass
class Token:
    """A word where it stands in a line, and what it names, if that is of the repository."""

    word: str
    start: int
    end: int
    key: Key | None


def is_comment(line: str) -> bool:
    return line.lstrip().startswith(("--", "//", "#["))


def words_of(names: str | None) -> Iterator[tuple[str, str]]:
    """The names of an import, each with the word under which it is taken."""
    for item in re.split(r",\s*", (names or "").strip()):
        name, _, here = item.partition(" as ")
        if name:
            yield name.strip(), (here or name).strip()


def files(pattern: str) -> list[str]:
    return [os.path.relpath(path, ROOT) for path in sorted(glob.glob(os.path.join(ROOT, pattern), recursive=True))]


def read(file: str) -> str:
    with open(os.path.join(ROOT, file), encoding="utf-8") as opened:
        return opened.read()


def line_of(text: str, place: int) -> int:
    return text.count("\n", 0, place) + 1


def closed(text: str, opening: int) -> int:
    """The place after the brace that closes the one at this place."""
    depth = 0
    for place in range(opening, len(text)):
        depth += {"{": 1, "}": -1}.get(text[place], 0)
        if not depth:
            return place + 1
    sys.exit("a brace isn't closed")


class Sources:
    """All that is read, and what the words of each file name."""

    def __init__(self) -> None:
        self.crates = set(os.listdir(os.path.join(ROOT, "crates")))
        self.definitions: dict[Key, Definition] = {}
        self.exported: dict[Key, Key] = {}  # what a crate gives under a name of its own
        self.values: dict[Key, str] = {}  # a type to what contracts see in its place
        self.scopes: dict[str, Scope] = {}  # of the files of src
        self.laws: dict[Key, tuple[str, str, int]] = {}  # a law to the function whose contract it is
        for file in files("crates/*/specs/**/*.antt"):
            self.read_specs(file)
        for file in files("crates/*/src/**/*.rt"):
            self.read_src(file)
        self.constructors = {(d.scope.module, word): d.key for d in self.definitions.values() for word in d.constructors()}

    # Files.

    def ghost_imports(self, scope: Scope, text: str) -> None:
        """Takes the imports of definitions. Those of a type, or of its variants, are imports of the type."""
        for crate, path, names, prefix in GHOST_IMPORT.findall(text):
            declared = re.match(r"declared\.(?:[a-z_]\w*\.)*([A-Z]\w*)(\.TheVariants)?$", path)
            if crate not in self.crates:
                scope.kit.update({prefix} if prefix else {here for _, here in words_of(names)})
            elif declared and prefix:
                scope.enums[prefix] = (crate + "::", declared[1])
            elif declared:
                scope.names |= {here: (crate + "::", declared[1] if declared[2] else name) for name, here in words_of(names)}
            elif prefix:
                scope.modules[prefix] = f"{crate}.{path}"
            else:
                scope.names |= {here: (f"{crate}.{path}", name) for name, here in words_of(names)}

    def rust_imports(self, scope: Scope, text: str) -> None:
        """Takes the imports of a file of src. Types of its own crate need none: a crate has one type of a name."""
        for public, path, name, names in RUST_IMPORT.findall(text):
            crate = path.partition("::")[0]
            own = crate == "crate" or crate + "::" == scope.module or (public and crate not in self.crates)
            for given, here in words_of(names or name) if not own else []:
                if crate not in self.crates:
                    scope.kit.add(here)
                    continue
                scope.names[here] = (crate + "::", given)
                if public:
                    self.exported[(scope.module, here)] = (crate + "::", given)

    def read_specs(self, file: str) -> None:
        """The definitions of a file. One ends at the next empty line that is followed by no line of it. Comments between its lines are
        lines of it, and those above it its sentences."""
        parts = file.removesuffix(".antt").split("/")[1:]
        scope, text, sentences, current, ended = Scope(".".join([parts[0], *parts[2:]])), read(file), [], None, True
        self.ghost_imports(scope, text)
        for number, line in enumerate(text.split("\n"), 1):
            if line.startswith(("use ", "pub mod ")):
                continue
            if begins := BEGINS.match(line):
                current = Definition((scope.module, begins[1]), file, number, sentences, [line], scope)
                self.definitions[current.key] = current
                sentences = []
            elif line.startswith("--") and (ended or not current):
                sentences.append(line[2:].strip())
            elif line.strip() and current:
                current.lines.append(line)
            elif not line.strip():
                sentences = []
            ended = not line.strip() or (ended and line.startswith("--"))

    def read_src(self, file: str) -> None:
        """What contracts see of the types of a file, its laws, and its types."""
        text = read(file)
        scope = self.scopes[file] = Scope(file.split("/")[1] + "::")
        self.ghost_imports(scope, text)
        self.rust_imports(scope, text)
        self.values |= {(scope.module, name): value for name, value in MODEL.findall(text)}
        self.laws |= {scope.names[law[2]]: (law[1], file, line_of(text, law.start())) for law in LAW.finditer(text) if law[2] in scope.names}
        self.read_types(file, text.split("\n"), scope)

    def read_types(self, file: str, lines: list[str], scope: Scope) -> None:
        """The enums, structs and traits of a file, with the comments above them."""
        for number, line in enumerate(lines):
            if begins := TYPE.match(line):
                first = number - sum(1 for _ in itertools.takewhile(is_comment, reversed(lines[:number])))
                last = number if line.endswith((";", "}")) else lines.index("}", number)
                key = (scope.module, begins[1])
                self.definitions.setdefault(key, Definition(key, file, number + 1, [], lines[first : last + 1], scope))

    def clause(self, file: str, function: str, name: str) -> Definition:
        """A clause of a public function's contract, as its file has it."""
        text = read(file)
        head = re.search(rf"pub fn {function}\b.*?(?=\n    {{)", text, re.S)
        begins = head and re.search(rf"^( *)ensures {name} {{", head[0], re.M)
        if not begins:
            sys.exit(f"{file}: no function {function} has a clause {name}")
        start, indent = head.start() + begins.start(), len(begins[1])
        lines = [line[indent:] for line in text[start : closed(text, head.start() + begins.end() - 1)].split("\n")]
        variables = set(re.findall(r"^impl<(\w+)", text[:start], re.M))
        return Definition((f"{file}:{function}", name), file, line_of(text, start), [], lines, self.scopes[file], variables)

    # Words.

    def found(self, key: Key | None) -> Key | None:
        """The definition of this name, or the one that has this constructor."""
        while key in self.exported:
            key = self.exported[key]
        return key if key in self.definitions else self.constructors.get(key) if key else None

    def meaning(self, scope: Scope, word: str) -> Key | None:
        """The definition or type that a word of a file names, if it is one of the repository's."""
        first, _, rest = word.partition(".")
        if rest and first in scope.enums:
            return self.found(scope.enums[first])
        if rest and first in scope.modules:
            return self.found((scope.modules[first], rest.partition(".")[0]))
        return self.found(scope.names.get(first)) or self.found((scope.module, first))

    def is_constructor(self, scope: Scope, word: str) -> bool:
        first, _, rest = word.partition(".")
        if rest:
            return first in scope.enums
        key = scope.names.get(word, (scope.module, word))
        return key in self.constructors or (key[0].endswith("::") and key[1] != word)

    def bound(self, definition: Definition) -> set[str]:
        """The words that a definition binds itself: variables, fields, and its own name and constructors."""
        names = {definition.key[1], *definition.constructors(), *definition.variables}
        for line in definition.code():
            groups = BINDERS.findall(line) + LAMBDA.findall(line) + GENERIC.findall(line)
            names.update(word for group in groups for word in re.findall(r"[\w']+", group))
            names.update([field[1]] if (field := FIELD.match(line)) else [])
            left, equals, _ = (NAMED.sub(r"\1", line) + " ").partition(" = ")
            if equals and left.split(" ")[0] == definition.key[1]:
                names.update(word for word in WORD.findall(left) if not self.is_constructor(definition.scope, word))
        return names

    def tokens(self, definition: Definition) -> list[list[Token]]:
        """The words of each line of a definition, without the labels of records, the names of variants and texts; a comment has none."""
        bound = self.bound(definition)

        def token(match: re.Match[str]) -> Token:
            free = match[0].partition(".")[0] not in bound
            return Token(match[0], match.start(), match.end(), self.meaning(definition.scope, match[0]) if free else None)

        def words(line: str) -> list[Token]:
            if is_comment(line):
                return []
            line = STRING.sub(lambda match: " " * len(match[0]), line)
            labels = {match.start(1) for match in LABEL.finditer(line)}
            begins = len(match[0]) if definition.is_type and (match := VARIANT.match(line)) else 0
            return [token(match) for match in WORD.finditer(line, begins) if match.start() not in labels]

        return [words(line) for line in definition.lines]

    def needs(self, definition: Definition) -> list[Key]:
        """The definitions that its words name, in order, each once."""
        keys = [token.key for line in self.tokens(definition) for token in line if token.key]
        return [key for key in dict.fromkeys(keys) if key != definition.key]

    def strange(self, definition: Definition) -> list[str]:
        """The words without a link, capitalised or of the repository, that aren't of the kit's library: there should be none. A word that
        the file neither binds nor imports counts as one of the repository where any definition has that name."""
        known = self.bound(definition) | definition.scope.kit | (BUILT_INTO_RUST if definition.is_type else BUILT_IN)
        words = [token.word for line in self.tokens(definition) for token in line if not token.key]
        return [word for word in words if word.partition(".")[0] not in known and self.is_named(definition, word)]

    def is_named(self, definition: Definition, word: str) -> bool:
        """Whether a word is capitalised or, in a definition, some definition's name."""
        first = word.partition(".")[0]
        named = not definition.is_type and (first in definition.scope.names or any(name == first for _, name in self.definitions))
        return named or any(part[0].isupper() for part in word.split("."))
