#!/usr/bin/env python3
"""Writes docs/trust/THEOREM.md, the theorem, and three pages after it: PROGRAMS.md, the same of programs, WORKED_RUN.md, an example, and DEFINITIONS.md, each definition and
type that the theorem needs, in the order in which a reader meets them.

    theorem/page.py           writes the pages, and prints how many definitions and lines there are
    theorem/page.py --check   says whether the pages are those that would be written; status 1 where they aren't

They are made of head.md, worked.md and definitions.md of this folder. In these {crate.Module.name} and {crate::Type} are links to what DEFINITIONS.md then has, and
{file crate.Module.name} is one to the file, and {code crate.Module.name} the definition itself. {clause F N} is the clause N of the host's function F, {law F} a link to the function whose
contract is a law, {mutant N} one to an edit that the proofs refuse, and {worked} the run of theorem/worked.py. Both forms of the command
fail where a word of the pages' code is of the repository and isn't linked.
"""
from __future__ import annotations

import collections
import html
import os
import re
import sys

sys.dont_write_bytecode = True
import worked  # noqa: E402
from sources import ROOT, Definition, Key, Sources, files, line_of, read  # noqa: E402

# What each page is made of. The definitions follow the text of the last one.
PAGES = {
    "docs/trust/THEOREM.md": "theorem/head.md",
    "docs/trust/PROGRAMS.md": "theorem/programs.md",
    "docs/trust/WORKED_RUN.md": "theorem/worked.md",
    "docs/trust/DEFINITIONS.md": "theorem/definitions.md",
}
DEFINITIONS = "DEFINITIONS.md"
HOST = "crates/session_engine/src/host.rt"
CALLS = ("crates/host_laws/src/made.rt", "crates/theorem/src/lib.rt", "crates/driver_visits/src/runs.rt", "crates/driver_visits/src/crashed.rt", "crates/driver_visits/src/filed.rt")  # laws that make the call that they speak of
PLACE = re.compile(r"\{(?:(?P<kind>clause \w+|law|mutant) (?P<word>\w+)|(?P<how>file |code )?(?P<module>\w+::|\w+(?:\.\w+)*\.)(?P<name>[\w']+))\}")

# Definitions that the page links to in their files. What they say isn't needed: a definition that has them for words is followed by a law
# that says all a reader needs of it, or REMARKS has the reason.
NOT_EXPANDED: set[Key] = {
    ("session_engine.Host", "Lives"),
    ("session_engine.Host", "HaveFields"),
    ("journal.Kept", "ImageStandsFor"),
    ("journal.Area", "ArePayloads"),
    ("journal.Area", "records"),
    ("recovery.Code", "IsTyped"),
    ("recovery.Code", "kind_of"),
    ("recovery.Code", "parts_of"),
    ("worksheet.Rewrite", "session_op"),
    ("worksheet.Rewrite", "fields_ops"),
    ("plugin_core.Answers", "answers_from"),
    ("plugin_core.Answers", "asked_places"),
    ("plugin_core.Past", "ends_from"),
    ("scheme_text.Reported", "reported_by_text"),
}

# Crates of programs. Of their definitions and types the page has those that are named here, and links to the others in their files.
OF_PROGRAMS = ("driver", "driver_visits", "child_edge", "sheet_check", "check_report", "tellings", "offline_programs", "field_agenda", "evaluation")
EXPANDED: set[Key] = {
    ("driver_visits.Visits", "turn_of"),
    ("driver_visits.Visits", "EndsAsVisit"),
    ("driver_visits.Visits", "DrivenIsVisit"),
    ("driver_visits.Visits", "DurableAt"),
    ("driver_visits.Visits", "PrintedIsDurable"),
    ("driver_visits.Earlier", "EarlierUses"),
    ("driver_visits.Earlier", "LeftWith"),
    ("driver_visits.Earlier", "CrashesLeave"),
    ("driver_visits.Runs", "OpeningLeaves"),
    ("driver_visits.Runs", "run_act"),
    ("driver_visits.Runs", "run_reporting"),
    ("driver_visits.Runs", "unknown_reports"),
    ("driver_visits.Runs", "LeavesPrinted"),
    ("driver_visits.Runs", "LeavesPrefix"),
    ("driver_visits.Runs", "RunsThenOpens"),
    ("driver_visits.Runs", "OpensCrashed"),
    ("driver_visits.Runs", "OpensAfterCrash"),
    ("driver_visits.Runs", "RunsThenCrashes"),
    ("driver_visits.Tried", "tried_at"),
    ("driver_visits.Tried", "StepBroke"),
    ("driver_visits.Tried", "TriedLast"),
    ("driver_visits.Printed", "InOrder"),
    ("driver_visits.Printed", "Reportable"),
    ("driver_visits.Printed", "in_report"),
    ("driver_visits.Printed", "to_report"),
    ("driver_visits.Printed", "was_reported"),
    ("driver_visits.Printed", "IsReportOf"),
    ("driver_visits.Copied", "RanOnCopy"),
    ("driver_visits.Copied", "world_at_first"),
    ("driver_visits.Copied", "place_at_first"),
    ("driver_visits.Copied", "place_at_last"),
    ("driver_visits.Copied", "field_trace"),
    ("driver_visits.Copied", "fields_trace"),
    ("driver_visits.Copied", "run_trace"),
    ("driver_visits.Copied", "EvaluatedOnCopy"),
    ("driver_visits.Copied", "AnsweredOnCopy"),
    ("driver_visits.Copied", "PutFromCopy"),
    ("driver_visits.Copied", "AcceptedAreWhole"),
    ("driver_visits.Filed", "LeavesAnswers"),
    ("driver_visits.Filed", "OpensFiled"),
    ("driver_visits.Filed", "AcceptsThenOpens"),
    ("driver_visits.Acceptances", "AtMostOneMore"),
    ("driver_visits.Acceptances", "OrOneMore"),
    ("driver_visits.Acceptances", "FromCopy"),
    ("driver_visits.Acceptances", "LeftByAcceptance"),
    ("driver_visits.Acceptances", "closing_after"),
    ("driver_visits.Acceptances", "ReportedAcceptance"),
    ("driver_visits.Acceptances", "AcceptancesAreFiled"),
    ("driver.Place", "Tries"),
    ("driver.Place", "TriesInVain"),
    ("driver.Over", "RanOver"),
}

# Sentences above definitions that lean on what their file has before them, or say more than the definition: words as they are, and those that
# the page has for them. A sentence without such words stands as it is.
REWORDED: dict[Key, tuple[str, str]] = {
    ("host_laws.Laws", "may_want"): ("refused so", "refused for lack of memory"),
    ("session_engine.Host", "number_in"): ("its number", "the number of the life of a session that a host runs"),
    ("recovery.Laws", "OneSheet"): ("and is that", "An image is that"),
    ("disk_model.Disk", "bytes_on"): ("the same of a disk", "what a read gives of a disk"),
    ("disk_model.Disk", "Called"): (
        "as above, and",
        "the same room, the model kept or not as before, no failure forgotten; and",
    ),
    ("plugin_core.AskPoints", "AnswersByAskPoints"): ("has them and", "has the answers by ask points and"),
    ("block_tree.Output", "output"): ("the output of a block:", "the output of a block: what it has but prompts and default inputs;"),
    ("block_tree.Shape", "is_tag_byte"): ("no control character", "none below 32"),
}

# What an output tells, as the page says it.
SPOKEN: list[tuple[str, str]] = [
    (r"the completions that an output tells, or that it tells none", "the completions that an output names, or that it names none"),
    (r"The output tells these", "The output has these"),
    (r"\btells\b", "says"),
]

# What follows the sentence of a definition.
REMARKS: dict[Key, str] = {
    ("disk_model.Disk", "area_of"): "the bytes of an area",
    ("session_engine.Groups", "is_refusal"): "the reply of an outcome is a refusal",
    ("journal.Area", "closed_gate"): "as which a closed gate is written",
    ("session_engine.Host", "IsHost"): "Any invariant with these contracts would do in its place: `open` establishes it ([stands](THEOREM.md#open.stands)), `step` and `play` "
    "need it and keep it for the world after the events, and other clauses say what is claimed of replies, worksheet and disk.",
    ("recovery.Sheets", "IsSheetImage"): "Any relation with these contracts would do in its place: each call that writes establishes it of all that a crash may "
    "leave, and `open` turns it into a host with this worksheet ([exact](THEOREM.md#open.exact)).",
    ("session_engine.Host", "EndsAt"): "`open` gives it of the disk that it has read (clause `ends`), and the laws take it: so the end of the "
    "journal in the world is that of the bytes.",
    ("host_events::", "HostFault"): "[CauseOf](#session_engine.Faults.CauseOf) says which events can have which of them: OutOfMemory also an "
    "end of a life at which a field keeps the reason.",
    ("recovery.Code", "code_of"): "This page needs the length alone, which says when the journal is full. No two ops have one payload (the law "
    "`one_op`).",
    ("worksheet.Rewrite", "rewrite_of"): "This page needs the lengths of their payloads alone, which say where a journal ends after a checkpoint. "
    "They make this worksheet (the law `rewrite_makes_the_same`).",
    ("host_laws.Turns", "EachTurned"): "The ops `found` by a host are any that make the worksheet of the image. It is the worksheet that the "
    "host before it left, since no image is one of two ([OneSheet](#recovery.Laws.OneSheet)).",
}

# A law that the page has right after a definition, and the sentence that leads to it.
LAWS_BESIDE: dict[Key, tuple[Key, str]] = {
    ("host_laws.Turns", "ClosesAnswer"): (
        ("host_laws.Laws", "NothingIsShownInFlight"),
        "LAW adds that a line which waits is the input, as it is now, of a field of its life's session, and that this field shows nothing "
        "meanwhile.",
    ),
    ("scheme_text.Reported", "reported_by"): (("scheme_text.Laws", "ReportedAsAValue"), "It is computed byte by byte; LAW says what it is."),
    ("plugin_core.Answers", "answers_of"): (("plugin_core.AskPoints", "AnswersByAskPoints"), "It is computed; LAW says which blocks it has."),
    ("journal.Area", "end_of"): (("journal.Laws", "GateAfter"), "LAW says what it is."),
}

# The headings under which definitions stand, each with the modules that it takes.
SECTIONS: list[tuple[str, tuple[str, ...]]] = [
    ("The claims", ("theorem.", "host_laws.", "session_engine.Host.", "session_engine.Faults.", "session_engine.Crash.")),
    ("What programs printed, and what an acceptance left (A6, A7)", ("driver_visits.", "driver.")),
    ("The disk, and what it stands for", ("disk_model.", "journal.", "recovery.")),
    ("A file, of which a disk is made", ("sheet_files.",)),
    ("What events do", ("session_engine.", "host_events.")),
    ("The worksheet", ("worksheet.",)),
    ("Which block answers which line", ("plugin_core.",)),
    ("The worked run", ("worked_run.",)),
    ("Appendix: what a block is", ("block_tree.", "meta_format.", "scheme_text.")),
]


def is_left_out(key: Key) -> bool:
    """Whether the page has a link to its file alone."""
    return key in NOT_EXPANDED or (re.split("[.:]", key[0])[0] in OF_PROGRAMS and key not in EXPANDED)


def anchor(key: Key) -> str:
    return (key[0] + ("" if key[0].endswith("::") else ".") + key[1]).replace("'", "_")


class Page:
    """What the page has, as links and as entries."""

    def __init__(self, sources: Sources) -> None:
        self.sources = sources
        self.roots: list[Key] = []
        self.clauses: dict[str, Definition] = {}  # by the places of the head
        self.printed: dict[Key, Definition] = {}

    def gather(self) -> None:
        """All that the roots need, themselves first, level by level, and a law right after the definition that it is about."""
        waiting = collections.deque(self.roots)
        while waiting:
            key = waiting.popleft()
            if key in self.printed or is_left_out(key) or key in self.sources.values:
                continue
            self.printed[key] = self.sources.definitions[key]
            if key in LAWS_BESIDE:
                waiting.appendleft(LAWS_BESIDE[key][0])
            waiting.extend(self.sources.needs(self.printed[key]))

    # Text.

    def link(self, key: Key, page: str = "") -> str:
        """Where a definition is: on this page, beside the others where none is named, or in its file."""
        return f"{page}#{anchor(key)}" if key in self.printed else self.sources.definitions[key].place

    def code(self, definition: Definition, page: str = "") -> str:
        """The lines of a definition as HTML, each of its words a link to what it names, on this page."""
        lines = []
        for line, tokens in zip(definition.lines, self.sources.tokens(definition)):
            done, text = 0, ""
            for token in tokens:
                if token.key and token.key != definition.key:
                    text += f'{html.escape(line[done : token.start], quote=False)}<a href="{self.link(token.key, page)}">{html.escape(token.word)}</a>'
                    done = token.end
            lines.append(text + html.escape(line[done:], quote=False))
        return "<pre>" + "\n".join(lines) + "</pre>"

    def told(self, definition: Definition) -> str:
        """What is said of a definition: the sentences above it, a remark, the law beside it, and where it is proved."""
        key = definition.key
        told = [spoken(" ".join(definition.sentences).replace(*REWORDED.get(key, ("", "")))), REMARKS.get(key, "")]
        if not any(told):
            sys.exit(f"{definition.file}:{definition.line}: no sentence stands above {key[1]}")
        if key in LAWS_BESIDE:
            law, sentence = LAWS_BESIDE[key]
            told.append(sentence.replace("LAW", f"[{law[1]}](#{anchor(law)})"))
        if key in self.sources.laws:
            function, file, line = self.sources.laws[key]
            told.append(f"Proved: the contract of [`{function}`](../../{file}#L{line}).")
        return " ".join(sentence if sentence.endswith(".") else sentence + "." for sentence in filter(None, told))

    def entry(self, definition: Definition) -> str:
        key = definition.key
        head = f'<a id="{anchor(key)}"></a>\n**{key[1]}** ([{key[0].removesuffix("::")}]({definition.place}))'
        if definition.is_type:
            return f"{head}{': ' * (key in REMARKS)}{REMARKS.get(key, '')}\n{self.code(definition)}\n"
        left = [other for other in self.sources.needs(definition) if other not in self.printed and other not in self.sources.values]
        links = ", ".join(f"[{other[1]}]({self.link(other)})" for other in left)
        beneath = f"\nNot expanded here: {links}.\n" if left else ""
        return f"{head}: {self.told(definition)}\n{self.code(definition)}\n{beneath}"

    def values(self) -> str:
        """The types that contracts see as another value."""
        needed = {key for definition in self.printed.values() for key in self.sources.needs(definition) if key in self.sources.values}
        shown = [f"[`{key[1]}`]({self.sources.definitions[key].place}) as {self.value(key)}" for key in sorted(needed, key=lambda key: key[1])]
        return "Contracts see " + ", ".join(shown) + "."

    def value(self, key: Key) -> str:
        """What contracts see in the place of a type, with a link to the one definition that it names."""
        value = self.sources.values[key]
        named = self.sources.meaning(self.sources.definitions[key].scope, value)
        return f"[`{value}`]({self.link(named)})" if named else f"`{value}`"

    def strange(self) -> list[str]:
        """Words of the page's code that are of the repository, or of nobody, and have no link."""
        shown = [*self.clauses.values(), *self.printed.values()]
        return [f"{d.file}:{d.line}: {word} isn't linked" for d in shown for word in dict.fromkeys(self.sources.strange(d))]

    # The head.

    def key_of(self, match: re.Match[str]) -> Key:
        key = (match["module"].removesuffix(".") if "." in match["module"] else match["module"], match["name"])
        if key not in self.sources.definitions:
            sys.exit(f"theorem/*.md name {match[0]}, and there is no such definition")
        return key

    def take(self, match: re.Match[str]) -> str:
        """Takes for a root what a place of the head names."""
        if match["kind"] and match["kind"].startswith("clause "):
            clause = self.sources.clause(HOST, match["kind"].removeprefix("clause "), match["word"])
            self.clauses[match[0]] = clause
            self.roots.extend(self.sources.needs(clause))
        elif match["name"] and match["how"] != "file ":
            self.roots.append(self.key_of(match))
        return match[0]

    def put(self, match: re.Match[str]) -> str:
        """What the page has in such a place."""
        if match[0] in self.clauses:
            clause, function = self.clauses[match[0]], match["kind"].removeprefix("clause ")
            head = f'<a id="{function}.{match["word"]}"></a>\n**{match["word"]}** ([{function}]({clause.place}))'
            return f"{head}\n{self.code(clause, DEFINITIONS)}"
        if match["kind"]:
            found = self.laws() if match["kind"] == "law" else edits()
            if match["word"] not in found:
                sys.exit(f"theorem/*.md name {match[0]}, and there is none")
            return f"[`{match['word']}`](../../{found[match['word']]})"
        key = self.key_of(match)
        if match["how"] == "code ":
            return self.code(self.sources.definitions[key], DEFINITIONS)
        return f"[`{key[1]}`]({self.sources.definitions[key].place if match['how'] else self.link(key, DEFINITIONS)})"

    def laws(self) -> dict[str, str]:
        """The functions that carry laws, those that make a call among them, with their places."""
        found = [(file, text, law) for file in CALLS for text in [read(file)] for law in re.finditer(r"^pub fn (\w+)", text, re.M)]
        calls = {law[1]: f"{file}#L{line_of(text, law.start())}" for file, text, law in found}
        return calls | {function: f"{file}#L{line}" for function, file, line in self.sources.laws.values()}

    # The whole.

    def sections(self) -> list[str]:
        """The definitions under their headings, those of the first modules first, and then the types."""
        left = list(self.printed.values())
        parts = []
        for title, modules in SECTIONS:
            taken = [d for module in modules for d in left if (d.key[0] + ".").startswith(module)]
            left = [d for d in left if d not in taken]
            parts += [f"## {title} ({len(taken)})\n", *map(self.entry, taken)]
        if others := [d for d in left if not d.is_type]:
            sys.exit(f"no section has {others[0].key[0]}")
        return [*parts, f"## Appendix: types of the code ({len(left)})\n", self.values() + "\n", *map(self.entry, left)]

    def texts(self) -> tuple[dict[str, str], str]:
        """The pages, and what they count."""
        parts = {page: read(part).replace("{worked}", worked.text()) for page, part in PAGES.items()}
        for part in parts.values():
            PLACE.sub(self.take, part)
        self.gather()
        definitions = [d for d in self.printed.values() if not d.is_type]
        lines = sum(len(d.lines) for d in definitions)
        counts = f"{len(definitions)} definitions of {lines:,} lines, and {len(self.printed) - len(definitions)} types of the code"
        pages = {page: PLACE.sub(self.put, part).replace("{counts}", counts) for page, part in parts.items()}
        last = list(pages)[-1]
        pages[last] = "\n".join([pages[last], *self.sections()])
        return pages, counts


def unplaced(text: str) -> str:
    """A page without the lines to which it links in files: a line that moved is no other definition."""
    return re.sub(r"(\.(?:rt|antt))#L\d+", r"\1", text)


def spoken(sentence: str) -> str:
    """A sentence in the words of the pages. A name between backquotes stays."""
    parts = re.split(r"(`[^`]*`)", sentence)
    for word, said in SPOKEN:
        parts[::2] = [re.sub(word, said, part) for part in parts[::2]]
    return "".join(parts)


def edits() -> dict[str, str]:
    """The mutants that the proofs must refuse, by name."""
    return {os.path.basename(file).removesuffix(".edit"): file for file in files("crates/*/must-fail/*.edit")}


def main(words: list[str]) -> int:
    page = Page(Sources())
    pages, counts = page.texts()
    if strange := page.strange():
        print("\n".join(strange))
        return 1
    if words == ["--check"]:
        others = [name for name, text in pages.items() if not os.path.exists(os.path.join(ROOT, name)) or unplaced(read(name)) != unplaced(text)]
        print("\n".join(f"{name} is another than the definitions: run theorem/page.py" for name in others) or "docs/trust is as the definitions are")
        return 1 if others else 0
    for name, text in pages.items():
        with open(os.path.join(ROOT, name), "w", encoding="utf-8") as file:
            file.write(text)
    print(counts)
    return 0


if __name__ == "__main__":
    sys.exit(main(sys.argv[1:]))
