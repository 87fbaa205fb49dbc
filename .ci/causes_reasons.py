"""The reasons of causes_reasons.toml, and what to do about a line that .ci/causes prints."""

from __future__ import annotations

import json
import tomllib
from typing import Optional

from causes_check import Finding, Key

FIELDS = ("file", "function", "after", "because")

TO_DO = {
    "place": """\
A place gives a failure, and no call is seen that failed. These are the forms that are read, where `call` is one of KIT
(.ci/causes_words.py), or its type has this failure alone, as Result<T, OutOfMemory>:
    match call() { Err(_) => Err(OutOfMemory), .. }       let Ok(x) = call() else { return Err(OutOfMemory) };
    call().map_err(|_| OutOfMemory)                       if call().is_err() { return Err(OutOfMemory); }
    if let Err(_) = call() { return Err(OutOfMemory); }   if !write_ok(out) { return Err(Output); }
and of any call    Err(Cause::OutOfMemory) => Err(Fault::OutOfMemory)
- No call failed there, or one that fails for other things too: a real finding. The code has to answer something else.
- A call failed for this alone, in another form: write it in one of these.
- It failed for this, though its type says more; or the place is never reached: add its row, as it stands at the end
  here, to .ci/causes_reasons.toml, with the reason in the place of WHY.""",
    "none": """\
A None of a function stands for a failure, as the place says that is named last. By `?` it hands on a None of something
else: a real finding, where that has other reasons to be None. Let the function answer a Result; or write
`let Some(x) = .. else { return None }`, which is a place for which a row may say why.""",
    "bool": """\
A function has the name of a call that fails, and answers with a bool: whoever calls it takes false for a failure. Let
its body be calls with `.is_ok()`, joined by `&&`; or give it another name.""",
    "import": """\
A failure got a name that .ci/causes doesn't look for. Import it under its own, or write the new one into CAUSES of
.ci/causes_words.py.""",
    "stale": """\
Nothing in the code is as a row of .ci/causes_reasons.toml says, or a name of .ci/causes_words.py: it was renamed, or is
gone. Where a place above is the same one under other words, write those into the row, and else take the row out.""",
}


def reasons_in(text: str) -> dict[Key, str]:
    """Reads the rows of causes_reasons.toml: each has the four fields, and no two are of one place."""
    found: dict[Key, str] = {}
    for row in tomllib.loads(text)["reason"]:
        if set(row) != set(FIELDS):
            raise ValueError(f"a row has {', '.join(row)}, and not {', '.join(FIELDS)}")
        key = (row["file"], row["function"], row["after"])
        if key in found:
            raise ValueError(f"two rows are of one place: {key}")
        found[key] = row["because"]
    return found


def row_of(key: Key, because: str) -> str:
    """A row as the file has it."""
    fields = zip(FIELDS, (*key, because))
    return "\n".join(["[[reason]]", *(f"{name} = {json.dumps(value, ensure_ascii=False)}" for name, value in fields)])


def renamed_from(key: Key, old: list[Key]) -> Optional[Key]:
    """Of the reasons that no place needs, one that has two parts of this key: it was of this place, most likely."""
    return next((it for it in old if sum(a == b for a, b in zip(it, key)) == 2), None)


def rows_to_write(findings: list[Finding], reasons: dict[Key, str]) -> list[str]:
    """The row that each place lacks; where one that isn't needed is like it, with its reason."""
    old = [it.key for it in findings if it.of == "stale" and it.key]
    rows = []
    for key in dict.fromkeys(it.key for it in findings if it.of == "place" and it.key):
        was = renamed_from(key, old)
        rows.append(row_of(key, reasons[was] if was else "WHY"))
        rows[-1] += f"\n# in the place of the row of {was}" if was else ""
    return rows


def advice(findings: list[Finding], reasons: dict[Key, str]) -> str:
    """What to do about these findings: a text for each kind of them, then the rows that places lack."""
    texts = [text for of, text in TO_DO.items() if any(it.of == of for it in findings)]
    return "\n" + "\n\n".join(texts + rows_to_write(findings, reasons))
