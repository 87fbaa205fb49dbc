"""What a document has of a worksheet: which field each of its inputs is, and what the inputs up to it were when it was asked."""

import dataclasses
import hashlib
from typing import Dict, Iterable, List, Sequence

from tmhost import Field

LINE_END = "\u2028"  # stands for the end of a line in an input
LONGEST_SHOWN = 40  # letters of an input in a remark


@dataclasses.dataclass(frozen=True)
class Shown:
    """An input of a document, with the number of its field and its mark."""

    id: str
    mark: str
    input: str


def marks(fields: Iterable[Field]) -> Dict[int, str]:
    """Of each field of a session a name of the inputs up to its own, one that other inputs don't have."""
    chain, found = hashlib.sha256(), {}
    for field in fields:
        data = field.input.encode("utf-8", "surrogatepass")
        chain.update(b"%d:" % len(data) + data)
        found[field.id] = chain.hexdigest()[:12]
    return found


def compared(fields: Sequence[Field], shown: Sequence[Shown], left_out: int = 0) -> List[str]:
    """What a document shows that isn't as the worksheet's session has it, a line for each kind; nothing of the field that is left out."""
    by_id, now = {field.id: field for field in fields}, marks(fields)
    kinds: Dict[str, List[str]] = {}
    seen = {left_out}
    for one in shown:
        field = by_id.get(int(one.id)) if one.id.isdigit() else None
        if field is None:
            if one.id:
                kinds.setdefault("not in the worksheet any more", []).append(f"#{one.id}")
            continue
        seen.add(field.id)
        if plain(field.input) != plain(one.input):
            kinds.setdefault("another input than when it was answered", []).append(named(field))
        elif field.state != "answered":
            kinds.setdefault("no answer in the worksheet", []).append(named(field))
        elif now[field.id] != one.mark:
            kinds.setdefault("an answer that is older than the inputs above it", []).append(named(field))
    missing = [field for field in fields if field.id not in seen]
    if missing:
        kinds["in the worksheet, and not in this document (`%tmhost restore` puts them in)"] = [named(field) for field in missing]
    return [f"{kind}: {', '.join(names)}" for kind, names in kinds.items()]


def plain(text: str) -> str:
    return text.replace(LINE_END, "\n").strip()


def named(field: Field) -> str:
    text = plain(field.input).replace("\n", " ")
    return f"#{field.id} {text[:LONGEST_SHOWN]}" + (".." if len(text) > LONGEST_SHOWN else "")
