"""What the front matter of a text says beside its sessions: its title, authors, date and language for a page, and where its interpreters start."""
import dataclasses
import os
import re
from typing import Any, Dict, List, Optional, Sequence, Tuple

from tmhost_fences.front import SESSIONS, matter_end, refuse_misspelt
from tmhost_fences.info import NO
from tmhost_fences.troubles import Trouble, needed

FOLDER = "folder"
OF_CHUNKS = (("execute",), ("knitr", "opts_chunk"))  # keys of Quarto and rmarkdown under which options of all chunks stand
LANGUAGE = re.compile(r"[A-Za-z]{2,8}(-[A-Za-z0-9]{1,8})*")


@dataclasses.dataclass(frozen=True)
class Matter:
    """`lines` is how many lines it has, `folder` where interpreters start, seen from the folder of the text; None where it doesn't say."""

    lines: int = 0
    title: str = ""
    subtitle: str = ""
    authors: Tuple[str, ...] = ()
    date: str = ""
    language: str = "en"
    folder: Optional[str] = None
    hides_code: bool = False  # in a page, where a fence doesn't say

    def start(self, text: str) -> Optional[str]:
        """The folder in which the interpreters of the text at a path start."""
        if self.folder is None:
            return None
        found = os.path.join(os.path.dirname(text), self.folder)
        if not os.path.isdir(found):
            raise Trouble(f"`{FOLDER}` of the front matter: there is no folder {found}")
        return found


def text_in(value: Any) -> str:
    """A value as one line: of a mapping, as authors of Quarto are, its name."""
    if isinstance(value, dict):
        return text_in(value.get("name") or value.get("literal") or "")
    return " ".join(value.split()) if isinstance(value, str) else ""


def texts_in(value: Any) -> List[str]:
    values = value if isinstance(value, list) else [value]
    return [text for text in map(text_in, values) if text]


def hides_code(found: Dict[str, Any]) -> bool:
    for keys in OF_CHUNKS:
        value: Any = found
        for key in (*keys, "echo"):
            value = value.get(key) if isinstance(value, dict) else None
        if isinstance(value, str) and value.lower() in NO:
            return True
    return False


def folder_in(found: Dict[str, Any]) -> Optional[str]:
    if FOLDER not in found or SESSIONS not in found:
        return None
    value = found[FOLDER]
    if not isinstance(value, str) or not value or "\0" in value:
        raise Trouble(f"`{FOLDER}` of the front matter is no name of a folder, as in `{FOLDER}: .`, which is that of the text")
    return value


def values_in(lines: Sequence[str]) -> Optional[Dict[str, Any]]:
    """Keys and values of lines that are a mapping of YAML. Each scalar is the text that it looks like."""
    yaml = needed("yaml", "python3-yaml")
    try:
        found = yaml.load("\n".join(lines) + "\n", Loader=yaml.BaseLoader)
    except (yaml.YAMLError, RecursionError):
        return None
    return {key: value for key, value in found.items() if isinstance(key, str)} if isinstance(found, dict) else None


def matter_of(lines: Sequence[str]) -> Matter:
    """That of a text of these lines, which have no ends. What is no mapping is a part of the text like any other."""
    end = matter_end(lines)
    found = values_in(lines[1 : end - 1]) if end else None
    if found is None:
        return Matter()
    if SESSIONS in found:
        refuse_misspelt(found, [FOLDER])
    language = text_in(found.get("lang"))
    return Matter(
        end, text_in(found.get("title")), text_in(found.get("subtitle")), tuple(texts_in(found.get("author"))), text_in(found.get("date")),
        language if LANGUAGE.fullmatch(language) else "en", folder_in(found), hides_code(found),
    )
