"""What a page asks, and why it isn't done."""

from typing import Any, Callable, Dict, List, Optional, TypeVar

Facts = Dict[str, Any]
T = TypeVar("T")


class NotDone(Exception):
    """A call that did nothing, or of which it isn't known. `name` is for the page, `says` for people."""

    def __init__(self, name: str, says: str) -> None:
        super().__init__(name, says)
        self.name, self.says = name, says


def member(asked: Facts, name: str, kind: Callable[[Any], T], what: type) -> T:
    """A member of what was asked, of the kind that it must have."""
    value = asked.get(name)
    if type(value) is not what:
        raise NotDone("NotUnderstood", f"{name} is missing, or of another kind")
    return kind(value)


def number(asked: Facts, name: str) -> int:
    found = member(asked, name, int, int)
    if not 0 <= found < 2**32:
        raise NotDone("NotUnderstood", f"{name} is no number of a cell")
    return found


def text(asked: Facts, name: str) -> str:
    return member(asked, name, str, str)


def text_or_none(asked: Facts, name: str) -> Optional[str]:
    return None if asked.get(name) is None else text(asked, name)


def members(asked: Facts, name: str) -> List[Facts]:
    found: List[Any] = member(asked, name, list, list)
    if not all(isinstance(one, dict) for one in found):
        raise NotDone("NotUnderstood", f"{name} has something of another kind")
    return found
