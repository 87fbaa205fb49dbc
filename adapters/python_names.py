"""Which names can stand at the end of a line of Python, for the evaluator `python_lines.py`.

Nothing of the user's own is run for that, neither a property nor `__getattr__` nor `__dir__`, as `rlcompleter` would: an attribute is looked up
where an object and its classes keep it. What only such a function could tell isn't offered.
"""
import builtins
import keyword
import re
import types
from typing import Any, Iterable, Iterator, List, Mapping, Tuple

CHAIN = re.compile(r"((?:[^\W\d]\w*\s*\.\s*)*)(\w*)\Z")  # names with a dot after each, and the word after them
LONGEST = 200  # letters of a name that is offered
OF_C = (types.GetSetDescriptorType, types.MemberDescriptorType)  # attributes that C code gives
DICT_OF_CLASS = vars(type)["__dict__"]
CLASSES_OF_CLASS = vars(type)["__mro__"]


def kept_by_class(kind: type) -> List[Mapping[str, Any]]:
    """What a class and those above it keep."""
    return [DICT_OF_CLASS.__get__(one) for one in CLASSES_OF_CLASS.__get__(kind)]


def kept(value: Any) -> Iterator[Mapping[str, Any]]:
    """Where the attributes of a value are kept, in the order in which they are looked for."""
    by_class = kept_by_class(type(value))
    descriptor: Any = next((one["__dict__"] for one in by_class if "__dict__" in one), None)
    own = descriptor.__get__(value) if type(descriptor) in OF_C else None
    if type(own) is dict:
        yield own
    if issubclass(type(value), type):
        yield from kept_by_class(value)
    yield from by_class


def attribute(value: Any, name: str) -> Any:
    """An attribute of a value. LookupError where it has none, or would be asked for it."""
    for one in kept(value):
        if name in one:
            found = one[name]
            if type(found) in OF_C:
                return found.__get__(value)
            if not callable(found) and any("__get__" in of_kind for of_kind in kept_by_class(type(found))):
                raise LookupError(name)
            return found
    raise LookupError(name)


def candidates(chain: str, names: Mapping[str, Any]) -> List[Any]:
    """What may stand after names with a dot after each, or where there are none."""
    first, *others = [name.strip() for name in chain.split(".")[:-1]] or [""]
    if not first:
        return [*keyword.kwlist, *list(names), *list(vars(builtins))]
    value = names[first] if first in names else vars(builtins)[first]
    for name in others:
        value = attribute(value, name)
    return [name for one in kept(value) for name in list(one)]


def offered(names: Iterable[Any], word: str) -> Iterator[str]:
    """The names that begin with a word; those with `_` in front where the word has it."""
    for name in names:
        is_name = type(name) is str and len(name) <= LONGEST and name.isidentifier()
        if is_name and name.startswith(word) and (word.startswith("_") or not name.startswith("_")):
            yield name


def completed(text: str, names: Mapping[str, Any]) -> Tuple[str, str]:
    """The word at the end of a text, and the names that begin with it; none where there is neither a word nor a dot after a name."""
    found = CHAIN.search(text)
    chain, word = (found[1], found[2]) if found else ("", "")
    is_of_unknown = found is not None and text[:found.start()].rstrip().endswith(".")  # as of a call
    if is_of_unknown or not chain and not word or word[:1].isdigit():
        return "", ""
    try:
        return word, "\n".join(sorted(set(offered(candidates(chain, names), word))))
    except Exception:  # a name that isn't there, or an object that isn't like others
        return "", ""
