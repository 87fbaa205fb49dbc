"""What the tests' interpreter answers to the cases of two sessions, by the rules of a suite."""
from typing import Dict, List, Sequence, Tuple

from . import support  # noqa: F401
import importlib.util

SPEC = importlib.util.spec_from_file_location("interpreter", support.INTERPRETER)
assert SPEC and SPEC.loader
INTERPRETER = importlib.util.module_from_spec(SPEC)
SPEC.loader.exec_module(INTERPRETER)


def expected(code: Sequence[Tuple[str, str, bool]]) -> List[str]:
    """For cases (session, line, whether it sets up): each answer is of all lines that its interpreter has got by then."""
    lines: Dict[str, List[str]] = {"a": [], "b": []}
    setups: Dict[str, List[str]] = {"a": [], "b": []}
    has_ended = {"a": False, "b": False}
    found = []
    for session, line, is_setup in code:
        if has_ended[session]:
            lines[session], has_ended[session] = list(setups[session]), False
        if is_setup:
            setups[session].append(line)
        lines[session].append(line)
        if line == "die":
            found.append("? Ended")
            has_ended[session] = True
        else:
            found.append(str(INTERPRETER.value(lines[session])))
    return found
