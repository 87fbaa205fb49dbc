"""The words that .ci/causes looks for: of the two kinds of failure what stands for one, and which calls give one."""

# What stands for a failure of each kind. A text that is written to memory fails for lack of it, so WriteFault is of
# both. Names in small letters are functions that give one whatever they are called for: each call of one is a place.
CAUSES = {
    "output": {"Output", "WriteFault", "end_unsent", "end_unsummed", "end_unwritten"},
    "memory": {"OutOfMemory", "AllocError", "AllocFailed", "NoRoom", "NoMemory", "WriteFault", "lack_memory"},
}
WORDS = CAUSES["output"] | CAUSES["memory"]

# Calls that write; those of SAYING answer false where that failed. For these a crate may have a function of its own
# that answers with a bool.
WRITING = {"flush", "write", "write_all", "writeln", "say", "tell", "write_ok"}
SAYING = ("say", "tell", "write_ok")
# Calls that take memory.
TAKING = {"copy_from_slice", "extend_from_slice", "insert", "push", "push_back", "reserve", "reserve_exact"}
TAKING |= {"collect", "vec", "with_capacity"}
# Calls that fail for this kind alone, be there a function of the name or not.
KIT = {"output": WRITING, "memory": WRITING | TAKING}

# Functions whose None, wherever it stands in what they give, is a lack of memory.
NONES = ("checked_on_copy", "accepted_on_copy", "accepted_on_copies", "together_on_copy")


def kind_of(word: str) -> str:
    """Of which kind a word of WORDS is; of one of both, the output."""
    return "output" if word in CAUSES["output"] else "memory"
