#!/usr/bin/env python3
"""Names that two public definitions of the crates share, or two laws; status 1 where there is one. What lies in `specs/inside` is no
reader's matter and is left out."""
import collections
import glob
import os
import re
import sys

ROOT = os.path.dirname(os.path.dirname(os.path.abspath(__file__)))
# An indented line may be a field, unless it says that it is a definition.
DEFINED = re.compile(r"(?:(?:abbrev |unfoldable )?pub |\s+(?:abbrev pub |unfoldable pub |pub (?=record |data )))(?:record |data )?([^\s:]+)[\s:]")
LAW = re.compile(r"pub fn (\w+)")


def places(pattern, names, left_out):
    """Each name that a line of these files gives, with the files."""
    found = collections.defaultdict(set)
    for path in sorted(glob.glob(os.path.join(ROOT, pattern), recursive=True)):
        file = os.path.relpath(path, ROOT)
        if left_out not in file:
            with open(path, encoding="utf-8") as lines:
                for match in filter(None, map(names.match, lines)):
                    found[match[1]].add(file)
    return {name: files for name, files in found.items() if len(files) > 1 and name not in ("mod", "use")}


def main():
    shared = [
        *places("crates/*/specs/**/*.antt", DEFINED, "/inside").items(),
        *places("crates/*/src/laws.rt", LAW, "\0").items(),
    ]
    for name, files in shared:
        print(f"{name}: {', '.join(sorted(files))}")
    return 1 if shared else 0


if __name__ == "__main__":
    sys.exit(main())
