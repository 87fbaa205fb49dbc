"""What scripts know of a clone: the crates of its crates.txt, and where checks of it keep what they did."""

import os
import pathlib


def uses_of(root: pathlib.Path) -> dict[str, list[str]]:
    """Each crate of this clone, with those that crates.txt says that it may use."""
    lines = (line for line in (root / "crates.txt").read_text().splitlines() if line and not line.startswith("#"))
    return {name: uses.split() for name, _, uses in (line.partition(":") for line in lines)}


def room_of(root: pathlib.Path) -> pathlib.Path:
    """The folder of .ci/check for this clone. Each clone has its own, so that no library of one is read by another."""
    return pathlib.Path("/tmp") / f"tmhost-check-{os.geteuid()}" / str(root).strip("/").replace("/", "-")
