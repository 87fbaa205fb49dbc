"""A lesson of 49 cells, with formulas and pictures, run by nbclient: whole, and killed at random moments."""
import contextlib
import multiprocessing
import os
import random
import signal
import subprocess
import time
import unittest
from typing import Any, Dict, List, Tuple

from tests.support import LESSON, PROGRAM, ROOT, SECONDS, Case, fields_of, needs_program
from tmhost_jupyter.outputs import Shown

try:
    import nbformat
    from nbclient.client import NotebookClient
    from nbclient.exceptions import CellExecutionError
except ImportError as error:
    raise unittest.SkipTest(f"there is no nbclient: {error}")

KILLS = int(os.environ.get("TMHOST_KILLS", "3"))
MODULES = subprocess.run(["python3", "-c", "import sympy, numpy, matplotlib"], stderr=subprocess.DEVNULL).returncode == 0
Reported = Dict[str, Any]
Forks = multiprocessing.get_context("fork")


def lesson() -> Any:
    return nbformat.read(LESSON, 4)  # type: ignore[no-untyped-call]


def codes() -> List[str]:
    return [cell.source for cell in lesson().cells if cell.cell_type == "code"]


def plain(outputs: List[Any]) -> List[Tuple[str, Reported]]:
    """Outputs without what counts them."""
    return [(one["output_type"], {name: one[name] for name in ("data", "name", "text", "ename") if name in one}) for one in outputs]


def execute(folder: str, reported: Any) -> None:
    """Runs the lesson as nbconvert does, and tells what came of each cell as soon as a front end has it."""
    notebook = lesson()
    numbers = [at for at, cell in enumerate(notebook.cells) if cell.cell_type == "code"]
    client: Any = NotebookClient(notebook, kernel_name="kernel", timeout=None, startup_timeout=int(SECONDS), resources={"metadata": {"path": folder}})

    def executed(cell: Any, cell_index: int, execute_reply: Any) -> None:
        reported.send((numbers.index(cell_index), plain(cell.outputs), execute_reply["content"]["status"]))

    client.on_cell_executed = executed
    try:
        client.execute()
        reported.send("end")
    except Exception as error:
        reported.send(f"{type(error).__name__}: {error}")


def parents() -> Dict[int, int]:
    """The parent of each process. It takes no program, in whose time a run would go on."""
    found: Dict[int, int] = {}
    for name in filter(str.isdigit, os.listdir("/proc")):
        with contextlib.suppress(OSError), open(f"/proc/{name}/stat", encoding="utf-8", errors="replace") as file:
            found[int(name)] = int(file.read().rpartition(")")[2].split()[1])
    return found


def below(pid: int) -> List[int]:
    """A process and all that come from it."""
    known, found = parents(), [pid]
    for one in found:
        found += [child for child, parent in known.items() if parent == one]
    return found


def words(pid: int) -> str:
    with contextlib.suppress(OSError), open(f"/proc/{pid}/cmdline", "rb") as file:
        return file.read().replace(b"\0", b" ").decode("utf-8", "replace")
    return ""


class Run:
    """A run of the lesson by a process of its own. `cells` has what it was sent so far: outputs by their cells."""

    def __init__(self, folder: str) -> None:
        self.ours, theirs = Forks.Pipe(duplex=False)
        self.process = Forks.Process(target=execute, args=(folder, theirs))
        self.process.start()
        theirs.close()
        self.cells: Dict[int, List[Tuple[str, Reported]]] = {}
        self.end = ""

    def hear(self, until: float) -> bool:
        """The next that is reported; false where nothing comes in time, or any more."""
        if self.end or not self.ours.poll(max(0.0, until - time.monotonic())):
            return False
        try:
            reported = self.ours.recv()
        except EOFError:
            self.end = "killed"
            return False
        if isinstance(reported, str):
            self.end = reported
        elif reported[2] == "ok":
            self.cells[reported[0]] = reported[1]
        return True

    def hear_to_cell(self, count: int) -> None:
        until = time.monotonic() + 4 * SECONDS
        while len(self.cells) < count and self.hear(until):
            pass

    def hear_all(self) -> None:
        self.hear_to_cell(1_000_000)
        self.process.join(SECONDS)

    def kill(self, kind: str) -> None:
        """Ends some of what runs, at once."""
        found = {pid: words(pid) for pid in below(self.process.pid or 0)}
        marks = {"kernel": "tmhost-jupyter-kernel start", "host": "live --json", "interpreter": "adapters/python"}
        chosen = [pid for pid, reported in found.items() if kind in marks and marks[kind] in reported]
        if kind == "all":
            chosen = list(found)
        elif kind == "front end" or not chosen:
            chosen = [self.process.pid or 0]
        for pid in chosen:
            with contextlib.suppress(ProcessLookupError):
                os.kill(pid, signal.SIGKILL)


KINDS = ("all", "front end", "kernel", "host", "interpreter")


@needs_program
@unittest.skipUnless(MODULES, "python3 has no sympy, numpy or matplotlib")
class Lessons(Case):
    def setUp(self) -> None:
        super().setUp()
        self.install("--name", "kernel", "--session", "py", os.path.join(ROOT, "adapters", "python"))
        self.sheet = self.place("lesson.tmhost")
        self.set_environment(TMHOST_SHEET=self.sheet, PYTHONHASHSEED="0")  # the order of sympy's sets is part of answers

    def answers(self) -> Dict[int, List[Tuple[str, Reported]]]:
        """What the worksheet has for the cells, which are its fields in their order."""
        fields = fields_of(self.sheet)
        self.assertEqual(["\n".join(field.lines) for field in fields], codes()[: len(fields)])
        shown = {at: Shown(field.answer, 1) for at, field in enumerate(fields) if field.answer}
        return {at: plain([{"output_type": message.kind, **message.content} for message in one.messages]) for at, one in shown.items()}

    def whole(self) -> Dict[int, List[Tuple[str, Reported]]]:
        run = Run(self.folder)
        run.hear_all()
        self.assertEqual((run.end, len(run.cells)), ("end", len(codes())))
        self.assertEqual(self.answers(), run.cells)
        return run.cells

    def test_killed(self) -> None:
        """Whatever is killed: each answer that a front end had is in the worksheet, those of cells that weren't come to in this run too, and no
        cell has another's."""
        wanted = self.whole()
        self.exported()
        os.unlink(self.sheet)
        os.unlink(self.sheet + ".alt")
        seed = int(os.environ.get("TMHOST_SEED", str(random.randrange(1 << 30))))
        chance, acknowledged = random.Random(seed), 0
        held: Dict[int, List[Tuple[str, Reported]]] = {}
        for number in range(KILLS):
            kind = KINDS[number % len(KINDS)]
            with self.subTest(kind=kind, number=number, seed=seed):
                run = Run(self.folder)
                run.hear_to_cell(chance.randrange(0, len(wanted)))
                run.hear(time.monotonic() + chance.random() * 0.2)
                run.kill(kind)
                run.hear_all()
                acknowledged += len(run.cells)
                held.update(run.cells)
                asked = len(run.cells)  # the cell whose answer may be gone, or there and not reported
                held.pop(asked, None)
                found = self.answers()
                self.assertEqual({at: found.get(at) for at in held}, held)
                self.assertEqual(found, {at: wanted[at] for at in found})
                held = found
                print(f"kill {number + 1}, of {kind} at cell {asked + 1}: {len(held)} answers in the worksheet", flush=True)
        print(f"{KILLS} kills, {acknowledged} answers acknowledged, {len(held)} in the worksheet at last, seed {seed}")
        self.assertEqual(self.whole(), wanted)
        self.exported()

    def test_an_error_ends_a_run(self) -> None:
        notebook = lesson()
        cells = [cell for cell in notebook.cells if cell.cell_type == "code"][:3]
        for cell, text in zip(cells, ("6 * 7", "print('before')\n1 / 0", "8")):
            cell.source = text
        notebook.cells = cells
        client: Any = NotebookClient(notebook, kernel_name="kernel", timeout=None, startup_timeout=int(SECONDS), resources={"metadata": {"path": self.folder}})
        with self.assertRaisesRegex(CellExecutionError, "ZeroDivisionError: division by zero"):
            client.execute()
        self.assertEqual([kind for kind, _ in plain(notebook.cells[1].outputs)], ["stream", "error"])
        self.assertEqual([(field.lines[-1], field.state) for field in fields_of(self.sheet)], [("6 * 7", "answered"), ("1 / 0", "answered")])

    def exported(self) -> None:
        """The notebook that comes back."""
        reported = subprocess.run([PROGRAM, "export", "notebook", self.sheet], stdout=subprocess.PIPE, check=True).stdout
        notebook = nbformat.reads(reported.decode(), 4)  # type: ignore[no-untyped-call]
        nbformat.validate(notebook)
        self.assertEqual([cell.source for cell in notebook.cells], codes())
        self.assertTrue(all(cell.metadata.tmhost.session == "py" for cell in notebook.cells))
        shown = {at for at, cell in enumerate(notebook.cells) if cell.outputs}
        self.assertEqual(shown, {at for at, outputs in self.answers().items() if outputs})
