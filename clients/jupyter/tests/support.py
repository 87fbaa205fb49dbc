"""What the tests share: the program, kernels that are installed in a folder of a test's own, and a front end."""
import contextlib
import os
import shutil
import signal
import subprocess
import sys
import tempfile
import time
import unittest
from typing import Any, Dict, List, Optional, Tuple

HERE = os.path.dirname(os.path.realpath(__file__))
CLIENT = os.path.dirname(HERE)
ROOT = os.path.dirname(os.path.dirname(CLIENT))
sys.path[:0] = [CLIENT, os.path.dirname(CLIENT), *(os.path.join(os.path.dirname(CLIENT), name) for name in ("python", "fences"))]

from tested import PROGRAM as PROGRAM, InFolder  # noqa: E402
from tmhost import Field, InUse, Worksheet  # noqa: E402

COMMAND = os.path.join(CLIENT, "tmhost-jupyter-kernel")
INTERPRETER = [sys.executable, "-S", "-E", os.path.join(HERE, "interpreter.py")]
LESSON = os.path.abspath(os.environ.get("TMHOST_LESSON", os.path.join(HERE, "lesson.ipynb")))
SECONDS = 300.0  # in which everything comes, on a slow machine too

Reported = Dict[str, Any]

needs_program = unittest.skipUnless(os.path.isfile(PROGRAM), "there is no tmhost: TMHOST names none, and none is on PATH or built")


def eventually(path: str) -> Worksheet:
    """A worksheet, which may be in use for some moments after a kill."""
    until = time.monotonic() + SECONDS
    while True:
        try:
            return Worksheet(path, program=PROGRAM)
        except InUse:
            if time.monotonic() > until:
                raise
            time.sleep(0.05)


def fields_of(path: str) -> List[Field]:
    with eventually(path) as worksheet:
        return worksheet.fields


class Case(InFolder):
    """A test with a folder of its own, in which Jupyter finds its kernels and front ends work."""

    def setUp(self) -> None:
        self.folder = tempfile.mkdtemp(prefix="tmhost-jupyter-test.")
        self.addCleanup(shutil.rmtree, self.folder, ignore_errors=True)
        self.set_environment(
            TMHOST=PROGRAM, JUPYTER_PATH=os.path.join(self.folder, "share", "jupyter"), IPYTHONDIR=os.path.join(self.folder, "ipython"),
            JUPYTER_RUNTIME_DIR=os.path.join(self.folder, "runtime"), TMHOST_SHEET=None, JPY_SESSION_NAME=None)

    def set_environment(self, **wanted: Optional[str]) -> None:
        """For this test, and what it starts."""
        for name, value in wanted.items():
            self.addCleanup(self.restore, name, os.environ.get(name))
            self.restore(name, value)

    @staticmethod
    def restore(name: str, value: Optional[str]) -> None:
        if value is None:
            os.environ.pop(name, None)
        else:
            os.environ[name] = value

    def command(self, *words: str) -> "subprocess.CompletedProcess[str]":
        return subprocess.run([sys.executable, "-B", COMMAND, *words], cwd=self.folder, stdin=subprocess.DEVNULL, capture_output=True, text=True)

    def install(self, *words: str) -> None:
        done = self.command("install", "--prefix", self.folder, *words)
        self.assertEqual(done.returncode, 0, done.stderr)

    def install_interpreter(self) -> None:
        self.install("--name", "kernel", "--session", "a", "--tab", *INTERPRETER)


class Front:
    """A front end with one kernel, as those of Jupyter are made. `cell` of a call is its name for a cell."""

    def __init__(self, folder: str, kernel: str = "kernel") -> None:
        from jupyter_client.manager import KernelManager

        self.manager: Any = KernelManager(kernel_name=kernel)  # type: ignore[no-untyped-call]
        self.manager.start_kernel(cwd=folder)
        self.join()

    def join(self) -> None:
        self.client = self.manager.blocking_client()
        self.client.start_channels()
        self.client.wait_for_ready(timeout=SECONDS)

    def __enter__(self) -> "Front":
        return self

    def __exit__(self, *_: object) -> None:
        self.client.stop_channels()
        with contextlib.suppress(Exception):
            self.manager.shutdown_kernel(now=True)

    def send(self, code: str, cell: str = "", allow_stdin: bool = True, silent: bool = False) -> str:
        message = self.client.session.msg("execute_request", {
            "code": code, "silent": silent, "store_history": True, "user_expressions": {}, "allow_stdin": allow_stdin, "stop_on_error": True})
        message["metadata"] = {"cellId": cell} if cell else {}
        self.client.shell_channel.send(message)
        return str(message["header"]["msg_id"])

    def received(self, asked: str) -> Tuple[Reported, List[Reported]]:
        """The reply to a cell, and what was put out for it."""
        outputs: List[Reported] = []
        while True:
            reported = self.client.get_iopub_msg(timeout=SECONDS)
            if reported["parent_header"].get("msg_id") != asked:
                continue
            if reported["msg_type"] == "status" and reported["content"]["execution_state"] == "idle":
                return self.reply(asked), outputs
            if reported["msg_type"] not in ("status", "execute_input"):
                outputs.append({"type": reported["msg_type"], **reported["content"]})

    def reply(self, asked: str) -> Reported:
        while True:
            reported = self.client.get_shell_msg(timeout=SECONDS)
            if reported["parent_header"].get("msg_id") == asked:
                content: Reported = reported["content"]
                return content

    def execute(self, code: str, cell: str = "", **more: bool) -> Tuple[Reported, List[Reported]]:
        return self.received(self.send(code, cell, **more))

    def text(self, code: str, cell: str = "", **more: bool) -> str:
        """The text of a cell's value, or its error."""
        reply, outputs = self.execute(code, cell, **more)
        if reply["status"] == "error":
            return f"{reply['ename']}: {reply['evalue']}"
        return str(outputs[-1]["data"]["text/plain"]) if outputs else ""

    def restart(self) -> None:
        self.client.stop_channels()
        self.manager.restart_kernel()
        self.join()

    def kill(self) -> None:
        """Kills the kernel alone, as a crash of it would."""
        self.client.stop_channels()
        os.kill(self.manager.provisioner.pid, signal.SIGKILL)
        self.manager.provisioner.process.wait()
