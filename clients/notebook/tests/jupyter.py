"""The same times of Jupyter Notebook 6, as Debian has it, where it is installed: its page of as many cells in the same browser. It asks for no
token and listens at 127.0.0.1 alone, as long as the measurement lasts."""

import json
import os
import shutil
import signal
import socket
import subprocess
import time
import urllib.request
from typing import Any, Dict, List, Optional, Tuple

import chromium

PROGRAM = shutil.which("jupyter-notebook")
STARTED_WITHIN = 120.0  # seconds
WORDS = ["--no-browser", "--allow-root", "--ip=127.0.0.1", "--NotebookApp.token=", "--NotebookApp.password="]

LOADED = "window.Jupyter?.notebook?._fully_loaded && Jupyter.notebook.get_cells().length"
IS_READY = "Jupyter.notebook.kernel?.is_connected() && Jupyter.notebook.kernel_busy !== true"
KEYS = """
new Promise((done) => {
  const text = Jupyter.notebook.get_cell(500).code_mirror, times = [];
  Jupyter.notebook.select(500);
  text.focus();
  const next = () => {
    if (times.length === 20) return done(times);
    const start = performance.now();
    text.replaceSelection("x");
    requestAnimationFrame(() => setTimeout(() => { times.push(performance.now() - start); next(); }));
  };
  next();
})
"""
# Evaluates a cell with a new text, and gives the time until a picture of the page has its answer.
ANSWER = """
new Promise((done) => {
  const cell = Jupyter.notebook.get_cell(%d), start = performance.now();
  const watch = new MutationObserver(() => {
    if (cell.output_area.element.text().trim() !== "%s") return;
    watch.disconnect();
    requestAnimationFrame(() => setTimeout(() => done(performance.now() - start)));
  });
  watch.observe(cell.element[0], { childList: true, characterData: true, subtree: true });
  cell.set_text("print('%s')");
  cell.execute();
})
"""

Measured = List[Tuple[str, List[float]]]


def cell_of(number: int) -> Dict[str, Any]:
    text = f"{number} " + "word " * 20
    output = {"name": "stdout", "output_type": "stream", "text": text}
    return {"cell_type": "code", "execution_count": None, "metadata": {}, "outputs": [output], "source": f"print({text!r})"}


def write(path: str, count: int) -> None:
    kernel = {"kernelspec": {"display_name": "Python 3", "language": "python", "name": "python3"}}
    with open(path, "w", encoding="utf-8") as file:
        json.dump({"cells": [cell_of(number) for number in range(count)], "metadata": kernel, "nbformat": 4, "nbformat_minor": 4}, file)


def free_port() -> int:
    with socket.socket() as one:
        one.bind(("127.0.0.1", 0))
        port: int = one.getsockname()[1]
        return port


def until_there(address: str) -> None:
    end = time.monotonic() + STARTED_WITHIN
    while True:
        try:
            urllib.request.urlopen(address, timeout=5).close()
            return
        except OSError:
            if time.monotonic() > end:
                raise
            time.sleep(0.1)


def measured(browser: chromium.Browser, folder: str, count: int, times: int) -> Optional[Measured]:
    """What it takes to open the page, to show a key, and from a key that evaluates to the picture with the answer; None where it isn't there."""
    if PROGRAM is None:
        return None
    write(os.path.join(folder, "cells.ipynb"), count)
    port = free_port()
    own = {**os.environ, "HOME": folder, "JUPYTER_RUNTIME_DIR": folder}
    server = subprocess.Popen([PROGRAM, *WORDS, f"--port={port}", f"--notebook-dir={folder}"], env=own,
        stdin=subprocess.DEVNULL, stdout=subprocess.DEVNULL, stderr=subprocess.DEVNULL, start_new_session=True)
    try:
        until_there(f"http://127.0.0.1:{port}/api")
        return times_of(browser, f"http://127.0.0.1:{port}/notebooks/cells.ipynb", count, times)
    finally:
        os.killpg(server.pid, signal.SIGTERM)
        server.wait()


def times_of(browser: chromium.Browser, address: str, count: int, times: int) -> Measured:
    browser.open("about:blank")
    start = time.monotonic()
    tab = browser.open(address)
    tab.until(LOADED, count)
    opens = (time.monotonic() - start) * 1000
    keys: List[float] = tab.value(KEYS)
    tab.until(IS_READY)
    answers = [tab.value(ANSWER % (101 + 40 * number, f"new {number}", f"new {number}")) for number in range(times)]
    return [("it opens in", [opens]), ("a key is seen in", keys), ("an answer is seen, after its key, in", answers)]
