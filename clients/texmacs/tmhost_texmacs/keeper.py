"""The program that keeps a worksheet open for all its sessions in TeXmacs, which each have a process of their own.

It ends with the last of them, and so do the interpreters. A connection begins with a line of JSON, who it is; then come the lines of TeXmacs, and an
interrupt as a line that is the byte 3. Back go blocks, after a line of JSON that says whether it was joined.
"""

import itertools
import json
import os
import socket
import sys
import threading
import time
from typing import BinaryIO, Dict, List, Optional, Tuple

from tmhost import Event, Finished, TmhostError, Worksheet
from tmhost.advice import advised

from .offered import ensured, none_of
from .places import address_of, folder_of_pictures
from .speech import Speech, whole
from .talk import Gone, Interrupt, Left, Place, Talk, at_work

INTERRUPT = b"\x03\n"
READY = "ready"
LAST_WORDS = 0.2  # seconds in which it is said in a line why that has no answer
Owner = Tuple[int, str]  # a process of TeXmacs, and a document in it


class Keeper:
    def __init__(self, sheet: Worksheet, door: "Door") -> None:
        self.sheet, self.door, self.speech = sheet, door, Speech(folder_of_pictures())
        self.lock = threading.Lock()
        self.joined: Dict[int, Tuple[Owner, str]] = {}  # who has joined, for which session
        self.is_over = threading.Event()

    def _heard(self, event: Event) -> None:
        """A program that has died between lines is noticed before the next one."""
        if isinstance(event, Finished):
            self.door.close()
            time.sleep(LAST_WORDS)
            self.is_over.set()

    def serve(self) -> None:
        self.sheet.listen(self._heard)
        threading.Thread(target=self._accept, daemon=True).start()
        self.is_over.wait()

    def _accept(self) -> None:
        for number in itertools.count():
            try:
                connection, _ = self.door.listener.accept()
            except OSError:  # it was closed
                return
            threading.Thread(target=self._one, args=(number, connection), daemon=True).start()

    def _one(self, number: int, connection: socket.socket) -> None:
        with connection, connection.makefile("rb") as lines:
            try:
                self._joined(number, json.loads(lines.readline()), connection, lines)
            except (OSError, ValueError):
                pass  # its process has ended
            except TmhostError as error:
                self._say_the_end(connection, error)
            finally:
                self._leave(number)

    def _joined(self, number: int, hello: Dict[str, str], connection: socket.socket, lines: BinaryIO) -> None:
        place = Place(hello["session"], hello["document"], hello["process"])
        name = place.session.partition(":")[0]
        why = self._why_not(number, (int(hello["texmacs"]), place.document), name)
        if why is None and ensured(self.sheet, name) is None:
            why = none_of(self.sheet, name)
        connection.sendall(json.dumps({"refused": why}).encode() + b"\n")
        if why is None:
            talk = Talk(self.sheet, place, self.speech, connection.sendall)
            connection.sendall(talk.banner())
            threading.Thread(target=hear, args=(lines, talk), daemon=True).start()
            answer_lines(talk)
            self._end_interpreter(number, name)

    def _end_interpreter(self, number: int, name: str) -> None:
        """A session that TeXmacs has closed has no interpreter any more, unless another one of that name is open."""
        with self.lock:
            is_shared = any(other == name for one, (_, other) in self.joined.items() if one != number)
        if not is_shared:
            self.sheet.stop(name)

    def _why_not(self, number: int, owner: Owner, name: str) -> Optional[str]:
        """Why a session can't join: another document, or the same in another TeXmacs, is at work."""
        with self.lock:
            others = [one for one, _ in self.joined.values() if one != owner]
            if not others:
                self.joined[number] = owner, name
                return None
        whose = "" if others[0][0] == owner[0] else f" of another TeXmacs (process {others[0][0]})"
        return at_work(self.sheet.path, others[0][1], whose)

    def _leave(self, number: int) -> None:
        with self.lock:
            was_joined = self.joined.pop(number, None) is not None
            if was_joined and not self.joined:
                self.is_over.set()

    def _say_the_end(self, connection: socket.socket, error: TmhostError) -> None:
        """The program has died: nothing more goes here, and the next line of TeXmacs starts another keeper."""
        try:
            connection.sendall(whole(f"? {advised(error, self.sheet.path)}; evaluate the line again"))
        except OSError:
            pass  # nobody is there any more who could read it
        self.is_over.set()


def hear(lines: BinaryIO, talk: Talk) -> None:
    try:
        for line in lines:
            talk.happenings.put(Interrupt() if line == INTERRUPT else line.decode("utf-8", "replace").rstrip("\n"))
    except (OSError, ValueError):
        pass  # the connection was closed or broke, which is what `Gone` says
    talk.happenings.put(Gone())


def answer_lines(talk: Talk) -> None:
    while True:
        happening = talk.happenings.get()
        if isinstance(happening, Gone):
            return
        if isinstance(happening, str):
            try:
                talk.say(happening)
            except Left:
                continue


class Door:
    """The socket at which sessions come to a worksheet that this process holds: a file of that name is one of a process that ended. It is closed once, and the
    file goes where it is still this one."""

    def __init__(self, path: str) -> None:
        self.path, self.listener = path, socket.socket(socket.AF_UNIX)
        if os.path.lexists(path):
            os.unlink(path)
        with address_of(path) as address:
            self.listener.bind(address)
        self.listener.listen()
        self.file = os.stat(path).st_ino

    def close(self) -> None:
        try:
            if os.stat(self.path).st_ino == self.file:
                os.unlink(self.path)
            self.listener.shutdown(socket.SHUT_RDWR)
        except OSError:
            pass  # the file has gone, or nobody was connected: there is nothing left to end
        self.listener.close()


def keep(sheet: str, path: str) -> int:
    """Keeps a worksheet until the last session leaves. The first line of the output says READY, or why it can't."""
    try:
        os.makedirs(os.path.dirname(os.path.abspath(sheet)), exist_ok=True)
        with Worksheet(sheet, create=True) as worksheet:
            door = Door(path)
            tell(READY)
            Keeper(worksheet, door).serve()
            door.close()
    except (OSError, TmhostError) as error:
        tell(advised(error, sheet))
        return 1
    return 0


def tell(text: str) -> None:
    """To the process that has started this one, which waits for it; it may have ended, too."""
    lines: List[str] = text.splitlines() or [""]
    try:
        print(lines[0], flush=True)
    except OSError:
        pass  # it has ended
    sys.stdout = open(os.devnull, "w", encoding="utf-8")
    os.dup2(sys.stdout.fileno(), 1)
