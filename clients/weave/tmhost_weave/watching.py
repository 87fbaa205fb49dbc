"""Texts that are woven again whenever they are saved, by interpreters that run on between the weaves."""
import contextlib
import os
import sys
import time
from typing import Callable, Dict, Iterator, List, Mapping, Optional, Sequence, Tuple

from tmhost import Worksheet
from tmhost.advice import SECOND

from .document import Document
from .files import Stamp, read, stamp_of, text_of
from .lives import Lives
from .plan import Plan, Wanted, with_lives
from tmhost_fences.troubles import Trouble

PAUSE = 0.3  # seconds between two looks at the files
SETTLES = 0.1  # seconds for which a file stays as it is before it is read, since an editor may still write it


def identity_of(path: str) -> Tuple[object, ...]:
    """Which files the worksheet at a path has, and in which folder this program is, where interpreters start."""
    return path, *(stamp[:2] if stamp else None for stamp in map(stamp_of, (path, path + SECOND, os.curdir)))


class Watched:
    """A text from one weave to the next: how its files were when they were read, and its worksheet, which stays open."""

    def __init__(self, text: str) -> None:
        self.text = text  # as its user calls it
        self._path = os.path.abspath(text)  # while it is woven, this program may be in another folder
        self._files: Dict[str, Stamp] = {self._path: None}  # the text, and the pictures of its prose in its page
        self._last: Dict[str, Stamp] = {}  # at the last look
        self._lives: Optional[Lives] = None
        self._identity: Tuple[object, ...] = ()
        self.is_renewed = False  # whether a weave of it has begun to evaluate
        self._is_partial = False  # whether it is heard there what interpreters write before an answer is whole
        self._saved: Tuple[Stamp, float, Optional[Document]] = None, 0.0, None  # what was saved while it is woven, and since when that is seen

    # ---- files

    def begin(self) -> None:
        """Takes all files as they were at the last look for those that are woven: what was saved since is seen at the next one."""
        self._files = dict(self._last) or {path: stamp_of(path) for path in self._files}

    def wrote(self, stamp: Stamp) -> None:
        """The text is the one with this stamp, with its answers, and no other one was saved before it."""
        self._files[self._path] = stamp

    def takes(self, pictures: Mapping[str, Stamp]) -> None:
        """What else the text was woven with."""
        self._files = {**pictures, self._path: self._files[self._path]}

    def look(self) -> Tuple[bool, bool]:
        """Whether any file is another one than at the last weave, and whether all are as they were at the last look."""
        now = {path: stamp_of(path) for path in self._files}
        last, self._last = self._last, now
        return now != self._files, now == last

    # ---- the worksheet

    def lives(self, path: str, opened: Callable[[], Worksheet], is_partial: bool) -> Lives:
        """The interpreters of the worksheet at a path. Where that is another one by now, or its program has ended, it is opened again. So it is where it is to be
        heard what they write before an answer is whole, and wasn't."""
        is_open = self._lives is not None and self._lives.sheet.error is None and identity_of(path) == self._identity
        if self._lives is None or not is_open or is_partial > self._is_partial:
            self.close()
            self._lives = Lives(opened())
            self._identity, self._is_partial = identity_of(path), is_partial
        return self._lives

    def close(self) -> None:
        if self._lives:
            self._lives.sheet.close()
        self._lives = None

    # ---- while it is woven

    def is_outdated(self, plan: Plan, wanted: Wanted) -> bool:
        """Whether the text was saved meanwhile, and asks no more for a field after those before it. One that can't be read for a moment asks for all."""
        now = stamp_of(self._path)
        if now == self._files[self._path] or now is None:
            return False
        stamp, since, document = self._saved
        if now != stamp:
            self._saved = now, time.monotonic(), None
        elif document is None and time.monotonic() - since >= SETTLES:
            with contextlib.suppress(Trouble, OSError):
                document = Document(text_of(read(self._path)))
                self._saved = now, since, document
        return document is not None and now == stamp and not asks_for(document, plan, wanted)


def asks_for(document: Document, plan: Plan, wanted: Wanted) -> bool:
    """Whether a text has a field still, and in its session the same ones before it."""
    name, is_pure = wanted.fence.session, wanted.fence.is_pure
    if document.sessions.get(name) != plan.words[wanted.session]:
        return False
    fences = [fence for fence, life in with_lives(document.fences) if (fence.session, fence.is_pure, life) == (name, is_pure, wanted.life)]
    inputs = [group.input for fence in fences for group in fence.groups]
    asked = [*(one.input for one in plan.before(wanted)), wanted.input]
    return wanted.input in inputs if is_pure else inputs[: len(asked)] == asked


@contextlib.contextmanager
def lives_of(watched: Optional[Watched], path: str, opened: Callable[[], Worksheet], is_partial: bool) -> Iterator[Lives]:
    """The interpreters of a worksheet, which is closed at the end where nobody watches its text."""
    if watched:
        yield watched.lives(path, opened, is_partial)
        return
    with opened() as sheet:
        yield Lives(sheet)


def due(watched: Sequence[Watched]) -> List[Watched]:
    """Waits until texts were saved, and gives them."""
    pause = PAUSE
    while True:
        time.sleep(pause)
        looks = [(one, *one.look()) for one in watched]
        found = [one for one, is_other, is_still in looks if is_other and is_still]
        if found:
            return found
        pause = SETTLES if any(is_other for _, is_other, _ in looks) else PAUSE


def watch(texts: Sequence[str], weave: Callable[[Watched], object]) -> None:
    """Has each text woven, and again whenever it was saved, until Control-C. One that breaks off a weave is raised."""
    watched = [Watched(text) for text in texts]
    with contextlib.ExitStack() as stack:
        for one in watched:
            stack.callback(one.close)
        saved = watched
        while True:
            for one in saved:
                one.begin()
                weave(one)
            if saved is watched:
                print("tmhost-weave: watching; Control-C ends", file=sys.stderr, flush=True)
            try:
                saved = due(watched)
            except KeyboardInterrupt:
                print("\n" * sys.stderr.isatty(), end="", file=sys.stderr)  # after the ^C of a terminal
                return
