"""Where the page of a text is written, and which texts are in the way of one another."""
import os
from typing import Dict, Iterable, List, Optional

from tmhost_fences.targets import refuse_target
from tmhost_fences.troubles import Trouble

from .files import refuse_other_than_files
from .sheets import sheet_path

OPTION = "--html"
SUFFIXES = (".html", ".htm")


def is_page(given: str) -> bool:
    """Whether what is given is a page, by its name, and no folder of pages."""
    return given.lower().endswith(SUFFIXES) and not os.path.isdir(given)


def page_of(given: str, text: str) -> str:
    """The page of a text: the file that is given, or one with the text's name in the folder that is."""
    return given if is_page(given) else os.path.join(os.path.normpath(given), os.path.splitext(os.path.basename(text))[0] + SUFFIXES[0])


def pages_of(given: str, texts: Iterable[str]) -> Dict[str, str]:
    """The names of the pages of texts, which are in one folder, by the paths of these texts."""
    return {os.path.realpath(text): os.path.basename(page_of(given, text)) for text in texts}


def other_ending(given: str) -> str:
    """How a name ends that is neither one of a page nor that of a folder: of one that is there, or has a slash at its end."""
    return "" if is_page(given) or os.path.isdir(given) else os.path.splitext(os.path.basename(given))[1]


def why_unclear(given: str, texts: List[str]) -> Optional[str]:
    """Why pages of these texts can't go there."""
    if not given:
        return f"{OPTION} names no file"
    ending = other_ending(given)
    if ending:
        return f"{given} ends in {ending}, and a page of {OPTION} in {SUFFIXES[0]}: name it {given[: -len(ending)]}{SUFFIXES[0]}, or a new folder {given}/"
    if len(texts) > 1 and is_page(given):
        return f"with several texts {OPTION} is a folder, and {given} is a page"
    twice = found_twice([os.path.realpath(page_of(given, text)) for text in texts])
    return f"several texts would have the page {twice}" if twice else None


def found_twice(paths: List[str]) -> Optional[str]:
    return next((path for path in paths if paths.count(path) > 1), None)


def why_shared(texts: List[str]) -> Optional[str]:
    """Why these texts can't be woven in turn: of two with one worksheet each would take the answers of the other away."""
    twice = found_twice([sheet_path(os.path.realpath(text)) for text in texts])
    return f"several texts would have the worksheet {twice}" if twice else None


def place_of(given: str, page: str, kept: Iterable[str]) -> str:
    """The file of a page. One that can't be written is refused, and so is one by which something would be lost. A folder of pages is made later on, where there
    is one to make it in."""
    place = os.path.realpath(page)
    folder = os.path.dirname(place)
    if not is_page(given) and os.path.lexists(os.path.normpath(given)) and not os.path.isdir(given):
        raise Trouble(f"{OPTION}: {given} is no folder, and its name doesn't end in {SUFFIXES[0]}")
    refuse_other_than_files(OPTION, place)
    if is_page(given) or os.path.isdir(folder):
        refuse_target(OPTION, place, kept)
    elif not os.path.isdir(os.path.dirname(folder)):
        raise Trouble(f"{OPTION}: there is no folder {os.path.dirname(folder)}")
    return place
