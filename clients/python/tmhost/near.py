"""Whether a word is a misspelling of one of those that are known."""
from typing import List, Optional, Sequence

LEAST = 3  # letters of a word that may be one; of two letters, as `js` beside `jl`, each is as likely to be meant
LONG = 5  # letters from which on two may be wrong


def distance(one: str, other: str) -> int:
    """How many letters are put in, left out, replaced, or exchanged with the next one, to make one word of the other."""
    before: List[int] = []
    row = list(range(len(other) + 1))
    for at, letter in enumerate(one):
        beyond, before, row = before, row, [at + 1]
        for place, wanted in enumerate(other):
            ways = [before[place + 1] + 1, row[place] + 1, before[place] + (letter != wanted)]
            if at and place and letter == other[place - 1] and one[at - 1] == wanted:
                ways.append(beyond[place - 1] + 1)
            row.append(min(ways))
    return row[-1]


def most(one: str, other: str) -> int:
    """How many letters may be wrong: two where both words are long, since of short ones two are another word, as `tex` and `text`, `sh` and `bash`."""
    return 2 if min(len(one), len(other)) >= LONG else 1 if len(one) >= LEAST else 0


def near(word: str, known: Sequence[str]) -> Optional[str]:
    """The known word that is meant by one that isn't known: the nearest one, of several the first. None where the word is known, or is none of them.
    Capitals are no letters of their own: `Py` is `py`."""
    if word in known:
        return None
    found = [(distance(word.lower(), one.lower()), at, one) for at, one in enumerate(known) if abs(len(word) - len(one)) <= most(word, one)]
    fitting = [it for it in found if it[0] <= most(word, it[2])]
    return min(fitting)[2] if fitting else None
