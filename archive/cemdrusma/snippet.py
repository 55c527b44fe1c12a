"""A piece of a text around what was searched, with the words marked."""
from __future__ import annotations

import re
import unicodedata
from typing import Iterator, List, NamedTuple, Sequence, Tuple

from .query import Phrase
from .sources import Pieces
from .words import WORD_CHARACTERS, words_of

# how many characters are shown before the first word that was found, and in all
BEFORE, LENGTH = 50, 160
# how much of a text is looked through
LOOKED_AT = 2**20

Span = Tuple[int, int, str]


class Snippet(NamedTuple):
    """A text on one line, and where the words in it begin and end that were searched."""

    text: str
    marks: List[Tuple[int, int]]

    def marked(self, begin: str, end: str) -> str:
        text, place = "", 0
        for first, last in self.marks:
            text += self.text[place:first] + begin + self.text[first:last] + end
            place = last
        return text + self.text[place:]


def spans(text: str) -> List[Span]:
    """Where each word of a text begins and ends, and the word."""
    return [(match.start(), match.end(), unicodedata.normalize("NFC", match.group().lower()))
            for match in re.finditer(r"\S+", text.translate(WORD_CHARACTERS))]


def places(words: Sequence[str], phrase: Phrase) -> Iterator[int]:
    """Where a phrase begins in words."""
    size, last = len(phrase.words), len(phrase.words) - 1
    for place in range(len(words) - size + 1):
        if phrase.is_open:
            if tuple(words[place : place + last]) == phrase.words[:-1] and words[place + last].startswith(phrase.words[-1]):
                yield place
        elif words[place] == phrase.words[0] and tuple(words[place : place + size]) == phrase.words:
            yield place


def holds(pieces: Pieces, phrase: Phrase) -> bool:
    """Whether one of the pieces has a phrase."""
    return any(has_phrase(text, phrase) for _, text in pieces)


def has_phrase(text: str, phrase: Phrase) -> bool:
    return next(places(words_of(text), phrase), None) is not None


def snippet_of(pieces: Pieces, wanted: Sequence[Phrase]) -> Snippet:
    """Of the first text that has one of these, else of the first field of the header, else how the text begins."""
    texts = [text[:LOOKED_AT] for name, text in pieces if not name]
    fields = [f"{name}: {text}" for name, text in pieces if name]
    for text in texts + fields:
        found = spans(text)
        marks = marks_in(found, wanted)
        if marks:
            return cut(text, marks)
    return cut(texts[0] if texts else "", [])


def marks_in(found: List[Span], wanted: Sequence[Phrase]) -> List[Tuple[int, int]]:
    """Where each of these begins and ends; those that overlap are one."""
    words = [word for _, _, word in found]
    marks: List[Tuple[int, int]] = []
    for begin, end in sorted((found[place][0], found[place + len(phrase.words) - 1][1]) for phrase in wanted for place in places(words, phrase)):
        if marks and begin < marks[-1][1]:
            marks[-1] = marks[-1][0], max(end, marks[-1][1])
        else:
            marks.append((begin, end))
    return marks


def cut(text: str, marks: List[Tuple[int, int]]) -> Snippet:
    """So much of a text around the first mark, on one line."""
    first = marks[0][0] if marks else 0
    begin = max(0, first - BEFORE)
    end = min(len(text), begin + LENGTH)
    # whole words, as far as spaces part them
    if begin:
        begin = next((place + 1 for place in range(begin, first) if text[place].isspace()), begin)
    if end < len(text):
        end = next((place for place in range(end, max(first, begin), -1) if text[place].isspace()), end)
    line, kept, place = ".. " if begin else "", [], begin
    for mark_begin, mark_end in [*((low, high) for low, high in marks if begin <= low and high <= end), (end, end)]:
        line = joined(line, text[place:mark_begin])
        if mark_begin < mark_end:
            mark = re.sub(r"\s+", " ", text[mark_begin:mark_end])
            kept.append((len(line), len(line) + len(mark)))
            line += mark
        place = mark_end
    line = line.rstrip()
    return Snippet(line + (" .." if end < len(text) else ""), kept)


def joined(line: str, more: str) -> str:
    """Runs of spaces and line ends become one space."""
    more = re.sub(r"\s+", " ", more)
    return line + (more.lstrip() if not line or line.endswith(" ") else more)
