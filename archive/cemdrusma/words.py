"""Words: runs of letters, digits and the marks that combine with them, in lower case. Queries are read in the same way. Finding
words in texts is outside what is proved: a word that isn't taken here can't be found."""
from __future__ import annotations

import unicodedata
from typing import Dict, List, Optional

# docs/FORMATS.md, "Limits"
WORD_BYTES = 64


class WordCharacters(Dict[int, str]):
    """For str.translate: a character that a word may have stays, any other becomes a space."""

    def __missing__(self, code: int) -> str:
        is_kept = unicodedata.category(chr(code))[0] in "LMN"
        self[code] = chr(code) if is_kept else " "
        return self[code]


WORD_CHARACTERS = WordCharacters()


def words_of(text: str) -> List[str]:
    """The words of a text in turn, repeats included."""
    return unicodedata.normalize("NFC", text.lower()).translate(WORD_CHARACTERS).split()


def is_too_long(word: str) -> bool:
    """A character has at most four bytes, so a short word needn't be written as bytes."""
    return len(word) * 4 > WORD_BYTES and len(word.encode()) > WORD_BYTES


def fault_of(query: str, at_most: Optional[int] = 1) -> Optional[str]:
    """Why a query is no word, or None if it is one; or if it is any number of words, with `at_most` None."""
    words = words_of(query)
    if any("\udc80" <= character <= "\udcff" for character in query):
        return "it isn't UTF-8"
    if not words:
        return "it has no letter and no digit"
    if at_most and len(words) > at_most:
        return f"it is {len(words)} words, and a search is for one"
    for word in filter(is_too_long, words):
        return f"it has {len(word.encode())} bytes, and a word at most {WORD_BYTES}"
    return None
