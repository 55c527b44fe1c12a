"""The texts that are indexed, as they are in their files now."""
from __future__ import annotations

from typing import Dict, List, Optional, Set, Tuple

from . import sources
from .texts_file import Source, Text

# how many files of one text stay read, and from how many texts on a file stays whatever their number
MOST, ARE_MANY = 500, 2


class Shelf:
    """Texts that are read when they are wanted, most of them once."""

    def __init__(self) -> None:
        self.files: Dict[str, List[sources.Found]] = {}
        self.unread: Set[Tuple[str, str]] = set()  # those that couldn't be read, or aren't there any more, by path and name

    def text(self, source: Source, text: Text) -> Optional[sources.Found]:
        """What a text is now, None if it is no more."""
        found = self.texts_of(source.path)
        one = chosen(found, text)
        if one is None:
            self.unread.add((source.path, text.label))
        return one

    def texts_of(self, path: str) -> List[sources.Found]:
        if path in self.files:
            return self.files[path]
        try:
            read = sources.texts_of(path, sources.Reading()) if path else None
        except FileNotFoundError:
            read = None
        found = read[2] if read else []
        if len(found) >= ARE_MANY or len(self.files) < MOST:
            self.files[path] = found
        return found


def chosen(found: List[sources.Found], text: Text) -> Optional[sources.Found]:
    """Of the texts of a file the one that was indexed: the only one, the only one of this name, or the one that holds the same."""
    if len(found) == 1:
        return found[0]
    named = [one for one in found if one.label == text.label]
    if len(named) == 1:
        return named[0]
    return next((one for one in named or found if held_by(one) == text.held), None)


def held_by(one: sources.Found) -> str:
    return sources.checksum(sources.words_in(one.label, one.pieces, sources.Reading()))
