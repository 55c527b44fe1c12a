"""`archive show`: a text as it is in its file now."""
from __future__ import annotations

import os
from typing import List, Tuple

from . import vault
from .opened import Opened
from .printing import print_name, printable
from .reading import Shelf, held_by
from .report import nearer, on_a_line, say
from .statuses import REFUSED, WORDS, Trouble
from .texts_file import Source, Text, Texts, names_lost


def show(archive: Opened, name: str, is_stored: bool = False) -> int:
    """Prints a text as it is now, or as it is at the vault. Returns the status."""
    texts = archive.texts()
    if not texts.is_there and archive.journal().live:
        raise names_lost(archive.folder, len(archive.journal().live))
    found = named(texts, name)
    if not found:
        raise Trouble(REFUSED, f"nothing is indexed as {on_a_line(name)}: give a number that `archive search` prints, or a path")
    if is_stored and not archive.folder.settings.vault:
        raise Trouble(WORDS, "this archive has no vault: `archive set vault ADDRESS` names one, and `archive index` puts the texts there")
    if is_stored and len({source.path for source, _ in found}) == 1:
        return vault.show_stored(archive, found)
    if len(found) > 1:
        print(f"{on_a_line(name)}: {len(found):,} texts, each shown by its number")
        for _, text in found:
            print_name(text.number or 0, text.label)
        return REFUSED
    return print_text(*found[0])


def named(texts: Texts, name: str) -> List[Tuple[Source, Text]]:
    """The texts that a name is for: a number, a path, a label."""
    every = texts.every()
    if name.isdecimal() and name.isascii():
        found = [(source, text) for source, text in every if int(name) == text.number]
        if found:
            return found
    path = os.path.abspath(name)
    found = [(source, text) for source, text in every if path == source.path]
    return found or [(source, text) for source, text in every if name == text.label]


def print_text(source: Source, text: Text) -> int:
    found = Shelf().texts_of(source.path)
    same = [one for one in found if held_by(one) == text.held]
    if not same and len(found) != 1:
        raise Trouble(REFUSED, f"{on_a_line(source.path)} has changed since it was indexed, or is gone: `archive index` it again. The "
                      f"text was {on_a_line(text.label)}")
    print(f"File: {on_a_line(nearer(source.path))}")
    print(f"Text: {text.number}, at the server {' '.join(map(str, text.identifiers or ())) or 'nothing, as it has no word'}")
    for name, piece in (same or found)[0].pieces:
        print(printable(f"{name}: {' '.join(piece.split())}" if name else f"\n{piece}"))
    if not same:
        say("the file has changed since it was indexed: `archive index` it again")
    return 0
