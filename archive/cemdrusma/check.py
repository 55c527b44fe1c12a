"""`archive check`: whether anything is broken, and what to do about it."""
from __future__ import annotations

import os
import random
from typing import Callable, List, Tuple

from . import vault
from .key import mark_of
from .opened import Opened, nothing_indexed
from .progress import Progress
from .report import Unreadable, counted, on_a_line
from .search import Index, ask
from .state import Standing, trouble
from .statuses import OTHER_ANSWER, OTHER_KEY, WORDS as WORDS_OR_PROGRAMS, Trouble
from .texts_file import names_lost

# of how many texts a word is searched, and of how many of its words the rarest is taken
TEXTS, WORDS = 10, 8

Finding = Tuple[int, str]


def check(archive: Opened, progress: Progress) -> int:
    """Prints a line for each part. Returns the status of the first finding."""
    found: List[int] = []

    def look(part: str, looked: Callable[[], Finding]) -> bool:
        progress.show(f"{part} is looked at")
        try:
            status, line = looked()
        except Trouble as error:
            status, line = error.status, str(error)
        except (Unreadable, OSError) as error:
            status, line = WORDS_OR_PROGRAMS, str(error)
        if status:
            found.append(status)
        print(f"{part + ':':9} {line}", flush=True)
        return not status

    has_journal = look("journal", lambda: journal(archive))
    has_key = look("key", lambda: key(archive, has_journal))
    has_texts = look("texts", lambda: texts(archive)) if has_journal or archive_opens(archive) else False
    if archive_opens(archive) and has_key and look("server", lambda: server(archive)) and has_texts:
        look("searches", lambda: searches(archive, progress))
    if archive.folder.settings.vault and has_texts:
        look("vault", lambda: (0, vault.looked_through(archive, archive.texts())))
    progress.end()
    print("check:    " + ("nothing is wrong" if not found else f"{len(found)} of these parts need something to be done"))
    return found[0] if found else 0


def archive_opens(archive: Opened) -> bool:
    try:
        return bool(archive.journal().records)
    except Trouble:
        return False


def journal(archive: Opened) -> Finding:
    found = archive.journal()
    if not found.records:
        archive.texts()
        raise nothing_indexed()
    standing = archive.standing()
    if standing is not Standing.AGREES:
        raise trouble(found, found.mark(), standing)
    return 0, f"{counted(found.records, 'record')}, {found.bytes:,} bytes, as this machine left it"


def key(archive: Opened, has_journal: bool) -> Finding:
    digits, folder = archive.key(), archive.folder
    if archive_opens(archive) and mark_of(digits) != archive.journal().key_mark():
        raise Trouble(OTHER_KEY, f"{folder.key_place()} isn't the key of {on_a_line(archive.journal().path)}: put back the one that this archive has had "
                      "last; if there is none, `archive renew --server ADDRESS` makes a new key and sets all up again")
    return 0, f"{folder.key_place()} is the journal's" if has_journal or archive_opens(archive) else f"{folder.key_place()} is one"


def texts(archive: Opened) -> Finding:
    found, live = archive.texts(), archive.journal().live
    if found.nameless():
        raise names_lost(archive.folder, len(found.nameless()))
    gone = sum(not os.path.lexists(source.path) for source in found.sources.values())
    to_read, to_delete = found.to_do()
    line = f"{counted(len(found.every()), 'text')} of {counted(len(found.sources), 'file')}, which are {counted(len(live), 'document')}"
    if gone or to_read or to_delete:
        line += f"; {gone:,} files are gone, {to_read:,} are to be read again, {to_delete:,} documents to be deleted: `archive index`"
    return 0, line


def server(archive: Opened) -> Finding:
    line = archive.greeted()
    return 0, f"{archive.folder.settings.server} has all that is indexed ({line})"


def searches(archive: Opened, progress: Progress) -> Finding:
    """Searches a word of each of some texts, one that was searched before if there is one, and else a rare one."""
    index = Index(archive.journal(), archive.texts())
    searched = {word for _, word in archive.folder.searches()}
    draw = random.SystemRandom()
    with_words = [text for _, text in index.rows if text.identifiers and text.identifiers[0] in archive.journal().live]
    words = set()
    for text in draw.sample(with_words, min(TEXTS, len(with_words))):
        held = archive.journal().words(text.identifiers[0])  # type: ignore[index]
        known = searched.intersection(held)
        some = known or set(draw.sample(held, min(WORDS, len(held))))
        if some:
            words.add(min(some, key=lambda word: (len(index.holders(word)), word)))
    answers = ask(archive, frozenset(words), progress)
    wrong = sorted(word for word, identifiers in answers.items() if identifiers != index.holders(word))
    if wrong:
        raise Trouble(OTHER_ANSWER, f"{len(wrong)} of {len(words)} words are answered with other documents than those that were sent, the first {wrong[0]}: the server lies, "
                      "or its file is damaged. Start one over a new file and run `archive renew --server ADDRESS`")
    return 0, f"{counted(len(words), 'word')} of {counted(min(TEXTS, len(with_words)), 'text')}, each answered with what was sent"
