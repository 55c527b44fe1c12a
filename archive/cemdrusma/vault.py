"""The vault of an archive: what `archive index` stores there, and what the other commands tell of it."""
from __future__ import annotations

import os
import random
import sys
from typing import Dict, Iterable, List, Optional, Tuple

from . import sources, state
from .client import MORE
from .folder import fill_vault, tell_vault_key
from .key import mark_of
from .opened import Opened
from .pieces import Stored, Unpacked
from .printing import printable
from .progress import Progress
from .report import counted, nearer, on_a_line
from .state import Standing
from .statuses import FORGED, NOT_STORED, REFUSED, Trouble
from .storing import Counts, Storing, wanted_of
from .text_list import Entries, Entry, name_of
from .texts_file import Source, Text, Texts
from .vault_client import VaultSession
from .vault_journal import VAULT, VAULT_KEY, VaultJournal

# of how many texts `archive check` fetches a piece
TRIED = 10


def set_vault(archive: Opened, address: str) -> int:
    """Names the vault's address. The first time its key is made."""
    folder = archive.folder
    is_new = not folder.settings.vault and not archive.vault_journal().records
    if is_new and not os.path.exists(folder.of(VAULT_KEY)):
        fill_vault(folder.path)
    folder.settings.vault = address
    folder.keep_settings()
    archive.forget()
    if is_new:
        tell_vault_key(nearer(folder.of(VAULT_KEY)))
        print("`archive index` puts the texts there")
    else:
        print(f"the vault is at {address}")
    return 0


def mark_to_update(archive: Opened) -> bytes:
    """The mark of the vault's key. Raises why nothing may be put: to go on with an older copy would encrypt two texts under one keystream."""
    journal = archive.vault_journal()
    if journal.records:
        found, mark = archive.folder.standing(journal), journal.mark()
    else:
        mark = mark_of(archive.folder.vault_key())
        found = state.standing(journal, mark)
    if found is not Standing.AGREES:
        raise state.trouble(journal, mark, found)
    return mark


def store(archive: Opened, reading: sources.Reading, progress: Progress) -> Counts:
    """Puts the files of the archive's texts, as they are now, and drops what is at the vault besides."""
    digits, mark = archive.folder.vault_key(), mark_to_update(archive)
    with state.held(mark):
        # another folder with this key may have put something while the texts were indexed
        archive.known.pop(VAULT, None)
        mark_to_update(archive)
        storing = Storing(archive.folder, archive.vault_journal(), None, reading, progress)
        plan(storing, archive.texts(), reading, progress)
        return storing.carry_out(digits, mark)


def plan(storing: Storing, texts: Texts, reading: sources.Reading, progress: Progress) -> None:
    """Which files stay as they are at the vault, and which are to be looked at. One that can't be read stays."""
    by_key = keyed(storing.before)
    for count, (key, source) in enumerate(texts.sources.items()):
        progress.show("{:,} files looked at for the vault", count)
        before = storing.before.get(name_of(source.path)) or by_key.get(key)
        if before and is_as_before(before, source):
            storing.stay([before._replace(name=name_of(source.path))])
            continue
        wanted = wanted_of(source.path, source.kind or sources.TEXT, before, reading)
        if wanted:
            storing.wanted.append(wanted)
        elif before:
            storing.stay([before])


def keyed(entries: Entries) -> Dict[str, Entry]:
    """By what stays of a path while a mail's flags change."""
    return {sources.key_of("/" + name): entry for name, entry in entries.items()}


def is_as_before(entry: Entry, source: Source) -> bool:
    return source.state == [entry.size, entry.time] and not entry.is_young and source.kind == entry.kind


def to_do(texts: Texts, entries: Entries) -> Tuple[int, int]:
    """How many files aren't at the vault as they were indexed, and how many are there that are indexed no more."""
    by_key, seen, lacking = keyed(entries), set(), 0
    for key, source in texts.sources.items():
        entry = entries.get(name_of(source.path)) or by_key.get(key)
        if entry:
            seen.add(entry.name)
        if not entry or source.state and source.state[:2] != [entry.size, entry.time]:
            lacking += 1
    return lacking, len(entries.keys() - seen)


# What is told of it.


def standing_of(archive: Opened) -> VaultJournal:
    """The journal of a vault, which has something and is as this machine left it."""
    journal = archive.vault_journal()
    mark_to_update(archive)
    if not journal.records:
        raise Trouble(NOT_STORED, f"nothing is at the vault {archive.folder.settings.vault} yet: `archive index` puts the texts there")
    return journal


def described(archive: Opened, texts: Texts) -> str:
    """What is at the vault, if all is."""
    entries, _ = standing_of(archive).newest_list()
    lacking, more = to_do(texts, entries)
    if lacking:
        raise Trouble(NOT_STORED, f"{counted(lacking, 'file')} that {'is' if lacking == 1 else 'are'} indexed {'isn' if lacking == 1 else 'aren'}'t at the vault: `archive index`")
    if more:
        raise Trouble(NOT_STORED, f"{counted(more, 'file')} at the vault {'is' if more == 1 else 'are'} indexed no more: `archive index`")
    size = sum(entry.size for entry in entries.values())
    return f"has the texts of {counted(len(entries), 'file')}, {size:,} bytes"


def greeted(archive: Opened) -> str:
    """Asks the vault whether it has all that was put, and answers what the client prints."""
    standing_of(archive)
    with VaultSession(archive.folder, MORE) as session:
        return session.greet(archive.folder.vault_key())


def looked_through(archive: Opened, texts: Texts) -> str:
    """The same, and fetches a piece of each of some texts."""
    journal = standing_of(archive)
    there = sorted(journal.live)
    drawn = random.SystemRandom().sample(there, min(TRIED, len(there)))
    with VaultSession(archive.folder, MORE) as session:
        line = session.greet(archive.folder.vault_key())
        wrong = [identifier for identifier in drawn if session.body(identifier) != journal.body(identifier)]
    if wrong:
        raise Trouble(FORGED, f"the vault at {archive.folder.settings.vault} handed out another text than was put there")
    return f"{archive.folder.settings.vault} {described(archive, texts)} ({line}); {counted(len(drawn), 'piece')} fetched, each as it was put"


# What is fetched.


def show_stored(archive: Opened, found: List[Tuple[Source, Text]]) -> int:
    """Writes texts as they are at the vault to standard output: one text of an mbox file, else the whole file."""
    entries, _ = standing_of(archive).newest_list()
    source = found[0][0]
    entry = entries.get(name_of(source.path)) or keyed(entries).get(sources.key_of(source.path))
    if entry is None:
        raise Trouble(REFUSED, f"{on_a_line(source.path)} isn't at the vault yet: `archive index` puts it there")
    texts: Iterable[Stored] = entry.texts
    if source.kind == sources.MBOX and len(found) == 1 and len(source.texts) == len(entry.texts):
        texts = [entry.texts[source.texts.index(found[0][1])]]
    with VaultSession(archive.folder, MORE) as session:
        session.greet(archive.folder.vault_key())
        for text in texts:
            fetch(session, text)
    return 0


def fetch(session: VaultSession, text: Stored) -> None:
    parts: Optional[List[bytes]] = [] if sys.stdout.isatty() else None
    sys.stdout.flush()
    unpacked = Unpacked(text.first, sys.stdout.buffer.write if parts is None else parts.append)
    for identifier in text.identifiers():
        unpacked.take(session.body(identifier))
    # of what a terminal is given nothing moves its cursor
    print(printable(b"".join(parts).decode("utf-8", "replace")) if parts else "", end="", flush=True)
    if not unpacked.is_whole or unpacked.stored() != text:
        raise Trouble(FORGED, f"the vault at {session.server} handed out another text than was put there")
