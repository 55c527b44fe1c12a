"""How texts come to a vault: what isn't there yet is put, then the list of all that is to be there, and then what that doesn't name is
dropped. So a stop at any moment leaves the list that was there or the new one, with all of its texts; whole texts that a stopped run had put
are taken by the next one."""
from __future__ import annotations

import collections
import hashlib
import os
import random
from typing import IO, Callable, DefaultDict, Dict, Iterable, Iterator, List, NamedTuple, Optional

from . import sources, state
from .client import MORE, RUN
from .folder import Folder
from .pieces import READ_BYTES, Stored, text_pieces
from .progress import Progress
from .settings import Settings
from .text_list import Entries, Entry, identifiers_of, list_pieces, name_of
from .vault_client import VaultSession
from .vault_journal import VaultJournal

# after how many updates this machine's memory of the journal is written
REMEMBERED_EACH = 100


class Part(NamedTuple):
    """A text that is to be at the vault: its length, its checksum, and its pieces, whose making raises Changed or OSError if it isn't what it
    was."""

    length: int
    checksum: str
    pieces: Callable[[], Iterable[bytes]]


class Wanted(NamedTuple):
    """A file that is to be at the vault, and the entry that it has there already."""

    entry: Entry
    parts: List[Part]
    before: Optional[Entry]


# What files hold.


def wanted_of(path: str, kind: str, before: Optional[Entry], reading: sources.Reading) -> Optional[Wanted]:
    """A file as it is now: of an mbox file each mail is a text, any other one is a text as a whole. None if it can't be read, which is said."""
    try:
        for _ in range(sources.TRIES):
            with open(path, "rb") as file:
                status = os.fstat(file.fileno())
                parts = list(parts_in(path, file, kind == sources.MBOX))
                after = os.fstat(file.fileno())
            if (status.st_size, status.st_mtime_ns) == (after.st_size, after.st_mtime_ns) and status.st_size == sum(part.length for part in parts):
                entry = Entry(name_of(path), status.st_mtime_ns, len(sources.state_of(status)) > 2, (), kind)
                return Wanted(entry, parts, before)
        reading.unread("files that change while they are read: index again when they are at rest", path)
    except OSError as error:
        reading.unread(f"files that can't be stored ({error.strerror})", path)
    return None


def parts_in(path: str, file: IO[bytes], are_mails: bool) -> Iterator[Part]:
    begin, length, digest = 0, 0, hashlib.sha256()
    read = file.readline if are_mails else file.read
    for content in iter(lambda: read(READ_BYTES), b""):
        if length and are_mails and content.startswith(b"From "):
            yield part_at(path, begin, length, digest.hexdigest())
            begin, length, digest = begin + length, 0, hashlib.sha256()
        digest.update(content)
        length += len(content)
    yield part_at(path, begin, length, digest.hexdigest())


def part_at(path: str, begin: int, length: int, checksum: str) -> Part:
    def content() -> Iterator[bytes]:
        digest, left = hashlib.sha256(), length
        with open(path, "rb") as file:
            file.seek(begin)
            while left:
                read = file.read(min(left, READ_BYTES))
                if not read:
                    raise sources.Changed
                digest.update(read)
                left -= len(read)
                yield read
        if digest.hexdigest() != checksum:
            raise sources.Changed

    return Part(length, checksum, lambda: text_pieces(content()))


def part_again(journal: VaultJournal, text: Stored) -> Part:
    """A text of another vault's journal."""
    return Part(text.length, text.checksum, lambda: map(journal.body, text.identifiers()))


# What is sent.


class Counts(NamedTuple):
    """How many texts were put, how many that were there are no more, and how many stayed."""

    put: int
    dropped: int
    stayed: int


class Storing:
    """What the client does so that a vault has some files and no others. The journal is that of `place`, the archive's folder or the one
    in which it is renewed."""

    def __init__(self, folder: Folder, journal: VaultJournal, settings: Optional[Settings], reading: sources.Reading, progress: Progress) -> None:
        self.folder, self.journal, self.settings = folder, journal, settings
        self.reading, self.progress = reading, progress
        self.before, self.list = journal.newest_list()
        self.entries: Entries = {}  # what is to be there
        self.wanted: List[Wanted] = []
        self.left: DefaultDict[str, List[Stored]] = collections.defaultdict(list)  # by checksum: texts that no file has that stayed as it was
        self.begin = self.next = journal.puts + 1
        self.done = 0

    def stay(self, entries: Iterable[Entry]) -> None:
        self.entries.update((entry.name, entry) for entry in entries)

    def carry_out(self, digits: str, mark: bytes) -> Counts:
        """Puts and drops what is to be. The server is asked even if there is nothing to do. The state under this mark has to be held."""
        is_begun = False
        self.find_left()
        try:
            with VaultSession(self.folder, MORE if self.journal.records else RUN, self.journal.folder, self.settings) as session:
                session.greet(digits)
                if self.wanted or self.entries != self.before or self.unnamed():
                    is_begun = True
                    state.begin_attempt(self.journal, mark)
                    for _ in session.updates(self.lines()):
                        self.take(mark)
        except BaseException:
            self.journal.go_on()
            if is_begun:
                state.remember_sent(self.journal, mark)
            raise
        self.journal.go_on()
        state.remember(self.journal, mark)
        had, has = texts_of(self.before), texts_of(self.entries)
        put = sum(text.first >= self.begin for text in has)
        return Counts(put, len(had - has), len(has) - put)

    def find_left(self) -> None:
        """The texts at the vault that a file may get which isn't as it was: those of files that changed or went, and those of a stopped run."""
        stayed = texts_of(self.entries)
        for text in [*texts_of(self.before), *self.journal.unnamed(identifiers_of(self.before.values()))]:
            if text not in stayed:
                self.left[text.checksum].append(text)

    def take(self, mark: bytes) -> None:
        self.done += 1
        self.progress.show("{:,} pieces put or dropped at the vault", self.done)
        if self.done % REMEMBERED_EACH == 0:
            self.journal.go_on()
            state.remember(self.journal, mark, False)

    def lines(self) -> Iterator[str]:
        # in an order that says nothing of the files
        for wanted in random.SystemRandom().sample(self.wanted, len(self.wanted)):
            yield from self.put_file(wanted)
        if self.entries != self.before:
            pieces = list_pieces(self.entries)
            self.list = []
            for piece in pieces:
                self.list.append(self.next)
                yield self.put_piece(piece)
        unnamed = self.unnamed()
        yield from (f"drop {identifier}" for identifier in random.SystemRandom().sample(unnamed, len(unnamed)))

    def put_file(self, wanted: Wanted) -> Iterator[str]:
        """Puts the texts of a file that aren't there. A file that isn't what it was when it was looked at stays at the vault as it was there."""
        texts: List[Stored] = []
        try:
            for part in wanted.parts:
                if self.left[part.checksum]:
                    texts.append(self.left[part.checksum].pop())
                    continue
                first = self.next
                for piece in part.pieces():
                    yield self.put_piece(piece)
                texts.append(Stored(first, self.next - first, part.length, part.checksum))
            self.stay([wanted.entry._replace(texts=tuple(texts))])
        except (sources.Changed, OSError):
            self.reading.unread("files that change while they are stored: index again when they are at rest", "/" + wanted.entry.name)
            self.stay([wanted.before] if wanted.before else [])

    def put_piece(self, piece: bytes) -> str:
        self.next += 1
        return f"put {self.next - 1} {piece.hex()}"

    def unnamed(self) -> List[int]:
        """The pieces that are there, and which neither the list names nor are its own."""
        named = {*identifiers_of(self.entries.values()), *self.list}
        there = {*self.journal.live, *range(self.journal.puts + 1, self.next)}
        return sorted(there - named)


def texts_of(entries: Dict[str, Entry]) -> set:
    return {text for entry in entries.values() for text in entry.texts}
