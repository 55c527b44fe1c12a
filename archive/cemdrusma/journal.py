"""The client's journal, which sse_net writes and which decides what is indexed (docs/FORMATS.md, "The journal" and "The
records of a client"). It is only read here."""
from __future__ import annotations

import bisect
import hashlib
import mmap
import os
import re
from typing import Dict, Iterator, List, Sequence, Set, Tuple, Union

from .report import on_a_line
from .statuses import DISK, NO_JOURNAL, Trouble

JOURNAL = "journal"
MAGIC = b"SSEJRNL1"
PAYLOAD_BYTES = 2**27
SETUPS = {0x14: 23, 0x11: 21}  # a setup's kind: where the count of its documents stands
ADDITION, DELETION, REBUILD = 0x12, 0x13, 0x15
MARK_BYTES = 16
WORD_BYTES = 64
# a word of so many bytes has a digit's byte as its length, which may stand within another word
AMBIGUOUS = range(ord("0"), ord("9") + 1)

Content = Union[mmap.mmap, bytes]


class NoJournal(Exception):
    """The bytes at this place are no record of a client."""


def payloads(content: Content, place: int = len(MAGIC)) -> Iterator[Tuple[int, int]]:
    """Where each record's payload begins and ends, from the record at a place on."""
    if len(content) <= len(MAGIC):
        return
    if content[: len(MAGIC)] != MAGIC:
        raise NoJournal(0)
    while content[place] == 1 and place + 1 < len(content):
        begin = place + 5
        end = begin + int.from_bytes(content[place + 1 : begin], "big")
        if not begin < end <= begin + PAYLOAD_BYTES or end >= len(content):
            raise NoJournal(place)
        yield begin, end
        place = end


def words_end(content: Content, place: int, count: int) -> int:
    """The place after so many words."""
    for _ in range(count):
        place += content[place] + 1
    return place


def documents(content: Content, begin: int, end: int) -> Iterator[Tuple[int, int, int, int]]:
    """Each document of a record: its identifier, how many words it has, and where the first one begins and the last one ends."""
    kind = content[begin]
    if kind == ADDITION:
        place, count = begin + 1, 1
    elif kind in SETUPS:
        place = begin + SETUPS[kind] + 4
        count = int.from_bytes(content[place - 4 : place], "big")
    else:
        raise NoJournal(begin)
    for _ in range(count):
        words = int.from_bytes(content[place + 8 : place + 10], "big")
        after = end if count == 1 else words_end(content, place + 10, words)
        yield int.from_bytes(content[place : place + 8], "big"), words, place + 10, after
        place = after


def words_at(content: Content, place: int, count: int) -> Iterator[str]:
    for _ in range(count):
        end = place + 1 + content[place]
        yield content[place + 1 : end].decode()
        place = end


class Records:
    """The records of a journal in an archive's folder, each of which is taken once."""

    def __init__(self, folder: str, name: str) -> None:
        self.folder = folder
        self.path = os.path.join(folder, name)
        self.bytes = 0
        self.ends: List[int] = []  # the place after each record
        self.content: Content = b""
        self.go_on()

    @property
    def records(self) -> int:
        return len(self.ends)

    @property
    def end(self) -> int:
        """The place after the last record."""
        return self.ends[-1] if self.ends else len(MAGIC)

    def mark(self) -> bytes:
        """The mark of the key that the journal was begun with; there has to be a record."""
        begin = len(MAGIC) + 5
        return bytes(self.content[begin + 1 : begin + 1 + MARK_BYTES])

    def go_on(self) -> None:
        """Takes the records that have come since."""
        self.content = self.read()
        try:
            try:
                for begin, end in payloads(self.content, self.end):
                    self.take(begin, end)
            except (NoJournal, IndexError):
                # a record that was half written where the file was mapped, and whose commit byte was set meanwhile
                self.content = self.read()
                for begin, end in payloads(self.content, self.end):
                    self.take(begin, end)
        except (NoJournal, IndexError) as error:
            raise Trouble(NO_JOURNAL, f"{on_a_line(self.path)} is no client's journal from byte {error} on: put the folder back from a copy and run "
                          "`archive renew --server ADDRESS`, or index into a new archive; the texts are where they were") from error

    def read(self) -> Content:
        try:
            with open(self.path, "rb") as file:
                self.bytes = file.seek(0, 2)
                return mmap.mmap(file.fileno(), 0, access=mmap.ACCESS_READ) if self.bytes else b""
        except FileNotFoundError:
            self.bytes = 0
            return b""
        except OSError as error:
            raise Trouble(DISK, f"{on_a_line(self.path)} can't be read: {error.strerror}. Mend that and run the command again; nothing is lost") from error

    def take(self, begin: int, end: int) -> None:
        """Takes the record whose payload is between these places, or raises NoJournal and stays as it was."""
        raise NotImplementedError


class Journal(Records):
    """What the journal of the index says."""

    def __init__(self, folder: str) -> None:
        self.live: Dict[int, Tuple[int, int]] = {}  # identifier: how many words, and where the first one begins
        self.used: Set[int] = set()  # identifiers of documents that are there or were deleted
        # each document that was ever sent, in the order of the file: where its words begin and end, and its identifier
        self.starts: List[int] = []
        self.stops: List[int] = []
        self.identifiers: List[int] = []
        self.marks: List[bytes] = []  # of the key of the setup, and of each that a rebuild took
        super().__init__(folder, JOURNAL)

    def take(self, begin: int, end: int) -> None:
        kind = self.content[begin]
        if (not self.ends) != (kind in SETUPS):
            raise NoJournal(begin)
        if kind in SETUPS or kind == REBUILD:
            self.marks.append(bytes(self.content[begin + 1 : begin + 1 + MARK_BYTES]))
        if kind == REBUILD:
            pass  # what is live stays as it is
        elif kind == DELETION:
            self.live.pop(int.from_bytes(self.content[begin + 1 : end], "big"), None)
        else:
            for identifier, count, start, stop in documents(self.content, begin, end):
                self.live[identifier] = count, start
                self.used.add(identifier)
                self.starts.append(start)
                self.stops.append(stop)
                self.identifiers.append(identifier)
        self.ends.append(end)

    def key_mark(self) -> bytes:
        """The mark of the key that opens the journal; there has to be a record."""
        return self.marks[-1]

    # The words of documents.

    def words(self, identifier: int) -> List[str]:
        """The words of a document that is there."""
        count, start = self.live[identifier]
        return list(words_at(self.content, start, count))

    def holders(self, word: str) -> Set[int]:
        """The documents that are there and hold a word: what the server is to answer."""
        content = word.encode()
        if not 0 < len(content) <= WORD_BYTES:
            return set()
        needle = bytes([len(content)]) + content
        found: Set[int] = set()
        place = self.content.find(needle, 0, self.end)
        while place >= 0:
            number = self.document_at(place)
            if number is None:
                place = self.content.find(needle, place + 1, self.end)
                continue
            identifier = self.identifiers[number]
            if self.is_live(number) and (len(content) not in AMBIGUOUS or word in self.words(identifier)):
                found.add(identifier)
            place = self.content.find(needle, self.stops[number], self.end)
        return found

    def beginning_with(self, prefix: str) -> Dict[str, Set[int]]:
        """Each word with this beginning that a document holds, with these documents."""
        content = prefix.encode()
        found: Dict[str, Set[int]] = {}
        if not content:
            return found
        lengths = b"".join(re.escape(bytes([length])) for length in range(len(content), WORD_BYTES + 1))
        pattern = b"[" + lengths + b"]" + re.escape(content)
        if any(byte in AMBIGUOUS for byte in content):
            # a length may stand within the bytes that match from the place before it on
            pattern = b"(?=" + pattern + b")"
        for match in re.compile(pattern).finditer(self.content, 0, self.end):
            place = match.start()
            number = self.document_at(place)
            if number is None or not self.is_live(number):
                continue
            length = self.content[place]
            word = bytes(self.content[place + 1 : place + 1 + length]).decode("utf-8", "replace")
            if length not in AMBIGUOUS or word in self.words(self.identifiers[number]):
                found.setdefault(word, set()).add(self.identifiers[number])
        return found

    def document_at(self, place: int) -> Union[int, None]:
        """Which document has a word at a place."""
        number = bisect.bisect_right(self.starts, place) - 1
        return number if number >= 0 and place < self.stops[number] else None

    def is_live(self, number: int) -> bool:
        known = self.live.get(self.identifiers[number])
        return known is not None and known[1] == self.starts[number]

    # As a script.

    def script(self, searches: Sequence[Tuple[int, str]]) -> List[str]:
        """The lines of a script with these records and the searches among them; without a key line. A rebuild has a key made of its mark,
        which is all that its record has of its own."""
        lines, left, content = [], list(reversed(searches)), self.content
        for number, (begin, end) in enumerate(payloads(content)):
            kind = content[begin]
            if kind == REBUILD:
                lines.append(f"rebuild {hashlib.sha256(content[begin + 1 : begin + 1 + MARK_BYTES]).hexdigest()}")
            elif kind == DELETION:
                lines.append(f"del {int.from_bytes(content[begin + 1 : end], 'big')}")
            else:
                for identifier, count, place, _ in documents(content, begin, end):
                    lines.append(" ".join(["add" if kind == ADDITION else "doc", str(identifier), *words_at(content, place, count)]))
            if kind in SETUPS:
                sizes = [int.from_bytes(content[place : place + 2], "big") for place in range(begin + 17, begin + SETUPS[kind], 2)]
                lines.append(" ".join(["setup", *map(str, sizes)]))
            while left and left[-1][0] <= number + 1:
                lines.append(f"find {left.pop()[1]}")
        return lines
