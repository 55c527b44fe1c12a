"""The list of the texts at a vault, which is itself put there, after the texts that it names: a line of JSON for each file, with the length
and the checksum of all of it before. It isn't compressed: names that strangers chose stand in it beside one's own, and its size would tell whether they are alike."""
from __future__ import annotations

import hashlib
import json
from typing import Dict, Iterable, Iterator, NamedTuple, Optional, Tuple

from .pieces import LIST, LIST_MORE, Stored, cut

VERSION = 1
LENGTH_BYTES = 8
HEAD_BYTES = LENGTH_BYTES + hashlib.sha256().digest_size
# in the place of a piece that is missing: no line with this is one of a list
GAP = b"\0"


class Entry(NamedTuple):
    """A file: its path without the first slash, when it was changed, in nanoseconds since 1970, whether that was so shortly before it was
    read that it might have changed once more, the texts that it consists of, and its kind (sources.py)."""

    name: str
    time: int
    is_young: bool
    texts: Tuple[Stored, ...]
    kind: str = "text"

    @property
    def size(self) -> int:
        return sum(text.length for text in self.texts)


Entries = Dict[str, Entry]


def name_of(path: str) -> str:
    return path.lstrip("/")


def identifiers_of(entries: Iterable[Entry]) -> Iterator[int]:
    for entry in entries:
        for text in entry.texts:
            yield from text.identifiers()


def list_pieces(entries: Entries) -> Iterator[bytes]:
    """The pieces of a list."""
    lines = [{"version": VERSION}, *(entries[name] for name in sorted(entries))]
    content = b"".join(json.dumps(line, separators=(",", ":")).encode() + b"\n" for line in lines)
    head = len(content).to_bytes(LENGTH_BYTES, "big") + hashlib.sha256(content).digest()
    return cut([head, content], LIST, LIST_MORE)


def list_in(pieces: Iterable[bytes]) -> Optional[Entries]:
    """The list that these pieces hold, None if one is missing."""
    whole = b"".join(piece[1:] for piece in pieces)
    content = whole[HEAD_BYTES : HEAD_BYTES + int.from_bytes(whole[:LENGTH_BYTES], "big")]
    if hashlib.sha256(content).digest() != whole[LENGTH_BYTES:HEAD_BYTES]:
        return None
    first, *lines = content.split(b"\n")
    entries = list(map(entry_in, lines[:-1]))
    if first != b'{"version":%d}' % VERSION or None in entries:
        return None
    return {entry.name: entry for entry in entries if entry}


def entry_in(line: bytes) -> Optional[Entry]:
    """The file that a line of a list is for, None if it is no such line."""
    try:
        name, time, is_young, texts, kind = json.loads(line)
        stored = tuple(Stored(int(first), int(count), int(length), str(checksum)) for first, count, length, checksum in texts)
        return Entry(str(name), int(time), bool(is_young), stored, str(kind))
    except (ValueError, TypeError):
        return None


def some_of_list(pieces: Dict[int, bytes]) -> Entries:
    """The files of a list of which not all pieces are there, by their identifiers: those whose lines are."""
    content = b"".join((b"" if identifier - 1 in pieces else GAP) + piece[1:] for identifier, piece in sorted(pieces.items()))
    entries = filter(None, map(entry_in, content.split(b"\n")))
    return {entry.name: entry for entry in entries}
