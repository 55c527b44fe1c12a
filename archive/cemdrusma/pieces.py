"""The pieces that a vault keeps of a text (docs/FORMATS.md, "The pieces of a text"): its bytes are compressed and cut, each piece but the last
has 65,536 bytes, and the last is filled up by zeros to a multiple of 4,096, since the server sees the sizes. The first byte says what a piece
is, so that nothing in a text is taken for another text or for the list of them."""
from __future__ import annotations

import hashlib
import zlib
from typing import Callable, Iterable, Iterator, NamedTuple

PIECE_BYTES, MULTIPLE = 2**16, 2**12
# the first piece of a text or a list, and each further one
TEXT, TEXT_MORE, LIST, LIST_MORE = b"T", b"t", b"L", b"l"
# how much is read, or unpacked, at once
READ_BYTES = 2**20


class Stored(NamedTuple):
    """A text at the vault: the identifier of its first piece, how many pieces follow one another, and the length and the checksum of
    what they hold."""

    first: int
    count: int
    length: int
    checksum: str

    def identifiers(self) -> range:
        return range(self.first, self.first + self.count)


def cut(parts: Iterable[bytes], first: bytes, more: bytes) -> Iterator[bytes]:
    """The pieces of what these parts are together; at least one."""
    kind, held, room = first, b"", PIECE_BYTES - 1
    for part in parts:
        held += part
        while len(held) >= room:
            yield kind + held[:room]
            kind, held = more, held[room:]
    if held or kind == first:
        piece = kind + held
        yield piece + bytes(-len(piece) % MULTIPLE)


def compressed(parts: Iterable[bytes]) -> Iterator[bytes]:
    stream = zlib.compressobj()
    for part in parts:
        yield stream.compress(part)
    yield stream.flush()


def text_pieces(parts: Iterable[bytes]) -> Iterator[bytes]:
    return cut(compressed(parts), TEXT, TEXT_MORE)


class Unpacked:
    """A text whose pieces come one after the other; what they hold is handed on."""

    def __init__(self, first: int, write: Callable[[bytes], object]) -> None:
        self.first, self.write = first, write
        self.count = self.length = 0
        self.stream = zlib.decompressobj()
        self.hash = hashlib.sha256()
        self.is_damaged = False

    @property
    def is_whole(self) -> bool:
        return self.stream.eof and not self.is_damaged

    def take(self, piece: bytes) -> None:
        """Takes the next piece; after the last one it is damaged by a further one."""
        self.is_damaged = self.is_damaged or self.stream.eof
        self.count += 1
        left = piece[1:]
        try:
            while not self.stream.eof:
                part = self.stream.decompress(left, READ_BYTES)
                left = self.stream.unconsumed_tail
                if not part and not left:
                    break
                self.length += len(part)
                self.hash.update(part)
                self.write(part)
        except zlib.error:
            self.is_damaged = True

    def stored(self) -> Stored:
        return Stored(self.first, self.count, self.length, self.hash.hexdigest())
