"""How much one setup holds (docs/FORMATS.md, "Limits")."""
from __future__ import annotations

from typing import Collection, List, Sequence

DOCUMENT_WORDS = 4096
SETUP_DOCUMENTS = 2**18
SETUP_PAIRS = 2**20
INDEX_BYTES = 2**28
BLOCK = 256


def documents_of(words: Sequence[str]) -> List[Sequence[str]]:
    """A text with more than DOCUMENT_WORDS different words becomes several documents."""
    return [words[start : start + DOCUMENT_WORDS] for start in range(0, len(words), DOCUMENT_WORDS)]


def first_setup(documents: Sequence[Sequence[str]]) -> int:
    """How many of the documents one setup holds."""
    pairs = 0
    for count, words in enumerate(documents[:SETUP_DOCUMENTS]):
        pairs += len(words)
        if pairs > SETUP_PAIRS:
            return count
    return min(len(documents), SETUP_DOCUMENTS)


def index_bytes(lengths: Collection[int], b: int, block: int = BLOCK, multiple: int = 1) -> int:
    """The bytes of an index of lists of these lengths, words and blocks filled up to the next multiples of a number."""
    blocks = 0
    for length in lengths:
        if length > b:
            data = -(-length // block)
            blocks += data if data <= b else data + -(-data // block)
    return filled(len(lengths), multiple) * (17 + 8 * b) + filled(blocks, multiple) * 8 * block


def filled(count: int, multiple: int) -> int:
    return -(-count // multiple) * multiple
