"""Journals that are made here, by docs/FORMATS.md."""
from __future__ import annotations

import os
from typing import Dict, List, Sequence

from cemdrusma.journal import MAGIC, Journal
from cemdrusma.key import mark_of
from cemdrusma.vault_journal import VaultJournal

DIGITS = "00" * 32


def document(identifier: int, words: Sequence[str]) -> bytes:
    content = identifier.to_bytes(8, "big") + len(words).to_bytes(2, "big")
    return content + b"".join(bytes([len(word.encode())]) + word.encode() for word in words)


def setup(documents: Dict[int, Sequence[str]], digits: str = DIGITS) -> bytes:
    sizes = b"".join(size.to_bytes(2, "big") for size in (64, 256, 4096))
    return b"\x14" + mark_of(digits) + sizes + len(documents).to_bytes(4, "big") + b"".join(document(*given) for given in documents.items())


def addition(identifier: int, words: Sequence[str]) -> bytes:
    return b"\x12" + document(identifier, words)


def deletion(identifier: int) -> bytes:
    return b"\x13" + identifier.to_bytes(8, "big")


def rebuild(digits: str) -> bytes:
    return b"\x15" + mark_of(digits)


def content_of(records: Sequence[bytes]) -> bytes:
    return MAGIC + b"".join(b"\1" + len(record).to_bytes(4, "big") + record for record in records) + b"\0"


def journal_in(folder: str, records: List[bytes]) -> Journal:
    with open(os.path.join(folder, "journal"), "wb") as file:
        file.write(content_of(records))
    return Journal(folder)


def vault_in(folder: str, records: List[bytes], digits: str = DIGITS) -> VaultJournal:
    """A vault's journal with the mark of its key and these records."""
    with open(os.path.join(folder, "vault"), "wb") as file:
        file.write(content_of([b"\x23" + mark_of(digits), *records]))
    return VaultJournal(folder)


def put(identifier: int, piece: bytes) -> bytes:
    return b"\x21" + identifier.to_bytes(8, "big") + piece


def dropped(identifier: int) -> bytes:
    return b"\x22" + identifier.to_bytes(8, "big")
