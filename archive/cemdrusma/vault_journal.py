"""The journal of a vault, which sse_vault writes and which decides what is stored (docs/FORMATS.md, "The records of a vault's client"). It is
only read here. Identifiers are counted up: the i-th body that was ever put has identifier i, so that all are found again by the key alone."""
from __future__ import annotations

from typing import Dict, Iterable, Iterator, List, Tuple

from .journal import NoJournal, Records
from .pieces import LIST, LIST_MORE, TEXT, TEXT_MORE, Stored, Unpacked
from .text_list import Entries, list_in

VAULT, VAULT_KEY = "vault", "vault.key"
PUT, DROP, KEY_MARK = 0x21, 0x22, 0x23


class VaultJournal(Records):
    """What the journal of a vault says."""

    def __init__(self, folder: str) -> None:
        self.puts = 0  # how many there ever were
        self.live: Dict[int, Tuple[int, int]] = {}  # identifier: where its body begins and ends
        super().__init__(folder, VAULT)

    def take(self, begin: int, end: int) -> None:
        kind, identifier = self.content[begin], int.from_bytes(self.content[begin + 1 : begin + 9], "big")
        if (kind == KEY_MARK) == bool(self.ends):
            raise NoJournal(begin)
        if kind == PUT and identifier == self.puts + 1:
            self.puts += 1
            self.live[identifier] = begin + 9, end
        elif kind == DROP and identifier in self.live:
            del self.live[identifier]
        elif kind != KEY_MARK:
            raise NoJournal(begin)
        self.ends.append(end)

    def body(self, identifier: int) -> bytes:
        begin, end = self.live[identifier]
        return bytes(self.content[begin:end])

    def kind(self, identifier: int) -> bytes:
        begin = self.live[identifier][0]
        return bytes(self.content[begin : begin + 1])

    def sequence(self, first: int, more: bytes) -> List[int]:
        """The identifiers of a first piece and of those that go on from it."""
        found = [first]
        while found[-1] + 1 in self.live and self.kind(found[-1] + 1) == more:
            found.append(found[-1] + 1)
        return found

    def newest_list(self) -> Tuple[Entries, List[int]]:
        """The list of texts that was put last and is whole, with the identifiers of its pieces; an empty one if there is none."""
        for first in sorted((identifier for identifier in self.live if self.kind(identifier) == LIST), reverse=True):
            pieces = self.sequence(first, LIST_MORE)
            entries = list_in(map(self.body, pieces))
            if entries is not None:
                return entries, pieces
        return {}, []

    def unnamed(self, named: Iterable[int]) -> Iterator[Stored]:
        """The texts that are there, whole, and have none of these identifiers: what a run that was stopped had put."""
        known = set(named)
        for first in list(self.live):
            if first not in known and self.kind(first) == TEXT:
                text = Unpacked(first, lambda _: None)
                for identifier in self.sequence(first, TEXT_MORE):
                    text.take(self.body(identifier))
                if text.is_whole:
                    yield text.stored()
