"""The vault's client, sse_vault, over the journal of an archive's vault."""
from __future__ import annotations

from typing import Iterable, Iterator, Optional

from .client import Session
from .settings import Settings
from .statuses import FORGED, REFUSED, Trouble
from .vault_journal import VAULT, VAULT_KEY

# how many lines are told before the first of them is answered
AHEAD = 8


class VaultSession(Session):
    """One run of the program, from its start to its end."""

    program, journal, served, holds = "sse_vault", VAULT, "vault_served", "texts"
    option, renewal = "--vault", "--server ADDRESS --vault ADDRESS"

    def server_in(self, settings: Settings) -> str:
        return settings.vault

    def owner_in(self, settings: Settings) -> Optional[int]:
        # a vault has one owner
        return None

    def key_place(self) -> str:
        return self.folder.shown(VAULT_KEY)

    def trouble(self, line: str) -> Trouble:
        if line.startswith("stopped: forged "):
            return Trouble(FORGED, f"the vault at {self.server} handed out something else than what was put there: its file is damaged, or it lies. Start one over "
                           f"a new file and run `archive renew {self.renewal}` ({self.program}: {line})")
        return super().trouble(line)

    def updates(self, lines: Iterable[str]) -> Iterator[str]:
        """Tells it lines `put` and `drop`, and hands out what it prints of each."""
        waiting = 0
        for line in lines:
            self.tell(line)
            waiting += 1
            if waiting == AHEAD:
                yield self.answer()
                waiting -= 1
        for _ in range(waiting):
            yield self.answer()

    def answer(self) -> str:
        line = self.line()
        if line.startswith("refused: "):
            raise Trouble(REFUSED, f"the vault's client refuses to store texts ({self.program}: {line}): start a vault over a new file and run `archive renew "
                          f"{self.renewal}`")
        return line

    def body(self, identifier: int) -> bytes:
        """A piece as the vault has it, once its tag was tested."""
        self.tell(f"get {identifier}")
        return bytes.fromhex(self.line().partition(": ")[2])
