"""The file `settings` of an archive's folder: lines of a name and a value, which may be edited.

| Name | Value |
|---|---|
| server | the server's address, host:port |
| owner | the number of this archive's owner at a server of many owners, 0 to 2^64-1. Absent at a server of one archive |
| vault | the address of the vault, which keeps the texts; absent without one |
| b, B, Q | the sizes of the setup; they count up to the first `archive index` |
| state | `kept`: this machine's state directory has the number of records (state.py). Absent in an archive of an older version |
| key-command | the command that prints the key; without it the key is in the file `key` |
| keep | for how many seconds after a command its process is kept; 0 is for none |
| wait | for how many seconds a server that serves another connection is waited for |
"""
from __future__ import annotations

from typing import Dict, Optional

SETTINGS = "settings"
# b, B and Q, with their limits (docs/FORMATS.md)
SIZES = {"b": 64, "B": 256, "Q": 4096}
LIMITS = {"b": 64, "B": 256, "Q": 4096}
# seconds, with their limits: sse_net itself waits for a minute
SECONDS = {"keep": 60, "wait": 60}
SECONDS_LIMITS = {"keep": 3600, "wait": 60}
STATE_KEPT = "kept"
# the numbers of owners are below this
OWNERS = 2**64


def size_in(text: str, name: str) -> int:
    number = int(text)
    if not 1 <= number <= LIMITS[name] or name == "Q" and number & (number - 1):
        raise ValueError(text)
    return number


def seconds_in(text: str, name: str) -> int:
    number = int(text)
    if not 0 <= number <= SECONDS_LIMITS[name]:
        raise ValueError(text)
    return number


def address_in(text: str) -> str:
    """An address as it was given, which has a port; whether somebody listens there is known when it is asked."""
    host, _, port = text.rpartition(":")
    if not host or any(character.isspace() for character in text) or not (port.isascii() and port.isdigit()) or not 0 < int(port) < 65536:
        raise ValueError(text)
    return text


def owner_in(text: str) -> int:
    """An owner's number, spelt as the programs expect it: decimal digits, with no sign and no leading zero."""
    if not (text.isascii() and text.isdigit()) or text != str(int(text)) or int(text) >= OWNERS:
        raise ValueError(text)
    return int(text)


def command_in(text: str) -> str:
    """A key command, which stands on a line of the settings."""
    if not text.strip() or len(text.splitlines()) != 1 or any("\udc80" <= character <= "\udcff" for character in text):
        raise ValueError(text)
    return text.strip()


class Settings:
    """What the file says. Lines that aren't known here stay as they are when it is written."""

    def __init__(self, server: str, sizes: Dict[str, int], key_command: str = "", is_state_kept: bool = True, owner: Optional[int] = None, vault: str = "") -> None:
        self.server, self.owner, self.sizes, self.key_command, self.vault = server, owner, sizes, key_command, vault
        self.is_state_kept = is_state_kept
        self.seconds = dict(SECONDS)
        self.lines: Dict[str, str] = {}

    @classmethod
    def of(cls, text: str) -> "Settings":
        """Raises KeyError or ValueError for what isn't as it should be."""
        lines: Dict[str, str] = {}
        for line in text.splitlines():
            name, _, value = line.strip().partition(" ")
            if name:
                lines[name] = value.strip()
        settings = cls(address_in(lines["server"]), {name: size_in(lines[name], name) for name in SIZES}, lines.get("key-command", ""))
        settings.is_state_kept = "state" in lines
        settings.owner = owner_in(lines["owner"]) if "owner" in lines else None
        settings.vault = address_in(lines["vault"]) if "vault" in lines else ""
        settings.seconds.update({name: seconds_in(lines[name], name) for name in SECONDS if name in lines})
        settings.lines = lines
        return settings

    def text(self) -> str:
        lines = {**self.lines, "server": self.server, **{name: str(size) for name, size in self.sizes.items()}}
        if self.owner is None:
            lines.pop("owner", None)
        else:
            lines["owner"] = str(self.owner)
        if self.is_state_kept:
            lines["state"] = STATE_KEPT
        for name, value in (("vault", self.vault), ("key-command", self.key_command)):
            lines.pop(name, None)
            if value:
                lines[name] = value
        return "".join(f"{name} {value}\n" for name, value in lines.items())
