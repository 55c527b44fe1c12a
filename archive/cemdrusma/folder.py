"""The folder of an archive.

| File | Holds |
|---|---|
| settings | the server's address, the sizes of the setup, and more: settings.py |
| key | 64 hexadecimal digits, unless a command prints them |
| journal | the records of sse_net, which decide what is indexed |
| texts | where texts are, what they held last and under which identifiers: texts_file.py |
| searches | the words that were searched, each after how many records of the journal |
| vault.key | the key of the vault, which keeps the texts, if the archive has one |
| vault | the records of sse_vault, which decide what is at the vault: vault_journal.py |
| lock | where the kept process listens, if there is one; whoever works in the folder has it locked |
| attempts | how often something was to be sent: state.py |
| key.next | while `archive renew` takes a new key at the same server: that key, or the command that prints it, and its mark |
| renewed | while `archive renew` runs: the files that are to take the places of those above |

Whatever is written here is written whole (files.py).
"""
from __future__ import annotations

import contextlib
import fcntl
import os
from typing import Callable, Dict, List, Optional, Tuple

from . import key, state
from .files import sync_folder, write_whole
from .journal import JOURNAL, Journal
from .key import KEY
from .report import on_a_line
from .settings import SETTINGS, Settings
from .state import ATTEMPTS, State
from .statuses import DISK, KEY_COMMAND, LOCKED, WORDS, Trouble
from .vault_journal import VAULT, VAULT_KEY, VaultJournal

TEXTS, SEARCHES, LOCK, RENEWED, NEXT = "texts", "searches", "lock", "renewed", "key.next"
# what takes the places of the archive's files once a new server has answered; and the file that says that it has
TAKES_PLACE = (KEY, JOURNAL, VAULT_KEY, VAULT, ATTEMPTS, TEXTS, SEARCHES, SETTINGS)
READY = "ready"
# a line of that file: what it doesn't name stays
ONLY = "only"
# what stays if the renewed archive has none: without a vault now, its texts are still there
IS_KEPT = (VAULT_KEY, VAULT)
VARIABLE = "SSE_ARCHIVE"
VAULT_RENEWAL = "`archive renew --server ADDRESS --vault ADDRESS` makes new keys and puts all texts again"

Search = Tuple[int, str]


def path_of(asked: Optional[str]) -> str:
    """The archive's folder: the one that is asked for, that the variable names, or the current one."""
    return os.path.realpath(asked or os.environ.get(VARIABLE) or os.curdir)


def read_settings(folder: str) -> Settings:
    path = os.path.join(folder, SETTINGS)
    try:
        with open(path, encoding="utf-8") as file:
            return Settings.of(file.read())
    except (FileNotFoundError, NotADirectoryError):
        raise Trouble(WORDS, f"{on_a_line(folder)} is no archive: name one by --archive FOLDER or in {VARIABLE}, "
                      "or make one by `archive new FOLDER --server ADDRESS`") from None
    except (KeyError, ValueError):
        raise Trouble(WORDS, f"{on_a_line(path)} isn't as it should be: lines `server ADDRESS`, `b 64`, `B 256` and "
                      "`Q 4096`, with the numbers of `archive new`; `vault`, if it is there, with an address, and `keep` and `wait` with seconds") from None


class Folder:
    """An archive's folder, open to one program at a time."""

    def __init__(self, path: str) -> None:
        self.path = path
        self.settings = self.read_settings()
        self.lock = self.take_lock()
        self.finish_renewal()
        self.finish_new_key()

    def of(self, name: str) -> str:
        return os.path.join(self.path, name)

    def shown(self, name: str) -> str:
        return on_a_line(self.of(name))

    def close(self) -> None:
        os.close(self.lock)

    def read_settings(self) -> Settings:
        return read_settings(self.path)

    def keep_settings(self) -> None:
        write_whole(self.of(SETTINGS), self.settings.text().encode())

    def take_lock(self) -> int:
        try:
            file = os.open(self.of(LOCK), os.O_RDWR | os.O_CREAT, 0o600)
        except OSError as error:
            raise Trouble(DISK, f"{self.shown(LOCK)} can't be opened: {error.strerror}. Mend that and run the command again") from error
        try:
            fcntl.flock(file, fcntl.LOCK_EX | fcntl.LOCK_NB)
        except BlockingIOError:
            os.close(file)
            raise Trouble(LOCKED, f"{on_a_line(self.path)} is in use by another `archive`, or by the client that one has "
                          "left: wait until it has ended, then run the command again") from None
        return file

    def has_lock(self) -> bool:
        """Whether what is locked is the folder's lock still: not if another folder has taken its place."""
        try:
            return os.path.samestat(os.fstat(self.lock), os.stat(self.of(LOCK)))
        except OSError:
            return False

    # Renewed files.

    def finish_renewal(self) -> None:
        """If a new server has answered, the files of the renewed archive take their places; a stop within that is gone on from."""
        renewed = self.of(RENEWED)
        ready = os.path.join(renewed, READY)
        if not os.path.exists(ready):
            with contextlib.suppress(OSError):
                os.rmdir(renewed)  # if nothing is in it
            return
        try:
            with open(ready, encoding="ascii") as file:
                names = file.read().split()
            for name in TAKES_PLACE:
                made = os.path.join(renewed, name)
                if os.path.exists(made):
                    os.replace(made, self.of(name))
                elif name not in names and name not in IS_KEPT and ONLY not in names and os.path.exists(self.of(name)):
                    os.remove(self.of(name))
            sync_folder(self.path)
            for name in os.listdir(renewed):
                if name != READY:
                    os.remove(os.path.join(renewed, name))
            os.remove(ready)
            os.rmdir(renewed)
            sync_folder(self.path)
        except OSError as error:
            raise Trouble(DISK, f"the renewed files in {on_a_line(renewed)} can't take their places: {error.strerror}. Mend that and run the command "
                          "again: nothing is lost") from error
        self.settings = self.read_settings()

    def keep_new_key(self, digits: str, key_command: str) -> None:
        """Keeps a key before it is taken at the server; one that a command prints isn't written here."""
        lines = [f"mark {key.mark_of(digits).hex()}", f"key-command {key_command}" if key_command else f"key {digits}"]
        write_whole(self.of(NEXT), "".join(line + "\n" for line in lines).encode())

    def new_key_kept(self) -> Dict[str, str]:
        """The lines of the file of a new key; none without one."""
        try:
            with open(self.of(NEXT), encoding="utf-8") as file:
                return dict(line.split(" ", 1) for line in file.read().splitlines())
        except (FileNotFoundError, ValueError):
            return {}

    def finish_new_key(self) -> None:
        """If the journal has the rebuild under the key that was kept for it, that is the archive's key from now on."""
        lines = self.new_key_kept()
        if not lines:
            return
        journal = Journal(self.path)
        if not journal.records or journal.key_mark().hex() != lines.get("mark"):
            return
        state.remember(journal, journal.key_mark())  # no other archive takes this key
        if "key" in lines:
            write_whole(self.of(KEY), (lines["key"] + "\n").encode())
        else:
            self.settings.key_command = lines["key-command"]
            self.keep_settings()
        self.drop_new_key()

    def drop_new_key(self) -> None:
        """The key that was kept to be taken isn't any more."""
        try:
            if self.settings.key_command:
                with contextlib.suppress(FileNotFoundError):
                    os.remove(self.of(KEY))
            os.remove(self.of(NEXT))
            sync_folder(self.path)
        except OSError as error:
            raise Trouble(DISK, f"{self.shown(NEXT)} can't be removed: {error.strerror}. Mend that and run the command again: nothing is lost") from error

    # Key and state.

    def key(self) -> str:
        """The key's digits."""
        command = self.settings.key_command
        return key.key_of_command(command) if command else key.key_in(self.of(KEY))

    def vault_key(self) -> str:
        return key.key_in(self.of(VAULT_KEY), VAULT_RENEWAL)

    def key_place(self) -> str:
        return f"what `{on_a_line(self.settings.key_command)}` prints" if self.settings.key_command else self.shown(KEY)

    def standing(self, journal: Journal) -> state.Standing:
        """How the journal, which has a record, stands to what this machine remembers; an archive of an older version is taken over."""
        mark = journal.mark()
        found = state.standing(journal, mark)
        if found is state.Standing.UNKNOWN and not self.settings.is_state_kept:
            state.remember(journal, mark)
            found = state.Standing.AGREES
        if found is state.Standing.AGREES:
            if state.is_ahead(journal, mark):
                state.remember(journal, mark)
            if not self.settings.is_state_kept:
                self.settings.is_state_kept = True
                self.keep_settings()
        return found

    # Searches.

    def searches(self) -> List[Search]:
        """The words that were searched, each after so many records."""
        try:
            with open(self.of(SEARCHES), encoding="utf-8") as file:
                lines = [line.split() for line in file.read().splitlines()]
            return [(int(count), word) for count, word in lines]
        except FileNotFoundError:
            return []
        except ValueError:
            raise Trouble(DISK, f"{self.shown(SEARCHES)} is damaged: put it back from a copy, or move it away and lose what "
                          "`archive leaks` tells of searches up to now") from None

    def keep_searches(self, searches: List[Search]) -> None:
        write_whole(self.of(SEARCHES), "".join(f"{count} {word}\n" for count, word in searches).encode())


def make(path: str, settings: Settings) -> None:
    """A new archive. Its folder is made beside its place, and is whole once it is there."""
    import shutil  # pylint: disable=import-outside-toplevel
    import tempfile  # pylint: disable=import-outside-toplevel

    asked, path = path, os.path.abspath(path)
    shown = on_a_line(path)
    if os.path.exists(os.path.join(path, SETTINGS)):
        raise Trouble(WORDS, f"{shown} is an archive already: index into it, or name another folder")
    if os.path.lexists(path) and (not os.path.isdir(path) or os.path.islink(path) or os.listdir(path)):
        raise Trouble(WORDS, f"{shown} is no empty folder: name one that isn't there yet")
    if os.path.lexists(path) and os.path.samefile(path, os.curdir):
        raise Trouble(WORDS, f"{shown} is the current folder, which a new one would take the place of: run `archive new` from the folder above it")
    digits = new_key(settings.key_command, lambda *_: True)
    above = os.path.dirname(path)
    made = None
    try:
        os.makedirs(above, exist_ok=True)
        made = tempfile.mkdtemp(prefix=os.path.basename(path) + ".", dir=above)
        fill(made, digits, settings)
        os.rename(made, path)
        sync_folder(above)
    except OSError as error:
        raise Trouble(DISK, f"{shown} can't be made: {error.strerror}") from error
    finally:
        if made:
            shutil.rmtree(made, ignore_errors=True)
    place = f"printed by `{on_a_line(settings.key_command)}`" if settings.key_command else f"in {on_a_line(os.path.join(asked, KEY))}"
    print(f"the key is {place}: keep a copy of it elsewhere, since nothing at the server can be found without it")
    if settings.vault:
        tell_vault_key(os.path.join(asked, VAULT_KEY))


def tell_vault_key(path: str) -> None:
    print(f"the vault's key is in {on_a_line(path)}: keep a copy of it elsewhere, since the texts come back from it alone")


def new_key(key_command: str, is_taken: Callable[[bytes, State], bool]) -> str:
    """The digits of a key under which nothing was sent. Of one that this machine knows, by its mark, that is asked."""
    if not key_command:
        return os.urandom(32).hex()
    digits = key.key_of_command(key_command)
    mark = key.mark_of(digits)
    known = state.read(mark)
    if known and is_taken(mark, known):
        raise Trouble(KEY_COMMAND, f"the key that `{on_a_line(key_command)}` prints is an archive's already, or was one's, and a second one would be encrypted "
                      "under the same keystream: have it print another one, such as the output of `openssl rand -hex 32`")
    return digits


def fill(folder: str, digits: str, settings: Settings) -> None:
    """Writes key and settings into a folder, after what this machine is to remember of the archive."""
    mark = key.mark_of(digits)
    if state.read(mark) is None:
        state.remember(Journal(folder), mark)
    if not settings.key_command:
        write_whole(os.path.join(folder, KEY), (digits + "\n").encode())
    if settings.vault:
        fill_vault(folder)
    write_whole(os.path.join(folder, SETTINGS), settings.text().encode())


def fill_vault(folder: str) -> None:
    """Writes a new vault's key into a folder in which its journal isn't there, after what this machine is to remember of it."""
    digits = os.urandom(32).hex()
    state.remember(VaultJournal(folder), key.mark_of(digits))
    write_whole(os.path.join(folder, VAULT_KEY), (digits + "\n").encode())
