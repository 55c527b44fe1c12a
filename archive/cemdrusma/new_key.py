"""`archive renew` without another server: the line `rebuild` takes a new key at the same one, where everything live is set up again and what was
deleted is gone. The key is kept in the folder first (folder.py, key.next). Once the journal has the record of the rebuild the new key opens it,
and takes the place of the old one; before that the old one does. So a stop at any moment leaves a key that opens the archive, and the same
command then takes what is left."""
from __future__ import annotations

import json
import os
import shutil

from . import key, sources, state
from .files import sync_folder, write_whole
from .folder import ONLY, READY, RENEWED, Folder, fill_vault, new_key
from .key import KEY
from .opened import Opened
from .progress import Progress
from .renew import PLAN, NewVault, may_renew, tell_stored
from .report import counted, nearer, on_a_line
from .settings import SETTINGS, Settings
from .statuses import DISK, REFUSED, WORDS, Trouble
from .vault_journal import VAULT, VAULT_KEY


def take_new_key(archive: Opened, key_command: str, new_vault: str, progress: Progress) -> int:
    """Takes a new key at the archive's server, and puts the texts at a new vault if the archive has one. Returns the status."""
    may_renew(archive, key_command, new_vault)
    archive.allow_updates()
    archive.texts()
    archive.end_session()
    reading = sources.Reading()
    if not is_key_taken(archive, new_vault):
        rebuild(archive, key_command, new_vault, progress)
    stored = None
    if new_vault:
        stored = at_new_vault(archive, new_vault, reading, progress)
    folder, count = archive.folder, len(archive.journal().live)
    progress.end()
    place = f"what `{on_a_line(folder.settings.key_command)}` prints" if folder.settings.key_command else on_a_line(nearer(folder.of(KEY)))
    print(f"renewed: {counted(count, 'document')} at {folder.settings.server}. The new key is {place}: keep a copy of it elsewhere")
    tell_stored(folder, stored)
    print("The old keys, the old vault and its file aren't needed any more" if stored else "The old key isn't needed any more")
    reading.tell()
    return REFUSED if reading.places else 0


def is_key_taken(archive: Opened, new_vault: str) -> bool:
    """Whether a command that was stopped took the key, so that only the texts are left."""
    try:
        with open(os.path.join(archive.folder.of(RENEWED), PLAN), encoding="ascii") as file:
            plan = json.load(file)
        return plan == {"vault": new_vault, "key": archive.journal().key_mark().hex()}
    except (FileNotFoundError, ValueError):
        return False


def rebuild(archive: Opened, key_command: str, new_vault: str, progress: Progress) -> None:
    folder, journal = archive.folder, archive.journal()
    digits = kept_or_new(folder, key_command)
    if key.mark_of(digits) in journal.marks:
        raise Trouble(WORDS, f"`{on_a_line(key_command)}` prints a key that this archive has or had: have it print another one")
    old_key, mark = archive.key(), journal.mark()
    begin_files(folder, key.mark_of(digits), new_vault)
    folder.keep_new_key(digits, key_command)
    with state.held(mark):
        # another folder with this key may have sent something meanwhile
        archive.allow_updates()
        state.begin_attempt(journal, mark)
        try:
            progress.show("{:,} documents are set up again under the new key", len(journal.live))
            with archive.started() as session:
                session.greet(old_key)
                line = next(session.exchange([f"rebuild {digits}"], 1))
        finally:
            journal.go_on()
            state.remember(journal, mark)
    if line.startswith("refused: "):
        folder.drop_new_key()
        raise Trouble(REFUSED, f"the client can't set all up again in one piece ({line}): the archive stays as it was; `archive renew --server ADDRESS` does it at a new "
                               "server")
    archive.forget()
    folder.finish_new_key()


def kept_or_new(folder: Folder, key_command: str) -> str:
    """The key that a stopped command had kept and nobody has taken, or a new one."""
    lines = folder.new_key_kept()
    if not key_command and key.DIGITS.fullmatch(lines.get("key", "")):
        return lines["key"]
    return new_key(key_command, lambda _, known: known.records > 0 or known.attempts > 0)


# The texts.


def begin_files(folder: Folder, mark: bytes, new_vault: str) -> None:
    """Makes the folder of the renewed files anew, with what the new vault begins with."""
    place = folder.of(RENEWED)
    shutil.rmtree(place, ignore_errors=True)
    if not new_vault:
        return
    try:
        os.mkdir(place, 0o700)
        sync_folder(folder.path)
    except OSError as error:
        raise Trouble(DISK, f"{on_a_line(place)} can't be made: {error.strerror}. Mend that and run the command again") from error
    fill_vault(place)
    write_whole(os.path.join(place, PLAN), json.dumps({"vault": new_vault, "key": mark.hex()}).encode())


def at_new_vault(archive: Opened, address: str, reading: sources.Reading, progress: Progress):  # type: ignore[no-untyped-def]
    """Puts all texts at the new vault, which then takes the place of the old one. What was put is returned."""
    folder = archive.folder
    settings = Settings.of(folder.settings.text())
    settings.vault = address
    vault = NewVault(folder, archive.texts(), settings, reading, progress)
    vault.store()
    write_whole(vault.of(SETTINGS), settings.text().encode())
    # both journals are known by the number of attempts, so it falls for neither
    attempts = max(state.attempts_of(folder.path), state.attempts_of(vault.place))
    write_whole(vault.of(state.ATTEMPTS), f"{attempts}\n".encode())
    write_whole(vault.of(READY), "\n".join([ONLY, VAULT_KEY, VAULT, state.ATTEMPTS, SETTINGS]).encode())
    archive.forget()
    folder.finish_renewal()
    return vault.stored
