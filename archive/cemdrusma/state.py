"""What this machine remembers of an archive, outside of its folder: how many records its journal had, and a checksum of the
journal's end. So a folder that was put back from a copy is recognised before anything is sent: going on with it would encrypt two
texts under one keystream, and whoever has both ciphertexts has their difference.

It stands in the user's state directory under the mark of the archive's key, and is written each time the client prints that an update
is done. A journal that has more records is fine, as a program may be killed between the two; those that are remembered must be
among them, unchanged.

Before anything is sent, a number in the folder's file `attempts` is raised, and then the same one here. So a folder that is put back
after a program was killed, or the power failed, before a record was remembered, is recognised too: its number is below this one.
"""
from __future__ import annotations

import contextlib
import enum
import fcntl
import hashlib
import os
from typing import Iterator, Optional

from .files import write_whole
from .journal import MAGIC, Journal
from .report import on_a_line
from .statuses import DISK, LOCKED, NO_STATE, OLDER_JOURNAL, Trouble

VARIABLE = "XDG_STATE_HOME"
# how much of the journal before the end of the last record is in the checksum
END_BYTES = 2**16
# of a folder: how often something was to be sent from it
ATTEMPTS = "attempts"


class Standing(enum.Enum):
    """How a journal stands to what this machine remembers."""

    AGREES = "as this machine left it"
    FEWER = "fewer records"
    OTHER = "other records"
    BEFORE = "as before the last attempt to send something"
    UNKNOWN = "this machine knows nothing of it"


class State:
    """How many records there were, the place after the last one, the checksum of what is before that place, and how often something was
    to be sent."""

    def __init__(self, records: int, end: int, checksum: str, attempts: int) -> None:
        self.records, self.end, self.checksum, self.attempts = records, end, checksum, attempts


def directory() -> str:
    asked = os.environ.get(VARIABLE, "")
    home = asked if os.path.isabs(asked) else os.path.join(os.path.expanduser("~"), ".local", "state")
    return os.path.join(home, "cemdrusma")


def path_of(mark: bytes) -> str:
    return os.path.join(directory(), mark.hex())


def checksum_of(journal: Journal, end: int) -> str:
    return hashlib.sha256(journal.content[max(len(MAGIC), end - END_BYTES) : end]).hexdigest()


def read(mark: bytes) -> Optional[State]:
    """What is remembered, None if nothing is."""
    path = path_of(mark)
    try:
        with open(path, encoding="utf-8", errors="surrogateescape") as file:
            lines = dict(line.rstrip("\n").split(" ", 1) for line in file)
        return State(int(lines["records"]), int(lines["end"]), lines["checksum"], int(lines.get(ATTEMPTS, "0")))
    except FileNotFoundError:
        return None
    except (KeyError, ValueError):
        raise Trouble(NO_STATE, f"{on_a_line(path)} is damaged, so it can't be told whether this archive was put back from an older copy: "
                      "run `archive renew --server ADDRESS` with a server over a new file") from None
    except OSError as error:
        raise Trouble(DISK, f"{on_a_line(path)} can't be read: {error.strerror}. Mend that and run the command again; nothing is lost") from error


def remember(journal: Journal, mark: bytes, is_synced: bool = True, attempts: Optional[int] = None) -> None:
    folder = directory()
    try:
        os.makedirs(folder, mode=0o700, exist_ok=True)
    except OSError as error:
        raise Trouble(DISK, f"{on_a_line(folder)} can't be made: {error.strerror}. Mend that, or name another state directory in {VARIABLE}, "
                      "and run the command again") from error
    end = journal.end if journal.records else len(MAGIC)
    lines = {"records": journal.records, "end": end, "checksum": checksum_of(journal, end), ATTEMPTS: attempts_of(journal.folder) if attempts is None else attempts,
             "folder": on_a_line(journal.folder)}
    write_whole(path_of(mark), "".join(f"{name} {value}\n" for name, value in lines.items()).encode("utf-8", "surrogateescape"), is_synced)


def attempts_of(folder: str) -> int:
    """How often something was to be sent from a folder. An older version didn't count that."""
    path = os.path.join(folder, ATTEMPTS)
    try:
        with open(path, encoding="ascii") as file:
            return int(file.read())
    except (FileNotFoundError, ValueError):
        return 0
    except OSError as error:
        raise Trouble(DISK, f"{on_a_line(path)} can't be read: {error.strerror}. Mend that and run the command again; nothing is lost") from error


def begin_attempt(journal: Journal, mark: bytes) -> None:
    """What comes before anything is sent: nothing is, unless it can be remembered. A stop between the two leaves the folder ahead, which is fine."""
    number = attempts_of(journal.folder) + 1
    known = read(mark)
    if known:
        number = max(number, known.attempts + 1)
    write_whole(os.path.join(journal.folder, ATTEMPTS), f"{number}\n".encode())
    remember(journal, mark)


def remember_sent(journal: Journal, mark: bytes) -> None:
    """After a stop: the last record may have been sent without an answer. If that can't be remembered, the number of attempts has it."""
    with contextlib.suppress(Trouble):
        journal.go_on()
        if journal.records:
            remember(journal, mark)


@contextlib.contextmanager
def held(mark: bytes) -> Iterator[None]:
    """Locks what is remembered under a mark: of two folders with one key one at a time may send."""
    try:
        os.makedirs(directory(), mode=0o700, exist_ok=True)
        file = os.open(path_of(mark) + ".lock", os.O_RDWR | os.O_CREAT, 0o600)
    except OSError as error:
        raise Trouble(DISK, f"{on_a_line(directory())} can't be written: {error.strerror}. Mend that, or name another state directory in {VARIABLE}, "
                      "and run the command again") from error
    try:
        fcntl.flock(file, fcntl.LOCK_EX | fcntl.LOCK_NB)
    except BlockingIOError:
        os.close(file)
        raise Trouble(LOCKED, "another folder with this archive's key is being indexed: wait until that has ended, then run the command again") from None
    try:
        yield
    finally:
        os.close(file)


def standing(journal: Journal, mark: bytes) -> Standing:
    """How a journal stands to what is remembered under a mark."""
    known = read(mark)
    if known is None:
        return Standing.UNKNOWN
    if journal.records < known.records:
        return Standing.FEWER
    if known.records and (journal.ends[known.records - 1] != known.end or checksum_of(journal, known.end) != known.checksum):
        return Standing.OTHER
    return Standing.BEFORE if attempts_of(journal.folder) < known.attempts else Standing.AGREES


def is_ahead(journal: Journal, mark: bytes) -> bool:
    """Whether a journal that agrees has more records than are remembered."""
    known = read(mark)
    return known is not None and known.records < journal.records


def is_copy(found: Standing) -> bool:
    """Whether a folder was put back from a copy."""
    return found in (Standing.FEWER, Standing.OTHER, Standing.BEFORE)


RENEW = "`archive renew --server ADDRESS`, with a server over a new file, sets all up again under a new key"


def trouble(journal: Journal, mark: bytes, found: Standing) -> Trouble:
    """Why no update may be sent."""
    shown = on_a_line(journal.path)
    if found is Standing.UNKNOWN:
        return Trouble(NO_STATE, f"this machine has no record of {shown} in {on_a_line(directory())}, so it can't tell whether the archive is an "
                       f"older copy; to go on with one would encrypt two texts under one keystream: {RENEW}. Searching goes on meanwhile")
    known = read(mark)
    had = known.records if known else 0
    why = {Standing.FEWER: f"has {journal.records} records and had {had}",
           Standing.OTHER: f"isn't the one that had {had} records here",
           Standing.BEFORE: f"has {journal.records} records, as before something was sent for the last time"}[found]
    return Trouble(OLDER_JOURNAL, f"{shown} {why}: the archive was put back from a copy, and to go on with it would encrypt two texts under one "
                   f"keystream: {RENEW}")
