"""The texts of files: which kind a file is, and what each of its texts holds."""
from __future__ import annotations

import hashlib
import os
import re
import stat
import time
from typing import IO, Callable, Dict, Iterable, Iterator, List, NamedTuple, Optional, Tuple

from .report import Report
from .texts import mails
from .texts.files import files_below, is_text

TEXT, MAIL, MBOX, ROWS = "text", "mail", "mbox", "csv"
HEAD_BYTES = 2**16
# a text or a CSV file that is larger is left out; an mbox file may have any size
FILE_BYTES = 2**27
# how often a file is read that changes meanwhile
TRIES = 3
# a file that was changed no longer ago than this may change once more without another time, in nanoseconds
TOO_NEW = 2 * 10**9


Pieces = List[Tuple[str, str]]  # of each piece the name of its header field, or "", and its text


class Changed(Exception):
    """A file isn't what it was when its reading began."""


class Found(NamedTuple):
    """A text of a file: a line that names it, what it holds, and its details (texts_file.py)."""

    label: str
    pieces: Pieces
    details: List


class Reading(Report):
    """What is read, and which places couldn't be."""

    def __init__(self) -> None:
        super().__init__()
        self.places: List[str] = []

    def unread(self, what: str, where: str) -> None:
        super().unread(what, where)
        self.places.append(where)

    def covers(self, path: str) -> bool:
        """Whether a path is one that couldn't be read, or below one."""
        return any(path == place or path.startswith(os.path.join(place, "")) for place in self.places)


def is_maildir(folder: str) -> bool:
    return all(os.path.isdir(os.path.join(folder, name)) for name in ("cur", "new"))


def files_at(path: str, archive: str, reading: Reading) -> Iterable[str]:
    """The files at a path that was asked for: itself, or those below it, but not those of the archive and no half-written mail."""

    def skipped(folder: str) -> bool:
        above, name = os.path.split(folder)
        return os.path.realpath(folder) == archive or name == "tmp" and is_maildir(above)

    if not os.path.isdir(path):
        return [path]
    return [] if os.path.realpath(path) == archive else files_below(path, reading, skipped)


def key_of(path: str) -> str:
    """What stays of a path when a mail's flags change, or it moves from new to cur: all but those."""
    folder, name = os.path.split(path)
    above, part = os.path.split(folder)
    if part in ("cur", "new"):
        return os.path.join(above, "cur", re.sub(r":2,[A-Za-z]*$", "", name))
    return path


def state_of(status: os.stat_result) -> List:
    """By what it is known that a file is as it was: its size and its time; and True if it was changed so shortly before that it might
    change once more without another time."""
    is_young = time.time_ns() - status.st_mtime_ns < TOO_NEW
    return [status.st_size, status.st_mtime_ns] + ([True] if is_young else [])


def kind_of(path: str, file: IO[bytes], reading: Reading) -> Optional[str]:
    """What a file is by its name and its first bytes, None if it holds no text."""
    head = file.read(HEAD_BYTES)
    file.seek(0)
    if os.path.basename(os.path.dirname(path)) in ("cur", "new") and is_maildir(os.path.dirname(os.path.dirname(path))):
        return MAIL
    if mails.begins_an_mbox(head):
        return MBOX
    if mails.begins_a_mail(head):
        return MAIL
    if not is_text(head):
        reading.leave_out("files that aren't text", path)
        return None
    if os.fstat(file.fileno()).st_size > FILE_BYTES:
        reading.leave_out(f"files of more than {FILE_BYTES} bytes that aren't mail", path)
        return None
    return ROWS if path.lower().endswith((".csv", ".tsv")) else TEXT


Read = Tuple[Optional[str], Optional[List], List[Found]]


def texts_of(path: str, reading: Reading) -> Optional[Read]:
    """The kind of a file, its state, and its texts; None if it isn't read, which is said. Raises FileNotFoundError if there is
    none any more."""
    try:
        if not stat.S_ISREG(os.stat(path).st_mode):
            reading.leave_out("files that are no regular ones", path)
            return None, None, []
        for _ in range(TRIES):
            try:
                return read_once(path, reading)
            except Changed:
                pass
        reading.unread("files that change while they are read: index again when they are at rest", path)
    except FileNotFoundError:
        raise
    except OSError as error:
        reading.unread(f"files that can't be read ({error.strerror})", path)
    return None


def read_once(path: str, reading: Reading) -> Read:
    with open(path, "rb") as file:
        before = os.fstat(file.fileno())
        state = state_of(before)
        kind = kind_of(path, file, reading)
        found = list(READERS[kind](path, file, reading)) if kind else []
        after = os.fstat(file.fileno())
        if (before.st_size, before.st_mtime_ns) != (after.st_size, after.st_mtime_ns):
            raise Changed
        return kind, state, found


def day_of_file(file: IO[bytes]) -> List:
    """The details of a text that isn't a mail: when its file was changed."""
    seconds = int(os.fstat(file.fileno()).st_mtime)
    return [seconds, day_of(seconds), None]


def day_of(seconds: int) -> str:
    try:
        return time.strftime("%Y-%m-%d", time.localtime(seconds))
    except (OverflowError, OSError, ValueError):
        return ""


def read_text(path: str, file: IO[bytes], reading: Reading) -> Iterator[Found]:
    content = file.read()
    if not is_text(content):
        reading.leave_out("files that aren't text", path)
        return
    yield Found(path, [("", reading.decoded(content, path))], day_of_file(file))


def read_rows(path: str, file: IO[bytes], reading: Reading) -> Iterator[Found]:
    # pylint: disable=import-outside-toplevel
    import csv

    from .texts.rows import rows_in, shortened

    text, details = reading.decoded(file.read(), path, "utf-8-sig"), day_of_file(file)
    try:
        for number, row in rows_in(text):
            yield Found(f"{path}: {number}: {shortened(' '.join(row))}", [("", "\n".join(row))], details)
    except csv.Error as error:
        reading.leave_out(f"what a CSV file has after a fault: one {error}", path)


def read_mail(path: str, file: IO[bytes], reading: Reading) -> Iterator[Found]:
    yield mail_in(file, path, day_of_file(file), reading)


def read_mbox(path: str, whole: IO[bytes], reading: Reading) -> Iterator[Found]:
    import mailbox  # pylint: disable=import-outside-toplevel

    details = day_of_file(whole)
    box = mailbox.mbox(path, create=False)
    try:
        for number in box.keys():
            with box.get_file(number) as file:
                yield mail_in(file, f"{path}: {number + 1}", details, reading)  # type: ignore[arg-type]
    except KeyError:
        raise Changed from None
    finally:
        box.close()


def mail_in(file: IO[bytes], place: str, details: List, reading: Reading) -> Found:
    """A mail; the details are those of its file."""
    try:
        return taken_apart(mails.message_in(file, place, reading), place, details, reading)
    except OSError:
        raise
    except Exception as error:  # pylint: disable=broad-except
        # the library raises errors of many kinds at mails that are damaged enough, or that have too many parts in one another
        reading.leave_out(f"mails that can't be taken apart ({type(error).__name__}), whose texts are taken as they stand", place)
        file.seek(0)
        return taken_apart(mails.message_as_it_stands(file), place, details, reading)


# the fields of a mail that a search may name, and those that it is looked for in
SEARCHED_FIELDS = {"from": ("from",), "to": ("to", "cc"), "subject": ("subject",)}


def taken_apart(message: mails.Message, place: str, details: List, reading: Reading) -> Found:
    pieces = list(mails.pieces_of(message, place, reading, mails.FIELDS))
    seconds, day = mails.time_of(message) or details[:2]
    return Found(mails.label_of(message, place, reading), pieces, [seconds, day, fields_in(pieces)])


def fields_in(pieces: Pieces) -> Dict[str, str]:
    """What a search by fields looks at; the fields of a mail within a mail are among them."""
    found = {}
    for field, names in SEARCHED_FIELDS.items():
        found[field] = "\n".join(" ".join(text.split()) for name, text in pieces if name.lower() in names)
    return found


READERS: Dict[str, Callable[[str, IO[bytes], Reading], Iterator[Found]]] = {TEXT: read_text, ROWS: read_rows, MAIL: read_mail, MBOX: read_mbox}


def words_in(label: str, pieces: Pieces, reading: Reading) -> List[str]:
    return reading.words(label, "\n".join(text for _, text in pieces))


def checksum(words: Iterable[str]) -> str:
    """By what a text is known again: its words, in any order."""
    return hashlib.sha256("\n".join(sorted(words)).encode()).hexdigest()[:32]
