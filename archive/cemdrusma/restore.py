"""`archive restore`: the texts at a vault, from its key alone. They are made beside their place, and are whole once they are there. Nothing
goes on from them: a new archive gets new keys."""
from __future__ import annotations

import errno
import os
import shutil
import tempfile
from typing import IO, Dict, Iterator, List, NamedTuple, Optional, Set, Tuple

from . import programs
from .files import sync_folder
from .key import key_in
from .pieces import LIST, LIST_MORE, TEXT, TEXT_MORE, Stored, Unpacked
from .progress import Progress
from .report import counted, on_a_line, say
from .sources import MAIL
from .statuses import DISK, LINK, MEMORY, OTHER_KEY, OTHER_SERVER, REFUSED, WORDS, Trouble
from .text_list import Entries, Entry, list_in, some_of_list

# the folder of texts that no list names
UNNAMED = "unnamed"
# those of a maildir
MAILDIR = ("cur", "new", "tmp")
# what isn't due to a name
DISK_ERRORS = (errno.ENOSPC, errno.EDQUOT, errno.EIO, errno.EROFS, errno.EMFILE, errno.ENFILE)


class Place(NamedTuple):
    """Where the vault is, and the file with its key."""

    address: str
    key: str


def restore(asked: str, place: Place, progress: Progress) -> int:
    """Writes the texts into a folder, and prints how many there are. Returns the status."""
    path = os.path.abspath(asked)
    refuse_place(path)
    digits = key_in(place.key, "nothing at the vault can be read")
    above = os.path.dirname(path)
    made = None
    try:
        os.makedirs(above, exist_ok=True)
        made = tempfile.mkdtemp(prefix=os.path.basename(path) + ".", dir=above)
        taken = Taken(made, progress)
        taken.take_all(digits, place)
        written = Written(os.path.join(made, "whole"), taken)
        written.write()
        os.rename(written.folder, path)
        sync_folder(above)
    except OSError as error:
        raise Trouble(DISK, f"{on_a_line(error.filename or path)} can't be written: {error.strerror}. Free some space on its disk, or name another folder, and "
                      "run the command again") from error
    finally:
        if made:
            shutil.rmtree(made, ignore_errors=True)
    progress.end()
    print(f"restored: {counted(written.count, 'file')}, {written.bytes:,} bytes, in {on_a_line(asked)}", flush=True)
    return REFUSED if written.failed else 0


def refuse_place(path: str) -> None:
    if os.path.lexists(path) and (not os.path.isdir(path) or os.path.islink(path) or os.listdir(path)):
        raise Trouble(WORDS, f"{on_a_line(path)} is no empty folder: name one that isn't there yet")
    if os.path.lexists(path) and os.path.samefile(path, os.curdir):
        raise Trouble(WORDS, f"{on_a_line(path)} is the current folder, which a new one would take the place of: run `archive restore` from the folder above it")


# What comes from the vault.


class Taken:
    """The texts and lists that the vault handed out, each text in a file of its own under the identifier of its first piece."""

    def __init__(self, made: str, progress: Progress) -> None:
        self.folder, self.progress = os.path.join(made, "texts"), progress
        os.mkdir(self.folder, 0o700)
        self.texts: Dict[int, Stored] = {}  # by the first identifier: those that are whole
        self.lists: Dict[int, Dict[int, bytes]] = {}  # the same: their pieces by identifiers
        self.list: Optional[int] = None  # the one that the next piece may belong to
        self.forged: Set[int] = set()
        self.count = 0
        self.adds_up = True  # whether what came is all that the vault took and didn't drop
        self.text: Optional[Unpacked] = None
        self.file: Optional[IO[bytes]] = None

    def of(self, first: int) -> str:
        return os.path.join(self.folder, str(first))

    def take_all(self, digits: str, place: Place) -> None:
        for line in self.lines(digits, place.address):
            word, _, rest = line.partition(b" ")
            identifier, _, digits_of_body = rest.partition(b":")
            if word == b"body":
                self.take(int(identifier), bytes.fromhex(digits_of_body.strip().decode()))
            elif word == b"forged":
                self.forged.add(int(identifier))
            self.count += 1
            self.progress.show("{:,} pieces have come from the vault", self.count)
        self.end_text()
        if not self.count:
            raise Trouble(OTHER_KEY, f"the vault at {place.address} has nothing that was put under the key in {on_a_line(place.key)}: name another key or another vault")

    def lines(self, digits: str, address: str) -> Iterator[bytes]:
        """What the client prints. If what the vault handed out doesn't add up to what it took, that is said, and it is taken all the same."""
        try:
            yield from printed(digits, address)
        except Trouble as error:
            if error.status != OTHER_SERVER or not self.count:
                raise
            self.adds_up = False
            why = str(error)
            say(f"the vault at {address} may keep texts back, since what it handed out doesn't add up to what it took{why[why.rfind(' (') :]}")

    def take(self, identifier: int, piece: bytes) -> None:
        """A piece. They come in the order in which they were put."""
        kind = piece[:1]
        if kind == TEXT_MORE and self.text and identifier == self.text.first + self.text.count:
            self.text.take(piece)
            return
        self.end_text()
        if kind != LIST_MORE:
            self.list = None
        if kind == TEXT:
            self.file = open(os.open(self.of(identifier), os.O_WRONLY | os.O_CREAT | os.O_EXCL, 0o600), "wb")
            self.text = Unpacked(identifier, self.file.write)
            self.text.take(piece)
        elif kind in (LIST, LIST_MORE):
            self.list = identifier if self.list is None else self.list
            self.lists.setdefault(self.list, {})[identifier] = piece

    def end_text(self) -> None:
        if self.text and self.file:
            self.file.close()
            if self.text.is_whole:
                self.texts[self.text.first] = self.text.stored()
            else:
                os.remove(self.of(self.text.first))
        self.text = self.file = None

    def newest_list(self) -> Tuple[Entries, int]:
        """The newest list that is whole, and the identifier of its first piece; else what there is of the newest one, and 0."""
        for first in sorted(self.lists, reverse=True):
            pieces = self.lists[first]
            entries = list_in(pieces.values()) if max(pieces) - first == len(pieces) - 1 else None
            if entries is not None:
                return entries, first
        return some_of_list(self.lists[max(self.lists)]) if self.lists else {}, 0


def printed(digits: str, address: str) -> Iterator[bytes]:
    """The lines that the vault's client prints of all that is there. If it stops, that is raised."""
    process = programs.begin("sse_vault", address, "restore")
    try:
        programs.SIGNALS.release()
        try:
            process.stdin.write(f"key {digits}\n".encode())  # type: ignore[union-attr]
            process.stdin.close()  # type: ignore[union-attr]
        except BrokenPipeError:
            pass  # why it doesn't listen is what it prints last
        last = b""
        for last in process.stdout:  # type: ignore[union-attr]
            if not last.startswith(b"stopped: "):
                yield last
        process.wait()
    except BaseException:
        process.kill()
        process.wait()
        raise
    finally:
        process.stdout.close()  # type: ignore[union-attr]
    status = programs.status_of(process)
    if status not in (0, REFUSED):
        line = last.decode().strip() if last.startswith(b"stopped: ") else f"ended with {status}"
        raise stopped(address, status, f" (sse_vault: {line})")


def stopped(address: str, status: int, said: str) -> Trouble:
    told = {
        LINK: f"nobody listens at {address}, or the vault ended the connection: start it there, `vault_served {address} FILE` with its FILE, and run the command "
              "again",
        MEMORY: f"out of memory on this machine or at the vault {address}: free some and run the command again",
        OTHER_SERVER: f"what answers at {address} isn't vault_served, or isn't the vault of this key: name another address or another key",
    }
    return Trouble(status or REFUSED, told.get(status, "the vault's client has stopped; nothing was written") + said)


# What is written of it.


class Written:
    """The folder with the files that the list names. Names come from the vault, so they are looked at: none leads out of the folder."""

    def __init__(self, folder: str, taken: Taken) -> None:
        self.folder, self.taken = folder, taken
        os.mkdir(folder, 0o700)
        self.folders = {folder}
        self.count = self.bytes = 0
        self.failed = 0 if taken.adds_up else 1

    def write(self) -> None:
        entries, begin = self.taken.newest_list()
        if not begin and (self.taken.lists or self.taken.forged):
            self.fail("the list of the texts is missing a piece, or has a forged one: the texts that it named there have no name")
        elif not begin:
            self.fail("no list of the texts is at the vault, so no text has a name: the first `archive index` was stopped")
        named: Set[int] = set()
        for _, entry in sorted(entries.items()):
            named.update(text.first for text in entry.texts)
            self.write_entry(entry)
        unnamed = [first for first in self.taken.texts if first not in named and first > begin]
        for first in unnamed:
            self.write_file(os.path.join(UNNAMED, str(first)), [self.taken.texts[first]])
        if unnamed:
            say(f"in {UNNAMED} are texts without a name: {len(unnamed):,}" + (", which an `archive index` put that was stopped" if begin else ""))
        for folder in self.folders:
            sync_folder(folder)

    def fail(self, line: str) -> None:
        self.failed += 1
        say(line)

    def write_entry(self, entry: Entry) -> None:
        """Writes a file, or says which and why not."""
        shown = on_a_line(entry.name)
        missing = [identifier for text in entry.texts if self.taken.texts.get(text.first) != text for identifier in text.identifiers()]
        if missing:
            forged = self.taken.forged.intersection(missing)
            self.fail(f"{shown} isn't restored: " + (f"the vault handed out another piece {min(forged)} than was put" if forged else "a piece of it isn't at the vault"))
        elif not is_safe(entry.name):
            self.fail(f"{shown} isn't a name within a folder: its texts are in {UNNAMED}")
            for text in entry.texts:
                self.write_file(os.path.join(UNNAMED, str(text.first)), [text])
        else:
            try:
                path = self.write_file(entry.name, list(entry.texts))
                os.utime(path, ns=(entry.time, entry.time))
                self.complete_maildir(entry)
            except (OSError, ValueError, OverflowError) as error:
                if isinstance(error, OSError) and error.errno in DISK_ERRORS:
                    raise
                self.fail(f"{shown} isn't restored: {getattr(error, 'strerror', None) or error}")

    def write_file(self, name: str, texts: List[Stored]) -> str:
        path = os.path.join(self.folder, name)
        self.make_folders(os.path.dirname(name))
        with open(os.open(path, os.O_WRONLY | os.O_CREAT | os.O_EXCL, 0o600), "wb") as file:
            for text in texts:
                with open(self.taken.of(text.first), "rb") as part:
                    shutil.copyfileobj(part, file)
            file.flush()
            os.fsync(file.fileno())
        self.count += 1
        self.bytes += sum(text.length for text in texts)
        return path

    def complete_maildir(self, entry: Entry) -> None:
        """Of a maildir's three folders those that have no file too: it is none without them."""
        folder, _, part = os.path.dirname(entry.name).rpartition(os.sep)
        if entry.kind == MAIL and part in MAILDIR:
            for name in MAILDIR:
                self.make_folders(os.path.join(folder, name))

    def make_folders(self, name: str) -> None:
        """The folders of a name, one below the other."""
        folder = self.folder
        for part in filter(None, name.split(os.sep)):
            folder = os.path.join(folder, part)
            if folder not in self.folders:
                os.mkdir(folder, 0o700)
                self.folders.add(folder)


def is_safe(name: str) -> bool:
    """Whether a name leads to a place within the folder that it is written into."""
    return "\0" not in name and all(part not in ("", os.curdir, os.pardir) for part in name.split(os.sep))
