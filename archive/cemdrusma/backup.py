"""`archive backup`: a copy of what `archive renew` needs."""
from __future__ import annotations

import os
import tarfile
import tempfile

from .files import sync_folder
from .folder import SEARCHES, TEXTS
from .journal import JOURNAL
from .opened import Opened, nothing_indexed
from .report import counted, nearer, on_a_line
from .settings import SETTINGS
from .state import ATTEMPTS
from .statuses import DISK, WORDS, Trouble

# not the key: with it the copy might be gone on from, and two texts be encrypted under one keystream
PARTS = (SETTINGS, JOURNAL, ATTEMPTS, TEXTS, SEARCHES)


def backup(archive: Opened, asked: str) -> int:
    """Writes the copy, which is at its place once it is whole. Returns the status."""
    path = os.path.abspath(asked)
    shown = on_a_line(nearer(path))
    archive.texts()
    if not archive.journal().records:
        raise nothing_indexed()
    if os.path.lexists(path):
        raise Trouble(WORDS, f"{shown} is there already: name another file")
    made = ""
    try:
        number, made = tempfile.mkstemp(prefix=os.path.basename(path) + ".", dir=os.path.dirname(path))
        with open(number, "wb") as file:
            with tarfile.open(fileobj=file, mode="w") as copy:
                for name in PARTS:
                    if os.path.exists(archive.folder.of(name)):
                        copy.add(archive.folder.of(name), name)
            file.flush()
            os.fsync(file.fileno())
        os.rename(made, path)
        sync_folder(os.path.dirname(path))
    except OSError as error:
        if os.path.exists(made):
            os.remove(made)
        raise Trouble(DISK, f"{shown} can't be written: {error.strerror}. Free some space on its disk, or name another file, and run the command "
                      "again") from error
    print(f"backup: {counted(archive.journal().records, 'record')} in {shown}, with all words as they are and without the key")
    print("It is meant for `archive renew`, and not for going on with. To restore it, start a server over a new file, then:")
    print(f"  mkdir FOLDER && tar -C FOLDER -xf {shown} && archive renew --archive FOLDER --server ADDRESS")
    return 0
