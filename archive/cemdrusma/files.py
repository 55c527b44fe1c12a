"""Files that are written whole: under another name, and on the disk before they take their place. So a stop at any moment leaves
either the old file or the new one."""
from __future__ import annotations

import os

from .report import on_a_line
from .statuses import DISK, Trouble


def write_whole(path: str, content: bytes, is_synced: bool = True) -> None:
    """Puts a file in the place of the one that is there, which stays as it is until the new one is on the disk. Unless it is synced, a
    power failure may leave the old one there."""
    made = path + ".new"
    try:
        with open(os.open(made, os.O_WRONLY | os.O_CREAT | os.O_TRUNC, 0o600), "wb") as file:
            file.write(content)
            file.flush()
            # without that some file systems leave an empty file after a power failure
            os.fsync(file.fileno())
        os.replace(made, path)
        if is_synced:
            sync_folder(os.path.dirname(path))
    except OSError as error:
        raise Trouble(DISK, f"{on_a_line(path)} can't be written: {error.strerror}. What was there is still there: free some space on "
                      "its disk, or mend it, and run the command again") from error


def sync_folder(path: str) -> None:
    number = os.open(path, os.O_RDONLY)
    try:
        os.fsync(number)
    finally:
        os.close(number)
