"""The key: 64 hexadecimal digits, in a file or printed by a command; and its mark, which stands in the first record of a journal."""
from __future__ import annotations

import hmac
import os
import re
import subprocess
from typing import Callable, Optional

from .report import on_a_line, say
from .statuses import KEY_COMMAND, NO_KEY, Trouble

KEY = "key"
DIGITS = re.compile("[0-9a-fA-F]{64}")
# the part of the keyed function that gives the mark (docs/FORMATS.md, "The records of a client")
MARK_PART, MARK_BYTES = 7, 16
# in a kept process: has the caller run the key command, since that has the terminal on which it may ask for something
ask_caller: Optional[Callable[[str], str]] = None


def mark_of(digits: str) -> bytes:
    """By what a journal knows its key; it says nothing of the key."""
    return hmac.digest(bytes.fromhex(digits), bytes([MARK_PART]), "sha256")[:MARK_BYTES]


def key_in(path: str, renewal: str = "`archive renew --server ADDRESS` makes a new key and sets all up again") -> str:
    """The digits in a file; and what to do if there is no copy of it."""
    try:
        with open(path, encoding="ascii") as file:
            if os.fstat(file.fileno()).st_mode & 0o077:
                say(f"{on_a_line(path)} can be read by others: chmod 600 it")
            digits = file.read().strip()
    except FileNotFoundError:
        raise Trouble(NO_KEY, f"{on_a_line(path)} isn't there, and nothing can be searched or sent without it: put the key back from a "
                      f"copy; if there is none, {renewal}") from None
    except ValueError:
        digits = ""
    if not DIGITS.fullmatch(digits):
        raise Trouble(NO_KEY, f"{on_a_line(path)} holds no key of 64 hexadecimal digits: put it back from a copy; if there is none, "
                      f"{renewal}")
    return digits


def key_of_command(command: str) -> str:
    """The digits that a command prints."""
    return ask_caller(command) if ask_caller else printed_by(command)


def printed_by(command: str) -> str:
    """Runs it here. It may ask its user for something; what it says on standard error is shown."""
    try:
        process = subprocess.Popen(["sh", "-c", command], stdout=subprocess.PIPE)
    except OSError as error:
        raise Trouble(KEY_COMMAND, f"the key command can't be run: sh: {error.strerror}") from error
    try:
        printed, _ = process.communicate()
    except BaseException:
        process.kill()
        raise
    shown = on_a_line(command)
    if process.returncode:
        why = f"ended with {process.returncode}" if process.returncode > 0 else f"was ended by signal {-process.returncode}"
        raise Trouble(KEY_COMMAND, f"the key command `{shown}` {why}, so there is no key: unlock what it asks, or mend the line "
                      "key-command in settings, and run the command again")
    digits = printed.decode("ascii", "replace").strip()
    if not DIGITS.fullmatch(digits):
        raise Trouble(KEY_COMMAND, f"the key command `{shown}` prints no key of 64 hexadecimal digits: mend it, or the line key-command in "
                      "settings, and run the command again")
    return digits
