"""What a terminal is given of texts."""
from __future__ import annotations

import os
import sys
import unicodedata
from typing import Dict

from .report import nearer, on_a_line

# how wide numbers of texts are printed
NUMBER_WIDTH = 6


class Printable(Dict[int, str]):
    """For str.translate: a character that would move a terminal's cursor, or can't be written, becomes a question mark."""

    def __missing__(self, code: int) -> str:
        character = chr(code)
        is_kept = character in "\n\t" or unicodedata.category(character) not in ("Cc", "Cs")
        self[code] = character if is_kept else "" if character == "\r" else "?"
        return self[code]


PRINTABLE = Printable()


def printable(text: str) -> str:
    return text.translate(PRINTABLE)


def print_name(number: int, label: str) -> None:
    print(f"  {number:>{NUMBER_WIDTH}}  {on_a_line(nearer(label))}")


def print_raw(text: str, end: str = "\n") -> None:
    """A name as its bytes are."""
    sys.stdout.flush()
    sys.stdout.buffer.write(os.fsencode(text + end))
    sys.stdout.buffer.flush()
