"""What is said on standard error, and names on a line."""
from __future__ import annotations

import os
import sys
from typing import Dict, List, Tuple

NAME = os.path.basename(sys.argv[0])


class Unreadable(Exception):
    """Why there is nothing to search in."""


def on_a_line(name: str) -> str:
    """A name as it is; one with a line end, another control character or a byte that is no text, as a shell
    reads it: $'..'."""
    if name.isprintable():
        return name
    quoted = ""
    for character in name:
        if character in "\\'":
            quoted += "\\" + character
        elif character.isprintable():
            quoted += character
        else:
            is_byte = "\udc80" <= character <= "\udcff"
            content = character.encode("utf-8", "surrogateescape" if is_byte else "surrogatepass")
            quoted += "".join(f"\\x{byte:02x}" for byte in content)
    return f"$'{quoted}'"


def nearer(path: str) -> str:
    """A path, or a label that begins with one, from the current folder on if it is below that."""
    try:
        here = os.path.join(os.getcwd(), "")
    except OSError:
        return path
    return path[len(here) :] if path.startswith(here) and here != os.sep else path


def counted(count: int, noun: str) -> str:
    return f"{count:,} {noun}" if count == 1 else f"{count:,} {noun}s"


def say(line: object) -> None:
    print(f"{NAME}: {line}", file=sys.stderr, flush=True)


class Report:
    """What is left out of the texts that are read."""

    def __init__(self) -> None:
        self.left_out: Dict[str, Tuple[int, str]] = {}  # what it was: how often, and where first

    def leave_out(self, what: str, where: str) -> None:
        count, first = self.left_out.get(what, (0, where))
        self.left_out[what] = (count + 1, first)

    def unread(self, what: str, where: str) -> None:
        """Leaves out a file or a folder that can't be read."""
        self.leave_out(what, where)

    def tell(self) -> None:
        for what, (count, first) in self.left_out.items():
            say(f"left out: {what}: {count}, the first in {on_a_line(first)}")

    def decoded(self, content: bytes, where: str, charset: str = "utf-8") -> str:
        """The bytes as text; those that aren't in the character set are counted and part words."""
        try:
            return content.decode(charset)
        except UnicodeDecodeError:
            self.leave_out("texts' bytes that aren't in their character set", where)
            return content.decode(charset, "replace")

    def words(self, name: str, text: str) -> List[str]:
        """The different words of a text in turn."""
        from .words import WORD_BYTES, is_too_long, words_of  # pylint: disable=import-outside-toplevel

        words = []
        for word in dict.fromkeys(words_of(text)):
            if is_too_long(word):
                self.leave_out(f"words of more than {WORD_BYTES} bytes", name)
            else:
                words.append(word)
        return words
