"""How far a command is, on standard error, for what takes more than a second."""
from __future__ import annotations

import sys
import threading
import time
from typing import Optional, Tuple

# after how many seconds it is told, and how often then: on a terminal, and elsewhere
FIRST, EVERY, EVERY_ELSEWHERE = 1, 0.25, 1


class Progress:
    """What is shown last, with the seconds since the begin: on a terminal in one line over and over; elsewhere, if it is asked for,
    one line below the other."""

    def __init__(self, is_wanted: bool) -> None:
        self.is_terminal = sys.stderr.isatty()
        self.begin = time.monotonic()
        self.text: Optional[Tuple[str, Tuple[object, ...]]] = None
        self.over = threading.Event()
        self.teller = threading.Thread(target=self.tell, daemon=True)
        if is_wanted or self.is_terminal:
            self.teller.start()

    def show(self, text: str, *numbers: object) -> None:
        self.text = text, numbers

    def tell(self) -> None:
        if self.over.wait(FIRST):
            return
        while True:
            self.print_line()
            if self.over.wait(EVERY if self.is_terminal else EVERY_ELSEWHERE):
                return

    def print_line(self) -> None:
        if self.text:
            text, numbers = self.text
            line = f"archive: {text.format(*numbers)} ({time.monotonic() - self.begin:.0f} s)"
            print(f"\r\x1b[K{line}" if self.is_terminal else line, end="" if self.is_terminal else "\n", file=sys.stderr, flush=True)

    def end(self) -> None:
        """Clears the line, so that what is said next stands alone."""
        self.over.set()
        if self.teller.is_alive():
            self.teller.join()
            if self.is_terminal:
                print("\r\x1b[K", end="", file=sys.stderr, flush=True)
