"""The programs that are run (sse_net, sse_leaks, sse_local), and the signals that end them with what runs them."""
from __future__ import annotations

import os
import signal
import subprocess
import sys
from typing import Any, Callable, List, Optional, Tuple

from .report import Unreadable, say

HERE = os.path.dirname(os.path.abspath(__file__))


class Signals:
    """A signal ends the command, and its program with it. One that comes while the program is being started waits until it can be ended."""

    def __init__(self) -> None:
        self.held = False
        self.came: Optional[int] = None

    def take(self, number: int, _: object) -> None:
        self.came = number
        if not self.held:
            sys.exit(128 + number)

    def release(self) -> None:
        self.held = False
        if self.came is not None:
            sys.exit(128 + self.came)


SIGNALS = Signals()


def program(name: str) -> str:
    """Where a program is: SSE_LOCAL and the like name a place; else it is in bin/ of this checkout, or in the folder bin beside the
    folder lib that this was installed into."""
    place = os.environ.get(name.upper())
    if place:
        return os.path.abspath(place) if os.sep in place else place
    top = os.path.abspath(os.path.join(HERE, os.pardir, os.pardir))
    installed = os.path.join(os.path.dirname(top), "bin", name)
    return installed if os.path.exists(installed) and os.path.basename(top) == "lib" else os.path.join(top, "bin", name)


def begin(name: str, *words: str, **options: Any) -> "subprocess.Popen[bytes]":
    """A program, started; signals are held back from here on."""
    SIGNALS.held = True
    place = program(name)
    try:
        return subprocess.Popen([place, *words], stdin=subprocess.PIPE, stdout=subprocess.PIPE, **options)
    except OSError as error:
        SIGNALS.release()
        raise Unreadable(f"{place}: {error.strerror} (`make` builds it)") from error


def run(script: bytes, name: str, *words: str) -> Tuple[List[str], int]:
    """The lines that a program prints of a script, and its status."""
    with begin(name, *words) as process:
        try:
            SIGNALS.release()
            printed, _ = process.communicate(script)
        except BaseException:
            process.kill()
            raise
    return printed.decode().splitlines(), status_of(process)


def status_of(process: "subprocess.Popen[bytes]") -> int:
    """The status of a process that has ended, as a shell gives it."""
    return process.returncode if process.returncode >= 0 else 128 - process.returncode


def prepare() -> None:
    """What a program begins with: its signals, and the encoding of what it prints."""
    for number in (signal.SIGINT, signal.SIGTERM, signal.SIGHUP):
        if signal.getsignal(number) != signal.SIG_IGN:
            signal.signal(number, SIGNALS.take)
    sys.stdout.reconfigure(encoding="utf-8")  # type: ignore[union-attr]
    sys.stderr.reconfigure(encoding="utf-8", errors="backslashreplace")  # type: ignore[union-attr]


def carried_out(command: Callable[[], int]) -> int:
    """The status of a command, or the status of what keeps it from going on, which is said."""
    try:
        status = command()
        sys.stdout.flush()
        return status
    except BrokenPipeError:
        # whoever read the answers has seen enough
        os.dup2(os.open(os.devnull, os.O_WRONLY), sys.stdout.fileno())
        return 128 + signal.SIGPIPE
    except (Unreadable, OSError) as error:
        say(error)
        return getattr(error, "status", 2)
