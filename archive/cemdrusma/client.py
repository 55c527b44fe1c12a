"""The client's program, sse_net, over the journal of an archive: lines of a script go in, what it prints comes out."""
from __future__ import annotations

import os
import re
import select
import socket
import subprocess
import threading
import time
from typing import Iterable, Iterator, List, Optional

from . import programs
from .folder import Folder
from .journal import JOURNAL, MAGIC
from .report import on_a_line, say
from .settings import SETTINGS, Settings
from .statuses import (BUSY, COLLISION, DISK, LINK, MEMORY, NO_JOURNAL, OLDER_SERVER, OTHER_KEY, OTHER_SERVER, SERVER_ENDED, Trouble)

RUN, MORE = "run", "more"
# after how many seconds of waiting that is said, and how often it is looked whether there is a line
NOTICE, LOOK = 1, 0.1
# after how many seconds without a greeting sse_net itself gives up, some less
SILENT = 55
READ_BYTES = 2**16
# what sse_net prints if the server has no owner of the archive's number: its one reply, `out of place`
UNKNOWN_OWNER = "stopped: reply 000000018a"
# a journal without a record
EMPTY_BYTES = len(MAGIC) + 1


class Session:
    """One run of the program, from its start to its end. It has the archive's lock as well, so that the folder stays locked if this
    process is killed and that one still has lines to carry out."""

    # the program and its journal in the folder; the server's program and what that holds; and the options that name another server
    program, journal, served, holds, option, renewal = "sse_net", JOURNAL, "sse_served", "lists", "--server", "--server ADDRESS"

    def __init__(self, folder: Folder, mode: str, place: Optional[str] = None, settings: Optional[Settings] = None) -> None:
        self.folder, self.mode = folder, mode
        self.server, self.owner = self.server_in(settings or folder.settings), self.owner_in(settings or folder.settings)
        # how another server is named
        self.naming = f"by {self.option}" if settings else f"in {folder.shown(SETTINGS)}"
        # words have to be text, which the folder's name needn't be: so the program works in the folder of the journal
        self.place = place or folder.path
        self.has_begun = False
        self.has_ended = False
        self.buffer = b""
        self.started = self.used = time.monotonic()
        self.waited = 0.0
        self.process = programs.begin(self.program, self.server, self.journal, *words_of(self.owner), mode, cwd=self.place, pass_fds=[folder.lock],
                                      stderr=subprocess.DEVNULL)
        try:
            programs.SIGNALS.release()
        except BaseException:
            self.process.kill()
            raise

    def server_in(self, settings: Settings) -> str:
        return settings.server

    def owner_in(self, settings: Settings) -> Optional[int]:
        return settings.owner

    def key_place(self) -> str:
        return self.folder.key_place()

    def __enter__(self):  # type: ignore[no-untyped-def]
        return self

    def __exit__(self, kind: object, *_: object) -> None:
        if kind:
            self.kill()
        else:
            self.end()

    # What goes in.

    def tell(self, *lines: str) -> None:
        """Tells it lines, as long as it listens."""
        try:
            for line in lines:
                self.process.stdin.write(line.encode() + b"\n")  # type: ignore[union-attr]
            self.process.stdin.flush()  # type: ignore[union-attr]
        except (BrokenPipeError, ValueError):
            pass  # why it doesn't is what it prints last

    def close(self) -> None:
        try:
            self.process.stdin.close()  # type: ignore[union-attr]
        except (BrokenPipeError, ValueError):
            pass

    # What comes out.

    def greet(self, key: str) -> str:
        """Tells it the key. In a run that goes on this answers the line that it prints once the server has answered."""
        self.tell(f"key {key}")
        return "" if self.mode == RUN else self.greeting()

    def greeting(self) -> str:
        """The line that a run that goes on prints once it has the key and the server has answered."""
        line = self.line()
        self.has_begun = True
        return line

    def line(self) -> str:
        """The next line that it prints. If it stops instead, that is raised."""
        line = self.read_line()
        if not line or line.startswith("stopped: "):
            self.close()
            self.process.wait()
            self.has_ended = True
            raise self.trouble(line)
        self.used = time.monotonic()
        return line

    def lines(self, count: int) -> Iterator[str]:
        for _ in range(count):
            yield self.line()

    def find(self, word: str) -> List[int]:
        """The documents that the server says to hold a word."""
        self.tell(f"find {word}")
        return self.identifiers()

    def match(self, fields: List[str]) -> List[int]:
        """The documents that a line `query` of these fields chooses of what the server says."""
        self.tell(" ".join(["query", *fields]))
        return self.identifiers()

    def identifiers(self) -> List[int]:
        return [int(identifier) for identifier in self.line().partition(":")[2].split()]

    def exchange(self, script: Iterable[str], count: int) -> Iterator[str]:
        """Tells it lines of which so many are answered by one each, and hands out these."""
        writer = threading.Thread(target=self.tell, args=list(script), daemon=True)
        writer.start()
        yield from self.lines(count)
        writer.join()

    def set_up(self, script: Iterable[str]) -> Iterator[str]:
        """Tells it documents and their setup, and hands out what it prints up to the line of the setup; nothing more may be told before."""
        writer = threading.Thread(target=self.tell, args=list(script), daemon=True)
        writer.start()
        while True:
            line = self.line()
            yield line
            if line.startswith(("set up ", "refused: b is ", "refused: B is ", "refused: Q is ", "refused: list of ", "refused: too many bytes")):
                break
        self.has_begun = True
        writer.join()

    def read_line(self) -> str:
        """A line as it comes, or "" at the end. If it waits for the server for longer than a second, that is said once."""
        begun, was_said = time.monotonic(), False
        stdout = self.process.stdout.fileno()  # type: ignore[union-attr]
        while b"\n" not in self.buffer:
            if select.select([stdout], [], [], LOOK)[0]:
                piece = os.read(stdout, READ_BYTES)
                if not piece:
                    self.waited = time.monotonic() - begun
                    return ""
                self.buffer += piece
                continue
            waited = time.monotonic() - begun
            if waited > NOTICE and is_idle(self.process.pid):
                if not was_said:
                    say(f"the server {'at ' + self.server + ' takes long to answer' if self.is_begun() else 'is serving another connection'}; waiting")
                    was_said = True
                limit = self.folder.settings.seconds["wait"]
                if not self.is_begun() and waited > max(limit, NOTICE) and limit < SILENT:
                    self.kill()
                    raise link_trouble(self, "", True)
        self.waited = time.monotonic() - begun
        line, _, self.buffer = self.buffer.partition(b"\n")
        return line.decode()

    def is_begun(self) -> bool:
        """Whether the server has answered. A run that begins says so by its first record, which is kept only after that."""
        if not self.has_begun and self.mode == RUN:
            try:
                self.has_begun = os.path.getsize(os.path.join(self.place, self.journal)) > EMPTY_BYTES
            except OSError:
                pass
        return self.has_begun

    # Its end.

    def end(self) -> None:
        """Ends it by the end of its lines. If it stops for another cause, that is raised."""
        self.close()
        while not self.has_ended:
            line = self.read_line()
            if not line:
                self.process.wait()
                self.has_ended = True
                if self.process.returncode not in (0, 1):
                    raise self.trouble("")
            elif line.startswith("stopped: "):
                self.process.wait()
                self.has_ended = True
                raise self.trouble(line)
        self.process.stdout.close()  # type: ignore[union-attr]

    def kill(self) -> None:
        """Ends it at once; nothing is lost by that."""
        self.process.kill()
        self.close()
        self.process.wait()
        self.has_ended = True
        self.process.stdout.close()  # type: ignore[union-attr]

    def trouble(self, line: str) -> Trouble:
        """What to do if the program has stopped with this line."""
        return trouble_of(self, line, programs.status_of(self.process))


def is_idle(number: int) -> bool:
    """Whether a process sleeps, as one does that waits for its peer."""
    try:
        with open(f"/proc/{number}/stat", encoding="ascii", errors="replace") as file:
            before = file.read().rpartition(")")[2].split()
        time.sleep(LOOK / 2)
        with open(f"/proc/{number}/stat", encoding="ascii", errors="replace") as file:
            after = file.read().rpartition(")")[2].split()
        # the state, and the processor time of the process and of the system for it
        return before[0] == after[0] == "S" and before[11:13] == after[11:13]
    except (OSError, IndexError):
        return False


def busy(address: str, said: str) -> Trouble:
    return Trouble(BUSY, f"the server at {address} is serving another connection and hasn't answered: end that one, or wait, and run the command "
                   f"again; nothing is lost{said}")


def trouble_of(session: Session, line: str, status: int) -> Trouble:
    """What to do if the program has stopped with this line and status. Its own line comes last."""
    address, renew = session.server, f"`archive renew {session.renewal}`"
    said = f" ({session.program}: {line or f'ended with {status}'})"
    journal = on_a_line(os.path.join(session.place, session.journal))
    if status == LINK:
        return link_trouble(session, said)
    if status == OTHER_SERVER and line == UNKNOWN_OWNER and session.owner is not None and not session.is_begun():
        return Trouble(OTHER_SERVER, f"the server at {address} has no owner {session.owner}: start it with this number among those after its word `owners`, or "
                       f"correct `owner` in {session.folder.shown(SETTINGS)}{said}")
    if status == OTHER_SERVER and line.startswith("stopped: server is at "):
        return number_trouble(session, line, said)
    told = {
        DISK: f"{journal} can't be opened or written: free some space on its disk, or end the program that has it open, and run the "
              "command again; nothing is lost",
        MEMORY: f"out of memory on this machine or at the server {address}: free some and run the command again",
        COLLISION: "two values that must differ are equal, by chance or because the server isn't honest: run the command again; if it "
                   f"stops once more, {renew} with a server over a new file",
        OTHER_SERVER: f"what answers at {address} isn't {session.served}, or isn't this archive's: name another address {session.naming}",
        NO_JOURNAL: f"{journal} isn't what this archive left there: put the folder back from a copy and run {renew}",
        OTHER_KEY: f"{session.key_place()} isn't the key of {journal}: put back the one that this archive has had last; if there is none, "
                   f"{renew} makes a new key and sets all up again",
    }
    return Trouble(status or 1, told.get(status, "the client has stopped") + said)


def words_of(owner: Optional[int]) -> List[str]:
    """The words by which a client says whose frames follow, to a server of many owners."""
    return [] if owner is None else ["as", str(owner)]


def number_trouble(session: Session, line: str, said: str) -> Trouble:
    """What to do if the server expects another update than the client."""
    address, renew = session.server, f"`archive renew {session.renewal}`"
    got, _, high = (int(number) for number in re.findall(r"\d+", line)[:3])
    if high == 0:
        return Trouble(OTHER_SERVER, f"the server at {address} has {session.holds} already, and this archive has none there: start one over a file of its own "
                       f"({session.served} ADDRESS FILE) and name it {session.naming}; if {session.folder.shown(session.journal)} was lost, put the "
                       f"folder back from a copy and run {renew}{said}")
    if got < high:
        return Trouble(OLDER_SERVER, f"the server at {address} has {got} of the {high} updates that it took: its file is an older copy, or it is another "
                       "archive's. Start this archive's server over its newest file; if there is none, start one over a new file and run "
                       f"{renew}{said}")
    return Trouble(OTHER_SERVER, f"the server at {address} has {got} updates and this archive sent {high}: it is another archive's, or this folder is an "
                   f"older copy. Name its own server's address {session.naming}, or start a server over a new file and run "
                   f"{renew}{said}")


def link_trouble(session: Session, said: str, is_silent: bool = False) -> Trouble:
    """Why a link to a server isn't there, as far as a second try tells."""
    address = session.server
    if session.is_begun():
        return Trouble(SERVER_ENDED, f"the server at {address} ended the connection: if its last line is `stopped: disk` its disk is full, so free "
                       f"some space there. Start it again and run the command again; nothing is lost{said}")
    host, _, port = address.rpartition(":")
    try:
        with socket.create_connection((host.strip("[]"), int(port)), timeout=5):
            if is_silent or session.waited > SILENT:
                return busy(address, said)
            why = f"what answers at {address} ended the connection: see what {session.served} prints there, or name another address {session.naming}"
    except (OSError, ValueError) as error:
        why = (f"nobody listens at {address} ({getattr(error, 'strerror', None) or error}): start the server there, `{session.served} {address} "
               "FILE` with this archive's FILE")
    return Trouble(LINK, f"{why}. Then run the command again; nothing is lost{said}")
