"""An archive that is open: its folder, and what was read of it and started for it, which later commands of a kept process use again."""
from __future__ import annotations

import os
import time
from typing import Callable, List, Optional, Tuple

from . import state
from .client import EMPTY_BYTES, MORE, Session
from .folder import TEXTS, Folder
from .journal import JOURNAL, Journal
from .key import KEY, mark_of
from .settings import SETTINGS
from .statuses import NO_JOURNAL, OTHER_SERVER, SERVER_ENDED, LINK, WORDS, Trouble
from .texts_file import Texts
from .vault_journal import VAULT, VAULT_KEY, VaultJournal

# the server ends a connection over which nothing came for 60 seconds: it is ended here before, in seconds
IDLE = 50
# the files whose change, by whatever, has a kept process read all of them again; and the variables
WATCHED = (JOURNAL, KEY, SETTINGS, TEXTS, VAULT, VAULT_KEY)
VARIABLES = ("SSE_NET", "SSE_LEAKS", "SSE_VAULT", "HOME", state.VARIABLE)

Signature = Optional[Tuple[int, ...]]


def signature(path: str) -> Signature:
    """By what it is known that a file is the one that was read."""
    try:
        status = os.stat(path)
    except OSError:
        return None
    return status.st_dev, status.st_ino, status.st_size, status.st_mtime_ns


class Opened:
    def __init__(self, path: str) -> None:
        self.folder = Folder(path)
        self.session: Optional[Session] = None
        self.ahead: Optional[Session] = None  # a client that hasn't answered yet
        self.known: dict = {}  # what was read, by the name of its file, with the file's signature
        self.environment: Tuple[Optional[str], ...] = ()
        self.digits: Optional[str] = None  # the key, as long as a command runs
        self.no_key: Optional[Trouble] = None  # why there is none, as long as a command runs

    # What is read, once as long as the files are as they were.

    def refresh(self) -> None:
        """What a command of a kept process begins with: what isn't as it was left is forgotten."""
        self.folder.settings = self.folder.read_settings()
        environment = tuple(os.environ.get(name) for name in VARIABLES)
        watched = {name: signature(self.folder.of(name)) for name in WATCHED}
        if environment != self.environment or any(watched[name] != left for name, left in self.known.get("left", {}).items()):
            self.forget()
        self.environment = environment

    def leave(self) -> None:
        """What a command ends with."""
        self.digits = self.no_key = None
        self.known["left"] = {name: signature(self.folder.of(name)) for name in WATCHED}

    def forget(self) -> None:
        self.known = {}
        self.digits = self.no_key = None
        self.end_session()

    def key(self) -> str:
        """The key's digits. A command that prints them is run once at most, whether it does or fails."""
        if self.no_key:
            raise self.no_key
        if self.digits is None:
            try:
                self.digits = self.folder.key()
            except Trouble as error:
                self.no_key = error
                raise
        return self.digits

    def mark(self) -> bytes:
        """The mark of the key that the journal was begun with, or is to be begun with."""
        return self.journal().mark() if self.journal().records else mark_of(self.key())

    def journal(self) -> Journal:
        if JOURNAL not in self.known:
            self.known[JOURNAL] = Journal(self.folder.path)
        return self.known[JOURNAL]

    def vault_journal(self) -> VaultJournal:
        if VAULT not in self.known:
            self.known[VAULT] = VaultJournal(self.folder.path)
        return self.known[VAULT]

    def texts(self) -> Texts:
        """The texts as the journal has them."""
        if TEXTS not in self.known:
            texts = Texts(self.folder)
            journal = self.journal()
            if not journal.records and (texts.records or self.remembered()):
                raise no_journal(self.folder, texts.records or self.remembered())
            texts.follow(journal)
            self.known[TEXTS] = texts
        return self.known[TEXTS]

    def remembered(self) -> int:
        """How many records this machine remembers, for a journal without any."""
        try:
            known = state.read(mark_of(self.key()))
        except Trouble:
            return 0
        return known.records if known else 0

    def standing(self) -> state.Standing:
        """How the journal, which has a record, stands to what this machine remembers."""
        return self.folder.standing(self.journal())

    def take_note(self) -> None:
        """At each command: takes over an archive of an older version, and remembers records that a stopped program left. What is wrong is
        said by what needs it to be right."""
        try:
            if self.journal().records:
                self.standing()
        except Trouble:
            pass

    # Who may send.

    def allow_updates(self) -> None:
        """Raises why nothing may be sent: to go on with an older copy would encrypt two texts under one keystream."""
        journal = self.journal()
        if journal.records:
            found, mark = self.standing(), journal.mark()
        else:
            mark = mark_of(self.key())
            found = state.standing(journal, mark)
            if found is state.Standing.UNKNOWN and not self.folder.settings.is_state_kept:
                state.remember(journal, mark)
                self.folder.settings.is_state_kept = True
                self.folder.keep_settings()
                found = state.Standing.AGREES
            if found in (state.Standing.FEWER, state.Standing.BEFORE):
                known = state.read(mark)
                raise no_journal(self.folder, known.records if known else 0)
        if found is not state.Standing.AGREES:
            raise state.trouble(journal, mark, found)

    # The client's program.

    def start_ahead(self) -> None:
        """Starts the client for a search, so that it goes through the journal while that is read here. What is wrong is said once it is
        asked."""
        if self.has_client() or self.ahead or (signature(self.folder.of(JOURNAL)) or (0, 0, 0))[2] <= EMPTY_BYTES:
            return
        try:
            digits = self.key()
        except Trouble:
            return
        self.ahead = Session(self.folder, MORE)
        self.ahead.tell(f"key {digits}")

    def started(self) -> Session:
        """A client of its own that goes on from the journal."""
        self.end_session()
        return Session(self.folder, MORE)

    def has_client(self) -> bool:
        return self.session is not None and not self.session.has_ended

    def greeted(self) -> str:
        """Starts the client, in place of one that is there, and answers its line that the server has all."""
        session, self.ahead = self.ahead, None
        self.end_session()
        try:
            if session:
                line = session.greeting()
            else:
                session = Session(self.folder, MORE)
                line = session.greet(self.key())
        except BaseException as error:
            if session:
                session.kill()
            if isinstance(error, Trouble):
                raise self.better(error) from error
            raise
        self.session = session
        return line

    def better(self, trouble: Trouble) -> Trouble:
        """If the server is ahead, that this folder is an older copy, if it is one."""
        if trouble.status == OTHER_SERVER and self.journal().records:
            found = self.standing()
            if state.is_copy(found):
                return state.trouble(self.journal(), self.journal().mark(), found)
        return trouble

    def find(self, word: str) -> List[int]:
        """What the server answers to a word."""
        return self.answer(lambda session: session.find(word))

    def match(self, fields: List[str]) -> List[int]:
        """What a line `query` of these fields chooses of the server's answers."""
        return self.answer(lambda session: session.match(fields))

    def answer(self, question: Callable[[Session], List[int]]) -> List[int]:
        """A client that was kept and has lost its connection is started once more."""
        was_kept = self.has_client()
        if not was_kept:
            self.greeted()
        try:
            return question(self.session)  # type: ignore[arg-type]
        except Trouble as error:
            self.end_session()
            if not was_kept or error.status not in (SERVER_ENDED, LINK):
                raise
        self.greeted()
        try:
            return question(self.session)  # type: ignore[arg-type]
        except Trouble:
            self.end_session()
            raise

    def end_session(self) -> None:
        for session in (self.session, self.ahead):
            if session is not None and not session.has_ended:
                session.kill()
        self.session = self.ahead = None

    def idle_left(self) -> Optional[float]:
        """In how many seconds the client is to be ended, None without one."""
        if self.session is None or self.session.has_ended:
            return None
        return max(0.0, self.session.used + IDLE - time.monotonic())

    def close(self) -> None:
        """At the end: the client ends by the end of its lines."""
        self.end_session()
        self.folder.close()


def no_journal(folder: Folder, had: int) -> Trouble:
    why = f"had {had}" if had else "something may have been sent since"
    return Trouble(NO_JOURNAL, f"{folder.shown(JOURNAL)} isn't there or has no records, and {why}: put the folder back from a copy and run "
                   "`archive renew --server ADDRESS` with a server over a new file; if there is none, index into a new archive. The texts "
                   "are where they were")


def nothing_indexed() -> Trouble:
    return Trouble(WORDS, "nothing was indexed yet: say what, `archive index PATHS..`")
