"""`archive renew --server`: all documents of the journal are set up again, under a new key and with a new journal, at a server that has taken
nothing yet. The new files are made in the folder `renewed` within the archive's, and take their places once the server has answered,
so a stop at any moment leaves either archive, whole; the same command then goes on."""
from __future__ import annotations

import json
import os
import random
import secrets
import shutil
from typing import Dict, Iterable, List, Optional, Sequence, Set, Tuple

from . import key, sources, state
from .client import MORE, RUN, Session
from .files import sync_folder, write_whole
from .folder import READY, RENEWED, SEARCHES, TAKES_PLACE, TEXTS, Folder, fill, fill_vault, new_key, tell_vault_key
from .index import LEAST_RANGE, RANGE_FOR_EACH, first_setup, lines_of
from .journal import Journal
from .key import KEY
from .opened import Opened, no_journal, nothing_indexed
from .progress import Progress
from .report import counted, nearer, on_a_line
from .settings import Settings
from .statuses import DISK, LOCKED, NO_JOURNAL, NO_STATE, OLDER_JOURNAL, OLDER_SERVER, OTHER_KEY, OTHER_SERVER, REFUSED, WORDS, Trouble
from .storing import Counts, Storing, Wanted, part_again
from .texts_file import Texts
from .vault import plan
from .vault_journal import VAULT, VAULT_KEY, VaultJournal

# which identifier each document gets, of which journal, and at which server
PLAN = "plan"


def renew(archive: Opened, server: str, owner: Optional[int], key_command: str, new_vault: str, progress: Progress) -> int:
    """Sets all up again, as the same owner if no other is given, and prints what was done. Returns the status."""
    may_renew(archive, key_command, new_vault)
    folder = archive.folder
    archive.texts()
    archive.end_session()
    known = folder.settings
    settings = Settings(server, known.sizes, key_command, owner=known.owner if owner is None else owner, vault=new_vault)
    settings.seconds, settings.lines = known.seconds, known.lines
    renewed = Renewed(archive, settings, progress)
    renewed.carry_out()
    count = len(renewed.journal.live)
    archive.forget()
    folder.finish_renewal()
    progress.end()
    place = f"what `{on_a_line(key_command)}` prints" if key_command else on_a_line(nearer(folder.of(KEY)))
    print(f"renewed: {counted(count, 'document')} at {server}. The new key is {place}: keep a copy of it elsewhere")
    stored = renewed.new_vault.stored
    tell_stored(folder, stored)
    print("The old keys, servers and their files aren't needed any more; `archive index` sends what has changed since" if stored else
          "The old key, the old server and its file aren't needed any more; `archive index` sends what has changed since")
    renewed.reading.tell()
    return REFUSED if renewed.reading.places else 0


def may_renew(archive: Opened, key_command: str, new_vault: str) -> None:
    """Raises what is missing for a new key: a journal, a command for one that is printed, an empty vault for texts that are at one."""
    settings = archive.folder.settings
    if not archive.journal().records:
        if archive.texts().records:
            raise no_journal(archive.folder, archive.texts().records)
        raise nothing_indexed()
    if settings.key_command and not key_command:
        raise Trouble(WORDS, f"this archive's key is printed by `{on_a_line(settings.key_command)}`: have another key printed, and name that command by --key-command")
    if settings.vault and not new_vault:
        raise Trouble(WORDS, f"this archive's texts are at the vault {settings.vault}, whose key is renewed too: start a vault over a new file, and name its address by --vault")


def tell_stored(folder: Folder, stored: Optional[Counts]) -> None:
    if stored:
        print(f"stored: {counted(stored.put + stored.stayed, 'text')} at {folder.settings.vault}")
        tell_vault_key(nearer(folder.of(VAULT_KEY)))


class Renewed:
    """The archive that is to take the place of the one that is there."""

    def __init__(self, archive: Opened, settings: Settings, progress: Progress) -> None:
        self.folder: Folder = archive.folder
        self.old, self.texts = archive.journal(), archive.texts()
        self.settings, self.key_command, self.vault, self.progress = settings, settings.key_command, settings.vault, progress
        self.reading = sources.Reading()
        self.new_vault = NewVault(archive.folder, self.texts, settings, self.reading, progress)
        self.place = self.folder.of(RENEWED)
        self.identifiers: Dict[int, int] = {}
        self.digits = ""
        self.mark = b""  # of the new key, once something may have been sent
        self.begun = ""  # the mark of the key of a renewal that was begun before, as digits
        self.unsent = "", 0  # the same if nothing was sent under it, and how often that was begun
        self.journal = Journal(self.place)
        # what is to be deleted anyway isn't set up; what has lost its name is
        nameless = set(self.texts.nameless())
        self.wanted = [identifier for identifier in self.old.live if identifier not in self.texts.leaving or identifier in nameless]

    def of(self, name: str) -> str:
        return os.path.join(self.place, name)

    def carry_out(self) -> None:
        try:
            if not (self.is_begun() and self.goes_on()):
                self.begin()
        except BaseException:
            if self.mark:
                state.remember_sent(self.journal, self.mark)
            raise
        self.progress.show("the new server is asked")
        with Session(self.folder, MORE, self.place, self.settings) as session:
            session.greet(self.digits)
        if self.vault:
            self.new_vault.store()
        self.keep_texts()
        write_whole(self.of(SEARCHES), b"")
        names = [name for name in TAKES_PLACE if os.path.exists(self.of(name))]
        write_whole(self.of(READY), "\n".join(names).encode())

    # One that was begun before.

    def is_begun(self) -> bool:
        """Whether this was begun before, of this journal and for this server, and something was sent."""
        try:
            with open(self.of(PLAN), encoding="ascii") as file:
                plan = json.load(file)
            self.identifiers = {int(old): new for old, new in plan["identifiers"].items()}
            self.begun = plan.get("key", "")
            same = plan["server"], plan.get("owner"), plan["key_command"], plan["mark"], plan.get("vault", "")
        except (FileNotFoundError, ValueError, KeyError):
            return False
        return same == (self.settings.server, self.settings.owner, self.key_command, self.old.mark().hex(), self.vault) and self.journal.records > 0

    def goes_on(self) -> bool:
        """Sends what is missing. Whether that went well: not if the server has begun again."""
        self.digits = key.key_of_command(self.key_command) if self.key_command else key.key_in(self.of(KEY))
        mark = self.journal.mark()
        with state.held(mark):
            if state.standing(self.journal, mark) is not state.Standing.AGREES:
                return False
            self.add_to_plan()
            return self.has_gone_on(mark)

    def has_gone_on(self, mark: bytes) -> bool:
        try:
            with Session(self.folder, MORE, self.place, self.settings) as session:
                session.greet(self.digits)
                self.mark = mark
                state.begin_attempt(self.journal, mark)
                wanted = {self.identifiers[identifier] for identifier in self.wanted}
                self.take(session.exchange(*self.updates(wanted - self.journal.live.keys(), self.journal.live.keys() - wanted)))
        except Trouble as error:
            if error.status in (OLDER_SERVER, OTHER_SERVER):
                return False
            raise
        return True

    def updates(self, added: Iterable[int], deleted: Iterable[int]) -> Tuple[List[str], int]:
        old = {new: identifier for identifier, new in self.identifiers.items()}
        script = lines_of("add", [(new, self.old.words(old[new])) for new in shuffled(added)]) + [f"del {new}" for new in shuffled(deleted)]
        return script, len(script)

    # One that begins.

    def begin(self) -> None:
        """Makes the new files, then sets up and adds. A key under which something may have been sent isn't taken again."""
        if self.journal.records and state.standing(self.journal, self.journal.mark()) is state.Standing.AGREES:
            # its last record may have been sent without an answer
            state.remember(self.journal, self.journal.mark())
        if self.begun and not self.journal.records:
            self.unsent = self.begun, state.attempts_of(self.place)
        self.digits = new_key(self.key_command, self.is_taken)
        if key.mark_of(self.digits) in self.old.marks:
            raise Trouble(WORDS, f"`{on_a_line(self.key_command)}` prints a key that this archive has or had: have it print another one")
        self.let_go_of_unsent()
        shutil.rmtree(self.place, ignore_errors=True)
        try:
            os.mkdir(self.place, 0o700)
            sync_folder(self.folder.path)
        except OSError as error:
            raise Trouble(DISK, f"{on_a_line(self.place)} can't be made: {error.strerror}. Mend that and run the command again") from error
        fill(self.place, self.digits, self.settings)
        self.journal = Journal(self.place)
        self.identifiers = {}
        self.add_to_plan()
        documents = [(self.identifiers[identifier], self.old.words(identifier)) for identifier in shuffled(self.wanted)]
        sizes = [self.settings.sizes[name] for name in "bBQ"]
        count = first_setup([words for _, words in documents], sizes)
        mark = key.mark_of(self.digits)
        with state.held(mark):
            known = state.read(mark)
            if known and self.is_taken(mark, known):
                raise Trouble(LOCKED, "another folder has been set up under this key meanwhile: have another key printed, and run the command again")
            self.mark = mark
            state.begin_attempt(self.journal, mark)
            self.send(documents, count)

    def let_go_of_unsent(self) -> None:
        """If nothing was sent under this key, that is remembered before what shows it is removed: a stop between leaves the key as good as it was."""
        mark = key.mark_of(self.digits)
        if mark.hex() == self.unsent[0]:
            with state.held(mark):
                known = state.read(mark)
                if known and not self.is_taken(mark, known):
                    state.remember(self.journal, mark, attempts=0)

    def is_taken(self, mark: bytes, known: state.State) -> bool:
        """Whether something may have been sent under a key. Not if only a renewal that is here was begun with it, and its journal has nothing."""
        begun, attempts = self.unsent
        return known.records > 0 or known.attempts > (attempts if mark.hex() == begun else 0)

    def send(self, documents: List[Tuple[int, Sequence[str]]], count: int) -> None:
        """A setup of so many documents, and the others as additions."""
        sizes = [self.settings.sizes[name] for name in "bBQ"]
        with Session(self.folder, RUN, self.place, self.settings) as session:
            session.greet(self.digits)
            self.progress.show("{:,} documents are set up together", count)
            self.take(session.set_up([*lines_of("doc", documents[:count]), "setup {} {} {}".format(*sizes)]))
            script = lines_of("add", documents[count:])
            self.take(session.exchange(script, len(script)))

    def add_to_plan(self) -> None:
        """Draws identifiers for documents that have none in the plan, and keeps it before anything is sent."""
        used: Set[int] = set(self.identifiers.values()) | self.journal.used
        limit = max(LEAST_RANGE, RANGE_FOR_EACH * (len(used) + len(self.wanted)))
        for identifier in self.wanted:
            while identifier not in self.identifiers:
                number = secrets.randbelow(limit) + 1
                if number not in used:
                    used.add(number)
                    self.identifiers[identifier] = number
        plan = {"server": self.settings.server, "owner": self.settings.owner, "key_command": self.key_command, "mark": self.old.mark().hex(), "key": key.mark_of(self.digits).hex(),
                "vault": self.vault, "identifiers": self.identifiers}
        write_whole(self.of(PLAN), json.dumps(plan).encode())

    # What both do.

    def take(self, lines: Iterable[str]) -> None:
        for line in lines:
            if line.startswith("refused: "):
                raise Trouble(1, f"the new server's client refuses a document of the journal ({line}): the archive stays as it was")
            self.journal.go_on()
            state.remember(self.journal, self.journal.mark(), False)
            self.progress.show("{:,} of {:,} documents are there", len(self.journal.live), len(self.wanted))
        if self.journal.records:
            state.remember(self.journal, self.journal.mark())

    def keep_texts(self) -> None:
        """The names of the texts, with their new identifiers; without names if those were lost."""
        if not self.texts.is_there:
            return
        for _, text in self.texts.every():
            text.identifiers = [self.identifiers[identifier] for identifier in text.identifiers or ()]
        self.texts.leaving = {}
        self.texts.records = self.journal.records
        self.texts.path = self.of(TEXTS)
        self.texts.keep()


class NewVault:
    """The vault that is to take the place of the one that is there: its key and its journal are made in the folder of the renewed files."""

    def __init__(self, folder: Folder, texts: Texts, settings: Settings, reading: sources.Reading, progress: Progress) -> None:
        self.folder, self.texts, self.settings, self.reading, self.progress = folder, texts, settings, reading, progress
        self.place = folder.of(RENEWED)
        self.stored: Optional[Counts] = None

    def of(self, name: str) -> str:
        return os.path.join(self.place, name)

    def store(self) -> None:
        """Puts all texts at the new vault. If one that was begun before can't be gone on with, it begins under another key."""
        is_begun = VaultJournal(self.place).records > 0
        try:
            self.store_once()
        except Trouble as error:
            if not is_begun or error.status not in (OLDER_SERVER, OTHER_SERVER, OLDER_JOURNAL, NO_STATE, OTHER_KEY, NO_JOURNAL):
                raise
            self.store_anew()

    def store_anew(self) -> None:
        # the journal goes first: with a new key it would be taken for a damaged one
        os.remove(self.of(VAULT))
        sync_folder(self.place)
        fill_vault(self.place)
        self.store_once()

    def store_once(self) -> None:
        journal, digits = VaultJournal(self.place), key.key_in(self.of(VAULT_KEY))
        mark = key.mark_of(digits)
        with state.held(mark):
            found = state.standing(journal, mark)
            if found is not state.Standing.AGREES:
                raise state.trouble(journal, mark, found)
            storing = Storing(self.folder, journal, self.settings, self.reading, self.progress)
            self.plan_texts(storing)
            self.stored = storing.carry_out(digits, mark)

    def plan_texts(self, storing: Storing) -> None:
        """The texts as the journal of the old vault has them, whatever became of their files; without one, as their files are."""
        old = self.old_vault()
        entries = old.newest_list()[0] if old else {}
        if not old or not entries:
            plan(storing, self.texts, self.reading, self.progress)
            return
        for entry in entries.values():
            if storing.before.get(entry.name, entry)._replace(texts=()) == entry._replace(texts=()) and entry.name in storing.before:
                storing.stay([storing.before[entry.name]])
            else:
                storing.wanted.append(Wanted(entry, [part_again(old, text) for text in entry.texts], None))

    def old_vault(self) -> Optional[VaultJournal]:
        try:
            return VaultJournal(self.folder.path)
        except Trouble:
            return None


def shuffled(some: Iterable[int]) -> Sequence[int]:
    every = list(some)
    return random.SystemRandom().sample(every, len(every))
