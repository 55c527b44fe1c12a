"""`archive index`: what is new, changed or gone since the last time is added and deleted."""
from __future__ import annotations

import bisect
import collections
import os
import random
import secrets
from typing import Counter, DefaultDict, Dict, Iterable, Iterator, List, Optional, Sequence, Set, Tuple, Union

from . import limits, sources, state, vault
from .client import RUN, Session
from .journal import Journal
from .opened import Opened, nothing_indexed
from .progress import Progress
from .report import on_a_line, say
from .statuses import REFUSED, WORDS, Trouble
from .storing import Counts
from .texts_file import Source, Text, Texts, names_lost

# identifiers are drawn below the larger of these: short ones, and many more than there are
LEAST_RANGE, RANGE_FOR_EACH = 10**9, 1000
NEW, CHANGED, GONE, MOVED, BEFORE = "new", "changed", "gone", "moved", "as before"


def index(archive: Opened, asked: Sequence[str], with_gone: bool, progress: Progress) -> int:
    """Prints what was done, and returns the status. Key, journal and server are opened even if there is nothing to be sent, so that a
    broken archive isn't taken for one without news."""
    archive.allow_updates()
    if archive.folder.settings.vault:
        vault.mark_to_update(archive)
    journal, texts = archive.journal(), archive.texts()
    if not texts.is_there and journal.live and not asked:
        raise names_lost(archive.folder, len(journal.live))
    plan = Plan(archive.folder.path, journal, texts, progress)
    paths = plan.paths_of(asked, with_gone)
    plan.read(paths)
    plan.assign()
    texts.paths = sorted(path for path in {*texts.paths, *paths} if os.path.lexists(path) or path not in paths)
    planned = len(texts.every())
    with state.held(archive.mark()):
        # another folder with this key may have sent something while the texts were read
        archive.allow_updates()
        refused = Sending(archive, plan, progress).carry_out()
    plan.counts[NEW] -= planned - len(texts.every())
    texts.settle()
    texts.keep()
    stored = stored_then(archive, plan, progress)
    progress.end()
    plan.reading.tell()
    for line, count in refused.items():
        say(f"{line} ({count} times)" if count > 1 else line)
    print("indexed: " + ", ".join(f"{plan.counts[what]:,} {what}" for what in (NEW, CHANGED, MOVED, GONE, BEFORE)))
    if isinstance(stored, Trouble):
        raise stored
    if stored:
        print(f"stored: {stored.put:,} put, {stored.dropped:,} dropped, {stored.stayed:,} as before")
    if plan.reading.places:
        say("what couldn't be read stays as it was indexed before")
    return REFUSED if plan.reading.places or refused else 0


def stored_then(archive: Opened, plan: "Plan", progress: Progress) -> Union[None, Counts, Trouble]:
    """What was stored, if the archive has a vault; or why it couldn't be, which is said after what was indexed."""
    if not archive.folder.settings.vault:
        return None
    try:
        return vault.store(archive, plan.reading, progress)
    except Trouble as error:
        return error


class Plan:
    """What the texts at some paths come to: the new state of their sources, documents to be added, and those to be deleted."""

    def __init__(self, folder: str, journal: Journal, texts: Texts, progress: Progress) -> None:
        self.folder, self.texts, self.progress = folder, texts, progress
        self.reading = sources.Reading()
        self.used = set(journal.used)
        self.additions: List[Tuple[int, Sequence[str]]] = []  # an identifier and the words of each document
        # texts that were read and have no identifiers yet, with their sources and words
        self.unmatched: List[Tuple[Source, Text, List[str]]] = []
        # by checksum: texts that aren't where they were, with their sources
        self.left: DefaultDict[str, List[Tuple[Optional[Source], Text]]] = collections.defaultdict(list)
        self.counts: Counter[str] = collections.Counter()
        self.pool: Dict[str, str] = {}  # each word once, since texts share most of theirs
        for identifier in texts.nameless():
            mark = sources.checksum(journal.words(identifier))
            self.left[mark].append((None, Text(None, "", mark, [identifier])))

    def paths_of(self, asked: Sequence[str], with_gone: bool) -> List[str]:
        paths = [os.path.abspath(path) for path in asked] or self.texts.paths
        if not paths:
            raise nothing_indexed()
        for path in paths:
            if not os.path.lexists(path) and not with_gone:
                raise Trouble(WORDS, f"{on_a_line(path)} isn't there: name another path; or, if its texts are gone for good, "
                              "`archive index --gone` with it deletes them. Nothing was changed")
        return paths

    def read(self, paths: Sequence[str]) -> None:
        before = {key for path in paths for key in self.texts.below(path)}
        looked_at: Set[str] = set()
        seen: Set[str] = set()
        went: Dict[str, str] = {}
        for file in self.files_at(paths, self.reading):
            if file not in looked_at:
                looked_at.add(file)
                self.progress.show("{:,} files looked at, {:,} texts to be added", len(looked_at), len(self.unmatched))
                key = sources.key_of(file)
                # two files whose names differ in flags alone aren't the same
                key = file if key in seen else key
                if self.take(key, file):
                    seen.add(key)
                else:
                    went[key] = file
        # a mail whose flags change, or that moves from new to cur, may be listed in neither place or be gone when it is read
        if (before | set(went)) - seen:
            for file in self.files_at(paths, sources.Reading()):
                key = sources.key_of(file)
                if key not in seen and self.take(key, file):
                    seen.add(key)
        for key in (before | set(went)) - seen:
            source = self.texts.sources.get(key)
            if key in went:
                self.reading.unread("files that went away before they were read: index again", went[key])
            if source and (key in went or self.reading.covers(source.path)):
                self.counts[BEFORE] += len(source.texts)
            elif source:
                self.part_with(self.texts.sources.pop(key))

    def files_at(self, paths: Sequence[str], reading: sources.Reading) -> Iterator[str]:
        """The files at all of these paths that are there."""
        return (file for path in paths if os.path.lexists(path) for file in sources.files_at(path, self.folder, reading))

    def take(self, key: str, path: str) -> bool:
        """A file that is there: as before, or read. Answers whether it was there still."""
        known = self.texts.sources.get(key)
        if known and self.is_as_before(known, path):
            known.path = path
            self.counts[BEFORE] += len(known.texts)
            return True
        try:
            read = sources.texts_of(path, self.reading)
        except FileNotFoundError:
            return False
        if read is None:
            self.counts[BEFORE] += len(known.texts) if known else 0
            return True
        kind, state_now, found = read
        source = Source(path, kind, state_now, [])
        held: DefaultDict[str, List[Text]] = collections.defaultdict(list)
        for text in known.texts if known else []:
            held[text.held].append(text)
        for one in found:
            self.take_text(source, one, held)
        self.note_change(known, source)
        for texts in held.values():
            for text in texts:
                self.left[text.held].append((source, text))
        if kind is None:
            self.texts.sources.pop(key, None)
        else:
            self.texts.sources[key] = source
        return True

    def is_as_before(self, known: Source, path: str) -> bool:
        """Whether a file needn't be read: neither its size nor its time is another, and it wasn't young when it was read."""
        if not known.state or len(known.state) > 2 or any(text.details is None for text in known.texts):
            return False
        try:
            return known.state == sources.state_of(os.stat(path))[:2]
        except OSError:
            return False

    def take_text(self, source: Source, found: sources.Found, held: DefaultDict[str, List[Text]]) -> None:
        """A text of a source: one that held the same before, or one for which that is still to be found."""
        words = sources.words_in(found.label, found.pieces, self.reading)
        mark = sources.checksum(words)
        if held[mark]:
            text = held[mark].pop()
            text.label, text.details = found.label, found.details
            self.counts[BEFORE] += 1
        else:
            text = Text(None, found.label, mark, None, found.details)
            self.unmatched.append((source, text, [self.pool.setdefault(word, word) for word in words]))
        source.texts.append(text)

    def note_change(self, known: Optional[Source], source: Source) -> None:
        """Of a file of one text, which holds another one than before: that keeps its number, and is neither new nor gone."""
        if known and known.kind == source.kind and len(known.texts) == len(source.texts) == 1:
            (before,), (now,) = known.texts, source.texts
            if now.number is None:
                now.number = before.number
                self.counts.update({CHANGED: 1, NEW: -1, GONE: -1})

    def part_with(self, source: Source) -> None:
        for text in source.texts:
            self.left[text.held].append((source, text))

    def assign(self) -> None:
        """Gives each new text the identifiers of one that isn't where it was and held the same, or new ones."""
        for _, text, words in self.unmatched:
            others = self.left[text.held]
            if others:
                self.move(text, *others.pop())
                continue
            text.number = text.number or self.texts.next_number()
            text.identifiers = []
            for part in limits.documents_of(words):
                text.identifiers.append(self.fresh())
                self.additions.append((text.identifiers[-1], part))
            self.counts[NEW] += 1
        for others in self.left.values():
            for source, text in others:
                if source is not None:
                    self.texts.leave(source, text)
                    self.counts[GONE] += 1

    def move(self, text: Text, source: Optional[Source], other: Text) -> None:
        """A text that held the same elsewhere, or whose name was lost, without a source."""
        text.identifiers = other.identifiers
        if source is None:
            for identifier in other.identifiers or ():
                del self.texts.leaving[identifier]
            self.counts[BEFORE] += 1
            text.number = text.number or self.texts.next_number()
            return
        self.counts.update({NEW: 1, GONE: 1} if text.number else {MOVED: 1})
        text.number = text.number or other.number

    def fresh(self) -> int:
        """An identifier that no document has or had: a document under one that was deleted would show that it is the same."""
        limit = max(LEAST_RANGE, RANGE_FOR_EACH * len(self.used))
        while True:
            number = secrets.randbelow(limit) + 1
            if number not in self.used:
                self.used.add(number)
                return number


class Sending:
    """What a plan has the client do."""

    def __init__(self, archive: Opened, plan: Plan, progress: Progress) -> None:
        self.archive, self.plan, self.progress = archive, plan, progress
        self.journal, self.texts = archive.journal(), archive.texts()
        self.mark = archive.mark()
        self.refused: Counter[str] = collections.Counter()
        self.done = 0
        self.is_begun = False  # whether something may have been sent
        # numbers and order are drawn at random, so that they say nothing of the texts
        self.additions = random.SystemRandom().sample(plan.additions, len(plan.additions))
        self.deletions = random.SystemRandom().sample(list(self.texts.leaving), len(self.texts.leaving))

    def carry_out(self) -> Dict[str, int]:
        """Keeps what is to be, then has the client do it. Returns what was refused, each line with how often."""
        if self.additions or self.deletions:
            self.texts.keep()
        try:
            if self.journal.records:
                self.go_on()
            else:
                self.begin()
        except BaseException:
            self.archive.end_session()
            self.journal.go_on()
            if self.is_begun:
                state.remember_sent(self.journal, self.mark)
            self.texts.follow(self.journal)
            raise
        self.texts.follow(self.journal)
        return self.refused

    def begin(self) -> None:
        """The first setup, and what it doesn't hold. Without texts only the server is asked."""
        archive = self.archive
        sizes = [archive.folder.settings.sizes[name] for name in "bBQ"]
        count = first_setup([words for _, words in self.additions], sizes)
        if self.additions:
            self.begin_attempt()
        with Session(archive.folder, RUN) as session:
            session.greet(archive.key())
            if self.additions:
                self.progress.show("{:,} documents are set up together", count)
                script = [*lines_of("doc", self.additions[:count]), "setup {} {} {}".format(*sizes)]
                self.take(session.set_up(script), count)
                self.take_updates(session, self.additions[count:])

    def go_on(self) -> None:
        """The client is started again, so that key, journal and server are looked at. It is kept for searches."""
        self.progress.show("the client goes on")
        self.archive.greeted()
        if self.additions or self.deletions:
            self.begin_attempt()
        self.take_updates(self.archive.session, self.additions)  # type: ignore[arg-type]

    def begin_attempt(self) -> None:
        self.is_begun = True
        state.begin_attempt(self.journal, self.mark)

    def take_updates(self, session: Session, additions: List[Tuple[int, Sequence[str]]]) -> None:
        """What is added comes before what is deleted, so that a text that changed is found at any moment."""
        script = [*lines_of("add", additions), *(f"del {identifier}" for identifier in self.deletions)]
        self.take(session.exchange(script, len(script)), 0)

    def take(self, lines: Iterable[str], set_up: int) -> None:
        """Goes through what the client prints. After each update this machine's state is kept."""
        for line in lines:
            if line.startswith("refused: "):
                self.refused[line] += 1
                continue
            self.done += set_up if line.startswith("set up ") else 1
            self.progress.show("{:,} of {:,} documents added or deleted", self.done, len(self.additions) + len(self.deletions))
            self.journal.go_on()
            state.remember(self.journal, self.journal.mark(), False)
        if self.journal.records:
            state.remember(self.journal, self.journal.mark())


def lines_of(command: str, documents: Iterable[Tuple[int, Sequence[str]]]) -> List[str]:
    return [" ".join([command, str(identifier), *words]) for identifier, words in documents]


def first_setup(documents: List[Sequence[str]], sizes: Sequence[int]) -> int:
    """How many of the documents one setup of these sizes holds."""
    b, block, multiple = sizes

    def is_too_large(count: int) -> bool:
        lengths = collections.Counter(word for words in documents[:count] for word in words).values()
        return (max(lengths, default=0) > b * block * block
                or limits.index_bytes(lengths, b, block, multiple) > limits.INDEX_BYTES)

    class Sizes(Sequence[bool]):
        """Whether so many are too large, as a list that rises from False to True."""

        def __getitem__(self, count):  # type: ignore[no-untyped-def,override]
            return is_too_large(count)

        def __len__(self) -> int:
            return len(documents)

    count = limits.first_setup(documents)
    return count if not is_too_large(count) else bisect.bisect_left(Sizes(), True, 0, count) - 1
