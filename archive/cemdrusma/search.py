"""`archive search`: the server is asked the words that narrow most, and the rest is looked up here, where the texts are."""
from __future__ import annotations

import json
import sys
from typing import Dict, FrozenSet, List, NamedTuple, Optional, Sequence, Set, Tuple

from . import query
from .journal import Journal
from .opened import Opened, nothing_indexed
from .printing import print_name, print_raw, printable
from .progress import Progress
from .query import And, Beginning, Dates, Field, Not, Or, Phrase, Query, Word
from .reading import Shelf
from .report import nearer, on_a_line, say
from .snippet import Snippet, has_phrase, holds, snippet_of
from .statuses import OTHER_ANSWER, REFUSED
from .texts_file import Source, Text, Texts, names_lost

# how many texts are printed unless it is said
LIMIT = 20
# of a text that has no time, which comes last
NO_TIME = 0
BOLD, PLAIN = "\x1b[1m", "\x1b[0m"
# parts of a query in the order in which they are looked up: those that need a text to be read come last
COSTS = (Word, Beginning, Dates, And, Or, Not, Field, Phrase)


class Form(NamedTuple):
    """How the texts are printed."""

    limit: Optional[int]  # None unless it is said
    as_files: bool
    with_zeros: bool
    as_json: bool


class Answer(NamedTuple):
    """What was found, by the words that the server was asked."""

    rows: Set[int]
    unread: int  # how many texts couldn't be looked at
    asked: List[str]
    is_wrong: bool


def search(archive: Opened, words: Sequence[str], form: Form, progress: Progress, at_once: bool = False) -> int:
    """Prints the texts that a query finds. Returns the status."""
    text = " ".join(words)
    wanted = query.parsed(text)
    fields = query.fields_in(wanted, text) if at_once else []
    archive.start_ahead()
    journal, texts = archive.journal(), archive.texts()
    if not journal.records:
        raise nothing_indexed()
    if not texts.is_there and journal.live:
        raise names_lost(archive.folder, len(journal.live))
    # what was looked up stays for the next search
    index = archive.known.get("searched") or Index(journal, texts)
    archive.known["searched"] = index
    shelf = Shelf()
    answer = chosen_at_once(archive, index, wanted, fields, progress) if at_once else looked_up(archive, index, wanted, shelf, progress)
    progress.end()
    shown = sorted(answer.rows, key=index.newest_first)
    printed = Printing(index, wanted, form, shelf)
    if form.as_files or form.with_zeros:
        printed.files(shown)
    elif form.as_json:
        printed.as_json(text, answer.asked, shown)
    else:
        printed.lines(text, shown)
    if answer.unread:
        say(f"{answer.unread:,} texts couldn't be looked at, since they changed or are gone: `archive index` them again")
    return OTHER_ANSWER if answer.is_wrong else REFUSED if answer.unread else 0


def looked_up(archive: Opened, index: "Index", wanted: Query, shelf: Shelf, progress: Progress) -> Answer:
    """The server is asked the words that narrow most, and the rest is looked up here."""
    asked = index.asked(wanted)
    answers = ask(archive, asked, progress)
    is_wrong = differing(index, answers)
    progress.show("{:,} texts are looked at", len(index.rows))
    within = index.answered(answers) if asked is not None else set(range(len(index.rows)))
    rows, unread = Lookup(index, shelf).rows(wanted, within)
    return Answer(rows, unread, sorted(answers), is_wrong)


def chosen_at_once(archive: Opened, index: "Index", wanted: Query, fields: List[str], progress: Progress) -> Answer:
    """The server is asked every word in one line, and what that line chooses of its answers is compared with the journal."""
    progress.show("the client goes on")
    if not archive.has_client():
        archive.greeted()
    words = query.words_asked(fields)
    keep_searches(archive, words)
    identifiers = set(archive.match(fields))
    is_wrong = is_other(" ".join(fields), identifiers, query.chosen(wanted, index.holders))
    return Answer(index.rows_of(identifiers), 0, words, is_wrong)


def ask(archive: Opened, words: Optional[FrozenSet[str]], progress: Progress) -> Dict[str, Set[int]]:
    """What the server answers to each word. It is opened even if nothing is asked, so that a broken archive is noticed."""
    progress.show("the client goes on")
    if not archive.has_client():
        archive.greeted()
    answers: Dict[str, Set[int]] = {}
    for word in sorted(words or ()):
        keep_searches(archive, [word])
        progress.show("{} of {} words searched", len(answers), len(words or ()))
        answers[word] = set(archive.find(word))
    return answers


def keep_searches(archive: Opened, words: Sequence[str]) -> None:
    """Words are kept before they are sent, as `leaks` tells what the server may have seen."""
    archive.folder.keep_searches(archive.folder.searches() + [(archive.journal().records, word) for word in words])


def differing(index: "Index", answers: Dict[str, Set[int]]) -> bool:
    """Whether an answer isn't what this archive sent, which is said of each."""
    return any([is_other(word, identifiers, index.holders(word)) for word, identifiers in answers.items()])


def is_other(asked: str, identifiers: Set[int], sent: Set[int]) -> bool:
    """Whether an answer isn't what this archive sent, which is said."""
    if identifiers == sent:
        return False
    say(f"the server's answer for {asked} isn't what this archive sent: {len(sent - identifiers):,} documents are missing and "
        f"{len(identifiers - sent):,} aren't of it. The server lies, or its file is damaged: start one over a new file and run `archive "
        "renew --server ADDRESS`")
    return True


class Index:
    """The texts by rows, and which words they hold by the journal."""

    def __init__(self, journal: Journal, texts: Texts) -> None:
        self.journal = journal
        self.rows: List[Tuple[Source, Text]] = texts.every()
        self.row_of: Dict[int, int] = {}
        for row, (_, text) in enumerate(self.rows):
            for identifier in text.identifiers or ():
                self.row_of[identifier] = row
        # what is still to be deleted is found under the name that it had
        by_name = {(source.path, text.label, text.number): row for row, (source, text) in enumerate(self.rows)} if texts.leaving else {}
        for identifier, (path, label, number) in texts.leaving.items():
            row = by_name.setdefault((path, label, number), len(self.rows))
            if row == len(self.rows):
                self.rows.append((Source(path, None, None, []), Text(number, label, "", [identifier], [NO_TIME, "", None])))
            self.row_of[identifier] = row
        self.known: Dict[str, Set[int]] = {}
        self.known_beginnings: Dict[str, Dict[str, Set[int]]] = {}

    def holders(self, word: str) -> Set[int]:
        if word not in self.known:
            self.known[word] = self.journal.holders(word)
        return self.known[word]

    def beginning_with(self, prefix: str) -> Dict[str, Set[int]]:
        if prefix not in self.known_beginnings:
            self.known_beginnings[prefix] = self.journal.beginning_with(prefix)
        return self.known_beginnings[prefix]

    def asked(self, wanted: Query) -> Optional[FrozenSet[str]]:
        """The words that the server is asked. Of one that no document holds the answer is known."""
        words = query.asked(wanted, lambda word: len(self.holders(word)),
                            lambda prefix: {word: len(held) for word, held in self.beginning_with(prefix).items()})
        return words if words is None else frozenset(word for word in words if self.holders(word))

    def answered(self, answers: Dict[str, Set[int]]) -> Set[int]:
        return self.rows_of(identifier for identifiers in answers.values() for identifier in identifiers)

    def rows_of(self, identifiers) -> Set[int]:  # type: ignore[no-untyped-def]
        return {self.row_of[identifier] for identifier in identifiers if identifier in self.row_of}

    def newest_first(self, row: int) -> Tuple[int, int]:
        _, text = self.rows[row]
        return -(text.details[0] if text.details else NO_TIME), -(text.number or 0)


class FoundRows(NamedTuple):
    rows: Set[int]
    unread: int  # how many texts couldn't be looked at


class Lookup:
    """Which of some texts a query finds."""

    def __init__(self, index: Index, shelf: Shelf) -> None:
        self.index, self.shelf = index, shelf

    def rows(self, wanted: Query, within: Set[int]) -> FoundRows:
        return FoundRows(self.found(wanted, within), len(self.shelf.unread))

    def found(self, wanted: Query, within: Set[int]) -> Set[int]:
        index = self.index
        if isinstance(wanted, Word):
            return within & index.rows_of(index.holders(wanted.word))
        if isinstance(wanted, Beginning):
            return within & index.rows_of(identifier for held in index.beginning_with(wanted.prefix).values() for identifier in held)
        if isinstance(wanted, Phrase):
            return {row for row in self.with_words(wanted, within) if self.has_phrase(row, wanted)}
        if isinstance(wanted, Field):
            return {row for row in self.with_words(wanted.phrase, within) if self.has_field(row, wanted)}
        if isinstance(wanted, Dates):
            return {row for row in within if self.is_within(row, wanted)}
        if isinstance(wanted, Not):
            return within - self.found(wanted.part, within)
        if isinstance(wanted, And):
            for part in sorted(wanted.parts, key=lambda part: COSTS.index(type(part))):
                within = self.found(part, within)
            return within
        rows: Set[int] = set()
        for part in sorted(wanted.parts, key=lambda part: COSTS.index(type(part))):
            rows |= self.found(part, within - rows)
        return rows

    def with_words(self, phrase: Phrase, within: Set[int]) -> Set[int]:
        """The texts that hold all words of a phrase, wherever they are."""
        for place, word in enumerate(phrase.words):
            is_open = phrase.is_open and place == len(phrase.words) - 1
            within = self.found(Beginning(word) if is_open else Word(word), within)
        return within

    def has_phrase(self, row: int, phrase: Phrase) -> bool:
        one = self.shelf.text(*self.index.rows[row])
        return one is not None and holds(one.pieces, phrase)

    def details(self, row: int) -> List:
        """A text's details; of one that an older version indexed they are read."""
        source, text = self.index.rows[row]
        if text.details is None:
            one = self.shelf.text(source, text)
            text.details = one.details if one else None
        return text.details or [NO_TIME, "", None]

    def has_field(self, row: int, wanted: Field) -> bool:
        fields = self.details(row)[2]
        return bool(fields) and any(has_phrase(line, wanted.phrase) for line in fields[wanted.field].split("\n"))

    def is_within(self, row: int, dates: Dates) -> bool:
        day = self.details(row)[1]
        return bool(day) and (not dates.first or dates.first <= day) and (not dates.last or day <= dates.last)


class Printing:
    """What is printed of the texts that were found, the newest first."""

    def __init__(self, index: Index, wanted: Query, form: Form, shelf: Shelf) -> None:
        self.index, self.form, self.shelf = index, form, shelf
        self.wanted = query.wanted(wanted)

    def shown(self, rows: List[int], least: Optional[int]) -> List[int]:
        limit = least if self.form.limit is None else self.form.limit
        return rows[:limit] if limit else rows

    def lines(self, text: str, rows: List[int]) -> None:
        print(f"{on_a_line(text)}: {len(rows):,}")
        shown = self.shown(rows, LIMIT)
        for row in shown:
            _, one = self.index.rows[row]
            print_name(one.number or 0, one.label)
            snippet = self.snippet(row)
            if snippet and snippet.text:
                print("          " + snippet.marked(*(BOLD, PLAIN) if sys.stdout.isatty() else ("*", "*")))
        if len(shown) < len(rows):
            print(f"  and {len(rows) - len(shown):,} older: --limit 0 prints all")

    def snippet(self, row: int) -> Optional[Snippet]:
        source, one = self.index.rows[row]
        read = self.shelf.text(source, one)
        return snippet_of([(name, printable(text)) for name, text in read.pieces], self.wanted) if read else None

    def files(self, rows: List[int]) -> None:
        paths = sorted({self.index.rows[row][0].path for row in self.shown(rows, 0)})
        for path in paths:
            if self.form.with_zeros:
                print_raw(path, "\0")
            else:
                print_raw(on_a_line(nearer(path)))

    def as_json(self, text: str, asked: List[str], rows: List[int]) -> None:
        told = []
        for row in self.shown(rows, 0):
            source, one = self.index.rows[row]
            seconds, day, fields = one.details or [None, None, None]
            snippet = self.snippet(row)
            told.append({"number": one.number, "name": one.label, "path": source.path, "kind": source.kind, "time": seconds, "day": day,
                         **(fields or {}), "snippet": snippet.text if snippet else None, "marks": snippet.marks if snippet else []})
        print(json.dumps({"query": text, "count": len(rows), "asked": asked, "texts": told}, indent=1))
