"""What an archive knows of its texts: the file `texts` of its folder, as JSON.

A source is a file with one text, or with several (an mbox file, a CSV file). Its texts are known again by what they hold,
so one may stand at another place of its file, or in another file, and keep its identifiers. The file is written before
anything is sent, with the identifiers that texts are to get and those that are still to be deleted; which of both are
there is then told by the journal (`follow`).
"""
from __future__ import annotations

import json
import os
from typing import Dict, List, Optional, Tuple

from .folder import TEXTS, Folder
from .journal import Journal
from .files import write_whole
from .report import on_a_line
from .statuses import NO_TEXTS, Trouble

VERSION = 2
# texts had no details, and files that are young no state
OLDER_VERSION = 1

# of a text: when it was written, in seconds since 1970; that day; and of a mail the fields From, To with Cc, and Subject
Details = List  # [int, str, Optional[Dict[str, str]]]
Name = Tuple[str, str, int]


class Text:
    """A number and a line that name it here, a checksum of its words, the identifiers of its documents, and its details, which an
    older version didn't keep."""

    __slots__ = ("number", "label", "held", "identifiers", "details")

    def __init__(self, number: Optional[int], label: str, held: str, identifiers: Optional[List[int]], details: Optional[Details] = None) -> None:
        self.number, self.label, self.held, self.identifiers, self.details = number, label, held, identifiers, details

    def kept(self) -> List:
        return [self.number, self.label, self.held, self.identifiers, self.details]


class Source:
    """Where it is, what it is, its size and time when it was read, and its texts. No size and no time: it is to be read again. With a
    third part, True, it was changed so shortly before that it might have changed once more without another time."""

    __slots__ = ("path", "kind", "state", "texts")

    def __init__(self, path: str, kind: Optional[str], state: Optional[List], texts: List[Text]) -> None:
        self.path, self.kind, self.state, self.texts = path, kind, state, texts


class Texts:
    def __init__(self, folder: Folder) -> None:
        self.folder = folder
        self.path = folder.of(TEXTS)
        self.sources: Dict[str, Source] = {}  # by key: a path that stays while a mail's flags change
        self.leaving: Dict[int, List] = {}  # identifiers that are to be deleted: the path, the label and the number of each
        self.paths: List[str] = []  # what `archive index` was told
        self.last = 0  # the last number of a text that was indexed
        self.given = 0  # the last one that this run has given
        self.records = 0  # how many the journal had when this was written
        self.is_there = True
        self.read()

    def read(self) -> None:
        try:
            with open(self.path, encoding="ascii") as file:
                kept = json.load(file)
            if kept["version"] not in (VERSION, OLDER_VERSION):
                raise ValueError(kept["version"])
            self.paths, self.records, self.last = kept["paths"], kept["records"], kept["last"]
            self.leaving = {int(identifier): name for identifier, name in kept["leaving"].items()}
            for key, (path, kind, state, texts) in kept["sources"].items():
                self.sources[key] = Source(path, kind, state, [Text(*text) for text in texts])
        except FileNotFoundError:
            self.is_there = False
        except (ValueError, KeyError, TypeError, AttributeError):
            raise Trouble(NO_TEXTS, f"{on_a_line(self.path)} is damaged, so the names of the texts are lost: put it back from a copy; or move it "
                          "away, and `archive index PATHS..` finds the texts again") from None

    def keep(self) -> None:
        sources = {
            key: [source.path, source.kind, source.state, [text.kept() for text in source.texts]]
            for key, source in self.sources.items()
        }
        kept = {"version": VERSION, "paths": self.paths, "records": self.records, "last": self.last, "leaving": self.leaving,
                "sources": sources}
        write_whole(self.path, json.dumps(kept, separators=(",", ":")).encode())
        self.is_there = True

    def follow(self, journal: Journal) -> None:
        """Brings this to what the journal says: a text is there if all of its documents are; what is there of another one
        is to be deleted, and its source to be read again."""
        for source in self.sources.values():
            there = [text for text in source.texts if all(identifier in journal.live for identifier in text.identifiers or ())]
            if len(there) < len(source.texts):
                for text in set(source.texts) - set(there):
                    self.leave(source, text)
                source.texts, source.state = there, None
        self.leaving = {identifier: name for identifier, name in self.leaving.items() if identifier in journal.live}
        named = {identifier for _, text in self.every() for identifier in text.identifiers or ()}
        for identifier in journal.live:
            if identifier not in named:
                self.leaving.setdefault(identifier, ["", f"(document {identifier}, whose name was lost)", 0])
        self.records = journal.records
        self.settle()

    def settle(self) -> None:
        """Keeps the numbers that texts have; those that a run had given, and which didn't get there, are given again."""
        self.last = max([self.last, *(text.number or 0 for _, text in self.every()), *(number for _, _, number in self.leaving.values())])
        self.given = self.last

    def leave(self, source: Source, text: Text) -> None:
        for identifier in text.identifiers or ():
            self.leaving[identifier] = [source.path, text.label, text.number]

    def next_number(self) -> int:
        self.given += 1
        return self.given

    def below(self, path: str) -> List[str]:
        """The keys of the sources at a path or in its folders."""
        inside = os.path.join(path, "")
        return [key for key in self.sources if key == path or key.startswith(inside)]

    def every(self) -> List[Tuple[Source, Text]]:
        """Each text with its source."""
        return [(source, text) for source in self.sources.values() for text in source.texts]

    def nameless(self) -> List[int]:
        """The documents whose names were lost."""
        return [identifier for identifier, (path, _, number) in self.leaving.items() if not path and not number]

    def to_do(self) -> Tuple[int, int]:
        """How many sources are to be read again, and how many documents to be deleted."""
        return sum(source.state is None for source in self.sources.values()), len(self.leaving)


def names_lost(folder: Folder, count: int) -> Trouble:
    """What to do if the names of so many documents aren't known."""
    return Trouble(NO_TEXTS, f"{folder.shown(TEXTS)} was lost, and with it the names of {count:,} documents: put it back from a copy, or name the "
                   "paths of the texts, `archive index PATHS..`, which finds them again")
