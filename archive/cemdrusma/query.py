"""What `archive search` is asked: words, AND, OR and NOT in capitals, parentheses, phrases in quotes, fields, dates and beginnings
of words. Here it is read, and it is told which words the server is to be asked."""
from __future__ import annotations

import re
from typing import TYPE_CHECKING, Callable, Dict, FrozenSet, Iterable, List, NamedTuple, Optional, Set, Tuple, Union

from .report import on_a_line

if TYPE_CHECKING:
    import datetime
from .statuses import REFUSED, Trouble
from .words import fault_of, words_of

FIELDS = ("from", "to", "subject")
# a beginning of words that are more than these isn't asked of the server
MOST_WORDS = 10


class Word(NamedTuple):
    word: str


class Beginning(NamedTuple):
    """A word of which the beginning is given."""

    prefix: str


class Phrase(NamedTuple):
    """Words in this order, one beside the other; the last one may be a beginning."""

    words: Tuple[str, ...]
    is_open: bool = False


class Field(NamedTuple):
    """A phrase in a field of a mail."""

    field: str
    phrase: Phrase


class Dates(NamedTuple):
    """Days from the first up to the last, as 2026-01-05; either may be empty."""

    first: str
    last: str


class Not(NamedTuple):
    part: "Query"


class And(NamedTuple):
    parts: Tuple["Query", ...]


class Or(NamedTuple):
    parts: Tuple["Query", ...]


Query = Union[Word, Beginning, Phrase, Field, Dates, Not, And, Or]


class Fault(Exception):
    """Why a query can't be understood."""


# a parenthesis; or what has no space in it but within quotes
TOKENS = re.compile(r'\s+|(\()|(\))|((?:[^\s()"]|"[^"]*"|"[^"]*$)+)')


def parsed(text: str, today: Optional[datetime.date] = None) -> Query:
    """The query in a text. Raises Trouble if it can't be understood."""
    if any("\udc80" <= character <= "\udcff" for character in text):
        raise Trouble(REFUSED, f"{on_a_line(text)} is no word: it isn't UTF-8")
    tokens = [match.group() for match in TOKENS.finditer(text) if not match.group().isspace()]
    try:
        return Reader(tokens, today).whole()
    except Fault as fault:
        raise Trouble(REFUSED, f"{on_a_line(text)} can't be understood: {fault}") from None


class Reader:
    """OR binds least, then AND, which may be left out, then NOT."""

    def __init__(self, tokens: List[str], today: Optional[datetime.date]) -> None:
        self.tokens, self.place, self.today = tokens, 0, today

    def whole(self) -> Query:
        if not self.tokens:
            raise Fault("it is empty")
        found = self.alternatives()
        if self.place < len(self.tokens):
            raise Fault("a parenthesis is closed that isn't open")
        return found

    def next(self) -> Optional[str]:
        return self.tokens[self.place] if self.place < len(self.tokens) else None

    def alternatives(self) -> Query:
        parts = [self.together()]
        while self.next() == "OR":
            self.place += 1
            parts.append(self.together())
        return parts[0] if len(parts) == 1 else Or(tuple(parts))

    def together(self) -> Query:
        parts = [self.single()]
        while self.next() not in (None, "OR", ")"):
            if self.next() == "AND":
                self.place += 1
            parts.append(self.single())
        return parts[0] if len(parts) == 1 else And(tuple(parts))

    def single(self) -> Query:
        token = self.next()
        if token is None or token in ("OR", "AND", ")"):
            raise Fault(f"something is missing {'at its end' if token is None else 'before ' + token}")
        self.place += 1
        if token == "NOT":
            return Not(self.single())
        if token == "(":
            found = self.alternatives()
            if self.next() != ")":
                raise Fault("a parenthesis isn't closed")
            self.place += 1
            return found
        return self.term(token)

    def term(self, token: str) -> Query:
        if token.count('"') % 2:
            raise Fault("a quote isn't closed")
        field, colon, rest = token.partition(":")
        if colon and field in FIELDS:
            phrase = phrase_in(rest)
            return Field(field, phrase)
        if colon and field == "date":
            return dates_in(rest, self.today)
        phrase = phrase_in(token)
        if len(phrase.words) > 1:
            return phrase
        return Beginning(phrase.words[0]) if phrase.is_open else Word(phrase.words[0])


def phrase_in(text: str) -> Phrase:
    fault = fault_of(text, None)
    if fault:
        raise Trouble(REFUSED, f"{on_a_line(text)} is no word: {fault}")
    words = words_of(text)
    return Phrase(tuple(words), text.rstrip('"').endswith("*"))


def dates_in(text: str, today: Optional[datetime.date]) -> Dates:
    first, dots, last = text.partition("..")
    if not first and not last:
        raise Fault("date: has no day; write date:2026-01-05, date:2026-01, date:2026, date:2026-01..2026-03, date:2026.., today or yesterday")
    begin = day_in(first, today)[0] if first else ""
    end = day_in(last, today)[1] if last else "" if dots else day_in(first, today)[1]
    return Dates(begin, end)


def day_in(text: str, today: Optional[datetime.date]) -> Tuple[str, str]:
    """The first and the last day of a year, a month or a day."""
    import datetime  # pylint: disable=import-outside-toplevel

    today = today or datetime.date.today()
    named = {"today": 0, "yesterday": 1}
    if text in named:
        day = (today - datetime.timedelta(days=named[text])).isoformat()
        return day, day
    match = re.fullmatch(r"(\d{4})(?:-(\d\d?))?(?:-(\d\d?))?", text, re.ASCII)
    try:
        if match is None:
            raise ValueError(text)
        year, month, day_of_month = match.groups()
        first = datetime.date(int(year), int(month or 1), int(day_of_month or 1))
        last = first if day_of_month else last_day(datetime.date(int(year), int(month or 12), 28))
        return first.isoformat(), last.isoformat()
    except ValueError:
        raise Fault(f"{on_a_line(text)} is no day; write 2026-01-05, 2026-01, 2026, today or yesterday") from None


def last_day(day: datetime.date) -> datetime.date:
    """The last day of the month of a 28th."""
    if day.month == 12:
        return day.replace(day=31)
    later = day
    while (following := later.fromordinal(later.toordinal() + 1)).month == day.month:
        later = following
    return later


# What the server is asked.

# for a word how many documents hold it, and for a beginning its words
Counts = Callable[[str], int]
Beginnings = Callable[[str], Dict[str, int]]


def asked(query: Query, count: Counts, beginning: Beginnings) -> Optional[FrozenSet[str]]:
    """Words of which each text that the query finds holds one: of several such sets one that the fewest documents hold. None if there
    is none, so that all texts are to be looked at here."""
    return cheapest(query, count, beginning)[0]


Choice = Tuple[Optional[FrozenSet[str]], int]
NOTHING: Choice = (None, 0)


def cheapest(query: Query, count: Counts, beginning: Beginnings) -> Choice:
    """The words, and in how many documents they are."""
    if isinstance(query, Word):
        return frozenset([query.word]), count(query.word)
    if isinstance(query, Beginning):
        return of_beginning(query.prefix, beginning)
    if isinstance(query, Field):
        return cheapest(query.phrase, count, beginning)
    if isinstance(query, Phrase):
        whole = query.words[:-1] if query.is_open else query.words
        choices: List[Choice] = [(frozenset([word]), count(word)) for word in whole]
        if query.is_open and not whole:
            choices.append(of_beginning(query.words[-1], beginning))
        return least(choices)
    if isinstance(query, And):
        return least([cheapest(part, count, beginning) for part in query.parts])
    if isinstance(query, Or):
        return together([cheapest(part, count, beginning) for part in query.parts])
    return NOTHING


def of_beginning(prefix: str, beginning: Beginnings) -> Choice:
    found = beginning(prefix)
    return (frozenset(found), sum(found.values())) if len(found) <= MOST_WORDS else NOTHING


def least(choices: Iterable[Choice]) -> Choice:
    return min((choice for choice in choices if choice[0] is not None), key=lambda choice: (choice[1], sorted(choice[0] or ())), default=NOTHING)


def together(choices: List[Choice]) -> Choice:
    if any(words is None for words, _ in choices):
        return NOTHING
    return frozenset().union(*(words for words, _ in choices if words is not None)), sum(number for _, number in choices)


# The line `query` of a script, which asks all words of a query at once and is answered by what their answers leave.

# how many fields such a line has at most
MOST_FIELDS = 64


def fields_in(query: Query, text: str) -> List[str]:
    """The fields of the line for the query in this text. Raises Trouble if there is no such line."""
    try:
        fields = fields_of(query)
        if len(fields) > MOST_FIELDS:
            raise Fault(f"with its operators and parentheses it has {len(fields)} parts, and a line has {MOST_FIELDS} at most")
    except Fault as fault:
        raise Trouble(REFUSED, f"{on_a_line(text)} can't be asked at once: {fault}") from None
    return fields


def fields_of(query: Query) -> List[str]:
    if isinstance(query, Word):
        return [f"={query.word}"]
    if isinstance(query, Or):
        return joined("or", [factor(part) if isinstance(part, Or) else fields_of(part) for part in query.parts])
    if isinstance(query, And):
        kept, taken = parts_of(query)
        return joined("and", [factor(part) for part in kept]) + [field for part in taken for field in ["not", *factor(part)]]
    raise Fault("NOT has nothing before it to take from" if isinstance(query, Not) else "it may have words, AND, OR, NOT and parentheses, and nothing else")


def parts_of(query: And) -> Tuple[List[Query], List[Query]]:
    """The parts that a text must have, and those under NOT."""
    kept = [part for part in query.parts if not isinstance(part, Not)]
    if not kept:
        raise Fault("NOT has nothing before it to take from")
    return kept, [part.part for part in query.parts if isinstance(part, Not)]


def factor(query: Query) -> List[str]:
    return fields_of(query) if isinstance(query, Word) else ["(", *fields_of(query), ")"]


def joined(operator: str, parts: List[List[str]]) -> List[str]:
    return [field for place, part in enumerate(parts) for field in ([operator] if place else []) + part]


def words_asked(fields: List[str]) -> List[str]:
    """The words that such a line asks, each once, in their order."""
    return list(dict.fromkeys(field[1:] for field in fields if field[0] == "="))


def chosen(query: Query, holders: Callable[[str], Set[int]]) -> Set[int]:
    """The documents that such a line chooses, by those that hold each word."""
    if isinstance(query, Word):
        return holders(query.word)
    if isinstance(query, Or):
        return set().union(*(chosen(part, holders) for part in query.parts))
    assert isinstance(query, And)
    kept, taken = parts_of(query)
    return set.intersection(*(chosen(part, holders) for part in kept)).difference(*(chosen(part, holders) for part in taken))


# What is marked in a snippet.


def wanted(query: Query) -> List[Phrase]:
    """The phrases and words that a text is found by; those under NOT aren't."""
    if isinstance(query, Word):
        return [Phrase((query.word,))]
    if isinstance(query, Beginning):
        return [Phrase((query.prefix,), True)]
    if isinstance(query, Phrase):
        return [query]
    if isinstance(query, Field):
        return [query.phrase]
    if isinstance(query, (And, Or)):
        return [phrase for part in query.parts for phrase in wanted(part)]
    return []
