"""A plain model of a script: the lines that the program must print for it, and the status, by docs/FORMATS.md.

It knows no frames, and of keys only whether one was used before: a document is an identifier with words, and a search names the live documents
that hold its word. So it says nothing about collisions, links and memory: its statuses are 0, 1 and 2."""
import re

LINE_BYTES = 2**19
WORD_BYTES = 64
DOCUMENT_WORDS = 4096
SETUP_DOCUMENTS = 2**18
SETUP_PAIRS = 2**20
CELL_NUMBERS = 64
BLOCK_NUMBERS = 256
PADS = [2**k for k in range(13)]
INDEX_BYTES = 2**28
QUERY_FIELDS = 64

KEY = re.compile(rb"[0-9A-Fa-f]{64}")
NUMBER = re.compile(rb"0|[1-9][0-9]{0,19}")


class BadLine(Exception):
    """The line isn't in the grammar."""


class Refused(Exception):
    """The command is refused; the text says why."""


def number_in(field):
    if not NUMBER.fullmatch(field) or int(field) >= 2**64:
        raise BadLine
    return int(field)


def command_in(line):
    """A line without its end as its name, its numbers and its words, or its key in place of words; None where it is empty."""
    if len(line) > LINE_BYTES:
        raise BadLine
    name, *fields = [field for field in line.split(b" ") if field] or [None]
    if name is None:
        return None
    if name in (b"key", b"rebuild") and len(fields) == 1 and KEY.fullmatch(fields[0]):
        return name.decode(), [], [bytes.fromhex(fields[0].decode())]
    if name in (b"doc", b"add") and fields:
        return name.decode(), [number_in(fields[0])], fields[1:]
    if name == b"setup" and len(fields) in (2, 3) or name == b"del" and len(fields) == 1:
        return name.decode(), [number_in(field) for field in fields], []
    if name == b"find" and len(fields) == 1:
        return "find", [], fields
    if name == b"query":
        return "query", [], fields
    raise BadLine


def refuse_bad_words(words):
    """The first bad word."""
    for position, word in enumerate(words):
        if len(word) > WORD_BYTES:
            raise Refused(f"word {position} is too long: {len(word)}")
        place = bad_byte_in(word)
        if place is not None:
            raise Refused(f"word {position} has a bad byte at {place}")


def refuse_bad_document(words):
    """The first bad word, then too many words, then the first word that is repeated."""
    refuse_bad_words(words)
    if len(words) > DOCUMENT_WORDS:
        raise Refused(f"too many words: {len(words)}")
    seen = set()
    for position, word in enumerate(words):
        if word in seen:
            raise Refused(f"word {position} is repeated")
        seen.add(word)


def bad_byte_in(word):
    """The place of the first byte that no word has there: a space, a control byte, or the first of what isn't UTF-8."""
    places = [place for place, byte in enumerate(word) if byte <= 0x20 or byte == 0x7F]
    try:
        word.decode()
    except UnicodeDecodeError as fault:
        places.append(fault.start)
    return min(places, default=None)


class Query:
    """A query by its fields: an expression of words, read from the left."""

    def __init__(self, fields):
        if len(fields) > QUERY_FIELDS:
            raise Refused(f"query has {len(fields)} fields")
        self.fields, self.place, self.operands = fields, 0, []
        self.expression = self.joined(self.term, b"or")
        if self.place < len(fields):
            self.refuse()
        refuse_bad_words(self.operands)

    def refuse(self):
        raise Refused(f"query is wrong at {self.place}")

    def takes(self, *names):
        """The next field, if it is one of these names."""
        if self.fields[self.place:self.place + 1] and self.fields[self.place] in names:
            self.place += 1
            return self.fields[self.place - 1]
        return None

    def joined(self, part, *names):
        """Parts with these names between them; the left ones are joined first."""
        expression = part()
        while name := self.takes(*names):
            expression = name, expression, part()
        return expression

    def term(self):
        return self.joined(self.factor, b"and", b"not")

    def factor(self):
        if self.takes(b"("):
            expression = self.joined(self.term, b"or")
            if not self.takes(b")"):
                self.refuse()
            return expression
        if self.place == len(self.fields) or not re.match(b"=.", self.fields[self.place], re.DOTALL):
            self.refuse()
        self.operands.append(self.fields[self.place][1:])
        self.place += 1
        return self.operands[-1]

    def words(self):
        """The different words, in the order in which they come first."""
        return list(dict.fromkeys(self.operands))

    def chosen(self, found, expression=None):
        """The identifiers that the query chooses from those found for each word."""
        expression = expression or self.expression
        if isinstance(expression, bytes):
            return set(found[expression])
        name, left, right = expression
        left, right = self.chosen(found, left), self.chosen(found, right)
        return {b"and": left & right, b"or": left | right, b"not": left - right}[name]


def rising(identifiers):
    return sorted(identifiers)


def listed(name, identifiers):
    """The line of identifiers that were found."""
    return f"{name} {len(identifiers)}:" + "".join(f" {identifier}" for identifier in rising(identifiers))


def blocks_of(count, b, B):
    """How many blocks a list of so many identifiers takes, or None where it is too long."""
    if count <= b:
        return 0
    blocks = -(-count // B)
    if blocks <= b:
        return blocks
    pointer_blocks = -(-blocks // B)
    return blocks + pointer_blocks if pointer_blocks <= b else None


def padded(Q, count):
    """The next multiple of Q that is at least the count, up to which a setup is filled with dummies; zero stays zero."""
    return -(-count // Q) * Q


class Store:
    """The documents: before a setup those that were collected, behind it those that are live. `keys` are those that were used, the first
    epoch's first, `compares_keys` whether a new one may be none of them, and `sizes` are b, B and Q."""

    def __init__(self, keys=(), compares_keys=True):
        self.is_set_up = False
        self.keys, self.compares_keys, self.sizes = list(keys), compares_keys, None
        self.live = {}  # the words of each document, by identifier
        self.holders = {}  # the identifiers with each word, words in the order in which they came first
        self.pairs = 0

    def carry_out(self, name, numbers, words):
        """The printed line, or None where there is none."""
        if self.is_set_up != (name in ("add", "del", "find", "query", "rebuild")):
            raise Refused("set up already" if self.is_set_up else "not set up")
        if name == "setup":
            return self.set_up(*numbers)
        if name == "rebuild":
            return self.rebuild(words[0])
        if numbers == [0]:
            raise Refused("identifier zero")
        if name == "find":
            refuse_bad_words(words)
            return listed("found", self.found(words[0]))
        if name == "query":
            query = Query(words)
            return listed("matched", query.chosen({word: self.found(word) for word in query.words()}))
        refuse_bad_document(words)
        identifier = numbers[0]
        if name == "del":
            self.delete(identifier)
            return f"deleted {identifier}"
        self.add(identifier, words)
        return f"added {identifier}" if name == "add" else None

    def found(self, word):
        """The identifiers of the live documents with a word."""
        return self.holders.get(word, ())

    def add(self, identifier, words):
        if identifier in self.live:
            raise Refused(f"document {identifier} is live")
        if not self.is_set_up:
            if len(self.live) == SETUP_DOCUMENTS:
                raise Refused(f"too many documents: {SETUP_DOCUMENTS + 1}")
            if self.pairs + len(words) > SETUP_PAIRS:
                raise Refused(f"too many pairs: {self.pairs + len(words)}")
        self.live[identifier] = words
        self.pairs += len(words)
        for word in words:
            self.holders.setdefault(word, set()).add(identifier)

    def delete(self, identifier):
        if identifier not in self.live:
            raise Refused(f"unknown document {identifier}")
        for word in self.live.pop(identifier):
            self.holders[word].remove(identifier)

    def set_up(self, b, B, Q=1):
        for name, value, fitting in (("b", b, range(1, CELL_NUMBERS + 1)), ("B", B, range(1, BLOCK_NUMBERS + 1)), ("Q", Q, PADS)):
            if value not in fitting:
                raise Refused(f"{name} is {value}")
        counts = self.counted(b, B, Q)
        self.is_set_up, self.sizes = True, (b, B, Q)
        return f"set up {counts}"

    def counted(self, b, B, Q):
        """How many words and blocks there are in an index of all documents, if it isn't too large."""
        blocks = 0
        for number, holders in enumerate(self.holders.values()):
            taken = blocks_of(len(holders), b, B)
            if taken is None:
                raise Refused(f"list of word {number} has {len(holders)} identifiers")
            blocks += taken
        size = padded(Q, len(self.holders)) * (17 + 8 * b) + padded(Q, blocks) * 8 * B
        if size > INDEX_BYTES:
            raise Refused(f"too many bytes: {size}")
        return f"{len(self.holders)} words {blocks} blocks"

    def rebuild(self, key):
        """The live documents by rising identifier, set up again under another key."""
        if self.compares_keys and key in self.keys:
            raise Refused(f"key of epoch {self.keys.index(key)}")
        pairs = sum(map(len, self.live.values()))
        if len(self.live) > SETUP_DOCUMENTS:
            raise Refused(f"too many documents: {len(self.live)}")
        if pairs > SETUP_PAIRS:
            raise Refused(f"too many pairs: {pairs}")
        renewed = Store([*self.keys, key])
        for identifier in rising(self.live):
            renewed.add(identifier, self.live[identifier])
        counts = renewed.counted(*self.sizes)
        self.keys, self.live, self.holders, self.pairs = renewed.keys, renewed.live, renewed.holders, renewed.pairs
        return f"rebuilt {counts}"


def printed(lines, compares_keys=True):
    """The printed lines of a script's lines, given without their ends; what is returned is the status."""
    store, number, was_refused = Store(compares_keys=compares_keys), 0, False
    for number, line in enumerate(lines, 1):
        try:
            command = command_in(line)
            if command is None:
                continue
            if (command[0] == "key") == bool(store.keys):
                raise BadLine
        except BadLine:
            yield f"stopped: line {number}"
            return 2
        if command[0] == "key":
            store.keys = command[2]
            continue
        try:
            shown = store.carry_out(*command)
        except Refused as why:
            was_refused = True
            shown = f"refused: {why}"
        if shown is not None:
            yield shown
    if not store.keys:
        yield f"stopped: line {number + 1}"
        return 2
    return 1 if was_refused else 0


def lines_of(script):
    """The lines of the bytes of a script, without their ends; the last may lack its end."""
    lines = script.split(b"\n")
    return lines[:-1] if lines[-1] == b"" else lines


def answer(script, compares_keys=True):
    """The printed bytes and the status."""
    text, run = [], printed(lines_of(script), compares_keys)
    while True:
        try:
            text.append(next(run) + "\n")
        except StopIteration as end:
            return "".join(text).encode(), end.value
