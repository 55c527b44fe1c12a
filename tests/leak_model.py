"""What a server learns, as a plain model: what each command of a history leaks, the values that are drawn for it, and all that a
simulator makes of these two. docs/LEAKAGE.md has the same in words.

A history is one epoch or several: each has a key, and a setup with the accepted commands after it. The commands are numbered from 0 through
all epochs, the first setup first. What a command leaks and what is drawn for it is determined by the commands before it in its epoch (`past`,
without the setup) and by the command itself, but for the numbers of commands.

First come the items of leakage and the draws, then the simulator, which is given only these: no word, no document and no key.
Histories come next, then their leakage, then their draws, which are the only part that knows the key. Last comes an item as text: in short
for tests/leakages.txt, and as the line that docs/FORMATS.md has for a person, which the program sse_leaks prints."""
import functools
import hmac
import struct
from dataclasses import dataclass, replace

import script_model

# What leaks.


@dataclass(frozen=True)
class Origin:
    """A place of a command: of a word among those of an update, in their given order, or of an identifier in a list of a setup."""
    command: int
    place: int


# what an update sends for a word: an entry, or a revocation number for the first time; of any other number an Origin tells where it
# was first sent
NEW_ENTRY, FRESH = "new", "fresh"


@dataclass(frozen=True)
class Seen:
    """The first search of a word, before this update, and the identifier of the update."""
    search: int
    id: int


@dataclass(frozen=True)
class WordLeak:
    """Of a word of an update: `sent` is NEW_ENTRY, FRESH or an Origin; `seen` is None where the word wasn't searched before."""
    sent: object
    seen: Seen


@dataclass(frozen=True)
class Home:
    """Where a setup holds a word: the number of its entry, and the positions of its blocks among all."""
    entry: int
    blocks: tuple


@dataclass(frozen=True)
class ListedLeak:
    """Of a pair that is listed with a searched word: its identifier, what listed it, where its revocation number was first sent, None
    where it wasn't, and whether it is revoked."""
    id: int
    origin: Origin
    number: Origin
    revoked: bool


@dataclass(frozen=True)
class SetupLeak:
    """The counts are those with the dummies."""
    b: int
    B: int
    words: int
    blocks: int


@dataclass(frozen=True)
class AddLeak:
    words: tuple


@dataclass(frozen=True)
class DeleteLeak:
    words: tuple


@dataclass(frozen=True)
class SearchLeak:
    """The first search of the word, None where this is the first; its home, None where the setup lacks it; the pairs that are listed
    with it; and the identifiers that are found."""
    earlier: int
    home: Home
    listed: tuple
    found: tuple


# What is drawn: values of keyed functions, and texts under their pads.


@dataclass(frozen=True)
class EntryDraw:
    label: bytes
    text: bytes


@dataclass(frozen=True)
class BlockDraw:
    tag: bytes
    text: bytes


@dataclass(frozen=True)
class NumberDraw:
    number: bytes


@dataclass(frozen=True)
class TokenDraw:
    token: bytes


# The simulator.

SENT, RECEIVED = ">", "<"
DICT_ENTRIES, ARRAY_BLOCKS, PAGE_IDENTIFIERS = 1024, 256, 8192


class BadLeak(Exception):
    """An item names a command, a place or a draw that isn't there, or a draw of another kind."""


def be(size, number):
    return number.to_bytes(size, "big")


def framed(kind, *fields):
    body = bytes([kind]) + b"".join(fields)
    return be(4, len(body)) + body


def cut(items, size):
    return [items[at:at + size] for at in range(0, len(items), size)]


def by_bytes(key, items):
    return sorted(items, key=key)


def setup_frames(number, leak, entries, blocks):
    entries, blocks = by_bytes(lambda entry: entry.label, entries), by_bytes(lambda block: block.tag, blocks)
    frames = [(2, be(2, leak.b), be(2, leak.B), be(4, leak.words), be(4, leak.blocks))]
    for part in cut(entries, DICT_ENTRIES):
        frames.append((3, be(2, 1 + 8 * leak.b), be(2, len(part)), *(entry.label + entry.text for entry in part)))
    for part in cut(blocks, ARRAY_BLOCKS):
        frames.append((4, be(2, 8 * leak.B), be(2, len(part)), *(block.text for block in part)))
    frames.append((5,))
    return [framed(kind, be(4, number + i), *fields) for i, (kind, *fields) in enumerate(frames)]


def add_frame(number, entries, numbers):
    entries, numbers = by_bytes(lambda entry: entry.label, entries), by_bytes(None, numbers)
    counts = be(2, len(entries)) + be(2, len(numbers))
    return framed(6, be(4, number), counts, *(entry.label + entry.text for entry in entries), *numbers)


def delete_frame(number, numbers):
    return framed(7, be(4, number), be(2, len(numbers)), *by_bytes(None, numbers))


def pages(found):
    parts = cut(found, PAGE_IDENTIFIERS) or [()]
    return [framed(0x85, be(1, part is parts[-1]), be(2, len(part)), *(be(8, id) for id in part)) for part in parts]


def first_of(kind, count, draws):
    """The first draws, which have to be there and of this kind."""
    front = draws[:count]
    if len(front) < count or not all(isinstance(draw, kind) for draw in front):
        raise BadLeak
    return front


def kept_by(leak, draws):
    """What a simulator keeps of a command for those behind it: of a deletion the numbers that it drew, by place; of a search the
    token that it drew."""
    if isinstance(leak, DeleteLeak):
        places = [place for place, word in enumerate(leak.words) if word.sent == FRESH]
        return {place: draw.number for place, draw in zip(places, draws)}
    if isinstance(leak, SearchLeak) and leak.earlier is None:
        return draws[0].token
    return None


def number_kept(kept, origin):
    numbers = kept[origin.command] if origin.command < len(kept) else None
    if not isinstance(numbers, dict) or origin.place not in numbers:
        raise BadLeak
    return numbers[origin.place]


def token_kept(kept, command):
    token = kept[command] if command < len(kept) else None
    if not isinstance(token, bytes):
        raise BadLeak
    return token


def numbers_again(kept, words):
    return [number_kept(kept, word.sent) for word in words if isinstance(word.sent, Origin)]


def frames_simulated(kept, number, leak, draws):
    """The frames of a command behind those of which this is kept, where the next update frame has this number."""
    if isinstance(leak, SetupLeak):
        entries = first_of(EntryDraw, leak.words, draws)
        return setup_frames(number, leak, entries, first_of(BlockDraw, leak.blocks, draws[leak.words:]))
    if isinstance(leak, AddLeak):
        entries = first_of(EntryDraw, [word.sent for word in leak.words].count(NEW_ENTRY), draws)
        return [add_frame(number, entries, numbers_again(kept, leak.words))]
    if isinstance(leak, DeleteLeak):
        fresh = first_of(NumberDraw, [word.sent for word in leak.words].count(FRESH), draws)
        return [delete_frame(number, [draw.number for draw in fresh] + numbers_again(kept, leak.words))]
    if leak.earlier is None:
        return [framed(8, first_of(TokenDraw, 1, draws)[0].token)]
    return [framed(8, token_kept(kept, leak.earlier))]


def simulated(leaks, drawn, number=0):
    """All that passes, each with its way: the greeting of a server that expects an update frame of this number, then for each item its
    frames with their replies. None where an item is bad or has no draws."""
    passed, kept = [(SENT, framed(1)), (RECEIVED, framed(0x81, be(4, number)))], []
    if len(drawn) < len(leaks):
        return None
    for leak, draws in zip(leaks, drawn):
        try:
            frames = frames_simulated(kept, number, leak, draws)
        except BadLeak:
            return None
        for frame in frames:
            passed.append((SENT, frame))
            if isinstance(leak, SearchLeak):
                passed += [(RECEIVED, page) for page in pages(leak.found)]
            else:
                passed.append((RECEIVED, framed(0x82, be(4, number))))
                number += 1
        kept.append(kept_by(leak, draws))
    return passed


# Histories.


@dataclass(frozen=True)
class Setup:
    """Documents, each an identifier with its words, the sizes of cells and blocks, and the number up to a multiple of which words and
    blocks are filled with dummies."""
    documents: tuple
    b: int
    B: int
    Q: int = 1


@dataclass(frozen=True)
class Add:
    id: int
    words: tuple


@dataclass(frozen=True)
class Delete:
    id: int


@dataclass(frozen=True)
class Search:
    word: bytes


@dataclass(frozen=True)
class Renewal:
    """A new key, and the setup of what is live under it."""
    key: bytes
    setup: Setup


@dataclass(frozen=True)
class Epoch:
    """What is done under a key."""
    key: bytes
    setup: Setup
    later: tuple = ()


def accepted(script, compares_keys=True):
    """Each line of a script with what it brings: the key, a document of the setup, a setup, commands after it or a renewal; nothing if it
    is empty or refused, or if the script stops at it or before it."""
    store, is_stopped = script_model.Store(compares_keys=compares_keys), False
    for line in script_model.lines_of(script):
        found = []
        try:
            command = None if is_stopped else script_model.command_in(line)
            if command and (command[0] == "key") != (not store.keys):
                raise script_model.BadLine
            if command and command[0] == "key":
                store.keys = found = command[2]
            elif command:
                store.carry_out(*command)
                found = brought(store, *command)
        except script_model.BadLine:
            is_stopped = True
        except script_model.Refused:
            pass
        yield line, found


def documents_in(store):
    return tuple((id, tuple(words)) for id, words in store.live.items())


def brought(store, name, numbers, words):
    """What a line brings that wasn't refused and left this store. A query brings a search of each of its words."""
    if name == "doc":
        return [(numbers[0], tuple(words))]
    if name == "setup":
        return [Setup(documents_in(store), *numbers)]
    if name == "rebuild":
        return [Renewal(words[0], Setup(documents_in(store), *store.sizes))]
    if name == "add":
        return [Add(numbers[0], tuple(words))]
    if name == "del":
        return [Delete(numbers[0])]
    return [Search(word) for word in (script_model.Query(words).words() if name == "query" else words)]


def longer(epochs, key, what):
    """Epochs with one command more, which a line brought; this is the first epoch's key."""
    if isinstance(what, Setup):
        return [Epoch(key, what)]
    if isinstance(what, Renewal):
        return [*epochs, Epoch(what.key, what.setup)]
    if isinstance(what, (Add, Delete, Search)):
        *before, last = epochs
        return [*before, replace(last, later=(*last.later, what))]
    return epochs


def key_in(script):
    """The key of a script's key line, None where there is none."""
    return next((what for _, found in accepted(script) for what in found if isinstance(what, bytes)), None)


def history_in(script, compares_keys=True):
    """The epochs of a script; none where it has no setup. Where new keys aren't compared with those so far, none is refused."""
    epochs, key = [], key_in(script)
    for _, found in accepted(script, compares_keys):
        for what in found:
            epochs = longer(epochs, key, what)
    return epochs


def over(f, later):
    """f of each command and those before it."""
    return [f(later[:k], command) for k, command in enumerate(later)]


def setup_words(s):
    """The words of a setup, in the order in which they come first."""
    return list(dict.fromkeys(word for _, words in s.documents for word in words))


def setup_list(s, word):
    return [id for id, words in s.documents if word in words]


def word_blocks(s, word):
    return script_model.blocks_of(len(setup_list(s, word)), s.b, s.B)


def padded_counts(s):
    """How many words and how many blocks a setup has, dummies included."""
    words = setup_words(s)
    counts = len(words), sum(word_blocks(s, word) for word in words)
    return [script_model.padded(s.Q, count) for count in counts]


def live(s, past):
    """The documents that are there behind these commands."""
    documents = list(s.documents)
    for command in past:
        if isinstance(command, Add):
            documents.append((command.id, command.words))
        elif isinstance(command, Delete):
            documents = [document for document in documents if document[0] != command.id]
    return documents


def is_live_with(s, past, word, id):
    return any(id == other and word in words for other, words in live(s, past))


def is_listed(s, past, word, id):
    """Whether the setup or an addition had the word in a document of this identifier."""
    added = ((command.id, command.words) for command in past if isinstance(command, Add))
    return any(id == other and word in words for other, words in (*s.documents, *added))


def newly_lists(s, word):
    """Whether a command is the first to list the word with its identifier."""
    return lambda past, command: (isinstance(command, Add) and word in command.words
                                  and not is_listed(s, past, word, command.id))


def added_list(s, past, word):
    """The identifiers of the pairs that additions were the first to list, in their order."""
    return [command.id for command, is_new in zip(past, over(newly_lists(s, word), past)) if is_new]


def words_of(s, past, command):
    """The words of an update, in their given order: of a deletion, those of the document that is live."""
    if isinstance(command, Add):
        return list(command.words)
    if isinstance(command, Delete):
        return [word for id, words in live(s, past) if id == command.id for word in words]
    return []


def sends_number(s, past, command, word, id):
    """Whether an update sends the revocation number of this pair: an addition of a listed pair, or a deletion."""
    if isinstance(command, Search) or command.id != id or word not in words_of(s, past, command):
        return False
    return isinstance(command, Delete) or is_listed(s, past, word, id)


# Leakage.


def earliest(places):
    """The first place that is there, with its command; the commands behind a setup are numbered from 1."""
    return next((Origin(k, place) for k, place in enumerate(places, 1) if place is not None), None)


def first_search(past, word):
    """The number of the first command that searches the word."""
    origin = earliest(0 if command == Search(word) else None for command in past)
    return None if origin is None else origin.command


def number_origin(s, past, word, id):
    """Where the revocation number of a pair was first sent."""
    return earliest(over(lambda before, command: words_of(s, before, command).index(word)
                         if sends_number(s, before, command, word, id) else None, past))


def seen_by(past, word, id):
    search = first_search(past, word)
    return None if search is None else Seen(search, id)


def word_added(s, past, id, word):
    sent = number_origin(s, past, word, id) if is_listed(s, past, word, id) else NEW_ENTRY
    return WordLeak(FRESH if sent is None else sent, seen_by(past, word, id))


def word_deleted(s, past, id, word):
    return WordLeak(number_origin(s, past, word, id) or FRESH, seen_by(past, word, id))


def home(s, word):
    words = setup_words(s)
    if word not in words:
        return None
    entry = words.index(word)
    first = sum(word_blocks(s, other) for other in words[:entry])
    return Home(entry, tuple(range(first, first + word_blocks(s, word))))


def listed_pairs(s, past, word):
    """The identifiers of the listed pairs of a word, each with what listed it: those of the setup, then those of additions."""
    pairs = [(id, Origin(0, place)) for place, id in enumerate(setup_list(s, word))]
    is_new = over(newly_lists(s, word), past)
    return pairs + [(command.id, Origin(k, command.words.index(word))) for k, command in enumerate(past, 1) if is_new[k - 1]]


def pair_leak(s, past, word, id, origin):
    return ListedLeak(id, origin, number_origin(s, past, word, id), not is_live_with(s, past, word, id))


def leak_of_setup(s):
    return SetupLeak(s.b, s.B, *padded_counts(s))


def leak_by(s, past, command):
    if isinstance(command, Add):
        return AddLeak(tuple(word_added(s, past, command.id, word) for word in command.words))
    if isinstance(command, Delete):
        return DeleteLeak(tuple(word_deleted(s, past, command.id, word) for word in words_of(s, past, command)))
    word = command.word
    listed = tuple(pair_leak(s, past, word, *pair) for pair in listed_pairs(s, past, word))
    return SearchLeak(first_search(past, word), home(s, word), listed, tuple(pair.id for pair in listed if not pair.revoked))


def leak_of_epoch(s, later):
    """What each command of an epoch leaks, the setup first, which has the number 0."""
    return [leak_of_setup(s), *over(functools.partial(leak_by, s), later)]


def numbered_from(first, leak):
    """An item, or a part of one, where each command's number is higher by this."""
    if isinstance(leak, Origin):
        return replace(leak, command=leak.command + first)
    if isinstance(leak, Seen):
        return replace(leak, search=leak.search + first)
    if isinstance(leak, WordLeak):
        return WordLeak(numbered_from(first, leak.sent), numbered_from(first, leak.seen))
    if isinstance(leak, ListedLeak):
        return replace(leak, origin=numbered_from(first, leak.origin), number=numbered_from(first, leak.number))
    if isinstance(leak, (AddLeak, DeleteLeak)):
        return replace(leak, words=tuple(numbered_from(first, word) for word in leak.words))
    if isinstance(leak, SearchLeak):
        earlier = None if leak.earlier is None else leak.earlier + first
        return replace(leak, earlier=earlier, listed=tuple(numbered_from(first, pair) for pair in leak.listed))
    return leak


def leak(history):
    """What each command of a history leaks, the setups among them: nothing that is said of a command speaks of another epoch."""
    leaks = []
    for epoch in history:
        first = len(leaks)
        leaks += [numbered_from(first, item) for item in leak_of_epoch(epoch.setup, epoch.later)]
    return leaks


# Draws.

# the parts of a word's keys, and those of them that a token has
LIST_LABEL, LIST_PAD, ADDED_LABEL, ADDED_PAD, NUMBER, TAG = range(1, 7)
TOKEN_PARTS = (LIST_LABEL, LIST_PAD, ADDED_LABEL, ADDED_PAD, NUMBER)
# those of the keys of dummies, which are of no word; a dummy block has a number of its own, behind those of all dummy entries
DUMMY, DUMMY_PAD = 8, 9
NO_WORD = b""
FIRST_DUMMY_BLOCK = 2**32


def word_key(key, part, word):
    return hmac.digest(key, bytes([part]) + word, "sha256")


def value(key, part, word, number):
    """A label, a tag or a revocation number."""
    return hmac.digest(word_key(key, part, word), be(8, number), "sha256")[:16]


def pad(key, part, word, segment, size):
    """The front of a segment of a key's stream: ChaCha20 of RFC 8439 from block 0 on, where the nonce is four zero bytes and then the
    segment, least significant byte first."""
    nonce = bytes(4) + segment.to_bytes(8, "little")
    stream = b"".join(chacha_block(word_key(key, part, word), block, nonce) for block in range(-(-size // 64)))
    return stream[:size]


COLUMNS_AND_DIAGONALS = [(0, 4, 8, 12), (1, 5, 9, 13), (2, 6, 10, 14), (3, 7, 11, 15),
                         (0, 5, 10, 15), (1, 6, 11, 12), (2, 7, 8, 13), (3, 4, 9, 14)]


def chacha_block(key, block, nonce):
    first = struct.unpack("<16L", b"expand 32-byte k" + key + struct.pack("<L", block) + nonce)
    x = list(first)
    for a, b, c, d in COLUMNS_AND_DIAGONALS * 10:
        for to, by, turned, bits in ((a, b, d, 16), (c, d, b, 12), (a, b, d, 8), (c, d, b, 7)):
            x[to] = (x[to] + x[by]) & 0xFFFFFFFF
            mixed = x[turned] ^ x[to]
            x[turned] = (mixed << bits | mixed >> 32 - bits) & 0xFFFFFFFF
    return struct.pack("<16L", *((a + b) & 0xFFFFFFFF for a, b in zip(first, x)))


def sealed(clear, key, part, word, segment):
    """A text under its pad."""
    return bytes(a ^ b for a, b in zip(clear, pad(key, part, word, segment, len(clear))))


def numbers_text(numbers, width):
    return b"".join(be(8, number) for number in numbers) + bytes(8 * (width - len(numbers)))


def laid(ids, b, B, ranks):
    """The cell and the blocks of a list, where `ranks` has the place of each of its blocks in the array."""
    data, pointers = cut(ids, B), [rank + 1 for rank in ranks]
    if not pointers:
        kind, cell, blocks = 0, ids, []
    elif len(pointers) == len(data):
        kind, cell, blocks = 1, pointers, data
    else:
        top = len(pointers) - len(data)
        kind, cell, blocks = 2, pointers[:top], cut(pointers[top:], B) + data
    return bytes([kind]) + numbers_text(cell, b), [numbers_text(block, B) for block in blocks]


def block_tags(key, s):
    """The tag of each block, by its word and its number there, then those of the dummies."""
    tags = {(word, i): value(key, TAG, word, i) for word in setup_words(s) for i in range(word_blocks(s, word))}
    dummies = range(FIRST_DUMMY_BLOCK, FIRST_DUMMY_BLOCK + padded_counts(s)[1] - len(tags))
    return {**tags, **{(NO_WORD, j): value(key, DUMMY, NO_WORD, j) for j in dummies}}


def ranks_of(tags):
    """The place of each block in the array, which stands by rising tag."""
    return {block: rank for rank, block in enumerate(sorted(tags, key=tags.get))}


def draws_of_setup(key, s):
    words, tags = setup_words(s), block_tags(key, s)
    ranks = ranks_of(tags)
    entries, blocks = [], []
    for word in words:
        own = [ranks[word, i] for i in range(word_blocks(s, word))]
        cell, texts = laid(setup_list(s, word), s.b, s.B, own)
        entries.append(EntryDraw(value(key, LIST_LABEL, word, 0), sealed(cell, key, LIST_PAD, word, 0)))
        blocks += [BlockDraw(tags[word, i], sealed(text, key, LIST_PAD, word, i + 1)) for i, text in enumerate(texts)]
    for i in range(padded_counts(s)[0] - len(words)):
        entries.append(EntryDraw(value(key, DUMMY, NO_WORD, i), sealed(bytes(1 + 8 * s.b), key, DUMMY_PAD, NO_WORD, i)))
    for word, j in tags:
        if word == NO_WORD:
            blocks.append(BlockDraw(tags[word, j], sealed(bytes(8 * s.B), key, DUMMY_PAD, NO_WORD, j)))
    return entries + blocks


def draws_by(key, s, past, command):
    if isinstance(command, Search):
        is_first = first_search(past, command.word) is None
        return [TokenDraw(b"".join(word_key(key, part, command.word) for part in TOKEN_PARTS))] if is_first else []
    draws = []
    for word in words_of(s, past, command):
        if isinstance(command, Delete):
            if number_origin(s, past, word, command.id) is None:
                draws.append(NumberDraw(value(key, NUMBER, word, command.id)))
        elif not is_listed(s, past, word, command.id):
            count = len(added_list(s, past, word))
            text = sealed(be(8, command.id), key, ADDED_PAD, word, count)
            draws.append(EntryDraw(value(key, ADDED_LABEL, word, count), text))
    return draws


def draws(history):
    """The values that are drawn for each command of a history, each epoch's under its own key."""
    drawn = []
    for key, s, later in ((epoch.key, epoch.setup, epoch.later) for epoch in history):
        drawn += [draws_of_setup(key, s), *over(functools.partial(draws_by, key, s), later)]
    return drawn


# An item as a line of text: the kind of the command, then its fields. An Origin is COMMAND.PLACE, a - is None.


def joined(items):
    return ",".join(map(str, items))


def word_text(word):
    sent = word.sent if word.sent in (NEW_ENTRY, FRESH) else "again=" + origin_text(word.sent)
    return sent + (f"/seen={word.seen.search}:{word.seen.id}" if word.seen else "")


def origin_text(origin):
    return f"{origin.command}.{origin.place}"


def pair_text(pair):
    number = "" if pair.number is None else "#" + origin_text(pair.number)
    return f"{pair.id}@{origin_text(pair.origin)}{number}{'!' if pair.revoked else ''}"


def item_text(leak):
    if isinstance(leak, SetupLeak):
        return f"setup b={leak.b} B={leak.B} words={leak.words} blocks={leak.blocks}"
    if isinstance(leak, AddLeak):
        return " ".join(["add", *map(word_text, leak.words)])
    if isinstance(leak, DeleteLeak):
        return " ".join(["delete", *map(word_text, leak.words)])
    earlier = "-" if leak.earlier is None else leak.earlier
    listed, found = joined(map(pair_text, leak.listed)), joined(leak.found)
    return f"search earlier={earlier} home={home_text(leak.home)} listed={listed} found={found}"


def home_text(home):
    if home is None:
        return "-"
    return str(home.entry) + (":" + joined(home.blocks) if home.blocks else "")


def told(script):
    """The lines of a script, with a line behind each that leaks something: what it leaks."""
    items = iter(leak(history_in(script)))
    for line, found in accepted(script):
        yield line.decode()
        for what in found:
            if isinstance(what, (Setup, Renewal, Add, Delete, Search)):
                yield "leaks " + item_text(next(items))


# An item as a line for a person.


def counted(n, one, more):
    return f"{n} {one if n == 1 else more}"


def update_parts(does, words):
    new = sum(not isinstance(word.sent, Origin) for word in words)
    yield f"{does} a document of {counted(len(words), 'word', 'words')}, {new} new"
    for place, word in enumerate(words):
        said = []
        if isinstance(word.sent, Origin):
            said.append(f"is word {word.sent.place} of command {word.sent.command}")
        if word.seen:
            said.append(f"was searched by command {word.seen.search}, so identifier {word.seen.id} shows")
        if said:
            yield f"word {place} " + " and ".join(said)


def search_parts(leak):
    yield "searches a word for the first time" if leak.earlier is None else f"searches the word of command {leak.earlier} again"
    if leak.home is None:
        yield "no word of the setup"
    else:
        blocks = "".join(f" {block}" for block in leak.home.blocks)
        yield f"entry {leak.home.entry} of the setup " + (f"with blocks{blocks}" if blocks else "without blocks")
    for pair in leak.listed:
        number = "" if pair.number is None else f", its number by command {pair.number.command} (place {pair.number.place})"
        listed = f"document {pair.id}, listed by command {pair.origin.command} (place {pair.origin.place})"
        yield listed + number + (", deleted" if pair.revoked else "")
    yield f"finds {len(leak.found)}:" + "".join(f" {id}" for id in leak.found)


def line_parts(leak):
    if isinstance(leak, SetupLeak):
        entries, blocks = counted(leak.words, "entry", "entries"), counted(leak.blocks, "block", "blocks")
        return [f"sets up an index of {entries} and {blocks}, b {leak.b}, B {leak.B}"]
    if isinstance(leak, SearchLeak):
        return search_parts(leak)
    return update_parts("adds" if isinstance(leak, AddLeak) else "deletes", leak.words)


def numbered(leaks, first=0):
    return list(enumerate(leaks, first))


def leak_lines(leaks):
    """The lines of what the commands of a history leak, the setup first, without their ends."""
    return [f"{command}: " + "; ".join(line_parts(leak)) for command, leak in numbered(leaks)]


def leaks_answer(script):
    """What the program sse_leaks prints of a script, and its status: the refusals, as a run prints them, then the lines of what is
    leaked, or the line of a stop; a script without a setup lacks a line behind its last."""
    printed, status = script_model.answer(script)
    lines = printed.decode().splitlines()
    told = [line for line in lines if line.startswith("refused: ")]
    history = history_in(script)
    if status == 2:
        told.append(lines[-1])
    elif not history:
        told, status = [*told, f"stopped: line {len(script_model.lines_of(script)) + 1}"], 2
    else:
        told += leak_lines(leak(history))
    return "".join(line + "\n" for line in told).encode(), status
