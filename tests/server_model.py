"""A plain model of a server, by docs/FORMATS.md: which bytes are a frame, what each frame makes of the state, and the replies. It uses no
code of the programs, holds its tables as dictionaries, and has the keyed functions from tests/leak_model.py."""
import functools
import hmac

import leak_model
from leak_model import be, framed

MOST_BODY = 2**20
MOST_NUMBER = 2**32 - 2
MOST_WORDS = MOST_BLOCKS = 2**20
MOST_ITEMS = 4096
KEY, TOKEN = 32, 160
BAD_LENGTH, BAD_KIND, BAD_BODY = 1, 2, 3
UPDATES = range(2, 8)


class BadFrame(Exception):
    """Bytes that are no frame; the reason is the number that a reply has for it."""

    def __init__(self, reason):
        super().__init__(reason)
        self.reason = reason


class Fields:
    """The fields of a body, from left to right."""

    def __init__(self, body):
        self.body, self.at = body, 1

    def take(self, size):
        piece = self.body[self.at:self.at + size]
        if len(piece) < size:
            raise BadFrame(BAD_BODY)
        self.at += size
        return piece

    def number(self, size, low, high):
        found = int.from_bytes(self.take(size), "big")
        if not low <= found <= high:
            raise BadFrame(BAD_BODY)
        return found

    def rising(self, count, size):
        """So many items, each of 16 bytes that are above those of the item before, and so many behind them."""
        items = []
        for _ in range(count):
            item = self.take(16)
            if items and item <= items[-1][0]:
                raise BadFrame(BAD_BODY)
            items.append((item, self.take(size)))
        return items

    def end(self):
        if self.at != len(self.body):
            raise BadFrame(BAD_BODY)


def frame_of(body):
    """The kind of a body and its fields, or a fault."""
    if not 1 <= len(body) <= MOST_BODY:
        raise BadFrame(BAD_LENGTH)
    kind, fields = body[0], Fields(body)
    if not 1 <= kind <= 8:
        raise BadFrame(BAD_KIND)
    found = {"kind": kind}
    if kind in UPDATES:
        found["number"] = fields.number(4, 0, MOST_NUMBER)
    if kind == 2:
        found["b"], found["B"] = fields.number(2, 1, 64), fields.number(2, 1, 256)
        found["words"], found["blocks"] = fields.number(4, 0, MOST_WORDS), fields.number(4, 0, MOST_BLOCKS)
    elif kind == 3:
        found["size"] = fields.number(2, 9, 513)
        if found["size"] % 8 != 1:
            raise BadFrame(BAD_BODY)
        found["entries"] = fields.rising(fields.number(2, 1, 1024), found["size"])
    elif kind == 4:
        found["size"] = fields.number(2, 8, 2048)
        if found["size"] % 8:
            raise BadFrame(BAD_BODY)
        found["texts"] = [fields.take(found["size"]) for _ in range(fields.number(2, 1, 256))]
    elif kind == 6:
        entries = fields.number(2, 0, MOST_ITEMS)
        numbers = fields.number(2, 0, MOST_ITEMS - entries)
        found["entries"] = fields.rising(entries, 8)
        found["numbers"] = [number for number, _ in fields.rising(numbers, 0)]
    elif kind == 7:
        found["numbers"] = [number for number, _ in fields.rising(fields.number(2, 0, MOST_ITEMS), 0)]
    elif kind == 8:
        found["token"] = fields.take(TOKEN)
    fields.end()
    return found


def in_front(text, at):
    """The body of the frame that begins at a place, or None where it isn't whole yet."""
    if len(text) - at < 4:
        return None
    size = int.from_bytes(text[at:at + 4], "big")
    if not 1 <= size <= MOST_BODY:
        raise BadFrame(BAD_LENGTH)
    return text[at + 4:at + 4 + size] if len(text) - at - 4 >= size else None


def numbers_in(text):
    return [int.from_bytes(text[at:at + 8], "big") for at in range(0, len(text), 8)]


def leading(numbers):
    """The numbers in front of the first 0, or None where one stands behind it."""
    end = numbers.index(0) if 0 in numbers else len(numbers)
    return None if any(numbers[end:]) else numbers[:end]


@functools.lru_cache(2**16)
def keyed(key, number):
    return hmac.digest(key, be(8, number), "sha256")[:16]


@functools.lru_cache(2**16)
def stream(key, segment, blocks):
    """So many blocks of a segment of a key's stream."""
    nonce = bytes(4) + segment.to_bytes(8, "little")
    return b"".join(leak_model.chacha_block(key, block, nonce) for block in range(blocks))


def decrypted(text, key, segment):
    """A text under a segment of a key's stream."""
    return bytes(one ^ other for one, other in zip(text, stream(key, segment, -(-len(text) // 64))))


class Server:
    """What a server holds, and its step. `stage` is 0 before a setup, 1 within it and 2 behind it."""

    def __init__(self):
        self.next = self.stage = self.words = self.blocks = self.b = self.B = 0
        self.lists, self.array, self.added, self.revoked = {}, [], {}, set()

    def refusal(self, frame):
        """The reply to a frame that isn't taken, or None."""
        kind = frame["kind"]
        if kind in UPDATES and frame["number"] != self.next:
            return framed(0x83, be(4, self.next))
        if kind > 1 and not self.is_in_place(frame):
            return framed(0x8a)
        for what, place in self.clashes(frame):
            return framed(0x84, be(1, what), be(4, place))
        return None

    def is_in_place(self, frame):
        kind = frame["kind"]
        if kind == 2:
            return self.stage != 1
        if kind in (6, 7, 8):
            return self.stage == 2
        if self.stage != 1:
            return False
        if kind == 3:
            return frame["size"] == 1 + 8 * self.b and not self.array and len(self.lists) + len(frame["entries"]) <= self.words
        if len(self.lists) != self.words:
            return False
        if kind == 4:
            return frame["size"] == 8 * self.B and len(self.array) + len(frame["texts"]) <= self.blocks
        return len(self.array) == self.blocks

    def clashes(self, frame):
        kind = frame["kind"]
        if kind == 3:
            yield from ((1, place) for place, (label, _) in enumerate(frame["entries"]) if label in self.lists)
        if kind == 6:
            yield from ((2, place) for place, (label, _) in enumerate(frame["entries"]) if label in self.added)
            yield from ((3, place) for place, number in enumerate(frame["numbers"]) if number not in self.revoked)
        if kind == 7:
            yield from ((3, place) for place, number in enumerate(frame["numbers"]) if number in self.revoked)

    def take(self, frame):
        kind = frame["kind"]
        self.next += 1
        if kind == 2:
            self.lists, self.array, self.added, self.revoked = {}, [], {}, set()
            self.stage, self.words, self.blocks, self.b, self.B = 1, frame["words"], frame["blocks"], frame["b"], frame["B"]
        elif kind == 3:
            self.lists.update(frame["entries"])
        elif kind == 4:
            self.array += frame["texts"]
        elif kind == 5:
            self.stage = 2
        elif kind == 6:
            self.added.update(frame["entries"])
            self.revoked -= set(frame["numbers"])
        else:
            self.revoked |= set(frame["numbers"])

    def step(self, frame):
        """The replies to a frame, as one text."""
        refused = self.refusal(frame)
        if refused is not None:
            return refused
        if frame["kind"] == 1:
            return framed(0x81, be(4, self.next))
        if frame["kind"] == 8:
            found = self.search([frame["token"][at:at + KEY] for at in range(0, TOKEN, KEY)])
            return framed(0x86) if found is None else b"".join(leak_model.pages(found))
        self.take(frame)
        return framed(0x82, be(4, frame["number"]))

    def search(self, keys):
        """The identifiers that are found under the five keys of a token, or None where what is there is no list."""
        list_label, list_pad, added_label, added_pad, number = keys
        found = self.listed(self.lists.get(keyed(list_label, 0)), list_pad)
        if found is None:
            return None
        for count in range(len(self.added)):
            text = self.added.get(keyed(added_label, count))
            if text is None:
                break
            found = found + numbers_in(decrypted(text, added_pad, count))
            if found[-1] == 0:
                return None
        return [identifier for identifier in found if keyed(number, identifier) not in self.revoked]

    def listed(self, cell, pad):
        if cell is None:
            return []
        text = decrypted(cell, pad, 0)
        kind, numbers = text[0], leading(numbers_in(text[1:]))
        if kind > 2 or numbers is None:
            return None
        blocks = 0
        for _ in range(kind):
            pointed = []
            for number, pointer in enumerate(numbers, blocks):
                behind = leading(numbers_in(decrypted(self.array[pointer - 1], pad, number + 1))) if pointer <= len(self.array) else None
                if behind is None:
                    return None
                pointed += behind
            blocks += len(numbers)
            numbers = pointed
        return numbers


def answers(server, text):
    """The replies to the bytes of a connection, one text for each frame, and whether they end with no frame."""
    at, replies = 0, []
    while True:
        try:
            body = in_front(text, at)
            if body is None:
                return replies, False
            replies.append(server.step(frame_of(body)))
            at += 4 + len(body)
        except BadFrame as fault:
            return [*replies, framed(0x89, be(1, fault.reason))], True


def replayed(payloads):
    """The server that took the frames whose bodies these are, or None where one isn't taken."""
    server = Server()
    for payload in payloads:
        try:
            frame = frame_of(payload)
        except BadFrame:
            return None
        if frame["kind"] not in UPDATES or server.refusal(frame) is not None:
            return None
        server.take(frame)
    return server
