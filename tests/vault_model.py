"""A plain model of a vault, by docs/FORMATS.md: its frames and replies as bytes, the server's step, the records of its journal, and scripts of
frames to try it on. Nothing here knows a key: slots, tags and texts are bytes."""
import struct

import journal_model

MOST = 65_600
LAST = 2**32 - 1
NEXT, TOOK, BODY, ABSENT, CLASH, NO_MEMORY, STORE_FAULT, BAD_FRAME = 0xC4, 0xC1, 0xC2, 0xC3, 0xC5, 0xC6, 0xC7, 0xC8


def framed(body):
    return struct.pack(">I", len(body)) + body


def put(n, slot, tag, text):
    return b"\x41" + struct.pack(">I", n) + slot + tag + text


def drop(n, slot):
    return b"\x42" + struct.pack(">I", n) + slot


def fetch(slot):
    return b"\x43" + slot


ASK = b"\x44"


def took(n):
    return struct.pack(">BI", TOOK, n)


def expects(n):
    return struct.pack(">BI", NEXT, n)


def fields(body):
    """The kind and the fields of a frame's body, or None if it is no frame."""
    if not 1 <= len(body) <= MOST:
        return None
    kind, rest = body[0], body[1:]
    if kind == 0x41 and len(rest) >= 52:
        n, text = struct.unpack(">I", rest[:4])[0], rest[52:]
        return ("put", n, rest[4:20], rest[20:52], text) if n < LAST else None
    if kind == 0x42 and len(rest) == 20:
        n = struct.unpack(">I", rest[:4])[0]
        return ("drop", n, rest[4:]) if n < LAST else None
    if kind == 0x43 and len(rest) == 16:
        return ("fetch", rest)
    if kind == 0x44 and not rest:
        return ("ask",)
    return None


class Vault:
    """What a vault holds, and the bodies of the updates that it has taken."""

    def __init__(self):
        self.slots = {}
        self.records = []

    def answer(self, body):
        """The body of the reply to a body."""
        frame = fields(body)
        if frame is None:
            return bytes([BAD_FRAME])
        if frame[0] == "ask":
            return expects(len(self.records))
        if frame[0] == "fetch":
            held = self.slots.get(frame[1])
            return bytes([ABSENT]) if held is None else bytes([BODY]) + held
        if frame[1] != len(self.records):
            return expects(len(self.records))
        if (frame[2] in self.slots) == (frame[0] == "put"):
            return bytes([CLASH])
        if frame[0] == "put":
            self.slots[frame[2]] = frame[3] + frame[4]
        else:
            del self.slots[frame[2]]
        self.records.append(body)
        return took(frame[1])

    def connection(self, text):
        """All replies to the bytes of a connection, and what is left of the bytes that is no whole frame. After the length of no body nothing
        is read any more."""
        replies, at = b"", 0
        while len(text) - at >= 4:
            size = struct.unpack(">I", text[at : at + 4])[0]
            if not 1 <= size <= MOST:
                return replies + framed(bytes([BAD_FRAME])), b""
            if len(text) - at - 4 < size:
                break
            replies += framed(self.answer(text[at + 4 : at + 4 + size]))
            at += 4 + size
        return replies, text[at:]

    def journal(self):
        return journal_model.file_of(self.records)


def refused_by_start(payloads):
    """Whether a vault refuses to start from a journal of these records."""
    vault = Vault()
    return any(vault.answer(body)[0] != TOOK for body in payloads)


def made(random):
    """A script of bodies: mostly puts, drops and fetches of few slots under the number that comes next, and now and then one that is refused."""
    slots = [random.randbytes(16) for _ in range(random.choice((1, 3, 8)))]
    vault, bodies = Vault(), []
    for _ in range(random.randrange(1, 25)):
        n = len(vault.records) if random.random() < 0.85 else random.choice((0, 1, len(vault.records) + 1, LAST - 1, LAST))
        slot = random.choice(slots)
        text = random.randbytes(random.choice((0, 1, 31, 32, 100, 4096)))
        kind = random.choice("put put put drop drop fetch fetch ask bad".split())
        body = {
            "put": put(n, slot, random.randbytes(32), text),
            "drop": drop(n, slot),
            "fetch": fetch(slot),
            "ask": ASK,
            "bad": random.choice((b"\x40", b"\x45" + text, ASK + b"\0", fetch(slot)[:-1], fetch(slot) + b"\0", drop(n, slot) + b"\0", put(n, slot, bytes(32), b"")[:-1], b"\xc1" + bytes(4))),
        }[kind]
        vault.answer(body)
        bodies.append(body)
    return bodies
