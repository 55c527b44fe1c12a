"""Made connections to a server, frame by frame beside the model of what it holds (tests/server_model.py), so that it meets frames of
every kind in every state: those that it accepts, those that it refuses for each reason, and bytes that are no frame after them. The same
draw gives the same connections."""
import collections

import leak_model
import mutation
import server_model
from leak_model import be, framed
from server_model import KEY, TOKEN, keyed

SMALL = range(1, 6)


def sealed(text, key, segment):
    return server_model.decrypted(text, key, segment)


def rising(items):
    return sorted(dict(items).items())


class Maker:
    """Frames for a server that holds what `server` does, of a few tokens, so that labels, numbers and tokens meet."""

    def __init__(self, draw, sessions):
        self.draw, self.sessions = draw, sessions
        self.tokens = [self.bytes(TOKEN) for _ in range(2)] + [self.real_token()]
        # how many additions there are under a key of addition labels
        self.counts = collections.Counter()

    def bytes(self, size):
        return bytes(self.draw.choices(range(256), k=size))

    def chance(self, part):
        return self.draw.random() < part

    def real_token(self):
        found = [frame[5:] for frames in self.sessions for frame, _ in frames if frame[4] == 8]
        return self.draw.choice(found)

    def keys(self):
        token = self.draw.choice(self.tokens)
        return [token[at:at + KEY] for at in range(0, TOKEN, KEY)]

    def number(self, server):
        """The number of an update frame: nearly always the next one."""
        return server.next if self.chance(0.9) else self.draw.choice([server.next + 1, max(server.next - 1, 0), *mutation.NUMBERS]) % 2**32

    def cell(self, server, pad):
        """A cell of identifiers or pointers, at times of no kind."""
        kind = self.draw.choice([0, 0, 0, 1, 1, 2]) if self.chance(0.9) else self.draw.choice([3, 255])
        return sealed(bytes([kind]) + self.numbers(server.b), pad, 0)

    def numbers(self, most):
        """Numbers with zeros behind them, at times with a zero between or one that points nowhere."""
        choice = [*SMALL, 1, 1] if self.chance(0.8) else [1, 2, 0, 0, 2**64 - 1]
        return leak_model.numbers_text([self.draw.choice(choice) for _ in range(self.draw.randint(0, most))], most)

    def begin(self, server):
        sizes = [self.draw.choice([1, 2, 4, 64, 65, 0]) if self.chance(0.1) else self.draw.choice([1, 2, 3, 4]) for _ in range(2)]
        counts = [self.draw.choice(mutation.NUMBERS) % 2**32 if self.chance(0.05) else self.draw.randint(0, 7) for _ in range(2)]
        return 2, [*(be(2, size) for size in sizes), *(be(4, count) for count in counts)]

    def lists(self, server):
        left = min(4, max(1, server.words - len(server.lists)))
        entries = []
        for _ in range(self.draw.randint(1, left + (self.chance(0.1)))):
            keys = self.keys()
            entries.append((keyed(keys[0], 0) if self.chance(0.6) else self.bytes(16), self.cell(server, keys[1])))
        entries = rising(entries)
        size = 1 + 8 * server.b
        if self.chance(0.1):
            size = self.draw.choice([9, 10, 17, 513, 521])
            entries = [(label, text[:size].ljust(size, b"\0")) for label, text in entries]
        return 3, [be(2, size), be(2, len(entries)), *(label + text for label, text in entries)]

    def blocks(self, server):
        left = min(4, max(1, server.blocks - len(server.array)))
        texts = []
        for _ in range(self.draw.randint(1, left + (self.chance(0.1)))):
            texts.append(sealed(self.numbers(server.B), self.keys()[1], self.draw.randint(1, 3)))
        size = 8 * server.B
        if self.chance(0.1):
            size = self.draw.choice([8, 12, 16, 2048, 2056])
            texts = [text[:size].ljust(size, b"\0") for text in texts]
        return 4, [be(2, size), be(2, len(texts)), *texts]

    def end(self, server):
        return 5, []

    def revocation(self):
        return keyed(self.keys()[4], self.draw.choice(SMALL)) if self.chance(0.9) else self.bytes(16)

    def addition(self, server):
        entries = []
        for _ in range(self.draw.randint(0, 3)):
            keys = self.keys()
            while keyed(keys[2], self.counts[keys[2]]) in server.added:
                self.counts[keys[2]] += 1
            count = self.counts[keys[2]]
            if self.chance(0.1):
                count = self.draw.choice([0, max(count - 1, 0), count + 1])
            entries.append((keyed(keys[2], count), sealed(be(8, self.draw.choice([*SMALL, 2**64 - 1]) if self.chance(0.98) else 0), keys[3], count)))
        numbers = {self.revocation(): b"" for _ in range(self.draw.choice([0, 0, 0, 1, 2]))}
        if server.revoked and self.chance(0.5):
            numbers = {self.draw.choice(sorted(server.revoked)): b""}
        entries, numbers = rising(entries), sorted(numbers)
        return 6, [be(2, len(entries)), be(2, len(numbers)), *(label + text for label, text in entries), *numbers]

    def deletion(self, server):
        numbers = sorted({self.revocation() for _ in range(self.draw.choice([0, 1, 1, 2, 3]))})
        return 7, [be(2, len(numbers)), *numbers]

    def search(self, server):
        token = self.draw.choice(self.tokens)
        return 8, [mutation.flip(self.draw, token, None) if self.chance(0.1) else token]

    def frame(self, server):
        """A frame that may fit the server's stage, or one of any kind."""
        every = [self.begin, self.lists, self.blocks, self.end, self.addition, self.deletion, self.search]
        ready = [self.addition, self.addition, self.deletion, self.search, self.search]
        fitting = [[self.begin], [self.lists, self.blocks, self.end, self.lists], ready][server.stage]
        if server.stage == 1 and self.chance(0.8):
            fitting = [self.lists if len(server.lists) < server.words else self.blocks if len(server.array) < server.blocks else self.end]
        make = self.draw.choice(fitting if self.chance(0.85) else every)
        if self.chance(0.03):
            return framed(1)
        kind, fields = make(server)
        return framed(kind, *([] if kind == 8 else [be(4, self.number(server))]), *fields)

    def front(self, server, count):
        """The bytes of some frames that the server answers, with the replies; it holds then what they make of it."""
        text, replies = [], []
        for _ in range(count):
            frame = self.frame(server)
            try:
                replies.append(server.step(server_model.frame_of(frame[4:])))
            except server_model.BadFrame:
                continue
            text.append(frame)
        return b"".join(text), replies

    def spoilt(self, server):
        """A frame that is wrong in one place: an item stands twice or at another place, a count or a number is another one, or bytes
        are too many or missing."""
        body = self.frame(server)[4:]
        # where its items begin, the bytes of one, and where their count stands
        first, size, count = {3: (9, 17 + 8 * server.b, 7), 4: (9, 8 * server.B, 7), 6: (9, 24, 5), 7: (7, 16, 5)}.get(body[0], (5, 8, 5))
        at, way = first + size * self.draw.choice([0, 0, 1]), self.draw.randrange(5)
        if way == 0:
            body = body[:at] + body[at:at + size] + body[at:]
            body = body[:count] + be(2, (int.from_bytes(body[count:count + 2], "big") + 1) % 2**16) + body[count + 2:]
        elif way == 1:
            body = body[:at] + body[at + size:at + 2 * size] + body[at:at + size] + body[at + 2 * size:]
        elif way == 2:
            body += self.bytes(self.draw.choice([1, 1, 8, 16]))
        elif way == 3:
            body = mutation.put_number(self.draw, body, None)
        else:
            body = body[:-1]
        return be(4, len(body)) + body

    def behind(self, server):
        """What a connection ends with: a frame that is wrong in one place, or real ones that are mutated."""
        if self.chance(0.5):
            return self.spoilt(server)
        real = b"".join(frame for frame, _ in self.draw.choice(self.sessions)[self.draw.choice([0, 1, 2]):][:4])
        return mutation.mutated(self.draw, real or framed(1), [b"".join(frame for frame, _ in frames) for frames in self.sessions])
