"""How many keyed calls a script needs, and how many bytes its frames have, counted from its lines only.

A call is counted if a frame holds its value or a search looks it up: each value and each keystream segment once, and each key when it is
first needed. A client keeps a word's keys, and prepares those from which it needs more than one value; a server begins each search with the
token. A value under a prepared key costs two blocks of SHA-256, and so does preparing a key."""


class Calls:
    """Values under keys, prepared keys, pads of 8 bytes, of cells and of blocks; bytes of frames."""

    NAMES = ("values", "prepared", "short_pads", "cell_pads", "block_pads", "sent")

    def __init__(self, **counts):
        for name in self.NAMES:
            setattr(self, name, counts.get(name, 0))

    def less(self, other):
        return Calls(**{name: getattr(self, name) - getattr(other, name) for name in self.NAMES})

    def rows(self):
        """The rows of tool_bench that make them, with their turns."""
        return [("prepared", self.values + self.prepared), ("short_pads", self.short_pads),
                ("cell_pads", self.cell_pads), ("block_pads", self.block_pads)]

    def compressions(self):
        return 2 * (self.values + self.prepared)


class Counter:
    def __init__(self):
        self.calls = Calls(prepared=1)  # the master key
        self.lists = {}  # how many identifiers of each word the setup has
        self.additions = {}  # how many additions each word has
        self.live = {}
        self.listed = {}  # the words that were ever listed with an identifier
        self.revoked = 0
        self.keys = set()  # a word and the part of its keys that the client has
        self.is_set_up = False

    def key(self, word, part, prepared=False):
        if (word, part) not in self.keys:
            self.keys.add((word, part))
            self.calls.values += 1
            self.calls.prepared += prepared

    def take(self, text):
        name, *fields = text.split(" ")
        if name == "key":
            self.calls.sent += 5
        elif name == "doc":
            self.collect(fields[0], fields[1:])
        elif name == "setup":
            self.set_up(int(fields[0]), int(fields[1]))
        elif name == "add":
            self.add(fields[0], fields[1:])
        elif name == "del":
            self.delete(fields[0])
        else:
            self.find(fields[0])

    def collect(self, identifier, words):
        self.live[identifier] = words
        self.listed[identifier] = set(words)
        for word in words:
            self.lists[word] = self.lists.get(word, 0) + 1

    def blocks_of(self, count):
        if count <= self.b:
            return 0
        blocks = -(-count // self.B)
        return blocks if blocks <= self.b else blocks + -(-blocks // self.B)

    def set_up(self, b, B):
        self.b, self.B = b, B
        calls = self.calls
        blocks = 0
        for word, count in self.lists.items():
            self.key(word, 1)
            self.key(word, 2)
            calls.prepared += 1  # a label is the one value of its key
            calls.values += 1
            calls.cell_pads += 1
            taken = self.blocks_of(count)
            if taken:
                self.key(word, 6, prepared=True)
            calls.values += taken
            blocks += taken
        calls.block_pads += blocks
        calls.sent += 30 + 13 * (-(-len(self.lists) // 1024) + -(-blocks // 256))
        calls.sent += len(self.lists) * (17 + 8 * b) + blocks * 8 * B

    def add(self, identifier, words):
        listed = self.listed.setdefault(identifier, set())
        entries = 0
        for word in words:
            if word in listed:
                self.key(word, 5, prepared=True)
                self.calls.values += 1
                self.revoked -= 1
                continue
            self.key(word, 3, prepared=True)
            self.key(word, 4)
            self.calls.values += 1
            self.calls.short_pads += 1
            self.additions[word] = self.additions.get(word, 0) + 1
            listed.add(word)
            entries += 1
        self.live[identifier] = words
        self.calls.sent += 13 + 24 * entries + 16 * (len(words) - entries)

    def delete(self, identifier):
        words = self.live.pop(identifier)
        for word in words:
            self.key(word, 5, prepared=True)
            self.calls.values += 1
        self.revoked += len(words)
        self.calls.sent += 11 + 16 * len(words)

    def find(self, word):
        for part in range(1, 6):
            self.key(word, part)
        calls = self.calls
        first, later = self.lists.get(word, 0), self.additions.get(word, 0)
        calls.prepared += 1
        calls.values += 1
        if first:
            calls.cell_pads += 1
            calls.block_pads += self.blocks_of(first)
        if self.additions:
            calls.prepared += 1
            calls.values += later + 1
            calls.short_pads += later
        if self.revoked and first + later:
            calls.prepared += 1
            calls.values += first + later
        calls.sent += 165


def calls_of(lines):
    counter = Counter()
    for line in lines:
        counter.take(line)
    return counter.calls
