"""Made scripts, the same for the same seed."""
import random

WORDS = [word.encode() for word in ("a", "b", "ab", "w0", "w1", "w2", "A", "ä", "0", "-", "add", "鍵")] + [
    b"x" * 64, ("ü" * 32).encode()]
# each is no word, for a fault of its own
BAD_WORDS = [b"x" * 65, b"y" * 300, b"\x7f", b"a\tb", b"ab\r", b"\x01" * 65, b"\xff", b"a\xc3", b"\xc0\x80",
             b"b\xed\xa0\x80", b"\xf4\x90\x80\x80"]
PADS = [1, 2, 2, 4, 8, 16, 64, 1024, 4096]
BAD_PADS = [0, 3, 6, 4095, 8192, 2**32, 2**64 - 1]
IDENTIFIERS = [2**64 - 1, 2**63, 2**32, 256, 255]
# fields of a query that are no operands; the last ones are none of a query
MARKS = [b"and", b"or", b"not", b"(", b")", b"=", b"AND", b"a", b"and=", b"\xff"]
BAD_LINES = [b"add", b"add 01 a", b"add +1", b"add a", b"add 18446744073709551616 a", b"add\t1 a", b"ADD 1 a",
             b"del", b"del 1 2", b"del a", b"delete 1", b"find", b"find a b", b"\tfind a", b"setup 1",
             b"setup 1 1 01", b"setup 1 1 1 1", b"setup 1 1 18446744073709551616", b"doc", b"key", b"key " + b"0" * 64, b"twin", b"QUERY =a", b"query=a",
             b"rebuild", b"rebuild " + b"0" * 63, b"rebuild " + b"0" * 65, b"rebuild " + b"g" * 64, b"rebuild " + b"0" * 64 + b" 1"]


def key_digits(draw):
    return bytes(draw.choice(b"0123456789abcdefABCDEF") for _ in range(64))


def key_line(draw):
    return b"key " + key_digits(draw)


class RandomScript:
    """A short script with few words and few identifiers, so that they meet. In a third of the scripts nothing is made to be
    refused."""

    def __init__(self, seed):
        self.draw = random.Random(seed)
        self.words = self.draw.sample(WORDS, self.draw.choice([1, 2, 3, 6]))
        self.most = self.draw.choice([2, 4, 9, 30])
        self.spoils = self.draw.choice([0, 0.1, 0.4])
        self.live = []
        self.gone = []
        self.lines = []

    def chance(self, part):
        return self.draw.random() < part

    def put(self, name, *fields):
        fields = [name, *(str(field).encode() if isinstance(field, int) else field for field in fields)]
        line = b" ".join(fields)
        if self.chance(0.05):
            line = b"  " + (b" " * self.draw.randint(1, 5)).join(fields) + b" "
        self.lines.append(line)
        if self.chance(0.03):
            self.lines.append(b" " * self.draw.randint(0, 2))

    def identifier(self, is_live):
        """One of a document that is live or that isn't; or any, where it is spoilt."""
        if self.chance(self.spoils):
            is_live = not is_live
        if is_live and self.live:
            return self.draw.choice(self.live)
        if self.gone and self.chance(0.6):
            return self.draw.choice(self.gone)
        identifier = self.draw.choice(IDENTIFIERS) if self.chance(0.05) else self.draw.randint(1, self.most)
        while identifier in self.live and not self.chance(self.spoils):
            identifier += 1
        return identifier

    def some_words(self):
        return self.draw.sample(self.words, self.draw.randint(0, len(self.words)))

    def document(self, name):
        identifier, words = self.identifier(is_live=False), self.some_words()
        is_spoilt = False
        while self.chance(self.spoils):
            is_spoilt = True
            way = self.draw.randrange(6)
            if way == 0:
                identifier = 0
            elif way <= 2 and words:
                words.insert(self.draw.randint(0, len(words)), self.draw.choice(words))
            elif way <= 4:
                words.insert(self.draw.randint(0, len(words)), self.draw.choice(BAD_WORDS))
            elif self.chance(0.2):
                words += [b"v%d" % number for number in range(self.draw.choice([4095, 4096, 4097]))]
        self.put(name, identifier, *words)
        if not is_spoilt and identifier not in self.live:
            self.live.append(identifier)

    def delete(self):
        if not self.live and not self.chance(self.spoils):
            return
        identifier = 0 if self.chance(self.spoils / 4) else self.identifier(is_live=True)
        self.put(b"del", identifier)
        if identifier in self.live:
            self.live.remove(identifier)
            self.gone.append(identifier)

    def find(self):
        is_bad = self.chance(self.spoils / 2)
        self.put(b"find", self.draw.choice(BAD_WORDS if is_bad else self.words + [b"nowhere"]))

    def setup(self, is_spoilt=False):
        sizes = [1, 2, 3, 4, 8, 64]
        b, B = self.draw.choice(sizes), self.draw.choice(sizes + [256])
        Q = [self.draw.choice(PADS)] if self.chance(1 / 3) else []
        if is_spoilt:
            b = self.draw.choice([0, 65, b, b, b, 2**64 - 1])
            B = self.draw.choice([0, 257, B, B, B, 2**64 - 1])
            Q = self.draw.choice([Q, [self.draw.choice(BAD_PADS)]])
        elif not self.spoils:
            b = 64
        self.put(b"setup", b, B, *Q)

    def misplaced(self, others):
        """At times a line that belongs to the other stage."""
        if self.chance(self.spoils / 3):
            before = list(self.live), list(self.gone)
            self.draw.choice(others)()
            self.live, self.gone = before

    def before(self):
        """Documents, at times many with one word."""
        for _ in range(self.draw.choice([0, 1, 3, 8])):
            self.document(b"doc")
            self.misplaced([self.find, self.delete, lambda: self.document(b"add"), lambda: self.setup(is_spoilt=True)])
        if self.chance(0.3):
            for identifier in range(1, self.draw.choice([3, 5, 9, 10, 28, 70])):
                if identifier not in self.live or self.chance(self.spoils):
                    others = self.draw.sample(self.words[1:], self.draw.randint(0, len(self.words) - 1))
                    self.put(b"doc", identifier, self.words[0], *others)
                    self.live.append(identifier)

    def behind(self):
        """Updates and searches."""
        for _ in range(self.draw.choice([0, 4, 12, 40])):
            if self.chance(0.6):
                self.document(b"add")
            else:
                self.delete()
            if self.chance(0.4):
                self.find()
            self.renew()
            self.misplaced([self.setup, lambda: self.document(b"doc")])

    def renew(self):
        """At times a line `rebuild`, in scripts that have such lines."""

    def bytes(self):
        self.lines += [b""] * self.draw.choice([0, 0, 0, 2])
        self.lines.append(key_line(self.draw))
        self.before()
        if self.chance(self.spoils):
            self.setup(is_spoilt=True)
            self.before()
        self.setup()
        self.behind()
        for word in self.words:
            self.put(b"find", word)
        if self.chance(0.05):
            self.lines.insert(self.draw.randint(0, len(self.lines)), self.draw.choice(BAD_LINES))
        return b"\n".join(self.lines) + b"\n" * self.chance(0.9)


class RenewedScript(RandomScript):
    """A short script that has lines `rebuild`, some of them with a key that was used before."""

    def __init__(self, seed):
        super().__init__(seed)
        self.renewals = self.draw.choice([0, 0.03, 0.15])

    def renew(self):
        if self.chance(self.renewals):
            used = [line.split()[1] for line in self.lines if line.split()[:1] in ([b"key"], [b"rebuild"])]
            self.put(b"rebuild", self.draw.choice(used).swapcase() if self.chance(0.3) else key_digits(self.draw))

    def before(self):
        super().before()
        if self.chance(self.renewals):
            self.put(b"rebuild", key_digits(self.draw))


class QueriedScript(RenewedScript):
    """A short script that has queries of every kind beside its searches, and lines `rebuild`."""

    def find(self):
        super().find()
        while self.chance(0.5):
            self.query()

    def query(self):
        fields = self.expression(self.draw.choice([0, 1, 1, 2, 2, 3, 4, 6]))
        while self.chance(self.spoils):
            way, place = self.draw.randrange(5), self.draw.randint(0, len(fields))
            if way == 0:
                del fields[place:]
            elif way == 1:
                del fields[place:place + 1]
            elif way <= 3:
                fields.insert(place, self.draw.choice(MARKS))
            else:
                fields.insert(place, b"=" + self.draw.choice(BAD_WORDS))
        if self.chance(self.spoils / 4):
            fields = (b"=a or " * 40).split()[:self.draw.choice([61, 63, 64, 65, 66, 79])]
        self.put(b"query", *fields)

    def expression(self, depth):
        """The fields of an expression; a bad word in it is refused."""
        if depth == 0:
            is_bad = self.chance(self.spoils / 8)
            return [b"=" + self.draw.choice(BAD_WORDS if is_bad else self.words + [b"nowhere", b"=", b"and"])]
        if self.chance(0.2):
            return [b"(", *self.expression(depth - 1), b")"]
        left, right = self.expression(depth - 1), self.expression(self.draw.randint(0, depth - 1))
        return [*left, self.draw.choice([b"and", b"or", b"not"]), *right]


def random_script(seed):
    return QueriedScript(seed).bytes()


def one_word(documents):
    """One word in so many documents of a setup; then a third of them deleted, some of those added again, and as many
    new ones added, with searches between."""
    yield b"key " + b"0" * 64
    for identifier in range(1, documents + 1):
        yield b"doc %d a" % identifier
    yield b"setup 16 64"
    yield b"find a"
    for identifier in range(1, documents + 1, 3):
        yield b"del %d" % identifier
    yield b"find a"
    for identifier in range(1, documents + 1, 6):
        yield b"add %d a b" % identifier
    yield b"find a"
    yield b"find b"
    for identifier in range(documents + 1, 2 * documents + 1):
        yield b"add %d a" % identifier
    yield b"find a"
    yield b"find b"


def only_additions(documents):
    """An empty setup, then one word in so many documents that are added."""
    yield b"key " + b"0" * 64
    yield b"setup 1 1"
    for identifier in range(documents, 0, -1):
        yield b"add %d a" % identifier
    yield b"find a"


def new_words(additions, words=4096):
    """One document, then so many additions whose words no other document has: together more than a setup may have."""
    yield b"key " + b"0" * 64
    yield b"doc 1 a"
    yield b"setup 64 256"
    for number in range(additions):
        first = number * words
        yield b"add %d " % (number + 2) + b" ".join(b"%d" % word for word in range(first, first + words))
    yield b"find %d" % (additions * words - 1)
    yield b"find a"


def paged(documents, b, B, listed):
    """One word in so many documents, of which so many are in the setup and the others added; then those at the borders of
    pages of 8,192 identifiers are deleted, with a search before and behind."""
    yield b"key " + b"0" * 64
    for identifier in range(1, listed + 1):
        yield b"doc %d a" % identifier
    yield b"setup %d %d" % (b, B)
    for identifier in range(listed + 1, documents + 1):
        yield b"add %d a" % identifier
    yield b"find a"
    for identifier in range(1, documents + 1):
        if (identifier + 1) % 8192 < 4:
            yield b"del %d" % identifier
    yield b"find a"


def mixed(documents, commands, seed=0):
    """A setup, then commands of every kind in any order, one in ten of the updates refused; words as they are in texts, some
    in many documents and most in few."""
    draw = random.Random(seed)
    yield key_line(draw)
    live, away = list(range(1, documents + 1)), list(range(documents + 1, 2 * documents + 1))

    def words():
        return b"".join(b" w%d" % word for word in sorted({int(1000 ** draw.random()) for _ in range(12)}))

    for identifier in live:
        yield b"doc %d%s" % (identifier, words())
    yield b"setup 8 32"
    for _ in range(commands):
        way = draw.random()
        if way < 0.2:
            yield b"find w%d" % int(1000 ** draw.random())
            continue
        adds = way < 0.6
        source, other = (away, live) if adds else (live, away)
        is_refused = draw.random() < 0.1
        identifier = draw.choice(other if is_refused else source)
        yield b"add %d%s" % (identifier, words()) if adds else b"del %d" % identifier
        if not is_refused:
            source.remove(identifier)
            other.append(identifier)


def refused_line(number, live):
    """One of eight lines that are refused behind a setup, most of them with words that stand nowhere else."""
    absent = 10**18 + number
    return [
        b"add %d n%d" % (live, number),
        b"del %d" % absent,
        b"add 0 n%d" % number,
        b"add %d n%d n%d" % (absent, number, number),
        b"add %d n%d " % (absent, number) + b"x" * 65,
        b"doc %d n%d" % (absent, number),
        b"setup 1 1",
        b"find %065d" % number,
    ][number % 8]


def among_refused(documents, turns, refusals):
    """A setup, then turns: a document deleted, added again and searched for, and so many lines that are refused."""
    yield b"key " + b"0" * 64
    for identifier in range(1, documents + 1):
        yield b"doc %d a b%d c%d" % (identifier, identifier % 10, identifier)
    yield b"setup 16 64"
    for turn in range(turns):
        identifier = turn % documents + 1
        yield b"del %d" % identifier
        yield b"add %d a b%d c%d" % (identifier, identifier % 10, identifier)
        yield b"find c%d" % identifier
        for number in range(turn * refusals, (turn + 1) * refusals):
            yield refused_line(number, number % documents + 1)
