"""A plain reader of a journal's file, by docs/FORMATS.md: which records starting gives, what file it leaves, and files to try it on."""

MAGIC = b"SSEJRNL1"
MAX_PAYLOAD = 2**27
EMPTY = MAGIC + b"\0"


def start(read, size):
    """Records, and how many bytes of the file in front of its commit byte 00 are kept; or the place where it is no journal.

    `read(at, n)` gives the n bytes from a place on, fewer at the end of the file, which has `size` bytes."""
    if size < 9:
        return [], None
    if read(0, 8) != MAGIC:
        return 0, None
    at, records = 8, []
    while True:
        head = read(at, 5)
        if head[0] != 1 or at + 1 == size:
            return records, at
        length = int.from_bytes(head[1:], "big")
        if len(head) < 5 or not 1 <= length <= MAX_PAYLOAD or at + 5 + length >= size:
            return at, None
        records.append((at + 5, length))
        at += 5 + length


def start_bytes(file):
    """What the program prints of a file that is given as bytes, its status, and the file that it leaves."""
    found, end = start(lambda at, n: file[at : at + n], len(file))
    if isinstance(found, int):
        return b"not a journal at %d\n" % found, 10, file
    lines = b"".join(file[at : at + n].hex().encode() + b"\n" for at, n in found)
    return lines, 0, EMPTY if end is None else file[:end] + b"\0"


def record(payload):
    return b"\1" + len(payload).to_bytes(4, "big") + payload


def file_of(payloads):
    return MAGIC + b"".join(map(record, payloads)) + b"\0"


def torn(random, at, old, new):
    """The bytes `old` behind a write of `new` at a place, of which a crash may have left any part: other bytes, and any
    length between."""
    size = random.randint(len(old), max(len(old), at + len(new)))
    out = bytearray(old.ljust(size, b"\0"))
    for i in range(at, min(at + len(new), size)):
        out[i] = random.choice([new[i - at], new[i - at], out[i], 1, random.randrange(256)])
    for i in range(len(old), size):
        if not at <= i < at + len(new):
            out[i] = random.randrange(256)
    return bytes(out)


def made(random):
    """A kind of file and a file: of random records, torn, changed, cut or made up."""
    payloads = [random.randbytes(random.choice([1, 1, 2, 5, 255, 256, 300, 4096, 5000])) for _ in range(random.randrange(6))]
    whole = file_of(payloads)
    kind = random.choice("whole torn_body torn_commit tail changed cut no_next short length made_up".split())
    if kind == "torn_body":
        body = record(random.randbytes(random.randrange(1, 40)))[1:] + b"\0"
        return kind, torn(random, len(whole), whole, body)
    if kind == "torn_commit":
        body = record(random.randbytes(random.randrange(1, 40)))[1:] + b"\0"
        return kind, torn(random, len(whole) - 1, whole + body, b"\1")
    if kind == "tail":
        return kind, whole[:-1] + bytes([random.choice([0, 2, 255])]) + random.randbytes(random.randrange(1, 40))
    if kind == "changed":
        place = random.randrange(len(whole))
        return kind, whole[:place] + bytes([random.choice([0, 1, 2, 8, random.randrange(256)])]) + whole[place + 1 :]
    if kind == "cut":
        return kind, whole[: random.randrange(len(whole) + 1)]
    if kind == "no_next":
        return kind, whole[:-1]
    if kind == "short":
        return kind, random.randbytes(random.randrange(10))
    if kind == "length":
        length = random.choice([0, 1, 2, MAX_PAYLOAD, MAX_PAYLOAD + 1, 2**31, 2**32 - 1])
        return kind, whole[:-1] + b"\1" + length.to_bytes(4, "big") + random.randbytes(random.randrange(4))
    if kind == "made_up":
        return kind, MAGIC + bytes(random.choice([0, 0, 0, 1, 1, 2]) for _ in range(random.randrange(1, 40)))
    return kind, whole
