"""Inputs of turns by name, for the real keyed function and for the toy one: runs that end for each cause and are gone on with, each call
of a disk, of a link, of a source and of a sink failing in turn, also within a rebuild under a new key, replies that no server sends, an append
that is cut at each byte, and journals that a client wrote, or nobody."""
import journal_model
import record_model
from leak_model import Add, Setup, be, framed

KEY = "key " + "0" * 64
OTHER_KEY = "key 1" + "0" * 63
# the keys of two rebuilds, and what continues under them
NEW, NEWER = "01" * 32, "02" * 32
FIND_NEW, FIND_NEWER = (f"key {NEW}", "find a"), (f"key {NEWER}", "find a")
SETUP = (KEY, "doc 1 a", "setup 1 1")
ADDED = (*SETUP, "add 2 a")
FIND = (KEY, "find a")
REBUILT = (KEY, "doc 1 a", "setup 1 2", "add 2 a", f"rebuild {NEW}", "find a")
WORKED = (KEY, "doc 3 a b", "doc 9 a", "setup 4 4")
# the key's mark, and the one under the toy function
MARK = record_model.mark_of(bytes(32))
TOY_MARK = bytes(range(7, 23))


def turn(head, *lines):
    return "\n".join([f"turn {head}", *lines, ""])


def input_of(*turns):
    return "----\n".join(turns).encode()


def behind(first):
    """A first turn, then what goes on from it, what is refused, and another server."""
    return input_of(
        first, turn("more same 0", *FIND), turn("more same 0", OTHER_KEY, "find a"), turn("run same 0", *ADDED),
        turn("more same 0 x 0", *FIND))


def each_call_of_the_client(call, image):
    """A call of the client's disk fails, and a crash leaves this image of it: with a record it is gone on with, else begun again."""
    return input_of(turn(f"run x {call} x 0", *ADDED), turn(f"more {image} 0", *FIND), turn("run same 0", *ADDED))


def each_call_of_the_server(call, image, lines=ADDED):
    """A call of the server's disk fails: the server takes nothing more. Then it is started on an image of its disk."""
    return input_of(turn(f"run x 0 x {call}", *lines), turn("more same 0", *FIND), turn(f"more same 0 {image} 0", *FIND))


def each_call_of_the_link(cut):
    return input_of(turn(f"run x 0 x 0 {cut}", *ADDED), turn("more same 0", *FIND), turn("run same 0", *ADDED))


def each_byte():
    """So many bytes of an append are there, without its commit byte and with it."""
    documents = Setup(((1, (b"a",)),), 1, 1)
    whole = journal_model.file_of([record_model.setup_record(bytes(32), documents)])
    body = journal_model.record(record_model.update_record(Add(2, (b"a",))))[1:] + b"\0"
    turns = [turn("run x 0 x 0", *SETUP)]
    for commit in (b"\0", b"\1"):
        for size in range(len(body) + 1):
            turns.append(turn(f"more x{(whole[:-1] + commit + body[:size]).hex()} 0", *FIND))
    return input_of(*turns)


# Whole runs.

# the words of two documents, fields that are no words, and words that are looked up
DOCUMENTS = (
    KEY, "doc 7  b  a ", "doc 0 a", "doc 8 a b\x01", "doc 8 a b a", "doc 8 a b " + 65 * "x", "doc 9 a c", "doc 7 d", "setup 4 4",
    "find ab\x7f", "find " + 64 * "x", "find a")
# queries that are taken, and fields that are none
QUERIES = (
    KEY, "query =a", "doc 3 a b", "doc 9 a", "doc 12 b c", "setup 4 4", "query =a and ( =b or =c )", "query =a not =b", "query =b or =a", "query =a and",
    "query  =c ", "query =c not =c or =nowhere", "query =a not =b and =c", "query =a not ( =b and =c )", "query =a or =b and =c", "query ( ( =a ) )",
    "query", "query =", "query a", "query =a =b", "query and =a", "query ( =a", "query =a )", "query ( )", "query =a and or =b", "query =a AND =b",
    "query =a and not =b", "query " + "=a or " * 32, "query " + "=a or " * 31 + "( =a )", "query " + "=a or " * 31 + "=a", "query " + "( " * 65, "query =a\x7f =b",
    "query =a or =b\x7f", "query =a or =" + 65 * "x" + " or =\x7f", "query == or =and or =(", "add 5 = and", "query == and =and", "del 9", "query =a or =b")
# lines `rebuild`, taken and refused
REBUILDS = (
    KEY, f"rebuild {NEW}", "doc 1 a", "doc 2 a b", "setup 1 2 4", f"rebuild {'0' * 64}", "add 3 b", "del 1", f"rebuild {NEW}", "find a", "add 1 a c",
    f"rebuild {NEW}", f"rebuild {'0' * 64}", "del 2", f"rebuild {NEWER}", "find a", "find b", "add 2 b a", "query =a or =b", "del 1", "del 2", "del 3",
    f"rebuild {'03' * 32}", "find a", "add 1 a", "find a")
RUNS = {
    "a new key": (KEY, "doc 1 a", "doc 2 a", "setup 1 2", "del 1", "add 3 a", f"rebuild {NEW}", "find a"),
    "the key of the setup again": (KEY, "doc 1 a", "doc 2 a", "setup 1 2", "del 1", "add 3 a", f"rebuild {'0' * 64}", "find a"),
    "keys, taken or refused": REBUILDS,
    "a list that a setup takes and a rebuild doesn't": (*SETUP, "add 2 a", "add 3 a", f"rebuild {NEW}", "find a"),
    "a worked example": (*WORKED, "find a"),
    "queries, taken or refused": QUERIES,
    "a worked example of updates": (*WORKED, "add 5 a c", "del 9", "add 9 a", "find a"),
    "two levels of blocks": (KEY, "doc 11 a b", *(f"doc {number} a" for number in range(12, 16)), "setup 2 2"),
    "dummies beside words and blocks": (KEY, "doc 11 a b", "doc 12 a", "doc 13 a", "setup 2 2 4"),
    "documents and words, taken or refused": DOCUMENTS,
}
# a list in its cell, behind one level of blocks and behind two, one that is too long
for size, setup in (2, "2 2"), (3, "2 2"), (4, "2 2"), (5, "2 2"), (8, "2 2"), (9, "2 2"), (1100, "16 64"):
    RUNS[f"a list of {size} identifiers"] = (KEY, *(f"doc {number} a" for number in range(1, size + 1)), f"setup {setup}", "find a")
TOY_RUNS = {
    "frames under a new key": (KEY, "doc 1 a", "doc 2 a", "setup 1 2", "del 1", "add 3 a", f"rebuild {NEW}", "find a"),
    "equal labels of a rebuild": (*SETUP, "add 2 da", "add 3 ac", f"rebuild {NEW}", "find da"),
    "one block": (KEY, "doc 1 a", "doc 2 a", "setup 1 2"),
    "one dummy": (KEY, "doc 1 a", "setup 1 1 2"),
    "additions and deletions": (*SETUP, "add 5 a", "del 5", "add 5 c a", "add 6", "del 6"),
    "a deletion whose numbers fall": (KEY, "doc 5 b a", "setup 1 1", "del 5"),
    # the weighed sums of two words are equal: 2 * 100 + 3 * 97 = 2 * 97 + 3 * 99. The lists of two others take a block each, at equal
    # places; of two additions with equal labels the server finds it
    "equal labels of two words": (KEY, "doc 1 da ac", "setup 1 1", "find da"),
    "equal places of two blocks": (KEY, "doc 1 a e", "doc 2 a e", "doc 3 a e", "setup 2 2", "find a"),
    "equal labels of an addition": (*SETUP, "add 2 da ac", "find a"),
    "equal numbers of a deletion": (KEY, "doc 5 da", "setup 1 1", "del 5", "add 5 da ac", "del 5", "find da"),
    "equal labels of two additions": (KEY, "doc 1 da", "setup 1 1", "add 2 ac", "add 3 da", "find da"),
    "a record of each command": (
        KEY, "doc 5 da b", "doc 258 b", "doc 18446744073709551615", "setup 2 3 4", "add 300 é b", "add 300 x", "del 5", "del 5", "add 5 b a"),
}


def run_and_more(lines):
    return input_of(turn("run x 0 x 0", *lines), turn("more same 0", *FIND))


# Sources and sinks that fail, and replies that are given.


def failing_devices():
    told = (*SETUP, "add 1 b", "add 2 a", "find a")
    for call in range(3):
        yield f"call {call} of the source fails", input_of(turn(f"run x 0 source {call} x 0", *told), turn(f"more same 0 source {call}", *FIND))
    for call in range(5):
        yield f"call {call} of the sink fails", input_of(turn(f"run x 0 sink {call} x 0", *told), turn(f"more same 0 sink {call}", *FIND))
    yield "the line of a stop isn't taken", input_of(
        turn("run x 0 sink 0 x 0", KEY, "find"), turn("run x 0 source 0 sink 0 x 0", *told), turn("more x 0 sink 0", *FIND))


def expects(number):
    return framed(0x81, be(4, number))


def took(*numbers):
    return b"".join(framed(0x82, be(4, number)) for number in numbers)


def page(*identifiers, is_last=1, count=None):
    return framed(0x85, bytes([is_last]), be(2, len(identifiers) if count is None else count), *(be(8, number) for number in identifiers))


SET_UP = expects(0) + took(0, 1, 2)
# what a run of the worked example is answered behind its greeting, and behind its setup; the same of a run that adds in place of searching
TO_A_SETUP = {
    "the acknowledgement of another frame": took(5),
    "a reply without a body": bytes(4),
    "no memory at the server": framed(0x87),
    "a fault of the server's disk": framed(0x88),
    "a clash": framed(0x84, b"\1", be(4, 0)),
    "that another frame is expected": framed(0x83, be(4, 0)),
    "the number to a greeting": expects(0),
}
TO_A_SEARCH = {
    "a page that isn't full and isn't the last": page(1, is_last=0),
    "no list": framed(0x86),
    "a page of an identifier that no document has": page(77),
    "a page that falls": page(9, 3),
    "an empty page": page(),
    "a page that is cut": page(1)[:8],
    "a page of the identifier 0": page(0),
    "a page with another count": page(3, 9, count=1),
    "no memory at the server": framed(0x87),
    "a fault of the server's disk": framed(0x88),
    "a clash": framed(0x84, b"\1", be(4, 5)),
    "a clash of no kind": framed(0x84, b"\4", be(4, 5)),
    "an acknowledgement": took(7),
    "a length alone": be(4, 1),
    "a length that no reply has": be(4, 65541) + b"\x86",
    "no reply": b"",
}
TO_AN_ADDITION = {
    "the acknowledgement": took(3),
    "the acknowledgement of the frame before": took(2),
    "no memory at the server": framed(0x87),
    "a clash of the second label": framed(0x84, b"\2", be(4, 1)),
    "no reply": b"",
}
TO_A_GREETING = {"another number": expects(9), "an acknowledgement": took(0), "no memory at the server": framed(0x87), "no reply": b""}


def replies_given():
    """Behind the replies a client that kept records goes on with a server that took nothing."""
    found, added = (*WORKED, "find a"), (*WORKED, "add 4 a d")
    for to, lines, front, given in (
            ("greeting", found, b"", TO_A_GREETING), ("setup", found, expects(0), TO_A_SETUP), ("search", found, SET_UP, TO_A_SEARCH),
            ("addition", added, SET_UP, TO_AN_ADDITION)):
        for name, last in given.items():
            yield f"to a {to}, {name}", input_of(
                turn(f"run x 0 replies x{(front + last).hex()}", *lines), turn("more same 0", *FIND))


# Files that a client begins on or goes on from.


def setup_record(kind=20, mark=TOY_MARK, words=(b"a",), pad=be(2, 1), sizes=(1, 1), documents=None):
    documents = [record_model.document(1, words)] if documents is None else documents
    return bytes([kind]) + mark + b"".join(be(2, size) for size in sizes) + pad + be(4, len(documents)) + b"".join(documents)


def journal(*payloads):
    return journal_model.file_of(payloads).hex()


RECORD = setup_record(mark=MARK, words=(b"a", b"b"))
ADDITION, DELETION = record_model.ADD + record_model.document(2, [b"a"]), record_model.DELETE + be(8, 1)
RENEWAL = record_model.renewal_record(bytes.fromhex(NEW))
# the same under the toy function
TOY_RENEWAL = record_model.RENEWAL + bytes(range(8, 24))
UPDATED = journal_model.file_of([RECORD, ADDITION])
OLD_RECORD = journal_model.record(b"old")[1:]
FILES = {
    "no byte": b"",
    "eight bytes": journal_model.MAGIC,
    "eight other bytes": b"12345678",
    "no record": journal_model.EMPTY,
    "no record, and bytes behind the end": journal_model.EMPTY + journal_model.record(b"a"),
    "nine other bytes": b"123456789",
    "a record that is cut short": journal_model.file_of([RECORD])[:20],
    "a setup without the next commit byte": journal_model.file_of([RECORD])[:-1],
    "a setup": journal_model.file_of([RECORD]),
    "a setup that has no Q": journal_model.file_of([setup_record(17, MARK, (b"a", b"b"), b"")]),
    "a setup, an addition and a deletion": journal_model.file_of([RECORD, ADDITION, DELETION]),
    "the same, and an addition that wasn't committed": journal_model.file_of([RECORD, ADDITION, DELETION]) + journal_model.record(ADDITION)[1:] + b"\0",
    "a setup under another key": journal_model.file_of([setup_record(mark=bytes(16))]),
    "a setup under another key, and a deletion": journal_model.file_of([setup_record(mark=bytes(16)), DELETION]),
    "a setup and a rebuild": journal_model.file_of([RECORD, RENEWAL]),
    "a setup under another key, and a rebuild under this one": journal_model.file_of([setup_record(mark=bytes(16)), record_model.RENEWAL + MARK]),
    "a rebuild of nothing, and another one": journal_model.file_of([RECORD, DELETION, RENEWAL, record_model.RENEWAL + bytes(16)]),
}
# records that can't stand behind those that can
BAD_RECORDS = {
    "an addition first": [ADDITION],
    "a record of a server": [bytes.fromhex("0200000000000100010000000100000000")],
    "a setup of 65 numbers in a cell": [setup_record(mark=MARK, sizes=(65, 1))],
    "a setup of 257 numbers in a block": [setup_record(mark=MARK, sizes=(1, 257))],
    "a setup whose Q is 3": [setup_record(mark=MARK, pad=be(2, 3))],
    "a setup of one identifier twice": [setup_record(mark=MARK, documents=2 * [record_model.document(1, [])])],
    "a second setup": [RECORD, RECORD],
    "a deletion of an unknown document": [RECORD, record_model.DELETE + be(8, 3)],
    "the same deletion again": [RECORD, DELETION, DELETION],
    "a deletion of the identifier 0": [RECORD, record_model.DELETE + be(8, 0)],
    "an addition of a live document": [RECORD, ADDITION, ADDITION],
    "an addition of a document of the setup": [RECORD, record_model.ADD + record_model.document(1, [b"c"])],
    "an addition of a word twice": [RECORD, record_model.ADD + record_model.document(3, [b"a", b"a"])],
    "an addition of a word without bytes": [RECORD, record_model.ADD + record_model.document(3, [b""])],
    "an addition of a blank": [RECORD, record_model.ADD + record_model.document(3, [b" "])],
    "a record of another kind": [RECORD, b"\x16" + MARK],
    "a rebuild first": [RENEWAL],
    "a rebuild under the key of the setup": [RECORD, record_model.RENEWAL + MARK],
    "a rebuild under one key twice": [RECORD, RENEWAL, ADDITION, RENEWAL],
    "a rebuild with half a mark": [RECORD, RENEWAL[:9]],
    "a rebuild with a byte more": [RECORD, RENEWAL + b"\0"],
    "a rebuild of a list that is too long": [setup_record(mark=MARK), ADDITION, record_model.ADD + record_model.document(3, [b"a"]), RENEWAL],
    "a rebuild, and a deletion of what was no longer live": [RECORD, DELETION, RENEWAL, DELETION],
    "a bad record behind a rebuild under another key": [RECORD, RENEWAL, DELETION, DELETION],
}
# files that a start changes, and one that it leaves, with the calls that it makes
STARTED = {
    "no byte": (b"", 6),
    "eight bytes": (journal_model.MAGIC, 6),
    "seven other bytes": (b"unknown", 6),
    "no record behind a commit byte that is set": (journal_model.MAGIC + b"\1", 6),
    "two records": (UPDATED, 6),
    "two records behind a commit byte that is set": (UPDATED[:-1] + b"\1", 8),
    "two records and an old one": (UPDATED + b"\1" + OLD_RECORD + b"\0", 8),
    "two records and an old one behind another byte": (UPDATED[:-1] + b"\7" + OLD_RECORD + b"\1", 10),
}


def opened_files():
    """A client begins on each file, and goes on from it; of one each call of that fails."""
    for name, file in FILES.items():
        yield f"a file of {name}", input_of(turn(f"run x{file.hex()} 0 x 0", *SETUP), turn(f"more x{file.hex()} 0 x 0", *FIND))
    for name, payloads in BAD_RECORDS.items():
        file = journal_model.file_of(payloads)
        yield f"a file of {name}", input_of(turn(f"run x{file.hex()} 0 x 0", *SETUP), turn(f"more x{file.hex()} 0 x 0", *FIND))
    file = FILES["the same, and an addition that wasn't committed"]
    yield "each call of going on fails", input_of(*(turn(f"more x{file.hex()} {call} x 0", *FIND) for call in range(1, 17)))
    for place, payload in enumerate((RECORD, ADDITION, DELETION)):
        fronts = [payload[:size] for size in range(1, len(payload) + 1)] + [payload + b"\0"]
        yield f"record {place} is cut at each byte", input_of(
            *(turn(f"more x{journal(*[RECORD, ADDITION][:place], front)} 0 x 0", *FIND) for front in fronts))


def failing_starts():
    """A call of a start fails, and a crash leaves each image: the records are the same, or there are none as before."""
    for name, (file, calls) in STARTED.items():
        for call in range(1, calls + 2):
            yield f"call {call} of a start on {name} fails", input_of(
                *(turn(head, *FIND) for image in range(4) for head in (f"more x{file.hex()} {call} x 0", f"more {image} 0")))


def behind_an_old_record():
    """An addition is appended where a record stood that is whole: it never comes back. A start makes eight calls there, reading the
    records four, and an append four."""
    file = UPDATED + OLD_RECORD + b"\1" + journal_model.record(b"x")[1:] + b"\0"
    served = turn("run x 0 x 0", KEY, "doc 1 a b", "setup 1 1", "add 2 a")
    for call in range(13, 18):
        for image in range(4):
            yield f"call {call} of an append behind an old record fails, image {image}", input_of(
                served, turn(f"more x{file.hex()} {call}", KEY, "add 3 a"), turn(f"more {image} 0", *FIND))


def rebuilds():
    """Each call fails within a rebuild, and within the frames that are sent again; what is there says which key it wants. What comes before the
    rebuild takes 14 calls of the client's disk, 16 of the server's and ten of the link."""
    for call in range(10, 19):
        for way in "-+":
            yield f"call {call}{way} of the link fails, within a rebuild", input_of(
                turn(f"run x 0 x 0 {call}{way}", *REBUILT), turn("more same 0", *FIND), turn("more same 0", *FIND_NEW))
    for call in range(3, 10):
        yield f"the link fails within a rebuild, and in call {call} of what resumes it", input_of(
            turn("run x 0 x 0 12-", *REBUILT), turn(f"more same 0 kept 0 {call}+", *FIND_NEW), turn("more same 0", *FIND_NEW, f"rebuild {NEWER}"),
            turn("more same 0", *FIND_NEW), turn("more same 0", *FIND_NEWER))
    for call in range(15, 19):
        for image in range(8):
            yield f"call {call} of the client's disk fails, within a rebuild, image {image}", input_of(
                turn(f"run x {call} x 0", *REBUILT), turn(f"more {image} 0", *FIND), turn("more same 0", *FIND_NEW))
    for call in range(17, 34):
        for image in range(0, 4, 2):
            yield f"call {call} of the server's disk fails, within a rebuild, image {image}", input_of(
                turn(f"run x 0 x {call}", *REBUILT), turn("more same 0", *FIND_NEW), turn(f"more same 0 {image} 0", *FIND_NEW))
    yield "a rebuild at a server that lacks the update before", input_of(
        turn("run x 0 x 0", *ADDED), turn(f"more same 0 x{journal_model.EMPTY.hex()} 0", *REBUILT[:1], f"rebuild {NEW}"))
    yield "a server that lacks frames of the epoch before", input_of(
        turn("run x 0 x 0 8+", *ADDED), turn("more same 0", KEY, f"rebuild {NEW}"), turn(f"more same 0 x{journal_model.EMPTY.hex()} 0", *FIND_NEW))


def real_rows():
    for name, lines in RUNS.items():
        yield name, run_and_more(lines)
    yield from failing_devices()
    yield from replies_given()
    yield from opened_files()
    yield from failing_starts()
    yield from behind_an_old_record()
    yield from rebuilds()
    for call in range(17, 26):
        for image in range(4):
            yield f"call {call} of the server's disk fails behind an addition, image {image}", each_call_of_the_server(
                call, image, (*SETUP, "add 5 a", "del 5", "add 5 c a"))
    yield "nothing fails", behind(turn("run x 0 x 0", *ADDED))
    yield "the acknowledgement of the addition is lost", behind(turn("run x 0 x 0 9+", *ADDED))
    yield "the addition isn't delivered", behind(turn("run x 0 x 0 8-", *ADDED))
    yield "no script, no journal, other words", input_of(
        turn("run x 0 x 0"), turn("run x 0 x 0", KEY, "find"), turn("walk x 0 x 0", *ADDED), turn("more x 0 x 0"), turn("more x 0 x 0", *FIND))
    yield "a refused setup leaves nothing", input_of(
        turn("run x 0 x 0", KEY, *(f"doc {number} a" for number in range(1, 10)), "setup 2 2"), turn("more same 0", *FIND))
    yield "a padded setup, additions and deletions", input_of(
        turn("run x 0 x 0 13+", KEY, "doc 1 a b", "doc 2 a", "setup 2 2 4", "add 3 a", "del 2", "add 2 a c", "find a"),
        turn("more same 0 kept 0", *FIND), turn("more 1 0 1 0", KEY, "find c", "del 3", "find a"))
    yield "a new client where a server took frames", input_of(turn("run x 0 x 0", *ADDED), turn("run x 0", *ADDED), turn("more same 0", *FIND))
    yield "an append is cut at each byte", each_byte()
    for call in range(1, 16):
        for image in range(8):
            yield f"call {call} of the client's disk fails, image {image}", each_call_of_the_client(call, image)
    for call in range(1, 18):
        for image in range(4):
            yield f"call {call} of the server's disk fails, image {image}", each_call_of_the_server(call, image)
    for call in range(11):
        for way in "-+":
            yield f"call {call}{way} of the link fails", each_call_of_the_link(f"{call}{way}")


# Clients that go on, under the toy function, by their records and the numbers that a server expects: of the last four two values of the
# last command are equal.
TOY_RECORD, ADDITION_OF_B = setup_record(words=(b"a", b"b")), record_model.ADD + record_model.document(2, [b"b"])
GONE_ON = {
    "a setup": ([TOY_RECORD], range(5)),
    "an addition": ([TOY_RECORD, ADDITION], range(2, 6)),
    "a deletion": ([TOY_RECORD, ADDITION, DELETION], range(3, 7)),
    "a rebuild": ([TOY_RECORD, DELETION, ADDITION, TOY_RENEWAL], range(4, 10)),
    "a rebuild behind a deletion": ([TOY_RECORD, ADDITION_OF_B, DELETION, TOY_RENEWAL], range(4, 10)),
    "an addition behind a rebuild": ([TOY_RECORD, TOY_RENEWAL, ADDITION], range(5, 8)),
    "a setup with equal labels": ([setup_record(words=(b"da", b"ac"))], range(2, 4)),
    "a setup with equal places": (
        [setup_record(sizes=(2, 2), documents=[record_model.document(number, [b"a", b"e"]) for number in (1, 2, 3)])], range(3, 5)),
    "an addition with equal labels": ([TOY_RECORD, record_model.ADD + record_model.document(2, [b"da", b"ac"])], range(3, 5)),
    "a deletion with equal numbers": (
        [setup_record(documents=[record_model.document(5, [b"da"])]), record_model.DELETE + be(8, 5),
         record_model.ADD + record_model.document(5, [b"da", b"ac"]), record_model.DELETE + be(8, 5)], range(5, 7)),
}


def toy_rows():
    addition, deletion = record_model.ADD + record_model.document(2, [b"a"]), record_model.DELETE + be(8, 1)
    served = turn("run x 0 x 0", *SETUP)
    yield "a journal of 53 bytes, and 80 of the server's", input_of(served, turn("more same 0", *FIND))
    yield "a journal of 51 bytes, without Q", input_of(served, turn(f"more x{journal(setup_record(17, pad=b''))} 0", *FIND))
    yield "a journal whose words have one label", input_of(turn(f"more x{journal(setup_record(words=(b'da', b'ac')))} 0 x 0", KEY))
    for name, lines in TOY_RUNS.items():
        yield name, run_and_more(lines)
    for name, (payloads, numbers) in GONE_ON.items():
        key = f"key {NEW}" if TOY_RENEWAL in payloads else KEY
        yield f"gone on from {name}", input_of(
            *(turn(f"more x{journal(*payloads)} 0 replies x{expects(number).hex()}", key) for number in numbers))
    bad = {
        "a setup under another key": [setup_record(mark=bytes(16))],
        "a setup under another key, and a bad record": [setup_record(mark=bytes(16)), deletion + b"\0"],
        "an addition first": [addition],
        "a second setup": [setup_record(), setup_record()],
        "a deletion of an unknown document": [setup_record(), deletion, deletion],
        "an addition of a live document": [setup_record(), addition, addition],
        "a record with a byte more": [setup_record(), addition + b"\0"],
        "a record of another kind": [setup_record(), b"\x16" + TOY_MARK],
        "a rebuild under the key of the setup": [setup_record(), record_model.RENEWAL + TOY_MARK],
        "a record of a server": [bytes.fromhex("0200000000000100010000000100000000")],
        "a Q that is no power of two": [setup_record(pad=be(2, 3))],
    }
    for name, payloads in bad.items():
        yield name, input_of(served, turn(f"more x{journal(*payloads)} 0", *FIND), turn("run same 0", *ADDED))
    whole = journal_model.file_of([setup_record(), addition])
    for name, content in {
        "no journal": b"123456789",
        "eight bytes": journal_model.MAGIC,
        "a commit byte that isn't 0": whole[:-1] + b"\2",
        "bytes behind the commit byte": whole + bytes(9),
        "a record without the next commit byte": whole[:-1],
        "a length of 0": whole[:-1] + b"\1" + bytes(5),
    }.items():
        yield name, input_of(served, turn(f"more x{content.hex()} 0", *FIND), turn("run same 0", *ADDED))
