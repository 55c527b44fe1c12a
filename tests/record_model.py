"""The records of a client's journal as a plain model, by docs/FORMATS.md: one of the setup, then one of each addition, deletion and renewal of
the key; and what a run that resumes makes of records."""
from dataclasses import dataclass, replace

import leak_model
import script_model
from leak_model import be

MARK = 7
SETUP, ADD, DELETE, RENEWAL = b"\x14", b"\x12", b"\x13", b"\x15"
# the setup of an earlier format, whose Q is 1
OLD_SETUP = b"\x11"


class BadRecord(Exception):
    """Bytes that are no record."""


def mark_of(key):
    return leak_model.word_key(key, MARK, leak_model.NO_WORD)[:16]


def document(identifier, words):
    return be(8, identifier) + be(2, len(words)) + b"".join(be(1, len(word)) + word for word in words)


def setup_record(key, s):
    documents = b"".join(document(*given) for given in s.documents)
    return SETUP + mark_of(key) + be(2, s.b) + be(2, s.B) + be(2, s.Q) + be(4, len(s.documents)) + documents


def update_record(command):
    if isinstance(command, leak_model.Add):
        return ADD + document(command.id, command.words)
    return DELETE + be(8, command.id)


def renewal_record(key):
    return RENEWAL + mark_of(key)


def record_of(key, what):
    """The record of what a line brings that is no search; the first epoch's key stands in that of a setup."""
    if isinstance(what, leak_model.Setup):
        return setup_record(key, what)
    return renewal_record(what.key) if isinstance(what, leak_model.Renewal) else update_record(what)


def records(script):
    """The payloads of a client's journal behind a run of the script; searches leave none."""
    payloads = []
    for epoch in leak_model.history_in(script):
        payloads.append(renewal_record(epoch.key) if payloads else setup_record(epoch.key, epoch.setup))
        payloads += [update_record(command) for command in epoch.later if not isinstance(command, leak_model.Search)]
    return payloads


class Reader:
    """The fields of a record, from left to right."""

    def __init__(self, payload):
        self.payload, self.at = payload, 0

    def take(self, size):
        piece = self.payload[self.at:self.at + size]
        if len(piece) < size:
            raise BadRecord
        self.at += size
        return piece

    def number(self, size):
        return int.from_bytes(self.take(size), "big")

    def document(self):
        identifier, count = self.number(8), self.number(2)
        words = [self.take(self.number(1)) for _ in range(count)]
        if b"" in words:
            raise BadRecord
        return identifier, words


def commands_in(payload):
    """The mark in a record, which only setups and renewals have, and the lines of a script that say the same, in their parts; a renewal's
    has the mark in place of the key."""
    fields, mark = Reader(payload), None
    kind = fields.take(1)
    if kind in (SETUP, OLD_SETUP):
        mark = fields.take(16)
        sizes = [fields.number(2) for _ in range(2 if kind == OLD_SETUP else 3)]
        documents = [fields.document() for _ in range(fields.number(4))]
        commands = [("doc", [identifier], words) for identifier, words in documents] + [("setup", sizes, [])]
    elif kind == ADD:
        identifier, words = fields.document()
        commands = [("add", [identifier], words)]
    elif kind == DELETE:
        commands = [("del", [fields.number(8)], [])]
    elif kind == RENEWAL:
        mark = fields.take(16)
        commands = [("rebuild", [], [mark])]
    else:
        raise BadRecord
    if fields.at != len(payload):
        raise BadRecord
    return mark, commands


def frames_of_setup(s):
    """How many frames a setup has that was accepted: its begin and its end, and the parts between."""
    words, blocks = leak_model.padded_counts(s)
    return 2 + -(-words // leak_model.DICT_ENTRIES) + -(-blocks // leak_model.ARRAY_BLOCKS)


@dataclass
class Found:
    """What the records of a journal come to: the numbers between which the update is that the server expects, the documents with the marks
    of all epochs in place of keys, the last epoch, and how many update frames there were before it."""
    low: int
    high: int
    store: script_model.Store
    epoch: leak_model.Epoch
    before: int


def gone_on(key, payloads):
    """What a run under a key makes of the records of a journal, of which there are some; or, as a text, why it stops."""
    store, epochs, mark = script_model.Store(), [], None
    low = high = before = 0
    for number, payload in enumerate(payloads):
        try:
            own, commands = commands_in(payload)
            if (commands[-1][0] == "setup") != (number == 0):
                raise BadRecord
            for command in commands:
                store.carry_out(*command)
        except (BadRecord, script_model.Refused):
            return f"record {number}"
        (what,) = leak_model.brought(store, *commands[-1])
        epochs, low, frames = leak_model.longer(epochs, key, what), high, 1
        if own is not None:
            mark, before, frames = own, high, frames_of_setup(epochs[-1].setup)
            store.keys = [*store.keys, mark] if number == 0 else store.keys
        high += frames
    if mark != mark_of(key):
        return "key"
    return Found(low, high, store, replace(epochs[-1], key=key), before)
