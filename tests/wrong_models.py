"""Models that are wrong in one place, each a part of a module or a class replaced by another one. What tests/fuzz compares with such a
model must be found to differ; otherwise it compares nothing."""
import contextlib
import re

import record_model
import reply_model
import script_model
import server_model
from leak_model import framed
from server_model import Fields, Server

take, clashes, refusal, is_in_place = Server.take, Server.clashes, Server.refusal, Server.is_in_place
bad_byte_in, carry_out, stop_by = script_model.bad_byte_in, script_model.Store.carry_out, reply_model.stop_by


def take_without_revoking_again(self, frame):
    revoked = set(self.revoked)
    take(self, frame)
    if frame["kind"] == 6:
        self.revoked = revoked


def clashes_of_numbers_first(self, frame):
    return iter(sorted(clashes(self, frame), reverse=True))


def refusal_by_place_first(self, frame):
    return framed(0x8A) if frame["kind"] > 1 and not self.is_in_place(frame) else refusal(self, frame)


def is_in_place_of_any_size(self, frame):
    if frame["kind"] == 3:
        return self.stage == 1 and not self.array and len(self.lists) + len(frame["entries"]) <= self.words
    return is_in_place(self, frame)


def leading_before_a_hole(numbers):
    return numbers[:numbers.index(0)] if 0 in numbers else numbers


def rising_or_equal(self, count, size):
    items = []
    for _ in range(count):
        item = self.take(16)
        if items and item < items[-1][0]:
            raise server_model.BadFrame(server_model.BAD_BODY)
        items.append((item, self.take(size)))
    return items


def carry_out_deletions_of_nothing(self, name, numbers, words):
    return None if name == "del" and numbers[0] not in self.live else carry_out(self, name, numbers, words)


def page_of_anything(reply, is_first):
    return reply[5:6] == b"\1", server_model.numbers_in(reply[8:])


def stop_by_a_store_fault(reply):
    return reply_model.Stop("disk", 6) if reply[4:] == b"\x88" else stop_by(reply)


# the kind of input, what is wrong, where, and the wrong part
WRONG = [
    ("frames", "an addition leaves its numbers revoked", Server, "take", take_without_revoking_again),
    ("frames", "numbers are compared before entries", Server, "clashes", clashes_of_numbers_first),
    ("frames", "the place is tested before the number", Server, "refusal", refusal_by_place_first),
    ("frames", "cells have any size", Server, "is_in_place", is_in_place_of_any_size),
    ("frames", "a list ends at a hole", server_model, "leading", leading_before_a_hole),
    ("frames", "labels may be equal", Fields, "rising", rising_or_equal),
    ("frames", "bytes may follow the last field", Fields, "end", lambda self: None),
    ("frames", "update frames have one number more", server_model, "MOST_NUMBER", 2**32 - 1),
    ("journals", "a server takes each record", Server, "refusal", lambda self, frame: None),
    ("journals", "no setup lacks Q", record_model, "OLD_SETUP", b"\x15"),
    ("journals", "each key is another one", record_model, "mark_of", lambda key: b""),
    ("journals", "a missing document is deleted", script_model.Store, "carry_out", carry_out_deletions_of_nothing),
    ("replies", "a page may hold anything", reply_model, "page_in", page_of_anything),
    ("replies", "a store fault is the client's disk", reply_model, "stop_by", stop_by_a_store_fault),
    ("replies", "replies are longer", reply_model, "MOST_REPLY", 2**20),
    ("scripts", "Q is up to 8,192", script_model, "PADS", [2**k for k in range(14)]),
    ("scripts", "b is up to 65", script_model, "CELL_NUMBERS", 65),
    ("scripts", "a word has 65 bytes", script_model, "WORD_BYTES", 65),
    ("scripts", "words have the byte 7f", script_model, "bad_byte_in", lambda word: bad_byte_in(word.replace(b"\x7f", b"a"))),
    ("scripts", "numbers begin with zeros", script_model, "NUMBER", re.compile(rb"[0-9]{1,20}")),
]


@contextlib.contextmanager
def instead(holder, name, part):
    """The part of a module or a class, as long as the block lasts."""
    kept = getattr(holder, name)
    setattr(holder, name, part)
    try:
        yield
    finally:
        setattr(holder, name, kept)
