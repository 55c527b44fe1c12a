"""A plain model of `duel SEED N` (docs/FORMATS.md, "A duel"): the commands and the bytes that its line counts, and the status.

A choice depends on the last reply alone, and a text's length on nothing that is encrypted. So `counted` needs no key: it knows how long each
frame is and which reply follows. `played` is slow and knows everything: it makes all that passes by the model of what a server learns
(tests/leak_model.py), for both sides under the left one's key, and tests at each turn that they leak the same."""
import re

import leak_model

TURNS, SEEDS = 1000, 10**6
NUMBER = re.compile(r"0|[1-9][0-9]*")
COMMON, LEFT, RIGHT = b"s", b"l", b"r"
FIRST_ADDED = 101
SETUP_DOCUMENTS = range(1, 5)


def choice(seed, turn, last, live):
    """What both sides do at a turn after the setup, if these identifiers are live: `find`, or `add` or `del` with an identifier."""
    x = (seed + turn + sum(last)) % 3
    added = [id for id in live if id >= FIRST_ADDED]
    if x == 1:
        return "add", FIRST_ADDED - 1 + turn
    if x == 2 and added:
        return "del", min(added)
    return "find", None


# By lengths.

HELLO = 5
# its begin, its two entries of a label and a cell, and its end; there is no block
SETUP_FRAMES = (4 + 17, 4 + 7 + 2 * (16 + 33) + 2, 4 + 5)
# five keys of 32 bytes; two entries of a label and an identifier, and no number; two numbers
SEARCH, ADDITION, DELETION = 4 + 1 + 160, 4 + 9 + 2 * 24, 4 + 7 + 2 * 16


def took(number):
    return leak_model.framed(0x82, leak_model.be(4, number))


def found(live):
    return leak_model.framed(0x85, b"\x01", leak_model.be(2, len(live)), *(leak_model.be(8, id) for id in live))


def counted(seed, turns):
    """How many commands the duel has, and how many bytes."""
    live, update = list(SETUP_DOCUMENTS), len(SETUP_FRAMES)
    last = took(update - 1)
    size = HELLO + sum(SETUP_FRAMES) + len(last) * (1 + update)
    for turn in range(1, turns + 1):
        what, id = choice(seed, turn, last, live)
        if what == "find":
            size, last = size + SEARCH, found(live)
        else:
            size, last, update = size + (ADDITION if what == "add" else DELETION), took(update), update + 1
            live = [*live, id] if what == "add" else [other for other in live if other != id]
        size += len(last)
    return 1 + turns, size


# By definitions.


class SidesDiffer(Exception):
    """The two sides leak something else."""


def command(what, id, own):
    """What a choice is on the side with this word."""
    if what == "find":
        return leak_model.Search(COMMON)
    return leak_model.Add(id, (COMMON, own)) if what == "add" else leak_model.Delete(id)


def history(key, own, choices):
    setup = leak_model.Setup(tuple((id, (COMMON, own)) for id in SETUP_DOCUMENTS), 4, 4)
    return [leak_model.Epoch(key, setup, tuple(command(*chosen, own) for chosen in choices))]


def texts(key, choices):
    """All that passes for the left side."""
    left, right = (history(key, own, choices) for own in (LEFT, RIGHT))
    if leak_model.leak(left) != leak_model.leak(right):
        raise SidesDiffer
    return [text for _, text in leak_model.simulated(leak_model.leak(left), leak_model.draws(left))]


def played(seed, turns):
    """The same counts."""
    key, choices = leak_model.be(32, seed), []
    seen = texts(key, choices)
    for turn in range(1, turns + 1):
        live = [id for id, _ in leak_model.live(history(key, LEFT, choices)[0].setup, history(key, LEFT, choices)[0].later)]
        choices.append(choice(seed, turn, seen[-1], live))
        seen = texts(key, choices)
    return 1 + len(choices), sum(map(len, seen))


# The program.


def number_in(word, limit):
    return int(word) if NUMBER.fullmatch(word) and len(word) <= 10 and int(word) < limit else None


def answer(words):
    """What the program prints if it is given these words, and its status."""
    numbers = [number_in(word, limit) for word, limit in zip(words[1:], (SEEDS, TURNS + 1))]
    if len(words) != 3 or words[0] != "duel" or None in numbers:
        return b"stopped: words\n", 2
    return "duel: {} commands, {} bytes\n".format(*counted(*numbers)).encode(), 0
