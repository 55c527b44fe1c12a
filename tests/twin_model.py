"""Whether two histories look the same to a server, as a plain model: the table of the first one's values, moved epoch by epoch so that it
gives the second the same bytes, and what is printed of two scripts with a line `twin` between them. docs/FORMATS.md has the lines, and
docs/LEAKAGE.md says in words what a moved table is.
"""
from dataclasses import dataclass

import leak_model as model
import script_model

# The names of an epoch, each by its part of a word's keys, its word and its number.

TOKEN = 0


@dataclass(frozen=True)
class Name:
    part: int
    word: bytes
    number: int


def pairs_of(label, pad, text):
    """A label or a tag, and then the pad that covers a text."""
    return [(label, None), (pad, text)]


def uses_of_setup(s, ranks):
    """What a setup draws, where its blocks have these places in the array."""
    words, counts = model.setup_words(s), model.padded_counts(s)
    entries, blocks = [], []
    for word in words:
        own = [ranks[word, i] for i in range(model.word_blocks(s, word))]
        cell, texts = model.laid(model.setup_list(s, word), s.b, s.B, own)
        entries += pairs_of(Name(model.LIST_LABEL, word, 0), Name(model.LIST_PAD, word, 0), cell)
        for i, text in enumerate(texts):
            blocks += pairs_of(Name(model.TAG, word, i), Name(model.LIST_PAD, word, i + 1), text)
    for i in range(counts[0] - len(words)):
        entries += pairs_of(Name(model.DUMMY, model.NO_WORD, i), Name(model.DUMMY_PAD, model.NO_WORD, i), bytes(1 + 8 * s.b))
    dummies = sorted(j for word, j in ranks if word == model.NO_WORD)
    for j in dummies:
        blocks += pairs_of(Name(model.DUMMY, model.NO_WORD, j), Name(model.DUMMY_PAD, model.NO_WORD, j), bytes(8 * s.B))
    return entries + blocks


def uses_by(s, past, command):
    """What a command draws."""
    if isinstance(command, model.Search):
        return [(Name(TOKEN, command.word, 0), None)] if model.first_search(past, command.word) is None else []
    found = []
    for word in model.words_of(s, past, command):
        if isinstance(command, model.Delete):
            if model.number_origin(s, past, word, command.id) is None:
                found.append((Name(model.NUMBER, word, command.id), None))
        elif not model.is_listed(s, past, word, command.id):
            count = len(model.added_list(s, past, word))
            found += pairs_of(Name(model.ADDED_LABEL, word, count), Name(model.ADDED_PAD, word, count), model.be(8, command.id))
    return found


def looked_up_by(s, past, command):
    """What a server looks up for a search: the list's label, those of additions up to the one that is missing, and the number of each
    pair that is listed."""
    if not isinstance(command, model.Search):
        return []
    word = command.word
    names = [Name(model.LIST_LABEL, word, 0)]
    names += [Name(model.ADDED_LABEL, word, c) for c in range(len(model.added_list(s, past, word)) + 1)]
    names += [Name(model.NUMBER, word, id) for id, _ in model.listed_pairs(s, past, word)]
    return [(name, None) for name in names]


def uses(s, later, ranks):
    """All that is drawn for an epoch, then all that is looked up for it, each with the text that it covers where it is a pad."""
    found = uses_of_setup(s, ranks)
    for way in (uses_by, looked_up_by):
        found += [use for part in model.over(lambda past, command, way=way: way(s, past, command), later) for use in part]
    return found


def value_of(key, name, text):
    """The value of a name under a key; a pad is as long as the text that it covers."""
    if name.part == TOKEN:
        return b"".join(model.word_key(key, part, name.word) for part in model.TOKEN_PARTS)
    if text is not None:
        return model.pad(key, name.part, name.word, name.number, len(text))
    return model.value(key, name.part, name.word, name.number)


def xored(one, other):
    return bytes(a ^ b for a, b in zip(one, other, strict=True))


def shifted(value, text, other):
    """A pad that covers the other text by the same bytes."""
    return value if text is None else xored(xored(value, text), other)


def ranks_by_place(tags, blocks):
    """The places in the array of another setup's blocks, which get these tags one by one."""
    ranks = model.ranks_of(tags)
    return dict(zip(blocks, (ranks[block] for block in tags)))


def moved_epoch(own, other):
    """The values of the names of an epoch, in the order of their first places, moved from those of another one that leaks the same."""
    tags = model.block_tags(own.key, own.setup)
    first = uses(own.setup, own.later, model.ranks_of(tags))
    second = uses(other.setup, other.later, ranks_by_place(tags, model.block_tags(own.key, other.setup)))
    values = {}
    for (name, text), (moved_to, covered) in zip(first, second, strict=True):
        values.setdefault(moved_to, shifted(value_of(own.key, name, text), text, covered))
    return values


def moved(history, other):
    """The values of the names of the other history's epochs, moved from those of the first; or, as a number, the first command at which the
    two leak something else."""
    leaks, others = model.leak(history), model.leak(other)
    if leaks != others:
        shared = min(len(leaks), len(others))
        return next((k for k in range(shared) if leaks[k] != others[k]), shared)
    return [moved_epoch(own, beside) for own, beside in zip(history, other, strict=True)]


def sum_of(values):
    """The sum of the bytes of values, epoch by epoch."""
    return sum(sum(value) for of_epoch in values for value in of_epoch.values()) % 2**64


def sent(history):
    """The frames that are sent for a history."""
    return [text for way, text in model.simulated(model.leak(history), model.draws(history)) if way == model.SENT]


def sums(history, other):
    """How many frames are sent for the first history, how many bytes these have, and the sum of the bytes of the moved values."""
    values, frames = moved(history, other), sent(history)
    return values if isinstance(values, int) else (len(frames), sum(map(len, frames)), sum_of(values))


# Two scripts.


def is_twin(line):
    return len(line) <= script_model.LINE_BYTES and [field for field in line.split(b" ") if field] == [b"twin"]


def part_answer(lines, first, compares_keys=True):
    """The refusals of the lines of a script, of which the first has this number; the number of its bad line, which is that behind the
    last where there is no setup, or None; and its history."""
    script = b"".join(line + b"\n" for line in lines)
    printed, status = script_model.answer(script, compares_keys)
    told = printed.decode().splitlines()
    refusals = [line for line in told if line.startswith("refused: ")]
    history = model.history_in(script, compares_keys)
    bad = None
    if status == 2:
        bad = first - 1 + int(told[-1].rpartition(" ")[2])
    elif not history:
        bad = first + len(lines)
    return refusals, bad, history


def answer(script):
    """What the program prints of two scripts, and its status. The keys of the second one's epochs give no value, so none is refused."""
    lines = script_model.lines_of(script)
    at = next((k for k, line in enumerate(lines) if is_twin(line)), None)
    told, bad, history = part_answer(lines[:at], 1)
    if bad is None and at is None:
        bad = len(lines) + 1
    if bad is None:
        more, bad, other = part_answer(lines[at + 1:], at + 2, compares_keys=False)
        told += more
    status = 2
    if bad is not None:
        told.append(f"stopped: line {bad}")
    else:
        counted = sums(history, other)
        differ = isinstance(counted, int)
        status = 1 if told or differ else 0
        told.append(f"refused: leaks differ at command {counted}" if differ else
                    "twin: equal, {} frames, {} bytes, moved {}".format(*counted))
    return "".join(line + "\n" for line in told).encode(), status
