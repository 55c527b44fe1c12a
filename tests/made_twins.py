"""Made pairs of scripts with a line `twin` between them, the same for the same seed: a history and another one that was changed step by
step, each step keeping what a server learns, so that both leak the same; or one that was changed once more, so that they don't. Every
third may have rebuilds."""
import random
from dataclasses import dataclass

import leak_model as model
import script_model

WORDS = [word.encode() for word in ("a", "b", "ab", "w0", "w1", "A", "ä", "0", "-", "add", "twin", "鍵")] + [b"x" * 64]
IDENTIFIERS = [1, 2, 3, 4, 5, 7, 9, 255, 256, 2**32, 2**63, 2**64 - 1]
SHAPES = [(1, 1), (1, 2), (2, 1), (2, 2), (3, 2), (4, 4), (64, 1)]
PADS = [1, 1, 2, 4, 8]
STEPS = 60
# refused before a setup, and behind one
REFUSED_BEFORE = [b"find a", b"del 1", b"doc 0 a", b"setup 0 1", b"setup 1 257", b"setup 1 1 3", b"doc 6 a a"]
REFUSED_BEHIND = [b"doc 1 a", b"setup 1 1", b"add 0 a", b"del 11", b"find " + b"x" * 65, b"add 12 b b"]
# the key of the scripts that are only tried
TRIED_KEY = bytes(32)


@dataclass(frozen=True)
class Rebuild:
    """What is live, set up again under another key."""
    key: bytes


def fields(name, *values):
    return b" ".join([name, *(value if isinstance(value, bytes) else b"%d" % value for value in values)])


def lines_of(setup, later):
    """The lines of a history, without its key line."""
    lines = [fields(b"doc", id, *words) for id, words in setup.documents]
    lines.append(fields(b"setup", setup.b, setup.B, *([setup.Q] if setup.Q != 1 else [])))
    for command in later:
        if isinstance(command, model.Add):
            lines.append(fields(b"add", command.id, *command.words))
        elif isinstance(command, model.Delete):
            lines.append(fields(b"del", command.id))
        elif isinstance(command, Rebuild):
            lines.append(key_line(b"rebuild", command.key))
        else:
            lines.append(fields(b"find", command.word))
    return lines


def key_line(name, key):
    return fields(name, key.hex().encode())


def tried(setup, later):
    return b"\n".join([key_line(b"key", TRIED_KEY), *lines_of(setup, later)])


def leak_of(setup, later):
    """What a history leaks, whatever its keys are."""
    return model.leak(model.history_in(tried(setup, later)))


def is_history(setup, later):
    """Whether no line of it is refused."""
    return script_model.answer(tried(setup, later))[1] == 0


def some(draw, items, most):
    return tuple(draw.sample(items, draw.randint(0, min(most, len(items)))))


def made_command(draw, words, ids, rebuilds=0.0):
    if draw.random() < rebuilds:
        return Rebuild(draw.randbytes(32))
    way = draw.random()
    if way < 0.4:
        return model.Search(draw.choice(words))
    return model.Delete(draw.choice(ids)) if way < 0.6 else model.Add(draw.choice(ids), some(draw, words, 4))


def made_history(draw):
    words, ids = draw.sample(WORDS, draw.randint(2, 6)), draw.sample(IDENTIFIERS, draw.randint(2, 9))
    while True:
        documents = tuple((id, some(draw, words, 4)) for id in some(draw, ids, 8))
        setup = model.Setup(documents, *draw.choice(SHAPES), draw.choice(PADS))
        if is_history(setup, []):
            break
    later, rebuilds = [], draw.choice([0.0, 0.0, 0.25])
    for _ in range(draw.choice([0, 3, 8, 14])):
        command = made_command(draw, words, ids, rebuilds)
        if is_history(setup, [*later, command]):
            later.append(command)
    return setup, later


def renamed(commands, word, number):
    """These commands with other words and other identifiers; rebuilds keep their keys."""
    found = []
    for command in commands:
        if isinstance(command, model.Add):
            command = model.Add(number(command.id), tuple(map(word, command.words)))
        elif isinstance(command, model.Delete):
            command = model.Delete(number(command.id))
        elif isinstance(command, model.Search):
            command = model.Search(word(command.word))
        found.append(command)
    return found


def exchanged(one, other):
    return {one: other, other: one}


def changed(draw, setup, later):
    """Another history: words or identifiers that change places from some command on, another document, another Q, or other keys."""
    documents, way = list(setup.documents), draw.randrange(7)
    words, ids, start = {}, {}, draw.randrange(len(later) + 1)
    if way == 0:
        words = exchanged(*draw.sample(WORDS, 2))
    elif way == 1:
        ids = exchanged(*draw.sample(IDENTIFIERS, 2))
    elif way == 2 and documents:
        del documents[draw.randrange(len(documents))]
    elif way == 3:
        documents.insert(draw.randint(0, len(documents)), (draw.choice(IDENTIFIERS), some(draw, WORDS, 3)))
    elif way == 4 and documents:
        at = draw.randrange(len(documents))
        documents[at] = (draw.choice([documents[at][0], draw.choice(IDENTIFIERS)]), some(draw, WORDS, 4))
    elif way == 5:
        draw.shuffle(documents)
    else:
        later = [Rebuild(draw.randbytes(32)) if isinstance(command, Rebuild) else command for command in later]
    if way < 2 and draw.random() < 0.5:
        start = 0
        documents = [(ids.get(id, id), tuple(words.get(word, word) for word in own)) for id, own in documents]
    Q = draw.choice(PADS) if draw.random() < 0.3 else setup.Q
    behind = renamed(later[start:], lambda word: words.get(word, word), lambda id: ids.get(id, id))
    return model.Setup(tuple(documents), setup.b, setup.B, Q), later[:start] + behind


def same_looking(draw, setup, later):
    """A history that leaks what this one does."""
    wanted, now = leak_of(setup, later), (setup, later)
    for _ in range(STEPS):
        new = changed(draw, *now)
        if is_history(*new) and leak_of(*new) == wanted:
            now = new
    return now


def other_looking(draw, setup, later):
    """One that doesn't: a command is left out, put in or replaced, or the setup is another one."""
    while True:
        now, command = list(later), made_command(draw, WORDS[:6], IDENTIFIERS[:6], 0.1)
        at, way, start = draw.randint(0, len(now)), draw.randrange(4), setup
        if way == 0 and at < len(now):
            del now[at]
        elif way == 1:
            now.insert(at, command)
        elif way == 2 and at < len(now):
            now[at] = command
        elif way == 3:
            start, now = changed(draw, setup, later)
        if is_history(start, now) and leak_of(start, now) != leak_of(setup, later):
            return start, now


def script_of(draw, setup, later, is_spoilt):
    """The lines of a script of this history, with some that are refused where it is spoilt."""
    lines, is_set_up = [b""] * draw.choice([0, 0, 1]) + [key_line(b"key", draw.randbytes(32))], False
    for line in lines_of(setup, later):
        if is_spoilt and draw.random() < 0.3:
            lines.append(draw.choice(REFUSED_BEHIND if is_set_up else REFUSED_BEFORE))
        is_set_up = is_set_up or line.startswith(b"setup")
        lines.append(b"  " + line.replace(b" ", b"   ") if draw.random() < 0.05 else line)
    return lines


def made_twin(seed, differs=False):
    """The bytes of two scripts with a line `twin` between them; every fourth has refused lines."""
    draw = random.Random(f"{seed} {differs}")
    history = made_history(draw)
    other = same_looking(draw, *history)
    if differs:
        other = other_looking(draw, *other)
    is_spoilt = draw.random() < 0.25
    lines = script_of(draw, *history, is_spoilt)
    lines.append(draw.choice([b"twin", b"twin", b"twin", b"   twin "]))
    return b"\n".join(lines + script_of(draw, *other, is_spoilt)) + b"\n" * draw.choice([0, 1, 1])
