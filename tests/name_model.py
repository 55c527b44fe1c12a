"""What the program tool_leak_bytes prints of a history or of two, as a plain model: what each epoch has, which names its values have, in
which order they are drawn and looked up, and these values, own or moved. crates/tool_leak_bytes/src/main.rt has the lines in words."""
import leak_model as model
import twin_model as twin

KINDS = {
    twin.TOKEN: "Token", model.LIST_LABEL: "ListLabel", model.LIST_PAD: "ListPad", model.ADDED_LABEL: "PlusLabel",
    model.ADDED_PAD: "PlusPad", model.NUMBER: "Revocation", model.TAG: "PlaceTag",
}
# those of dummies: of an entry, and of a block, whose numbers lie behind those of all entries
DUMMY_KINDS = {model.DUMMY: ("DummyLabel", "DummyTag"), model.DUMMY_PAD: ("DummyCell", "DummyBlock")}


# What an epoch has.


def digits(words):
    return "".join(" " + word.hex() for word in words)


def documents_line(s):
    return "documents" + "".join(f" {id}{digits(words)};" for id, words in s.documents)


def command_text(command):
    if isinstance(command, model.Add):
        return f"add {command.id}{digits(command.words)}"
    if isinstance(command, model.Delete):
        return f"del {command.id}"
    return "find" + digits([command.word])


def commands_line(later):
    return "commands" + "".join(f" {command_text(command)};" for command in later)


# Its names.


def named(s, later):
    """The words that an epoch names, as often as it does, from the setup's on."""
    yield from model.setup_words(s)
    for command in later:
        if isinstance(command, model.Add):
            yield from command.words
        elif isinstance(command, model.Search):
            yield command.word


def word_numbers(s, later):
    """The number of each word of an epoch: its place among the different ones, by first appearance."""
    return {word: number for number, word in enumerate(dict.fromkeys(named(s, later)))}


def name_text(name, epoch, numbers):
    """A name of the epoch of this number, whose words have these numbers."""
    if name.word == model.NO_WORD:
        of_block, number = divmod(name.number, model.FIRST_DUMMY_BLOCK)
        return f"{epoch}/{DUMMY_KINDS[name.part][of_block]}/-/{number}"
    return f"{epoch}/{KINDS[name.part]}/{numbers[name.word]}/{name.number}"


def drawing_texts(uses, *names):
    """What values are drawn for: a pad stands with the label or the tag before it."""
    texts = []
    for name, text in uses:
        if text is None:
            texts.append(name_text(name, *names))
        else:
            texts[-1] += "+" + name_text(name, *names)
    return texts


def uses_lines(s, later, ranks, first, *names):
    """Three lines for each command, the setup having the number `first`: what its values are drawn for, the names of these, and those that
    are looked up for it."""
    drawn = [twin.uses_of_setup(s, ranks), *model.over(lambda past, command: twin.uses_by(s, past, command), later)]
    probed = [[], *model.over(lambda past, command: twin.looked_up_by(s, past, command), later)]
    for what, parts in (
            ("drawings", [drawing_texts(uses, *names) for uses in drawn]),
            ("drawn", [[name_text(name, *names) for name, _ in uses] for uses in drawn]),
            ("probed", [[name_text(name, *names) for name, _ in uses] for uses in probed])):
        for command, texts in enumerate(parts, first):
            yield " ".join([str(command), what, *texts])


def own_values(epoch):
    """The values of the names of an epoch under its key, in the order of their first places."""
    values = {}
    for name, text in twin.uses(epoch.setup, epoch.later, model.ranks_of(model.block_tags(epoch.key, epoch.setup))):
        values.setdefault(name, twin.value_of(epoch.key, name, text))
    return values


def value_lines(values, *names):
    return [f"{name_text(name, *names)}={value.hex()}" for name, value in values.items()]


def all_value_lines(history, values):
    """The names of a history with these values, those of each epoch."""
    return [line for number, (epoch, own) in enumerate(zip(history, values, strict=True))
            for line in value_lines(own, number, word_numbers(epoch.setup, epoch.later))]


# A history.


def draw_text(draw):
    if isinstance(draw, model.EntryDraw):
        return f"{draw.label.hex()}:{draw.text.hex()}"
    if isinstance(draw, model.BlockDraw):
        return f"{draw.tag.hex()}:{draw.text.hex()}"
    return draw.number.hex() if isinstance(draw, model.NumberDraw) else draw.token.hex()


def leaked_lines(history):
    """What each command leaks and draws, and all that the simulator makes of these."""
    leaks, drawn = model.leak(history), model.draws(history)
    for line, own in zip(model.leak_lines(leaks), drawn):
        yield line
        yield " ".join(["draws", *map(draw_text, own)])
    for way, text in model.simulated(leaks, drawn):
        yield f"{way} {text.hex()}"


def has_lines(history):
    """What each epoch has."""
    return [line for epoch in history for line in (documents_line(epoch.setup), commands_line(epoch.later))]


def all_uses_lines(history):
    """Which names the values of a history have, by command; the commands are numbered through all epochs."""
    lines, first = [], 0
    for number, epoch in enumerate(history):
        ranks = model.ranks_of(model.block_tags(epoch.key, epoch.setup))
        lines += uses_lines(epoch.setup, epoch.later, ranks, first, number, word_numbers(epoch.setup, epoch.later))
        first += 1 + len(epoch.later)
    return lines


def names_and_values(history):
    """Which names the values of a history have, and these values."""
    return [*all_uses_lines(history), *all_value_lines(history, map(own_values, history))]


def named_lines(history):
    """All but the leakage and the draws."""
    return [*has_lines(history), *names_and_values(history)]


def history_lines(history):
    return [*has_lines(history), *leaked_lines(history), *names_and_values(history)]


# Two histories.


def counted(what, history, values):
    """How many frames are sent for a history, how many bytes these have, and the sum of these values."""
    frames = twin.sent(history)
    return f"{what} {len(frames)} {sum(map(len, frames))} {twin.sum_of(values)}"


def pair_lines(history, other):
    """What is counted of the first, and the values that are moved to the second, which sends as many frames and bytes then."""
    lines = [counted("own", history, list(map(own_values, history)))]
    values = twin.moved(history, other)
    if isinstance(values, int):
        return [*lines, f"differ {values}"]
    return [*lines, counted("moved", history, values), *all_value_lines(other, values)]


# Scripts.


def answer(script):
    """What the program prints of a script, or of two with a line `twin` between them."""
    lines = model.script_model.lines_of(script)
    at = next((k for k, line in enumerate(lines) if twin.is_twin(line)), None)
    _, bad, history = twin.part_answer(lines[:at], 1)
    if at is None:
        return [] if bad is not None else history_lines(history)
    _, bad_behind, other = twin.part_answer(lines[at + 1:], at + 2, compares_keys=False)
    return [] if bad is not None or bad_behind is not None else pair_lines(history, other)
