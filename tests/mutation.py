"""Mutation of real inputs: each is a real one with a few changes, the same for the same draw."""

BOUNDS = [0, 1, 2, 0x7F, 0x80, 0xFF]
# numbers at the borders of what scripts and frames have of them
NUMBERS = sorted({near for power in (0, 1, 6, 8, 10, 12, 13, 16, 18, 19, 20, 28, 31, 32, 63, 64)
                  for near in (2**power - 1, 2**power, 2**power + 1)})
# no input gets longer than this
MOST = 20_000


def flip(draw, text, _):
    at = draw.randrange(len(text))
    return text[:at] + bytes([text[at] ^ 1 << draw.randrange(8)]) + text[at + 1:]


def put_byte(draw, text, _):
    at = draw.randrange(len(text))
    return text[:at] + bytes([draw.choice(BOUNDS + [draw.randrange(256)])]) + text[at + 1:]


def piece(draw, text):
    begin = draw.randrange(len(text))
    return begin, min(len(text), begin + draw.choice([1, 1, 2, 4, 8, 16, draw.randint(1, len(text))]))


def cut_out(draw, text, _):
    begin, end = piece(draw, text)
    return text[:begin] + text[end:]


def cut_off(draw, text, _):
    return text[:draw.randrange(len(text))]


def double(draw, text, _):
    begin, end = piece(draw, text)
    return text[:end] + text[begin:end] + text[end:]


def swap(draw, text, _):
    first, second = sorted([piece(draw, text), piece(draw, text)])
    if first[1] > second[0]:
        return text
    return text[:first[0]] + text[second[0]:second[1]] + text[first[1]:second[0]] + text[first[0]:first[1]] + text[second[1]:]


def put_in(draw, text, _):
    at = draw.randint(0, len(text))
    return text[:at] + bytes(draw.choices(range(256), k=draw.choice([1, 2, 4, 8, 17]))) + text[at:]


def put_number(draw, text, _):
    """A number of 1 to 8 bytes, most significant first, at its border."""
    size = draw.choice([1, 2, 4, 8])
    at = draw.randrange(len(text))
    return text[:at] + (draw.choice(NUMBERS) % 256**size).to_bytes(size, "big") + text[at + size:]


def splice(draw, text, others):
    other = draw.choice(others)
    return text[:draw.randint(0, len(text))] + other[draw.randint(0, len(other)):]


WAYS = [flip, flip, put_byte, cut_out, cut_off, double, swap, put_in, put_number, put_number, splice]


def mutated(draw, text, others, ways=tuple(WAYS)):
    """A text with one to four changes, where it may be joined with others."""
    for _ in range(draw.choice([1, 1, 2, 3, 4])):
        if text:
            text = draw.choice(ways)(draw, text, others)
    return text[:MOST]


# Of texts of lines.


def fields_of(text):
    return [line.split(b" ") for line in text.split(b"\n")]


def lines_of(fields):
    return b"\n".join(b" ".join(line) for line in fields)


def put_decimal(draw, text, _):
    """A field that is a decimal number, or any, is another number."""
    lines = fields_of(text)
    numbers = [(line, place) for line in lines for place, field in enumerate(line) if field.isdigit()]
    line, place = draw.choice(numbers) if numbers else (lines[0], 0)
    line[place] = draw.choice([b"%d" % draw.choice(NUMBERS), *3 * [b"%d" % draw.randint(1, 9)], b"0%d" % draw.choice(NUMBERS)])
    return lines_of(lines)


def move_line(draw, text, _):
    """A line stands at another place, the first one at times."""
    lines = text.split(b"\n")
    first = 0 if draw.random() < 0.1 or len(lines) < 3 else 1
    line = lines.pop(draw.randrange(first, len(lines)))
    lines.insert(draw.randint(first, len(lines)), line)
    return b"\n".join(lines)


def double_line(draw, text, others):
    """A line of this text or of another one stands at a place too."""
    lines, from_other = text.split(b"\n"), draw.choice(others).split(b"\n")
    lines.insert(draw.randint(1, len(lines)), draw.choice(lines[1:] + from_other[1:] or lines))
    return b"\n".join(lines)


def move_field(draw, text, _):
    """A field of one line stands in another one too, at times in front of it."""
    lines = fields_of(text)
    field = draw.choice(draw.choice(lines))
    line = draw.choice(lines)
    line.insert(draw.randint(draw.random() < 0.9, len(line)), field)
    return lines_of(lines)


FIELD_WAYS = [put_decimal, put_decimal, move_line, double_line, double_line, move_field, move_field]
LINE_WAYS = WAYS + 2 * FIELD_WAYS
