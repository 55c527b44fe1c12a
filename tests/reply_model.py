"""What a client makes of any replies, as a plain model by docs/FORMATS.md: the lines of a run, its status, what it sends and how many
records it keeps."""
import server_model

MOST_REPLY = 65540
PAGE = 8192


class Stop(Exception):
    """The line of a stop, and the status."""


class Stream:
    def __init__(self, text):
        self.text, self.at = text, 0

    def reply(self):
        """The next one; where its length is out of range, that alone."""
        size = int.from_bytes(self.text[self.at:self.at + 4], "big")
        if len(self.text) - self.at < 4:
            raise Stop("link", 5)
        if not 1 <= size <= MOST_REPLY:
            return self.text[self.at:self.at + 4]
        self.at += 4 + size
        if self.at > len(self.text):
            raise Stop("link", 5)
        return self.text[self.at - 4 - size:self.at]


def stop_by(reply):
    """Why a run stops at a reply that isn't one that is expected."""
    body = reply[4:]
    if len(body) == 6 and body[0] == 0x84 and 1 <= body[1] <= 3:
        return Stop(f"clash {body[1]} at {int.from_bytes(body[2:], 'big')}", 8)
    if body == b"\x87":
        return Stop("memory", 7)
    if body == b"\x88":
        return Stop("link", 5)
    return Stop(f"reply {reply[:16].hex()}", 9)


def page_in(reply, is_first):
    """Whether a page is the last, and its identifiers; only the first one may be empty."""
    body = reply[4:]
    count = int.from_bytes(body[2:4], "big")
    is_page = len(body) >= 4 and body[0] == 0x85 and body[1] <= 1 and len(body) == 4 + 8 * count and count <= PAGE
    identifiers = server_model.numbers_in(body[4:]) if is_page else []
    if not is_page or 0 in identifiers or (body[1] == 0 and count < PAGE) or (count == 0 and not is_first):
        raise stop_by(reply)
    return body[1] == 1, identifiers


def told(history, text):
    """What a run of a history prints over these replies, its status, each frame that it sends with the place of the first reply to it,
    and how many records it keeps."""
    stream, lines, frames, records, was_refused = Stream(text), [], [(history.hello, 0)], 0, False
    try:
        reply = stream.reply()
        if len(reply) != 9 or reply[4] != 0x81:
            raise stop_by(reply)
        if reply[5:] != bytes(4):
            raise Stop(f"server is at {int.from_bytes(reply[5:], 'big')}, wanted 0 to 0", 9)
        for part in history.parts:
            was_refused |= b"refused" in part.lines
            records += part.payload is not None
            shown = part.lines
            if part.name == "find":
                frames.append((part.frames[0][0], stream.at))
                shown = found(stream)
            elif part.payload is not None:
                # what is refused in front of a setup is printed before it is carried out
                lines.append(b"".join(line + b"\n" for line in part.lines.splitlines()[:-1]))
                shown = part.lines.splitlines()[-1] + b"\n"
                for frame, wanted in part.frames:
                    frames.append((frame, stream.at))
                    reply = stream.reply()
                    if reply != wanted:
                        raise stop_by(reply)
            lines.append(shown)
    except Stop as stop:
        line, status = stop.args
        return b"".join(lines) + f"stopped: {line}\n".encode(), status, frames, records
    return b"".join(lines), int(was_refused), frames, records


def found(stream):
    identifiers, is_last = [], False
    while not is_last:
        is_last, more = page_in(stream.reply(), not identifiers)
        identifiers += more
    return b"found %d:" % len(identifiers) + b"".join(b" %d" % identifier for identifier in sorted(identifiers)) + b"\n"
