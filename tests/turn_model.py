"""A plain model of runs on a disk, one after the other: what the program tool_transcript prints of an input of turns, by docs/DISKS.md and
docs/FORMATS.md. What passes and what stands in the files is that of tests/leak_model.py, tests/record_model.py and
tests/journal_model.py; here is what fails, what is left then, and what is gone on with.

It is for the real keyed function, for journals that a client or a server of it wrote, whole or not, for servers that took what the
client sent, and for replies that are given, whatever they are. It makes the calls of a disk in the order in which the journal makes them,
so that the call of a number is the same one; a script that is short is read by one call, and a line is printed by one."""
from dataclasses import dataclass, field

import journal_model
import leak_model
import record_model
import reply_model
import script_model
from leak_model import be, framed

PARTING = b"----\n"


class Failed(Exception):
    """A call of a disk or of a link fails."""


class Stopped(Exception):
    """A run ends before the end of its script: with this status, and with a last line that says this."""


class Disk:
    """A file in memory. What was called since the last sync is kept for its crash images; a write or a cut that fails leaves the file as it
    reads. `call` is the number of the call that fails, from 1; 0 for none."""

    def __init__(self, content=b"", call=0):
        self.base, self.file, self.changes = content, content, []
        self.left = call

    def counts(self):
        """Counts a call, and tells whether it fails."""
        self.left -= 1
        return self.left == 0

    def made(self):
        if self.counts():
            raise Failed

    def len(self):
        self.made()
        return len(self.file)

    def read(self, at, size):
        self.made()
        return self.file[at:at + size]

    def change(self, change, *given):
        self.changes.append((change, given))
        self.made()
        self.file = change(self.file, 1, *given)

    def write(self, at, text):
        self.change(written, at, text)

    def cut(self, size):
        self.change(shortened, size)

    def sync(self):
        self.made()
        self.base, self.changes = self.file, []

    def image(self, number):
        """The file that a crash leaves, by a number: a digit to the base 4 for each change, the lowest first."""
        image = self.base
        for change, given in self.changes:
            image = change(image, number % 4, *given)
            number //= 4
        return image


def others(text):
    return bytes(255 - byte for byte in text)


def written(file, way, at, text):
    """A write: nothing of it, all, its first half, or other bytes."""
    text = (b"", text, text[:len(text) // 2], others(text))[way]
    return file[:at] + text + file[at + len(text):]


def shortened(file, way, size):
    """A cut: nothing of it, all, the second half of it, or other bytes in place of what is cut."""
    tail = file[size:]
    return file[:size] + (tail, b"", tail[:len(tail) // 2], others(tail))[way]


def start(disk):
    """Starts a journal: the places and lengths of its records, and where they end."""
    disk.sync()
    size = disk.len()
    if size < len(journal_model.EMPTY):
        for at, text in (0, journal_model.MAGIC), (len(journal_model.MAGIC), b"\0"):
            disk.write(at, text)
            disk.sync()
        return [], len(journal_model.MAGIC)
    records, end = journal_model.start(disk.read, size)
    if end is None:
        raise Stopped(10, "no journal")
    if size > end + 1:
        disk.cut(end + 1)
        disk.sync()
    if disk.file[end] != 0:
        disk.write(end, b"\0")
        disk.sync()
    return records, end


def payload_at(disk, at, size):
    """A record of a journal, of which the head is read first."""
    disk.read(at - 5, 5)
    return disk.read(at, size)


def append(disk, end, payload):
    """Appends a record behind those that end here; where they end now."""
    disk.write(end + 1, be(4, len(payload)) + payload + b"\0")
    disk.sync()
    disk.write(end, b"\1")
    disk.sync()
    return end + 5 + len(payload)


# The server and its link.


class Server:
    """A server on a disk, of which a call behind its start fails: how many update frames it took, and whether its journal is broken."""

    def __init__(self, content=b"", call=0):
        self.disk = Disk(content)
        records, self.end = start(self.disk)
        self.taken, self.is_broken = len(records), False
        self.disk.left = call

    def replies(self, frame, pages):
        """The replies to a frame that the client sends to this server: `pages` where it is a search."""
        if frame == framed(1):
            return [framed(0x81, be(4, self.taken))]
        if pages is not None:
            return pages
        try:
            if self.is_broken:
                raise Failed
            self.end = append(self.disk, self.end, frame[4:])
        except Failed:
            self.is_broken = True
            return [framed(0x88)]
        self.taken += 1
        return [framed(0x82, be(4, self.taken - 1))]


@dataclass
class Link:
    """A link to a server. `cuts` are its sends and receives that fail, with whether their work is done."""
    server: Server
    cuts: dict = field(default_factory=dict)
    calls: int = 0
    passed: list = field(default_factory=list)

    def cut(self):
        """Counts a call; None, or whether the work of this one, which is cut, is done."""
        self.calls += 1
        return self.cuts.get(self.calls - 1)

    def exchange(self, frame, pages=None):
        """Sends a frame and receives its replies, up to a cut or the report of a fault of the server's disk."""
        cut, replies = self.cut(), []
        if cut is not False:
            self.passed.append((leak_model.SENT, frame))
            replies = self.server.replies(frame, pages)
        if cut is not None:
            raise Failed
        for reply in replies:
            if self.cut() is not None:
                raise Failed
            self.passed.append((leak_model.RECEIVED, reply))
            if reply == framed(0x88):
                raise Failed
        return replies


class Replies:
    """A link that plays replies back, whatever is sent."""

    def __init__(self, text):
        self.stream = reply_model.Stream(text)
        self.passed = []

    def received(self):
        reply = self.stream.reply()
        self.passed.append((leak_model.RECEIVED, reply))
        return reply

    def exchange(self, frame, pages=None):
        """Sends a frame and receives its replies, up to one that isn't expected."""
        self.passed.append((leak_model.SENT, frame))
        try:
            return list(self.replies(frame, pages is not None))
        except reply_model.Stop as stop:
            line, status = stop.args
            raise Stopped(status, line) from None

    def replies(self, frame, is_search):
        is_last = not is_search
        if is_last:
            reply = self.received()
            if not (frame == framed(1) and reply[4:5] == b"\x81" and len(reply) == 9 or reply == framed(0x82, frame[5:9])):
                raise reply_model.stop_by(reply)
            yield reply
        is_first = True
        while not is_last:
            reply = self.received()
            is_last, _ = reply_model.page_in(reply, is_first)
            is_first = False
            yield reply


def found_in(pages):
    """The identifiers of these pages."""
    return [identifier for page in pages for identifier in reply_model.page_in(page, True)[1]]


def answer_to(command, answers):
    """What is printed of a line `find` or `query`, by the pages that came for each of its words."""
    name, _, fields = command
    found = list(map(found_in, answers))
    if name == "find":
        return script_model.listed("found", found[0])
    query = script_model.Query(fields)
    return script_model.listed("matched", query.chosen(dict(zip(query.words(), found))))


# The client.


def exchanges(epochs, number):
    """Of each command its frames, the first of which has this number, each with the pages of a search."""
    commands = []
    for way, text in leak_model.simulated(leak_model.leak(epochs), leak_model.draws(epochs), number):
        if way == leak_model.SENT and text[4] in range(3, 6):
            commands[-1].append((text, None))
        elif way == leak_model.SENT:
            commands.append([(text, [] if text[4] == 8 else None)])
        elif commands[-1][-1][1] is not None:
            commands[-1][-1][1].append(text)
    return commands[1:]


def fails_with(status, text, call, *given):
    """What a call gives; where it fails the run stops."""
    try:
        return call(*given)
    except Failed:
        raise Stopped(status, text) from None


class Run:
    """A run on a disk and over a link: the client's side, and what it prints. `fails` has the call of the source and of the sink that
    fails, from 0."""

    def __init__(self, disk, link, fails):
        self.disk, self.link, self.fails = disk, link, fails
        self.lines, self.status, self.printed = [], 0, 0
        # the marks of keys stand in the store in place of the keys
        self.store, self.epochs, self.before = script_model.Store(), [], 0
        self.key = self.end = None

    def on_disk(self, call, *given):
        return fails_with(6, "disk", call, *given)

    def over_link(self, frame, pages=None):
        return fails_with(5, "link", self.link.exchange, frame, pages)

    def carry_out(self, word, lines):
        """The whole run."""
        try:
            if word not in ("run", "more"):
                raise Stopped(2, "words")
            self.run(word, lines)
        except Stopped as stop:
            self.status, why = stop.args
            # a sink that failed is given no more, and where it fails now the status stays
            if self.status != 4 and self.takes_line():
                self.lines.append(f"stopped: {why}")

    def takes_line(self):
        """Counts a line, and tells whether the sink takes it."""
        self.printed += 1
        return self.fails.get("sink") != self.printed - 1

    def tell(self, line):
        if not self.takes_line():
            raise Stopped(4, "sink")
        self.lines.append(line)

    def run(self, word, lines):
        records, self.end = self.on_disk(start, self.disk)
        if (word == "more") != bool(records):
            raise Stopped(10, "journal has records" if records else "no journal")
        commands = self.commands(lines)
        self.key = next(commands)
        if isinstance(self.key, Stopped):
            raise self.key
        self.store.keys = [record_model.mark_of(self.key)]
        if word == "more":
            self.go_on(records)
        elif (number := self.greet()) != 0:
            raise Stopped(9, f"server is at {number}, wanted 0 to 0")
        self.carry_out_all(list(commands))

    def commands(self, lines):
        """The key, then each command; at last a stop where there is a bad line, or no key, or the source fails."""
        number, failed = 0, self.fails.get("source")
        if failed == 0:
            raise Stopped(3, "source")
        for number, line in enumerate(lines, 1):
            try:
                command = script_model.command_in(line)
                if command and (command[0] == "key") != (self.key is None):
                    raise script_model.BadLine
            except script_model.BadLine:
                if self.key is None:
                    raise Stopped(2, f"line {number}") from None
                yield Stopped(2, f"line {number}")
                return
            if command:
                yield command[2][0] if self.key is None else command
        # the call behind the one that gave all finds the end
        if failed == 1:
            yield Stopped(3, "source")
        elif self.key is None:
            raise Stopped(2, f"line {number + 1}")

    def greet(self):
        """The number of the update frame that the server expects next."""
        return int.from_bytes(self.over_link(framed(1))[0][5:], "big")

    def go_on(self, records):
        """Rebuilds the history of the records, and sends what the server lacks of its last command."""
        payloads = []
        for record in records:
            payloads.append(self.on_disk(payload_at, self.disk, *record))
            found = record_model.gone_on(self.key, payloads)
            if isinstance(found, str) and found != "key":
                raise Stopped(10, found)
        if found == "key":
            raise Stopped(11, found)
        self.store, self.epochs, self.before = found.store, [found.epoch], found.before
        number = self.greet()
        if not found.low <= number <= found.high:
            raise Stopped(9, f"server is at {number}, wanted {found.low} to {found.high}")
        left = exchanges(self.epochs, self.before)[-1][number - found.low:]
        for frame, _ in left:
            self.over_link(frame)
        self.tell(f"resumed {len(left)} frames")

    def carry_out_all(self, commands):
        """What each command brings and prints, then these over disk and link, one after the other."""
        told, known = [], sum(1 + len(epoch.later) for epoch in self.epochs)
        for command in commands:
            if isinstance(command, Stopped):
                told.append((command, [], command))
                continue
            name, numbers, words = command
            try:
                shown = self.store.carry_out(name, numbers, list(map(record_model.mark_of, words)) if name == "rebuild" else words)
                found = leak_model.brought(self.store, *command)
            except script_model.Refused as why:
                told.append((command, [], f"refused: {why}"))
                continue
            for what in found:
                self.epochs = leak_model.longer(self.epochs, self.key, what)
            if shown is not None:
                told.append((command, found, shown))
        frames = iter(exchanges(self.epochs, self.before)[known:])
        for command, found, shown in told:
            if isinstance(shown, Stopped):
                raise shown
            if not found:
                self.status = 1
            answers = [self.send(what, next(frames)) for what in found]
            if isinstance(self.link, Replies) and command[0] in ("find", "query") and found:
                shown = answer_to(command, answers)
            self.tell(shown)

    def send(self, what, frames):
        """Keeps the record of an update, then sends the frames; the replies to the last one."""
        if not isinstance(what, leak_model.Search):
            self.end = self.on_disk(append, self.disk, self.end, record_model.record_of(self.key, what))
        replies = []
        for frame, pages in frames:
            replies = self.over_link(frame, pages)
        return replies


# Turns.


def another(name, before):
    """The content of the other disk that a field names."""
    if name == "kept":
        return before.file
    return bytes.fromhex(name[1:]) if name.startswith("x") else before.image(int(name))


def answers(text):
    """What is printed of each turn: the lines of what passes, the lines of the run, its status, the client's file and the server's."""
    client, link = Disk(), Link(Server())
    for part in text.removesuffix(PARTING).split(PARTING):
        line, *lines = script_model.lines_of(part)
        _, word, name, call, *server = line.decode().split(" ")
        fails = {}
        while server and server[0] in ("source", "sink"):
            name_of, number, *server = server
            fails[name_of] = int(number)
        if name != "same":
            client = Disk(another(name, client))
        client.left = int(call)
        over = link
        if server and server[0] == "replies":
            over = Replies(bytes.fromhex(server[1][1:]))
        elif server:
            name, call, *cuts = server
            over = link = Link(Server(another(name, link.server.disk), int(call)), {int(cut[:-1]): cut[-1] == "+" for cut in reversed(cuts)})
        run, before = Run(client, over, fails), len(over.passed)
        run.carry_out(word, lines)
        passed = [f"{way} {text.hex()}" for way, text in over.passed[before:]]
        yield passed, run.lines, run.status, client.file, link.server.disk.file


def answer(text):
    """All that is printed."""
    told = []
    for passed, lines, status, client, server in answers(text):
        told += [*passed, *lines, f"status {status}", f"client {client.hex()}", f"server {server.hex()}"]
    return "".join(line + "\n" for line in told).encode()
