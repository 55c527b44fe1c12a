"""A plain model of the client of a vault, by docs/FORMATS.md: the lines that it prints for a script, its status, the frames that it sends and the
records that it keeps, with `run`, `more` and `restore`; and scripts to try it on. The server is a function from the body of a frame to
the body of the reply, which gives None if the connection is cut. Of disks and memory it says nothing."""
import hmac
import re

import leak_model
import record_model
import script_model
import vault_model as vault
from leak_model import be

# the parts of the keys of slots, of keystream and of tags
SLOT, PAD, TAG = 10, 11, 12
MARK, PUT, DROP = b"\x23", b"\x21", b"\x22"
LONGEST = 65_536
LAST = 2**32 - 1
DIGITS = re.compile(rb"([0-9A-Fa-f]{2})*")
# the kinds of replies that always end a run, with its status and its last line; a clash is an answer to an update only
ENDING = {vault.CLASH: (8, "clash"), vault.NO_MEMORY: (7, "memory"), vault.STORE_FAULT: (5, "link")}


class Stopped(Exception):
    """The run stops: its status, and its last line after `stopped: `."""


class Refused(Exception):
    """The command is refused; the text says why."""


def slot_of(key, v):
    return leak_model.value(key, SLOT, leak_model.NO_WORD, v)


def sealed(key, v, text):
    return leak_model.sealed(text, key, PAD, leak_model.NO_WORD, v)


def tag_of(key, v, identifier, encrypted):
    return hmac.digest(leak_model.word_key(key, TAG, leak_model.NO_WORD), be(8, v) + be(8, identifier) + encrypted, "sha256")


def mark_record(key):
    return MARK + record_model.mark_of(key)


def record_of(name, identifier, text=b""):
    return (PUT if name == "put" else DROP) + be(8, identifier) + text


def command_in(line):
    """A line without its end: its name, and its key, or its identifier and its text; None if it has no field."""
    if len(line) > script_model.LINE_BYTES:
        raise script_model.BadLine
    name, *fields = [field for field in line.split(b" ") if field] or [None]
    if name is None:
        return None
    if name == b"key" and len(fields) == 1 and script_model.KEY.fullmatch(fields[0]):
        return "key", bytes.fromhex(fields[0].decode())
    if name == b"put" and len(fields) in (1, 2) and DIGITS.fullmatch(b"".join(fields[1:])):
        return "put", script_model.number_in(fields[0]), bytes.fromhex(b"".join(fields[1:]).decode())
    if name in (b"drop", b"get") and len(fields) == 1:
        return name.decode(), script_model.number_in(fields[0])
    raise script_model.BadLine


class Commands:
    """The commands of a script, whose first is its key."""

    def __init__(self, script):
        self.lines, self.number = iter(script_model.lines_of(script)), 0

    def next(self, has_key):
        """The next command, or None at the end; a bad line stops the run, and so does a key line in a wrong place."""
        for line in self.lines:
            self.number += 1
            try:
                command = command_in(line)
            except script_model.BadLine:
                self.stop()
            if command is not None:
                if (command[0] == "key") == has_key:
                    self.stop()
                return command
        return None

    def stop(self):
        raise Stopped(2, f"line {self.number}")

    def key(self):
        command = self.next(False)
        if command is None:
            self.number += 1
            self.stop()
        return command[1]


class Shelf:
    """What a client knows of its texts: the number of each identifier's put, and how many puts and updates there were."""

    def __init__(self):
        self.there, self.puts, self.sent = {}, 0, 0

    def refuse(self, name, identifier, text=b""):
        """The first cause against a command."""
        if identifier == 0:
            raise Refused("identifier zero")
        if name == "put" and identifier in self.there:
            raise Refused(f"body {identifier} is there")
        if len(text) > LONGEST:
            raise Refused(f"body is too long: {len(text)}")
        if name == "drop" and identifier not in self.there:
            raise Refused(f"no body {identifier}")
        if name != "get" and self.sent == LAST or name == "put" and self.puts == LAST:
            raise Refused("vault is full")

    def frame(self, key, name, identifier, text=b""):
        """The body of the frame of an update that isn't counted yet."""
        if name == "drop":
            return vault.drop(self.sent, slot_of(key, self.there[identifier]))
        encrypted = sealed(key, self.puts, text)
        return vault.put(self.sent, slot_of(key, self.puts), tag_of(key, self.puts, identifier, encrypted), encrypted)

    def count(self, name, identifier, _=b""):
        if name == "put":
            self.there[identifier] = self.puts
            self.puts += 1
        else:
            del self.there[identifier]
        self.sent += 1


def update_in(payload):
    """The put or the drop that a record says, or None."""
    if payload[:1] == PUT and len(payload) >= 9:
        return "put", int.from_bytes(payload[1:9], "big"), payload[9:]
    if payload[:1] == DROP and len(payload) == 9:
        return "drop", int.from_bytes(payload[1:], "big")
    return None


class Session:
    """A run over a server; the records are those of its journal."""

    def __init__(self, ask, records=()):
        self.ask, self.records, self.lines, self.shelf, self.was_refused, self.ending = ask, list(records), [], Shelf(), False, ENDING

    def asked(self, frame, kinds):
        """The body of the reply, which is of one of these kinds, whole; any other ends the run."""
        reply = self.ask(frame)
        if reply is None:
            raise Stopped(5, "link")
        kind, size = reply[0], len(reply)
        fits = {vault.NEXT: size == 5, vault.TOOK: size == 5, vault.BODY: size >= 33}.get(kind, size == 1)
        if fits and kind in kinds:
            return reply
        if fits and kind in self.ending:
            raise Stopped(*self.ending[kind])
        self.unexpected(reply)

    @staticmethod
    def unexpected(reply):
        raise Stopped(9, "reply " + vault.framed(reply)[:16].hex())

    def update(self, command):
        """Sends the frame of an update, which is counted before."""
        frame = self.shelf.frame(self.key, *command)
        self.shelf.count(*command)
        reply = self.asked(frame, (vault.TOOK,))
        if reply != vault.took(self.shelf.sent - 1):
            self.unexpected(reply)

    def server_between(self, low, high):
        got = int.from_bytes(self.asked(vault.ASK, (vault.NEXT,))[1:], "big")
        if not low <= got <= high:
            raise Stopped(9, f"server is at {got}, wanted {low} to {high}")
        return got

    def begin(self):
        self.server_between(0, 0)
        self.records.append(mark_record(self.key))

    def resume(self):
        """Reads the records, and sends the last one's frame if the server is missing it."""
        last = None
        for number, payload in enumerate(self.records):
            if number == 0 and payload[:1] == MARK and len(payload) == 17:
                if payload != mark_record(self.key):
                    raise Stopped(11, "key")
                continue
            command = update_in(payload)
            try:
                if command is None or number == 0:
                    raise Refused
                if last is not None:
                    self.shelf.count(*last)
                self.shelf.refuse(*command)
            except Refused:
                raise Stopped(10, f"record {number}") from None
            last = command
        high = self.shelf.sent + (last is not None)
        got = self.server_between(self.shelf.sent, high)
        if last is not None and got == self.shelf.sent:
            self.update(last)
        elif last is not None:
            self.shelf.count(*last)
        self.lines.append(f"resumed {high - got} frames")

    def carry_out(self, name, identifier, text=b""):
        self.shelf.refuse(name, identifier, text)
        if name == "get":
            return self.get(identifier)
        command = (name, identifier, text)
        self.records.append(record_of(*command))
        self.update(command)
        return f"{'stored' if name == 'put' else 'dropped'} {identifier}"

    def get(self, identifier):
        if identifier not in self.shelf.there:
            return f"no body {identifier}"
        v = self.shelf.there[identifier]
        text = self.text_in(self.asked(vault.fetch(slot_of(self.key, v)), (vault.BODY,)), v, identifier)
        if text is None:
            raise Stopped(12, f"forged {identifier}")
        return f"body {identifier}: {text.hex()}"

    def text_in(self, reply, v, identifier):
        """The text of a put that a reply brings, or None if its tag is wrong, which is looked at first."""
        tag, encrypted = reply[1:33], reply[33:]
        if tag != tag_of(self.key, v, identifier, encrypted):
            return None
        if len(encrypted) > LONGEST:
            self.unexpected(reply)
        return sealed(self.key, v, encrypted)

    def script(self, mode, script):
        """What the lines of a script come to."""
        commands = Commands(script)
        self.key = commands.key()
        if mode == "run":
            self.begin()
        else:
            self.resume()
        while (command := commands.next(True)) is not None:
            try:
                self.lines.append(self.carry_out(*command))
            except Refused as why:
                self.was_refused = True
                self.lines.append(f"refused: {why}")

    def restore(self, script):
        """Fetches as many slots as there were updates, and then looks whether that number fits: a put whose text is there is one update,
        and one whose text isn't there is two, a put and a drop."""
        self.ending = {kind: ENDING[kind] for kind in (vault.NO_MEMORY, vault.STORE_FAULT)}
        commands = Commands(script)
        self.key = commands.key()
        if commands.next(True) is not None:
            commands.stop()
        updates = self.server_between(0, LAST)
        there = []
        for v in range(updates):
            reply = self.asked(vault.fetch(slot_of(self.key, v)), (vault.BODY, vault.ABSENT))
            if reply[0] == vault.BODY:
                there.append(v)
                self.lines.append(self.restored(v + 1, self.text_in(reply, v, v + 1)))
        if not any(updates == sum(1 if v in there else 2 for v in range(puts)) for puts in range(there[-1] + 1 if there else 0, updates + 1)):
            self.unexpected(vault.expects(updates))

    def restored(self, identifier, text):
        if text is None:
            self.was_refused = True
            return f"forged {identifier}"
        return f"body {identifier}: {text.hex()}"

    def run(self, mode, script):
        """The printed bytes and the status; a journal that has no record begins, and one that has some goes on. A restore has none."""
        try:
            if mode == "restore":
                self.restore(script)
            elif (mode == "run") == (not self.records):
                self.script(mode, script)
            else:
                raise Stopped(10, "no journal" if mode == "more" else "journal has records")
            status = 1 if self.was_refused else 0
        except Stopped as stop:
            status, why = stop.args
            self.lines.append(f"stopped: {why}")
        return "".join(line + "\n" for line in self.lines).encode(), status


def hexadecimal(random, text):
    digits = text.hex()
    return digits.upper() if random.random() < 0.1 else digits


def made(random, key):
    """A script without its key line: puts, drops and gets of few identifiers, of which many are refused, and now and then a line that is bad."""
    lines = []
    identifiers = [0, 2**64 - 1, *random.sample(range(1, 50), 3)]
    for _ in range(random.randrange(25)):
        identifier = random.choice(identifiers)
        text = random.randbytes(random.choice((0, 1, 2, 31, 32, 33, 63, 64, 65, 200, 1000)))
        line = {
            "put": f"put {identifier} {hexadecimal(random, text)}",
            "drop": f"drop {identifier}",
            "get": f"get {identifier}",
            "empty": " " * random.randrange(3),
        }[random.choice("put put put put drop drop get get get empty".split())]
        if random.random() < 0.02:
            line = random.choice((f"put {identifier} 0", "put 01 00", "put", f"get {identifier} {identifier}", "drop -1", f"key {key.hex()}", "find a", "put 18446744073709551616", "put 1 0g"))
        lines.append(line.encode() + b"\n")
    return b"".join(lines)


def made_in_order(random):
    """The same of a client whose put number v, from 0, has the identifier v + 1, as a restore takes it for granted; nothing is refused."""
    lines, there = [], []
    for identifier in range(1, random.randrange(2, 14)):
        lines.append(b"put %d %s\n" % (identifier, random.randbytes(random.choice((0, 1, 63, 64, 65, 300))).hex().encode()))
        there.append(identifier)
        while there and random.random() < 0.3:
            lines.append(b"drop %d\n" % there.pop(random.randrange(len(there))))
    return b"".join(lines)


def with_key(key, script):
    return b"key " + key.hex().encode() + b"\n" + script
