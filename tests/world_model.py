"""A plain model of a client and a server whose frames are lost, repeated and late, and of which each is stopped, also inside a call of its
disk: what is printed of its lines, by docs/FORMATS.md and docs/DISKS.md. Both journals stand on disks in memory, with the
calls that starts and appends make of them, one by one (tests/turn_model.py); so a stop inside a call leaves the same file.

An event can't happen, or it happens; memory is never missing here. What must be so of a world after each event is said by `faults`, from the
two files as they read and from what was sent and reported."""
import functools
import re
from dataclasses import dataclass

import journal_model
import leak_model
import record_model
import reply_model
import script_model
import server_model
import turn_model
from leak_model import be, framed

CLIENT, SERVER = "client", "server"
# what a client does that sends no frame of a command, which has a number, and no search, which has a word
GREETS, RESTS = "greets", "rests"
# the lines that no script has, by their fields with one space between them
OWN_LINES = {
    "send": rb"send", "lose": rb"lose", "world": rb"world", "deliver": rb"deliver (\S+)", "start": rb"start (client|server)",
    "stop": rb"stop (client|server) (\S+) (\S+)"}


# Lines.


def event_in(line):
    """A line as its name and its fields, those of a script's line being its numbers and its words; None where it is empty."""
    fields = [field for field in line.split(b" ") if field]
    if len(line) > script_model.LINE_BYTES:
        raise script_model.BadLine
    for name, form in OWN_LINES.items():
        found = re.fullmatch(form, b" ".join(fields))
        if found:
            return name, [field.decode() if field in (b"client", b"server") else script_model.number_in(field) for field in found.groups()]
    command = script_model.command_in(line)
    if command:
        refuse_what_cannot_be(*command)
    return command and (command[0], command[1:])


def refuse_what_cannot_be(name, numbers, words):
    """A line is bad whose identifier, words or document no client can be given."""
    try:
        if name in ("doc", "add"):
            script_model.refuse_bad_document(words)
        elif name == "find":
            script_model.refuse_bad_words(words)
        elif name == "query":
            raise script_model.BadLine
    except script_model.Refused:
        raise script_model.BadLine from None
    if name in ("doc", "add", "del") and numbers == [0]:
        raise script_model.BadLine


# What a client sends.


def last_setup(commands):
    """Where the last epoch of these commands begins."""
    return max(place for place, what in enumerate(commands) if isinstance(what, (leak_model.Setup, leak_model.Renewal)))


def last_key(first, commands):
    """The key of the last epoch, where the first has this one."""
    renewals = [what.key for what in commands if isinstance(what, leak_model.Renewal)]
    return renewals[-1] if renewals else first


@functools.lru_cache(2**13)
def frames_of(first, commands):
    """All update frames of these commands, where the first epoch has this key."""
    if not commands:
        return ()
    before, what, key = frames_of(first, commands[:-1]), commands[-1], last_key(first, commands)
    begins = last_setup(commands)
    setup = commands[begins].setup if isinstance(commands[begins], leak_model.Renewal) else commands[begins]
    past, number = commands[begins + 1:-1], len(before)
    if begins == len(commands) - 1:
        own, leak = leak_model.draws_of_setup(key, setup), leak_model.leak_of_setup(setup)
        return (*before, *leak_model.setup_frames(number, leak, own[:leak.words], own[leak.words:]))
    words = leak_model.words_of(setup, past, what)
    if isinstance(what, leak_model.Delete):
        return (*before, leak_model.delete_frame(number, [revocation(key, word, what.id) for word in words]))
    listed = [word for word in words if leak_model.is_listed(setup, past, word, what.id)]
    entries = leak_model.draws_by(key, setup, past, what)
    return (*before, leak_model.add_frame(number, entries, [revocation(key, word, what.id) for word in listed]))


def revocation(key, word, identifier):
    return leak_model.value(key, leak_model.NUMBER, word, identifier)


def search_frame(key, word):
    return framed(8, b"".join(leak_model.word_key(key, part, word) for part in leak_model.TOKEN_PARTS))


# Replies.


def number_in(kind, reply):
    """The number of a reply of this kind, or None."""
    return int.from_bytes(reply[5:], "big") if len(reply) == 9 and reply[4] == kind else None


def found_in(replies):
    """The identifiers on the pages of an answer, or None where these replies are no such pages."""
    stream, found, is_last = reply_model.Stream(replies), [], False
    try:
        while not is_last:
            is_last, more = reply_model.page_in(stream.reply(), not found)
            found += more
    except reply_model.Stop:
        return None
    return sorted(found) if stream.at == len(replies) else None


# Both sides.


@dataclass
class Client:
    """A client that runs: the commands of its records, its documents, where its journal ends, what it does, and whether it waits for the
    answer to its last frame."""
    commands: tuple
    store: script_model.Store
    end: int
    phase: object = GREETS
    waits: bool = False


@dataclass
class Server:
    """A server that runs, and where its journal ends."""
    state: server_model.Server
    end: int


class World:
    """Both disks, the sides that run, all frames that were ever sent, the searches made with the number of commands before each, the reply
    that waits for the client, and what was reported: the place of a command with None, or that of a search with the identifiers found."""

    def __init__(self, key):
        # the first epoch's key; that of the client; and the new one of a rebuild that may have its record or not
        self.first, self.key, self.other = key, key, None
        self.keys = {}
        self.disks = {CLIENT: turn_model.Disk(), SERVER: turn_model.Disk()}
        self.sides = {CLIENT: None, SERVER: None}
        self.picks = {CLIENT: 0, SERVER: 0}
        self.documents, self.sent, self.searches, self.waiting, self.done = [], [], [], None, []

    @property
    def client(self):
        return self.sides[CLIENT]

    @property
    def server(self):
        return self.sides[SERVER]

    def frames(self):
        """The update frames of the commands of the client that runs."""
        return frames_of(self.first, self.client.commands)

    def collect(self, identifier, words):
        """Collects a document for the next setup."""
        if identifier in (other for other, _ in self.documents):
            raise script_model.BadLine
        self.documents.append((identifier, words))

    # Stops and starts.

    def gone(self, side):
        """The side doesn't run any more; its disk stays."""
        self.sides[side] = None
        if side == CLIENT:
            self.waiting = None

    def crash(self, side, pick):
        """The side has stopped, and its disk is an image of itself, for which no stop is to come."""
        self.gone(side)
        self.disks[side] = turn_model.Disk(self.disks[side].image(pick))

    def inside(self, side, call, *given):
        """What a call gives that uses the disk of a side; None where the side stops inside a call of its disk."""
        try:
            return call(self.disks[side], *given)
        except turn_model.Failed:
            self.crash(side, self.picks[side])
            return None

    def stop(self, side, call, pick):
        if call == 0:
            self.crash(side, pick)
        else:
            self.disks[side].left, self.picks[side] = call, pick
        return True

    def start(self, side):
        if self.sides[side]:
            self.crash(side, 0)
        self.sides[side] = self.inside(side, self.client_on if side == CLIENT else self.server_on)
        return True

    def client_on(self, disk):
        """The client of a disk's records, under its key or under the other where that is the last one of the records."""
        records, end = turn_model.start(disk)
        for key in filter(None, (self.key, self.other)):
            commands, store = self.recorded([turn_model.payload_at(disk, *record) for record in records])
            if not commands or last_key(self.first, commands) == key:
                self.key, self.other = key, None
                return Client(commands, store, end)
        raise AssertionError("the records are under no key of this client")

    @staticmethod
    def server_on(disk):
        records, end = turn_model.start(disk)
        return Server(server_model.replayed([turn_model.payload_at(disk, *record) for record in records]), end)

    def recorded(self, payloads):
        """The commands of these records, and the documents that they leave."""
        store, commands = script_model.Store([self.first]), ()
        for payload in payloads:
            _, lines = record_model.commands_in(payload)
            for name, numbers, words in lines:
                words = [self.keys[words[0]]] if name == "rebuild" else words
                store.carry_out(name, numbers, words)
            commands = (*commands, *leak_model.brought(store, name, numbers, words))
        return commands, store

    # The client.

    def is_free(self):
        """Whether a client runs that has nothing to send and waits for nothing."""
        return self.client is not None and self.client.phase == RESTS and not self.client.waits

    def command(self, name, numbers, words):
        """The client is given a command: it is recorded, unless it can't be taken or is refused."""
        documents = []
        if name == "setup":
            documents, self.documents = self.documents, []
        if not self.is_free():
            return False
        client = self.client
        store = client.store if client.commands else script_model.Store([self.first])
        try:
            for line in [*(("doc", [identifier], own) for identifier, own in documents), (name, numbers, words)]:
                store.carry_out(*line)
        except script_model.Refused:
            return False
        (what,) = leak_model.brought(store, name, numbers, words)
        if name == "rebuild":
            self.other = what.key
            self.keys[record_model.mark_of(what.key)] = what.key
        end = self.inside(CLIENT, turn_model.append, client.end, record_model.record_of(self.first, what))
        if end is not None:
            self.key, self.other = self.other or self.key, None
            self.sides[CLIENT] = Client((*client.commands, what), store, end, len(self.frames()))
        return True

    def find(self, word):
        if not self.is_free() or not self.client.commands:
            return False
        self.client.phase = word
        self.searches.append((word, len(self.client.commands)))
        return True

    def send(self):
        """The client takes the reply that waits and goes on, or sends what it has to send."""
        client = self.client
        if client is None or (self.waiting is None if client.waits else client.phase == RESTS):
            return False
        if client.waits:
            reply, self.waiting, client.waits = self.waiting, None, False
            phase = self.phase_by(reply)
            if phase is None:
                self.gone(CLIENT)
                return True
            client.phase = phase
        if client.phase != RESTS:
            client.waits = True
            self.sent.append(self.next_frame())
        return True

    def next_frame(self):
        phase = self.client.phase
        if phase == GREETS:
            return framed(1)
        return self.frames()[phase] if isinstance(phase, int) else search_frame(self.key, phase)

    def phase_by(self, reply):
        """What the client does once it took the answer to its frame, or None where it is no wanted one; what is done is reported."""
        client, frames = self.client, self.frames()
        if client.phase == GREETS:
            number = number_in(0x81, reply)
            if number is None or not len(frames_of(self.first, client.commands[:-1])) <= number <= len(frames):
                return None
            return RESTS if number == len(frames) else number
        if isinstance(client.phase, int):
            if number_in(0x82, reply) != client.phase:
                return None
            if client.phase + 1 < len(frames):
                return client.phase + 1
            self.done.append((len(client.commands) - 1, None))
            return RESTS
        found = found_in(reply)
        if found is None:
            return None
        self.done.append((len(self.searches) - 1, found))
        return RESTS

    def lose(self):
        if self.waiting is None:
            return False
        self.gone(CLIENT)
        return True

    # The server.

    def deliver(self, place):
        """A frame comes to the server. Its reply waits for the client where the frame is the last, and the client waits for one."""
        if self.server is None or place >= len(self.sent):
            return False
        server, frame = self.server, server_model.frame_of(self.sent[place][4:])
        if frame["kind"] in server_model.UPDATES and server.state.refusal(frame) is None:
            end = self.inside(SERVER, turn_model.append, server.end, self.sent[place][4:])
            if end is None:
                return True
            server.end = end
        reply = server.state.step(frame)
        if place + 1 == len(self.sent) and self.client and self.client.waits and self.waiting is None:
            self.waiting = reply
        return True

    def happens(self, name, fields):
        """What an event makes of the world, and whether it can happen."""
        if name in ("setup", "add", "del", "rebuild"):
            return self.command(name, *fields)
        if name == "find":
            return self.find(fields[1][0])
        return getattr(self, name)(*fields)


# What must be so.


def payloads_in(disk):
    records, _ = journal_model.start(lambda at, size: disk.file[at:at + size], len(disk.file))
    return [disk.file[at:at + size] for at, size in records]


def faults(world):
    """What isn't as promised after an event, each in words."""
    commands, _ = world.recorded(payloads_in(world.disks[CLIENT]))
    frames, taken = frames_of(world.first, commands), payloads_in(world.disks[SERVER])
    if [frame[4:] for frame in frames[:len(taken)]] != taken:
        yield "the server's records aren't the first of the bodies of the client's frames"
    if len(taken) < len(frames_of(world.first, commands[:-1])):
        yield "the server lacks frames of a command before the last"
    updates = [frame for frame in world.sent if frame[4] in server_model.UPDATES]
    if any(frames[int.from_bytes(frame[5:9], "big")] != frame for frame in updates):
        yield "an update frame was sent that isn't the one of its number"
    labels = [label for frame in set(updates) for label, _ in server_model.frame_of(frame[4:]).get("entries", ())]
    if len(set(labels)) < len(labels):
        yield "a label, so its pad too, has two texts"
    for place, found in world.done:
        if found is None:
            if len(frames_of(world.first, commands[:place + 1])) > len(taken) or place >= len(commands):
                yield "the server lacks frames of a command that was reported done"
            continue
        word, before = world.searches[place]
        if found != matching(commands[:before], word):
            yield "a search found other documents than those with its word"
    if world.client and isinstance(world.client.phase, int) and not world.client.waits and world.client.phase >= len(frames):
        yield "the client is to send a frame that no command has"


def matching(commands, word):
    """The identifiers of the documents with a word, after these commands."""
    live = {}
    for what in commands:
        if isinstance(what, leak_model.Setup):
            live = dict(what.documents)
        elif isinstance(what, leak_model.Add):
            live[what.id] = what.words
        elif isinstance(what, leak_model.Delete):
            del live[what.id]
    return sorted(identifier for identifier, words in live.items() if word in words)


# What is printed.


def reported(place, found):
    return f"updated {place}" if found is None else f"found {place}:" + "".join(f" {identifier}" for identifier in found)


def at_the_end(world):
    """The lines at the end of a world."""
    yield from (f"sent {frame.hex()}" for frame in world.sent)
    yield from (f"{side} {world.disks[side].file.hex()}" for side in (CLIENT, SERVER))


def printed(lines, after=lambda world: None):
    """The lines that are printed of an input's lines; what is returned is the status. The function is called after each event."""
    world = None
    number = 0
    for number, line in enumerate(lines, 1):
        try:
            event = event_in(line)
            if event is None:
                continue
            name, fields = event
            if (name == "key") != (world is None):
                raise script_model.BadLine
            if name == "key":
                world = World(fields[1][0])
                continue
            if name == "doc":
                world.collect(fields[0][0], fields[1])
                continue
        except script_model.BadLine:
            yield f"stopped: line {number}"
            return 2
        if name == "world":
            yield from at_the_end(world)
            world = None
            continue
        before = len(world.done)
        yield "done" if world.happens(name, fields) else "nothing"
        yield from (reported(*what) for what in world.done[before:])
        after(world)
    if world is None:
        yield f"stopped: line {number + 1}"
        return 2
    yield from at_the_end(world)
    return 0


def answer(text, after=lambda world: None):
    """The printed lines and the status."""
    lines, run = [], printed(script_model.lines_of(text), after)
    while True:
        try:
            lines.append(next(run))
        except StopIteration as end:
            return lines, end.value
