"""A history that is given to the client's program piece by piece, whatever happens in between: what must be printed, sent, answered and
kept of it, by the plain models (tests/script_model.py, tests/leak_model.py, tests/record_model.py, tests/journal_model.py); and one run of
the client over an address in front of the server's, where the bytes are counted, and stopped if a fault asks for it."""
import contextlib
import os
import selectors
import socket
import struct
import subprocess
import time
from dataclasses import dataclass

import journal_model
import leak_model
import over_tcp
import record_model
import script_model
from over_tcp import HOST, SECONDS, Differs, by_command, exchanges, is_update, parts, same

# how much is read of a socket or a pipe at once
CHUNK = 65536
SENT, RECEIVED = "sent", "received"


# What is to come of a history.


@dataclass(frozen=True)
class Part:
    """A command with the lines in front of it, what it prints, what passes for it, and the record that is kept of it, if any."""
    text: bytes
    lines: bytes
    frames: tuple
    payload: bytes

    @property
    def name(self):
        """What the command is, or that it is refused."""
        if self.lines.startswith(b"refused"):
            return "refused"
        return self.text.splitlines()[-1].split()[0].decode()


class History:
    """The parts of a script whose setup is accepted: first that, and then a command each."""

    def __init__(self, script):
        self.key = next(line for line in script_model.lines_of(script) if line.strip(b" ")) + b"\n"
        (greeting,), *commands = by_command(exchanges(script))
        self.hello = greeting[0]
        frames, records = iter(commands), iter(record_model.records(script))
        self.parts = []
        for text, lines in parts(script):
            is_refused = lines.splitlines()[-1].startswith(b"refused")
            passes = () if is_refused else tuple(next(frames))
            self.parts.append(Part(text, lines, passes, next(records) if passes and is_update(passes[0][0]) else None))
        recorded = [part for part in self.parts if part.payload is not None]
        self.payloads = [part.payload for part in recorded]
        self.updates = [exchange for part in recorded for exchange in part.frames]
        self.bodies = [frame[4:] for frame, _ in self.updates]
        # how many update frames there are of so many records, and the key line of a run that continues from them
        self.ends = [sum(len(part.frames) for part in recorded[:count]) for count in range(len(recorded) + 1)]
        self.keys = [self.key]
        for part in recorded:
            self.keys.append(b"key " + part.text.split()[-1] + b"\n" if part.name == "rebuild" else self.keys[-1])

    def greeting(self, taken):
        """What passes first, with a server that has taken so many frames."""
        return self.hello, leak_model.framed(0x81, leak_model.be(4, taken))

    def records_before(self, number):
        """How many records there are of the parts in front of this one."""
        return sum(part.payload is not None for part in self.parts[:number])

    def behind_record(self, count):
        """The number of the part behind so many records, and behind none the first."""
        return next(number for number in range(len(self.parts) + 1) if self.records_before(number) == count)

    def record_of(self, number):
        """How many records there are with the one of this update frame."""
        return next(count for count, end in enumerate(self.ends) if number < end)


@dataclass(frozen=True)
class Journal:
    """A journal's file: how many of the wanted records it has, the place behind which nothing counts, and what stands there."""
    records: int
    end: int
    tail: bytes


def journal_in(name, file, payloads):
    """A file that has the first of these records; one of fewer than nine bytes has none."""
    found, end = journal_model.start(lambda at, size: file[at:at + size], len(file))
    if end is None:
        if found:
            raise Differs(f"{name} is no journal at {found}")
        if len(file) >= 9:
            raise Differs(f"{name} is no journal")
        return Journal(0, 0, b"")
    seen = [file[at:at + size] for at, size in found]
    same(f"the records of {name}", seen, payloads[:len(seen)])
    return Journal(len(found), end, file[end + 1:])


def begun(file, before):
    """Whether it is what is there of a new journal, over a file of fewer than nine bytes."""
    return len(before) < 9 and any(file == journal_model.MAGIC[:size] + before[size:] for size in range(9))


def check_left(name, before, file, payloads, is_settled):
    """The journal that a program leaves which was given a file with the first of these records and may have joined more: where it is
    settled there is nothing behind them; else they may be followed by what it found there, or by a front of the next record."""
    journal = journal_in(name, file, payloads)
    if is_settled:
        same(name, file, journal_model.file_of(payloads[:journal.records]))
    elif file != before and not begun(file, before):
        end = journal.end
        body = journal_model.record(payloads[journal.records])[1:] + b"\0" if journal.records < len(payloads) else b""
        repaired = not journal.tail and file[end] in (0, *before[end:end + 1])
        if not repaired and not (file[end] == 0 and body.startswith(journal.tail)):
            raise Differs(f"after the records of {name} there is {file[end:].hex()}")
    return journal


def torn(draw, before, file, payloads, sure):
    """What a crash of the machine may leave of a file that an ended program left, of whose records so many were synced: any bytes
    where it wrote last, and any length that was there since."""
    if file == before:
        return file
    if len(file) < 9:
        return journal_model.torn(draw, 0, before if begun(file, before) else b"", journal_model.MAGIC)
    journal = journal_in("the file", file, payloads)
    end = journal.end
    if journal.tail and journal.records < len(payloads):
        return journal_model.torn(draw, end + 1, file[:end + 1], journal_model.record(payloads[journal.records])[1:] + b"\0")
    if journal.records > sure:
        at = end - len(journal_model.record(payloads[journal.records - 1]))
        return file[:at] + bytes([draw.choice([0, 1, 2, 255, draw.randrange(256)])]) + file[at + 1:]
    if not journal.tail and len(before) > len(file) and before.startswith(file):
        return file + bytes(draw.choices(range(256), k=draw.randint(0, len(before) - len(file))))
    return file


# A run.


class Run:
    """The client's program over an address in front of the server's. At one moment, which `fault` names, something is done; the run is
    over when the program has ended and the server has nothing more to say."""

    def __init__(self, server, path, mode, text, fault):
        self.server, self.fault = server, fault
        self.passed = {SENT: b"", RECEIVED: b""}
        self.printed, self.alarms, self.at_end = b"", [], []
        self.is_fired = self.has_ended = self.server_ended = False
        self.client_side = self.server_side = None
        self.waits = selectors.DefaultSelector()
        self.begin = time.monotonic()
        with socket.create_server((HOST, 0)) as listener, open(path + ".script", "wb+") as script:
            script.write(text)
            script.seek(0)
            words = [over_tcp.NET, f"{HOST}:{listener.getsockname()[1]}", path, mode]
            self.process = subprocess.Popen(words, stdin=script, stdout=subprocess.PIPE, **fault.given("client"))
            try:
                fault.began(self)
                self.carry(listener)
                self.status = self.process.wait(SECONDS)
            finally:
                for action in self.at_end:
                    action()
                self.close()
                self.process.kill()
                self.process.stdout.close()
                self.process.wait()
                self.waits.close()
        self.took = time.monotonic() - self.begin

    def at(self, seconds, action):
        self.alarms.append((time.monotonic() + seconds, action))

    def carry(self, listener):
        self.waits.register(listener, selectors.EVENT_READ, lambda: self.accept(listener))
        self.waits.register(self.process.stdout, selectors.EVENT_READ, self.read_lines)
        is_idle = False
        while self.is_open() or not is_idle:
            due = min((moment for moment, _ in self.alarms), default=None)
            wait = SECONDS if due is None else max(due - time.monotonic(), 0)
            ready = self.waits.select(wait if self.is_open() else 0)
            is_idle = not ready
            if is_idle and due is None and self.is_open():
                raise Differs("neither side makes progress")
            for key, _ in ready:
                if key.fileobj.fileno() >= 0:
                    key.data()
            self.ring()

    def is_open(self):
        """Whether the program runs or the link stands."""
        return self.client_side is not None or not self.has_ended

    def ring(self):
        for alarm in [alarm for alarm in self.alarms if alarm[0] <= time.monotonic()]:
            self.alarms.remove(alarm)
            alarm[1](self)

    def read_lines(self):
        text = os.read(self.process.stdout.fileno(), CHUNK)
        self.printed += text
        if not text:
            self.has_ended = True
            self.waits.unregister(self.process.stdout)
        elif self.fault.way == "lines" and self.printed.count(b"\n") >= self.fault.place:
            self.fire()

    def fire(self):
        if not self.is_fired:
            self.is_fired = True
            self.fault.action(self)

    # The link.

    def accept(self, listener):
        self.client_side = listener.accept()[0]
        try:
            self.server_side = over_tcp.connect(self.server.address)
        except OSError:
            self.server_ended = True
            self.close()
            return
        for side, way in ((self.client_side, SENT), (self.server_side, RECEIVED)):
            side.settimeout(SECONDS)
            side.setsockopt(socket.IPPROTO_TCP, socket.TCP_NODELAY, 1)
            self.waits.register(side, selectors.EVENT_READ, lambda way=way: self.pass_on(way))
        self.fault.connected()
        if self.fault.place == 0 and self.fault.way in self.passed:
            self.fire()

    def pass_on(self, way):
        source, other = (self.client_side, self.server_side) if way == SENT else (self.server_side, self.client_side)
        try:
            piece = source.recv(CHUNK)
        except OSError:
            piece = b""
        if not piece:
            self.ended(way)
            return
        before = len(self.passed[way])
        self.passed[way] += piece
        if self.fault.way == way and before <= self.fault.place <= before + len(piece) and not self.is_fired:
            front = self.fault.place - before
            self.hand_over(other, piece[:front])
            self.fire()
            piece = piece[front:]
        self.hand_over(other, piece)

    @staticmethod
    def hand_over(side, piece):
        # a side that is gone takes nothing; that it is gone is read from it
        with contextlib.suppress(OSError):
            side.sendall(piece)

    def ended(self, way):
        """One side has ended. Behind the client's end the server is heard out, so that it has taken all that it will."""
        if way == RECEIVED:
            self.server_ended = self.client_side in self.waits.get_map()
            self.close()
        else:
            self.waits.unregister(self.client_side)
            with contextlib.suppress(OSError):
                self.server_side.shutdown(socket.SHUT_WR)

    def close(self, at_once=False):
        """Ends the link to both sides; at once, without waiting for what was sent to arrive."""
        for side in (self.client_side, self.server_side):
            if side is not None and side.fileno() >= 0:
                with contextlib.suppress(KeyError, ValueError):
                    self.waits.unregister(side)
                if at_once:
                    side.setsockopt(socket.SOL_SOCKET, socket.SO_LINGER, struct.pack("ii", 1, 0))
                side.close()
        self.client_side = self.server_side = None
