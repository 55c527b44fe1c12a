"""Made inputs of worlds, the same for the same seed or row: lines of events, by docs/FORMATS.md. Each event is drawn by what
the model (tests/world_model.py) says that can happen next, and now and then whatever it says."""
import random

import leak_model
import world_model
from world_model import CLIENT, RESTS, SERVER

KEYS = [bytes([number]) * 32 for number in range(16)]
WORDS = ["a", "b", "c", "d", "ü", "w" * 64]
IDENTIFIERS = [1, 2, 3, 4, 5, 2**64 - 1]
# the commands of one row, each as its lines; a stop comes inside each of their disk calls in turn
COMMANDS = [["doc 1 a", "doc 2 a b", "setup 1 2"], ["add 3 a"], ["del 1"], [f"rebuild {KEYS[1].hex()}"], ["add 1 b a"], ["find a"]]
PICKS = range(8)


class Lines:
    """The lines of a world so far, and the world after them."""

    def __init__(self, key):
        self.lines, self.world = [b"key " + key.hex().encode()], world_model.World(key)

    def add(self, line):
        """One line more, and whether its event can happen."""
        line = line if isinstance(line, bytes) else line.encode()
        self.lines.append(line)
        name, fields = world_model.event_in(line)
        if name == "doc":
            return self.world.collect(fields[0][0], fields[1])
        return self.world.happens(name, fields)

    def next_step(self):
        """The line by which a command or a start goes on; None where the client has nothing left to do."""
        for side in (SERVER, CLIENT):
            if self.world.sides[side] is None:
                return f"start {side}"
        client = self.world.client
        if client.waits and self.world.waiting is None:
            return f"deliver {len(self.world.sent) - 1}"
        return "send" if client.waits or client.phase != RESTS else None

    def bytes(self):
        return b"".join(line + b"\n" for line in self.lines)


# Random worlds.


class MadeWorld(Lines):
    """The lines of a seed: 20 to 60 events."""

    def __init__(self, seed):
        self.draw = random.Random(f"worlds {seed}")
        super().__init__(self.draw.choice(KEYS))
        for _ in range(self.draw.randint(20, 60)):
            self.add(self.any_line() if self.chance(0.06) else self.next_line())

    def chance(self, part):
        return self.draw.random() < part

    def document(self):
        words = self.draw.sample(WORDS, self.draw.randint(0, 3))
        return " ".join([str(self.draw.choice(IDENTIFIERS)), *words])

    def setup(self):
        """A line `setup`, after some `doc`."""
        known = {identifier for identifier, _ in self.world.documents}
        for identifier in sorted(set(self.draw.choices(IDENTIFIERS, k=3)) - known):
            self.add(f"doc {identifier} " + " ".join(self.draw.sample(WORDS, self.draw.randint(0, 4))))
        b, B = self.draw.choice([0, 1, 1, 2, 3]), self.draw.choice([1, 2, 2, 3])
        return f"setup {b} {B}" + self.draw.choice(["", "", " 1", " 2", " 4", " 3"])

    def stop(self, side):
        call = 0 if self.chance(0.3) else self.draw.randint(1, 12)
        return f"stop {side} {call} {self.draw.randrange(64)}"

    def any_line(self):
        """Whatever line, whether its event can happen or not."""
        line = self.draw.choice([
            "send", "lose", "start client", "start server", "deliver", "find", "add", "del", "rebuild", "setup", "stop client", "stop server"])
        if line.startswith("stop"):
            return self.stop(line[5:])
        if line == "deliver":
            return f"deliver {self.draw.randrange(len(self.world.sent) + 2)}"
        return self.setup() if line == "setup" else self.command(line)

    def command(self, name):
        if name == "find":
            return f"find {self.draw.choice(WORDS)}"
        if name == "add":
            return f"add {self.document()}"
        if name == "del":
            return f"del {self.draw.choice(IDENTIFIERS)}"
        return f"rebuild {self.draw.choice(KEYS).hex()}" if name == "rebuild" else name

    def next_line(self):
        """A line whose event can mostly happen."""
        if self.chance(0.05):
            return self.stop(self.draw.choice([CLIENT, SERVER]))
        if self.world.sent and self.world.server and self.chance(0.1):
            return f"deliver {self.draw.randrange(len(self.world.sent))}"
        if self.world.waiting is not None and self.chance(0.04):
            return "lose"
        step = self.next_step()
        if step:
            return step
        if not self.world.client.commands:
            return self.setup()
        return self.command(self.draw.choice(["find", "find", "add", "add", "add", "del", "del", "rebuild"]))


def made_world(seed):
    return MadeWorld(seed).bytes()


# One row of commands, with a stop inside each call of a disk.


def stopped_row(side, call, pick, again=0):
    """The commands of the row, where a side stops inside this call of its disk, from the beginning on, and where `again` isn't 0, its next
    start inside that one. After a stop it is started, and what isn't recorded is given again. None where no such call is made."""
    row = Lines(KEYS[0])
    row.add(f"stop {side} {call} {pick}")
    while not row.world.done or row.world.done[-1][1] is None:
        step = row.next_step()
        if step == f"start {side}" and again and row.world.disks[side].left < 0:
            row.add(f"stop {side} {again} {pick}")
            again = 0
        for line in [step] if step else COMMANDS[len(row.world.client.commands)]:
            row.add(line)
    return None if row.world.disks[side].left > 0 else row.bytes()


def stopped_rows():
    """All such rows by name: each call of both disks with each pick, and with another stop inside the start after it."""
    for side in (CLIENT, SERVER):
        call = 1
        while stopped_row(side, call, 0):
            for pick in PICKS:
                yield f"{side}, call {call}, pick {pick}", stopped_row(side, call, pick)
            for again in range(1 + call % 3, 25, 3):
                pick = (call + again) % len(PICKS)
                yield f"{side}, call {call}, then {again}, pick {pick}", stopped_row(side, call, pick, again)
            call += 1
