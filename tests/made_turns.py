"""Made inputs of turns, the same for the same seed: a script that is cut at random commands and resumed, over disks and links of which
calls fail. .ci/turns has the form of an input."""
import random

import leak_model
import script_model
from made_scripts import RenewedScript

# up to how many bytes a script may have, and the index of its setup
SCRIPT, INDEX = 2500, 4000
# a key that none of the scripts has
OTHER_KEY = b"key " + b"f7" * 32


def index_bytes(setup):
    """How many bytes the cells and the blocks of a setup take, the dummies among them."""
    words, blocks = leak_model.padded_counts(setup)
    return words * (17 + 8 * setup.b) + blocks * 8 * setup.B


def small_script(draw, is_padded):
    """The lines of a script with a setup that has a Q above 1, or none."""
    while True:
        script = RenewedScript(draw.random()).bytes()
        if len(script) <= SCRIPT:
            history = leak_model.history_in(script)
            if history and (history[0].setup.Q > 1) == is_padded and max(index_bytes(epoch.setup) for epoch in history) <= INDEX:
                return script_model.lines_of(script)


def key_lines(lines):
    """For each number of lines, the key line of a run that goes on behind so many."""
    found = [b"key"]
    for line, brought in leak_model.accepted(b"".join(line + b"\n" for line in lines)):
        keys = [what if isinstance(what, bytes) else what.key for what in brought if isinstance(what, (bytes, leak_model.Renewal))]
        found.append(b"key " + keys[0].hex().encode() if keys else found[-1])
    return found


class MadeTurns:
    """The turns of a seed."""

    def __init__(self, seed):
        self.draw = random.Random(f"turns {seed}")
        self.lines = small_script(self.draw, seed % 3 == 0)
        names = [line.split()[:1] for line in self.lines]
        # in some of the scripts it isn't this line of a setup that is accepted, but a later one
        self.key, self.setup = names.index([b"key"]), names.index([b"setup"])
        self.key_lines = key_lines(self.lines)
        self.turns = []

    def chance(self, part):
        return self.draw.random() < part

    def client_disk(self):
        """What the client's disk is: mostly that of the turn before, or a crash image of it."""
        if self.chance(0.03):
            return "x"
        return self.draw.choice(["same", "same", "same", "kept", str(self.draw.randrange(256)), str(self.draw.randrange(4096))])

    def server(self, frames):
        """Another server, whose disk and link may fail; at times one that has taken nothing."""
        disk = self.draw.choice(["kept", "kept", str(self.draw.randrange(256))])
        if not self.turns or self.chance(0.05):
            disk = "x"
        call = self.draw.randint(1, 4 * frames) if self.chance(0.3) else 0
        cuts = [f"{self.draw.randrange(2 * frames)}{self.draw.choice('-+')}" for _ in range(self.draw.choice([0, 1, 1, 2]))]
        return " ".join(["", disk, str(call), *cuts])

    def turn(self, begin, end):
        """A turn over these lines, behind the key line; at times one with a key of another epoch."""
        behind = begin if self.chance(0.9) else self.draw.randint(self.key + 1, len(self.lines))
        lines = [OTHER_KEY if self.chance(0.02) else self.key_lines[behind], *self.lines[begin:end]]
        word, disk, call, server = "run", "x", 0, " x 0"
        if self.turns:
            word = "more" if (begin > self.setup) != self.chance(0.05) else "run"
            disk, server = self.client_disk(), ""
        if self.chance(0.3):
            # a new journal and the record of a setup take ten calls, and each record behind them four
            first = 1 if self.turns or self.chance(0.25) else 11
            call = self.draw.randint(first, first + 7 + 4 * self.draw.randint(0, len(lines)))
        if self.chance(0.6):
            server = self.server(4 + len(lines))
        self.turns.append(b"\n".join([f"turn {word} {disk} {call}{server}".encode(), *lines, b""]))

    def bytes(self):
        begin = self.key + 1
        for _ in range(self.draw.choice([1, 1, 2, 3])):
            end = self.draw.randint(max(begin, self.setup + 1 if self.chance(0.9) else 0), len(self.lines))
            self.turn(begin, end)
            # what was to be done is done again in part, or only what is behind it
            begin = self.draw.choice([end, end, self.draw.randint(begin, end)])
        self.turn(begin, len(self.lines))
        finds = [line for line in self.lines if line.split()[:1] == [b"find"]]
        self.turns.append(b"\n".join([b"turn more same 0 kept 0", self.key_lines[-1], *finds[-4:], b""]))
        return b"----\n".join(self.turns)


def made_turns(seed):
    return MadeTurns(seed).bytes()
