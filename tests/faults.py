"""What may happen to a program, its link or its file in a run of tests/shaken.py: at a byte, after a line, at a time, or at a call on a
file, which is met by a shared object made of tests/at_call.c."""
import os
import resource
import signal

import over_tcp
from shaken import RECEIVED, SENT, Run

KILLED = -signal.SIGKILL
CLIENT, SERVER = "client", "server"
NOTHING = "nothing"
# the shared object that meets calls on files, where there is one, and what it does there
CALLS = {"object": None, "ways": ["before", "within", "after", "refused"]}


# What is done at a moment of a run.


def kill_client(run):
    run.process.kill()


def kill_server(run):
    run.server.process.kill()


def kill_both(run):
    kill_server(run)
    kill_client(run)


def cut(run):
    run.close()


def cut_at_once(run):
    run.close(at_once=True)


def stopped_for(moment, is_client):
    def action(run):
        process = run.process if is_client else run.server.process
        process.send_signal(signal.SIGSTOP)
        run.at(moment, lambda _: process.send_signal(signal.SIGCONT))
        run.at_end.append(lambda: process.send_signal(signal.SIGCONT))
    return action


def leave_stopped(run):
    """The server is stopped, the client killed, and what is on its way left for the server to find when it goes on."""
    run.server.process.send_signal(signal.SIGSTOP)
    kill_client(run)
    run.close()


# When it is done, and what may come of it.


class Fault:
    """Something that is done at a moment of a run: when so many bytes have passed one way, so many lines are printed or so much time is
    over; or from the start on, of one program, which is bounded or met at a call. `ends` has the statuses that the client and the
    server may have by it, where they don't go on."""

    def __init__(self, name, ends=((), ()), action=None, way=None, place=None, seconds=None, hits=None, limit=None, call=None):
        self.name, self.ends = name, dict(zip((CLIENT, SERVER), ends))
        self.action, self.way, self.place, self.seconds = action, way, place, seconds
        # the size that a program's file may have, and the number of its call with what is done there
        self.hits, self.limit, self.call = hits, limit, call
        # a server that goes on when the client has come
        self.woken = None

    def given(self, side):
        """How a program is started: SIGXFSZ is ignored, as it is here, so that a file above its limit is a write that fails."""
        given = {"restore_signals": False}
        if side == self.hits and self.call:
            number, how = self.call
            given["env"] = {**os.environ, "LD_PRELOAD": CALLS["object"], "AT_CALL": str(number), "HOW": how}
        return given

    def bound(self, side, process):
        if side == self.hits and self.limit is not None:
            resource.prlimit(process.pid, resource.RLIMIT_FSIZE, (self.limit, self.limit))

    def began(self, run):
        self.bound(CLIENT, run.process)
        if self.seconds is not None:
            run.at(self.seconds, Run.fire)

    def connected(self):
        if self.woken is not None:
            self.woken.send_signal(signal.SIGCONT)


KILLS = [
    ("client killed", ((KILLED,), ()), kill_client),
    ("server killed", ((5,), (KILLED,)), kill_server),
    ("both killed", ((5, KILLED), (KILLED,)), kill_both),
]


class Faults:
    """The faults that a run may have for which this passes and so many lines are printed."""

    def __init__(self, draw, passes, lines, duration, files):
        self.draw, self.passes, self.lines, self.duration, self.files = draw, passes, lines, duration, files

    def on_the_wire(self, name, ends, action):
        """At a byte of what passes: each frame and each reply is as likely as another, and its first and last bytes most."""
        way = self.draw.choice([SENT, RECEIVED])
        texts = [exchange[way == RECEIVED] for exchange in self.passes]
        number = self.draw.randrange(len(texts))
        size = len(texts[number])
        place = sum(map(len, texts[:number])) + self.draw.choice([0, 1, size // 2, size - 1, size, self.draw.randint(0, size)])
        return Fault(f"{name} at a byte {way}", ends, action, way=way, place=place)

    def killed_on_the_wire(self):
        return self.on_the_wire(*self.draw.choice(KILLS))

    def killed_at_a_time(self):
        name, ends, action = self.draw.choice(KILLS)
        return Fault(f"{name} at any time", ends, action, seconds=self.draw.uniform(0, 1.2 * self.duration))

    def killed_behind_a_line(self):
        return Fault("client killed after a line", ((KILLED,), ()), kill_client, way="lines", place=self.draw.randint(1, max(self.lines, 1)))

    def cut(self):
        return self.on_the_wire("link cut", ((5,), ()), self.draw.choice([cut, cut_at_once]))

    def full(self):
        """The file may have the size that it has, or some bytes more."""
        side = self.draw.choice([CLIENT, SERVER])
        size = os.path.getsize(self.files[side]) if os.path.exists(self.files[side]) else 0
        more = self.draw.choice([0, 1, self.draw.randint(0, 40), self.draw.randint(0, 1500)])
        return Fault(f"{side} on a full disk", ((6,), ()) if side == CLIENT else ((5,), (6,)), hits=side, limit=size + more)

    def at_a_call(self):
        """Each record takes four calls, and a start at most five."""
        side, how = self.draw.choice([CLIENT, SERVER]), self.draw.choice(CALLS["ways"])
        calls = 4 * sum(over_tcp.is_update(frame) for frame, _ in self.passes) + 5
        own = KILLED if how in ("before", "within", "after") else 6
        told = f"killed {how} a call on its file" if own == KILLED else f"with calls on its file {how}"
        return Fault(f"{side} {told}", ((own,), ()) if side == CLIENT else ((5,), (own,)), hits=side, call=(self.draw.randint(1, calls), how))

    def stopped(self):
        side = self.draw.choice([CLIENT, SERVER])
        return self.on_the_wire(f"{side} stopped for a moment", ((), ()), stopped_for(self.draw.uniform(0, 0.01), side == CLIENT))

    def left_stopped(self):
        return self.on_the_wire("server stopped, client killed", ((KILLED,), ()), leave_stopped)

    def any(self):
        if CALLS["ways"] == ["skipped"]:
            return self.at_a_call()
        made = 2 * [self.killed_on_the_wire, self.killed_at_a_time, self.cut, self.full]
        made += [self.killed_behind_a_line, self.stopped, self.left_stopped]
        if CALLS["object"]:
            made += 5 * [self.at_a_call]
        return self.draw.choice(made)()
