"""The process that is kept after a command, for a minute: the next commands go through it. It has the archive's folder locked, and keeps
what it read of the archive and the client with its connection to the server, which are most of what a search waits for. It is
reached by a socket that only its user can open. One command runs at a time, with the caller's own standard input, output and error;
when the caller is gone, the command and the process end."""
from __future__ import annotations

import os
import select
import signal
import socket
import sys
import threading
import time
from array import array
from typing import Callable, List, NamedTuple, Optional

from . import caller, key, version
from .opened import Opened
from .report import say
from .statuses import REFUSED, Trouble

# runs a command: its words, and how the archive is opened
Run = Callable[[List[str], Callable[[str], Opened]], int]
REQUEST_BYTES = 2**24
# how often it is looked whether there is somebody to be turned away, in seconds
LOOK = 0.2
# how often it is looked whether it can be reached still, in seconds
STILL_THERE = 2


class Request(NamedTuple):
    version: str
    program: str
    folder: str
    here: str
    words: List[str]
    environment: List[str]
    files: List[int]


def received(conn: socket.socket) -> Optional[Request]:
    """A request with the files that come with it, None if it isn't whole."""
    files = array("i")
    content = b""
    size = 4
    while len(content) < size:
        piece, beside, _, _ = conn.recvmsg(2**16, socket.CMSG_SPACE(3 * files.itemsize))
        for level, kind, sent in beside:
            if (level, kind) == (socket.SOL_SOCKET, socket.SCM_RIGHTS):
                files.frombytes(sent[: len(sent) - len(sent) % files.itemsize])
        content += piece
        if len(content) >= 4:
            size = 4 + min(REQUEST_BYTES, int.from_bytes(content[:4], "big"))
        if not piece:
            break
    fields = [os.fsdecode(field) for field in content[4:].split(b"\0")]
    if len(content) < size or len(files) != 3 or len(fields) < 6:
        for number in files:
            os.close(number)
        return None
    count = int(fields[4])
    return Request(*fields[:4], fields[5 : 5 + count], fields[5 + count : -1], list(files))  # type: ignore[arg-type]


class Kept:
    """An archive that stays open between commands."""

    def __init__(self, run: Run) -> None:
        self.run = run
        self.archive: Optional[Opened] = None
        self.listener: Optional[socket.socket] = None
        self.path = ""
        self.made = 0, 0  # by what the socket's file is known

    def serve(self, first: socket.socket) -> None:
        """Carries out the command of the process that started this one, then those that come, until nothing comes for as long as the
        settings say."""
        try:
            self.take(first)
            while self.archive is not None and self.listener is not None:
                seconds = self.archive.folder.settings.seconds["keep"]
                conn = self.next_within(self.listener, self.archive, seconds)
                if conn is None:
                    break
                self.take(conn)
        finally:
            self.end()

    def next_within(self, listener: socket.socket, archive: Opened, seconds: float) -> Optional[socket.socket]:
        until = time.monotonic() + seconds
        while True:
            left = until - time.monotonic()
            if left <= 0:
                return None
            idle = archive.idle_left()
            if select.select([listener], [], [], min(left, STILL_THERE if idle is None else min(idle, STILL_THERE)))[0]:
                return listener.accept()[0]
            if not self.has_socket() or not archive.folder.has_lock():
                # its socket went away with the user's last session, or the folder did: nobody reaches it any more
                return None
            if archive.idle_left() == 0:
                archive.end_session()

    def end(self) -> None:
        """The folder is free before the socket's last connection ends, so that whoever waits for that finds it so."""
        if self.archive is not None:
            if self.path:
                try:
                    self.write_place("")
                    if self.has_socket():
                        os.unlink(self.path)
                except OSError:
                    pass
            self.archive.close()
            self.archive = None
        if self.listener is not None:
            self.listener.close()
            self.listener = None

    # One command.

    def take(self, conn: socket.socket) -> None:
        """Carries out what a caller asks. If this process is over by that, the folder is free before the caller is let go."""
        files: List[int] = []
        try:
            asked = received(conn)
            if asked is None:
                return
            files = asked.files
            is_other = (asked.version, asked.program) != (version(), os.path.realpath(os.path.dirname(__file__)))
            if self.archive is not None:
                is_other = is_other or self.archive.folder.path != asked.folder or not self.archive.folder.has_lock()
            if is_other or asked.words == ["lock"]:
                self.end()
                conn.sendall(caller.STATUS + b"0\n" if asked.words == ["lock"] else caller.OTHER)
                return
            conn.sendall(caller.TAKEN)
            status = self.carried_out(conn, asked)
            conn.sendall(caller.STATUS + str(status).encode() + b"\n")
        except OSError:
            self.end()
        except BaseException:
            self.end()
            raise
        finally:
            for number in files:
                os.close(number)
            conn.close()

    def carried_out(self, conn: socket.socket, asked: Request) -> int:
        """Runs a command over the caller's files, in the caller's folder and environment, as long as the caller is there."""
        watcher = Watcher(conn, self)
        nothing = os.open(os.devnull, os.O_RDWR)
        for number, file in enumerate(asked.files):
            os.dup2(file, number)
        key.ask_caller = watcher.key_of
        os.environ.clear()
        os.environ.update(line.split("=", 1) for line in asked.environment if "=" in line)
        try:
            os.chdir(asked.here)
        except OSError:
            os.chdir(os.sep)
        sys.stdout.reconfigure(line_buffering=sys.stdout.isatty())  # type: ignore[union-attr]
        watcher.start()
        try:
            return self.run(asked.words, self.opened)
        except SystemExit as stop:
            if watcher.is_caller_gone or not isinstance(stop.code, int) or stop.code > 128:
                raise
            return stop.code
        except Exception:  # pylint: disable=broad-except
            import traceback  # pylint: disable=import-outside-toplevel

            traceback.print_exc()
            self.end()
            return REFUSED
        finally:
            key.ask_caller = None
            watcher.stop()
            flush()
            for number in range(3):
                os.dup2(nothing, number)
            # what couldn't be written isn't for the next caller
            flush()
            os.close(nothing)
            os.chdir(os.sep)

    def opened(self, folder: str) -> Opened:
        """The archive, opened by the first command; then it is reached by the socket."""
        if self.archive is None:
            self.archive = Opened(folder)
            self.listen(folder)
        self.archive.refresh()
        return self.archive

    def has_socket(self) -> bool:
        """Whether what is at the socket's place is this one's."""
        try:
            status = os.lstat(self.path)
        except OSError:
            return False
        return (status.st_dev, status.st_ino) == self.made

    def write_place(self, path: str) -> None:
        """Into the lock, where whoever comes finds it, whatever their environment is."""
        if self.archive is not None:
            os.ftruncate(self.archive.folder.lock, 0)
            os.pwrite(self.archive.folder.lock, os.fsencode(path), 0)

    def listen(self, folder: str) -> None:
        path = caller.socket_of(folder, True)
        if path is None:
            return
        try:
            if os.path.lexists(path):
                os.unlink(path)
            listener = socket.socket(socket.AF_UNIX, socket.SOCK_STREAM)
            before = os.umask(0o177)
            try:
                listener.bind(path)
            finally:
                os.umask(before)
            listener.listen(16)
            status = os.lstat(path)
            self.made = status.st_dev, status.st_ino
            self.write_place(path)
        except OSError as error:
            say(f"no process can be kept for this archive: {path}: {error.strerror}")
            return
        self.path, self.listener = path, listener


def flush() -> None:
    for stream in (sys.stdout, sys.stderr):
        try:
            stream.flush()
        except OSError:
            pass


class Watcher:
    """While a command runs: ends this process once the caller is gone, takes what the caller's key command printed, and tells others who
    come that it is busy."""

    def __init__(self, conn: socket.socket, kept: Kept) -> None:
        self.conn, self.kept = conn, kept
        self.is_caller_gone = False
        self.answer = b""
        self.is_answered = threading.Event()
        self.wakes, self.wake = os.pipe()
        self.thread = threading.Thread(target=self.watch, daemon=True)

    def start(self) -> None:
        self.thread.start()

    def stop(self) -> None:
        os.write(self.wake, b"x")
        if self.thread.is_alive():
            self.thread.join()
        os.close(self.wake)
        os.close(self.wakes)

    def watch(self) -> None:
        while True:
            listener = self.kept.listener  # which the first command makes
            watched = [self.conn, self.wakes] + ([listener] if listener else [])
            ready = select.select(watched, [], [], LOOK)[0]
            if self.wakes in ready:
                return
            if self.conn in ready and not self.has_answered():
                self.is_caller_gone = True
                os.kill(os.getpid(), signal.SIGTERM)
                return
            if listener in ready:
                turn_away(listener.accept()[0])  # type: ignore[union-attr]

    def has_answered(self) -> bool:
        """Takes what the caller sends. Whether it is there still."""
        try:
            piece = self.conn.recv(2**12)
        except OSError:
            return False
        self.answer += piece
        if self.answer.endswith(b"\n"):
            self.is_answered.set()
        return bool(piece)

    def key_of(self, command: str) -> str:
        """The digits that a key command prints, which the caller runs."""
        self.answer = b""
        self.is_answered.clear()
        self.conn.sendall(caller.KEY + os.fsencode(command) + b"\n")
        self.is_answered.wait()
        answer, self.answer = os.fsdecode(self.answer.strip()), b""
        if answer.startswith(caller.FAILED.decode()):
            _, status, why = answer.split(" ", 2)
            raise Trouble(int(status), why)
        return answer


def turn_away(other: socket.socket) -> None:
    """Tells a caller that another command runs; what it asks is read, so that it can read the answer."""
    with other:
        try:
            other.sendall(caller.BUSY)
            other.shutdown(socket.SHUT_WR)
            other.settimeout(LOOK)
            while other.recv(2**16):
                pass
        except OSError:
            pass


# Its start.


def keep(number: int, run: Run) -> int:
    """What the kept process does: `number` is that of its connection to the process that started it."""
    for name in os.listdir("/proc/self/fd"):
        if int(name) > 2 and int(name) != number:
            try:
                os.close(int(name))
            except OSError:
                pass  # the folder that was listed
    first = socket.socket(fileno=number)
    first.set_inheritable(False)
    Kept(run).serve(first)
    return 0
