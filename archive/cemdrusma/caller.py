"""What a command begins with: if a process was kept for its archive the command is handed to that, with its own standard input, output
and error; if there is none one is started; and if the settings say so the command is carried out by command_line.py here.

Every search waits for what is loaded here. So it is little: the modules below `signal` and `socket` in place of these two, which take as
long to load as all else, and no module for types."""
from __future__ import annotations

import _signal as signal
import _socket as socket
import os
import struct
import sys
import time
from array import array

from . import version

TYPE_CHECKING = False
if TYPE_CHECKING:
    from typing import Iterator, List, Optional

VARIABLE = "SSE_ARCHIVE"
# the commands that work in an archive's folder
IN_FOLDER = {"index", "search", "show", "status", "leaks", "check", "renew", "set", "backup", "lock"}
# what the kept process answers: lines. KEY comes before a key command, whose digits it waits for; or FAILED with a status and why
TAKEN, BUSY, OTHER, STATUS, KEY = b"taken\n", b"busy\n", b"other\n", b"status ", b"key "
FAILED = b"failed "
# how often it is tried to reach a kept process that is ending, and for how many seconds one is waited for after a signal
TRIES, WAIT = 40, 5
# of the path of a socket, in bytes
MOST_PATH = 100
LOCKED, WORDS, REFUSED = 12, 2, 1


def main(words: List[str]) -> int:
    command = command_of(words)
    try:
        folder = folder_of(words) if command in IN_FOLDER or command == "new" and os.getcwd() else ""
    except OSError:
        print("archive: the current folder isn't there any more: go to one that is, such as `cd`, and run the command again", file=sys.stderr)
        return WORDS
    if command in IN_FOLDER - {"lock"}:
        status = ask(folder, words)
        if status is None and is_kept(folder):
            status = carried_out(start(), folder, words)
        if status is not None:
            return status
    from . import command_line  # pylint: disable=import-outside-toplevel

    return command_line.main(words)


def command_of(words: List[str]) -> Optional[str]:
    left = iter(words)
    for word in left:
        if word == "--archive":
            next(left, None)
        elif not word.startswith("-"):
            return word
        elif word in ("-h", "--help", "--version", "--"):
            return None
    return None


def folder_of(words: List[str]) -> str:
    """The archive's folder, as command_line.py takes it too: the last one that is asked for."""
    asked = ""
    for place, word in enumerate(words):
        if word == "--":
            break
        if word == "--archive" and place + 1 < len(words):
            asked = words[place + 1]
        elif word.startswith("--archive="):
            asked = word.partition("=")[2]
    return os.path.realpath(asked or os.environ.get(VARIABLE) or os.curdir)


def is_kept(folder: str) -> bool:
    """Whether the settings have a process kept; if they can't be read that is said elsewhere."""
    try:
        with open(os.path.join(folder, "settings"), "rb") as file:
            lines = [line.split() for line in file.read().splitlines()]
    except OSError:
        return False
    return [b"keep", b"0"] not in lines and socket_of(folder, True) is not None


# The place of the socket.


def directory(is_made: bool = False) -> Optional[str]:
    """A folder of this user alone; None if there is none."""
    given = os.environ.get("XDG_RUNTIME_DIR", "")
    if os.path.isabs(given) and os.path.isdir(given):
        path = os.path.join(given, "cemdrusma")
    else:
        path = os.path.join(os.environ.get("TMPDIR") or "/tmp", f"cemdrusma-{os.getuid()}")
    try:
        if is_made and not os.path.lexists(path):
            os.mkdir(path, 0o700)
    except OSError:
        return None
    return path if is_private(path) else None


def socket_there(folder: str) -> Optional[str]:
    """Where the kept process of a folder listens, as it wrote into the folder's lock: whatever the variables of whoever asks are."""
    try:
        status = os.stat(folder)
        with open(os.path.join(folder, "lock"), "rb") as file:
            path = os.fsdecode(file.read(MOST_PATH + 1))
    except OSError:
        return None
    # of a copied folder the lock names another folder's process
    return path if os.path.basename(path) == f"{status.st_dev:x}-{status.st_ino:x}" and is_private(os.path.dirname(path)) else None


def is_private(path: str) -> bool:
    try:
        status = os.lstat(path)
    except OSError:
        return False
    return status.st_uid == os.getuid() and status.st_mode & 0o170077 == 0o040000


def socket_of(folder: str, is_made: bool = False) -> Optional[str]:
    """Where the socket of a folder's kept process is to be: by the folder's number, which stays when it is moved."""
    place = directory(is_made)
    try:
        status = os.stat(folder)
    except OSError:
        return None
    path = os.path.join(place, f"{status.st_dev:x}-{status.st_ino:x}") if place else None
    return path if path and len(os.fsencode(path)) <= MOST_PATH else None


def reached(path: str) -> Optional[socket.socket]:
    """A connection to a kept process of this user, None if there is none."""
    conn = socket.socket(socket.AF_UNIX, socket.SOCK_STREAM, 0)
    try:
        conn.connect(path)
        _, user, _ = struct.unpack("3i", conn.getsockopt(socket.SOL_SOCKET, socket.SO_PEERCRED, struct.calcsize("3i")))
        if user == os.getuid():
            return conn
    except OSError:
        pass
    conn.close()
    return None


# What is asked.


def request(folder: str, words: List[str]) -> bytes:
    """The version, the program, the folders, the words and the environment: each field ended by a zero byte."""
    try:
        here = os.getcwd()
    except OSError:
        here = os.sep
    program = os.path.realpath(os.path.dirname(__file__))
    fields = [version(), program, folder, here, str(len(words)), *words, *(f"{name}={value}" for name, value in os.environ.items())]
    content = b"".join(os.fsencode(field) + b"\0" for field in fields)
    return len(content).to_bytes(4, "big") + content


def ask(folder: str, words: List[str]) -> Optional[int]:
    """The status of a command that a kept process carried out; None if there is none."""
    for _ in range(TRIES):
        path = socket_there(folder)
        conn = reached(path) if path else None
        if conn is None:
            return None
        answer = carried_out(conn, folder, words)
        if answer is not None:
            return answer
        time.sleep(0.025)
    return None


def carried_out(conn: socket.socket, folder: str, words: List[str]) -> Optional[int]:
    """Hands a command over and waits for its status. A signal is handed on by the end of the connection, which ends the command. None
    if the process was ending, or is of another version and has ended."""

    def end(number: int, _: object) -> None:
        raise SystemExit(128 + number)

    for number in (signal.SIGINT, signal.SIGTERM, signal.SIGHUP):
        if signal.getsignal(number) != signal.SIG_IGN:
            signal.signal(number, end)
    answer = b""
    try:
        try:
            hand_over(conn, request(folder, words))
        except OSError:
            pass  # it may have answered why
        for line in lines_of(conn):
            if line.startswith(KEY):
                conn.sendall(key_printed(os.fsdecode(line[len(KEY) : -1])))
            else:
                answer += line
            if line.startswith(STATUS):
                break
    except OSError:
        pass
    except SystemExit:
        await_end(conn)
        raise
    finally:
        conn.close()
    if STATUS in answer:
        return int(answer.rpartition(STATUS)[2])
    if answer == BUSY:
        shown = folder if folder.isprintable() else ascii(folder)
        print(f"archive: {shown} is in use by another `archive`: wait until it has ended, then run the command again", file=sys.stderr)
        return LOCKED
    if answer.startswith(TAKEN):
        print("archive: the process that was kept for this archive has ended: run the command again; nothing is lost", file=sys.stderr)
        return REFUSED
    return None


def lines_of(conn: socket.socket) -> Iterator[bytes]:
    content = b""
    while True:
        piece = conn.recv(2**12)
        if not piece:
            return
        *lines, content = (content + piece).split(b"\n")
        for line in lines:
            yield line + b"\n"


def key_printed(command: str) -> bytes:
    """What a key command prints that is run here, where the terminal is; or why it doesn't."""
    from . import key, statuses  # pylint: disable=import-outside-toplevel

    try:
        return key.printed_by(command).encode() + b"\n"
    except statuses.Trouble as error:
        return FAILED + os.fsencode(f"{error.status} {error}\n")


def hand_over(conn: socket.socket, content: bytes) -> None:
    files = []
    for number in range(3):
        try:
            os.fstat(number)
            files.append(number)
        except OSError:
            files.append(os.open(os.devnull, os.O_RDWR))
    sent = conn.sendmsg([content], [(socket.SOL_SOCKET, socket.SCM_RIGHTS, array("i", files))])
    conn.sendall(content[sent:])


def await_end(conn: socket.socket) -> None:
    """Ends a command and waits until its process has ended, so that the next one finds the folder free."""
    try:
        conn.shutdown(socket.SHUT_WR)
        conn.settimeout(WAIT)
        while conn.recv(100):
            pass
    except OSError:
        pass


# Its start.


def start() -> socket.socket:
    """Starts a process that is to be kept, and answers a connection to it. It runs the same program, as `archive --kept NUMBER`."""
    ours, its = socket.socketpair()
    options = [f"-{letter}" for letter, is_set in (("S", sys.flags.no_site), ("B", sys.flags.dont_write_bytecode), ("E", sys.flags.ignore_environment),
                                                  ("I", sys.flags.isolated), ("s", sys.flags.no_user_site)) if is_set]
    if os.fork() == 0:
        try:
            os.setsid()
            os.set_inheritable(its.fileno(), True)
            os.execv(sys.executable, [sys.executable, *options, os.path.abspath(sys.argv[0]), "--kept", str(its.fileno())])
        finally:
            os._exit(127)  # pylint: disable=protected-access
    its.close()
    return ours
