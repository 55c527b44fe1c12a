"""What checks of the programs over TCP share: servers that are started on a free port of this machine and ended by their own number,
clients, what must pass for a script and be in both journals, a script in parts, files, and a list of checks that is gone through, each in a
folder of its own."""
import concurrent.futures
import multiprocessing
import os
import resource
import select
import signal
import socket
import subprocess
import tempfile

import compare
import journal_model
import leak_model
import record_model
import script_model

TOP = os.path.dirname(os.path.dirname(os.path.abspath(__file__)))
SERVED = os.path.join(TOP, "crates", "sse_served", "out", "sse_served")
NET = os.path.join(TOP, "crates", "sse_net", "out", "sse_net")
KEY = b"key " + b"0" * 64 + b"\n"
HOST = "127.0.0.1"
SERVING = b"serving\n"
NO_ADDRESS = b"stopped: link\n"
# the kinds of the frames that a server's journal keeps
UPDATES = range(2, 8)
# what nothing takes longer than, in seconds
SECONDS = 20
# how often a free port may be taken by another process before the server has it
TRIES = 10


class Differs(Exception):
    """What was seen isn't what was wanted; the text says where."""


def same(what, seen, wanted):
    if seen != wanted:
        if isinstance(seen, bytes):
            seen, wanted = compare.shortened(seen), compare.shortened(wanted)
        raise Differs(f"{what} is {seen}, expected {wanted}")


def read(path):
    with open(path, "rb") as file:
        return file.read()


def write(path, content):
    with open(path, "wb") as file:
        file.write(content)


def no_larger_than(size):
    """From now on this process can't make a file larger than so many bytes."""
    signal.signal(signal.SIGXFSZ, signal.SIG_IGN)
    resource.setrlimit(resource.RLIMIT_FSIZE, (size, size))


def free_address():
    with socket.create_server((HOST, 0)) as taken:
        return f"{HOST}:{taken.getsockname()[1]}"


def connect(address):
    host, port = address.split(":")
    return socket.create_connection((host, int(port)), timeout=SECONDS)


def receive(peer, size):
    """So many bytes, fewer where the other side ends."""
    text = b""
    while len(text) < size:
        piece = peer.recv(size - len(text))
        if not piece:
            break
        text += piece
    return text


def exchanges(script):
    """Each frame that passes for a script, with its replies as one text; nothing for one without a key."""
    history, frames = leak_model.history_in(script), []
    if leak_model.key_in(script) is not None:
        for way, text in leak_model.simulated(leak_model.leak(history), leak_model.draws(history)):
            if way == leak_model.SENT:
                frames.append([text, b""])
            else:
                frames[-1][1] += text
    return frames


def by_command(frames):
    """What passes for each command, the greeting first: the frames of a setup behind its first one belong to it."""
    commands = []
    for exchange in frames:
        if exchange[0][4] in range(3, 6):
            commands[-1].append(exchange)
        else:
            commands.append([exchange])
    return commands


def parts(script):
    """The text up to the setup that is accepted, then of each command behind it that prints a line, each with what it prints."""
    lines = script_model.lines_of(script)
    taken, told, found = 0, b"", []

    def counted():
        nonlocal taken
        for taken, line in enumerate(lines, 1):
            yield line

    begin = 0
    for line in script_model.printed(counted()):
        told += line.encode() + b"\n"
        if found or line.startswith("set up "):
            found.append((b"".join(line + b"\n" for line in lines[begin:taken]), told))
            begin, told = taken, b""
    return found


def is_update(frame):
    return frame[4] in UPDATES


def server_records(frames):
    """The payloads in the journal of a server that took these, each with its replies."""
    return [frame[4:] for frame, _ in frames if is_update(frame)]


def server_journal(frames):
    return journal_model.file_of(server_records(frames))


def owner_head(owner):
    """What a connection to a server of many owners begins with."""
    return leak_model.be(8, owner)


def owners_journal(turns):
    """The journal of a server of many owners that took these, each turn an owner and frames with their replies."""
    return journal_model.file_of([owner_head(owner) + record for owner, frames in turns for record in server_records(frames)])


def client_path(path):
    return path + ".client"


def client_journal(script):
    return journal_model.file_of(record_model.records(script))


def have_journals(path, script, frames):
    same("the server's journal", read(path), server_journal(frames))
    same("the client's journal", read(client_path(path)), client_journal(script))


class Server:
    """The server's program over a journal, listening; it is ended where the block is left. Where no address is given, another free one
    is tried as long as one is taken in between. What it says on standard error is left out, unless it is started otherwise. What is given
    besides is how it is started."""

    def __init__(self, path, *count, address=None, folder=None, program=SERVED, **given):
        given.setdefault("stderr", subprocess.DEVNULL)
        for _ in range(TRIES):
            self.address = address or free_address()
            self.process = subprocess.Popen([program, self.address, path, *count], stdout=subprocess.PIPE, cwd=folder, **given)
            self.printed = b""
            if select.select([self.process.stdout], [], [], SECONDS)[0]:
                self.printed = os.read(self.process.stdout.fileno(), len(SERVING))
            if address or not NO_ADDRESS.startswith(self.printed):
                break
            self.__exit__()

    def __enter__(self):
        return self

    def __exit__(self, *_):
        self.process.kill()
        self.process.communicate()

    def connect(self):
        return connect(self.address)

    def ends_with(self, line, status):
        rest, _ = self.process.communicate(timeout=SECONDS)
        same("the output", self.printed + rest, line)
        same("the status", self.process.returncode, status)


def next_number(server, head=b""):
    """How many update frames the server has taken, as it tells another peer."""
    with server.connect() as peer:
        peer.sendall(head + leak_model.framed(1))
        reply = receive(peer, 9)
    same("the kind of the reply to a greeting", reply[:5], b"\0\0\0\5\x81")
    return int.from_bytes(reply[5:], "big")


def client(address, path, mode, script, *owner):
    """What the client's program prints, and its status. At a server of many owners `owner` are the words that name one."""
    ran = subprocess.run([NET, address, path, *owner, mode], input=script, stdout=subprocess.PIPE, timeout=SECONDS, check=False)
    return ran.stdout, ran.returncode


def run(address, path, mode, script, lines, status, *owner):
    printed, ended = client(address, path, mode, script, *owner)
    same(f"the output of {mode}", printed, lines)
    same(f"the status of {mode}", ended, status)


def ends(program, words, line, status, script=b""):
    """Runs a program to its end."""
    ran = subprocess.run([program, *words], input=script, stdout=subprocess.PIPE, stderr=subprocess.DEVNULL, timeout=SECONDS, check=False)
    same(f"the output of {words}", ran.stdout, line)
    same(f"the status of {words}", ran.returncode, status)


def fault_of(check, *given):
    """What is wrong, in words, or None: the check is called with a path in a new folder, and with what it is given besides."""
    with tempfile.TemporaryDirectory() as folder:
        try:
            check(os.path.join(folder, "journal"), *given)
        except (Differs, OSError, subprocess.TimeoutExpired) as wrong:
            return str(wrong)
    return None


def go_through(title, checks, at_once=1):
    """Goes through checks, each a name, a function and what it is given, so many at once; prints what is wrong and how many passed,
    and answers whether any failed."""
    failed = 0
    with concurrent.futures.ProcessPoolExecutor(at_once, multiprocessing.get_context("fork")) as pool:
        runs = [(name, pool.submit(fault_of, check, *given)) for name, check, *given in checks]
        for name, run in runs:
            wrong = run.result()
            if wrong is not None:
                failed += 1
                print(f"{title}: {name}: {wrong}", flush=True)
    print(f"{title}: {len(checks) - failed} passed, {failed} failed")
    return failed != 0
