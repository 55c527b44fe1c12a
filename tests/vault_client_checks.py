"""What `.ci/vault` checks of the vault's client, beside the plain model of tests/vault_client_model.py: the program over TCP with the vault's own
server, both journals byte for byte; either of them killed and gone on with; full disks; and servers of the check's own that cut, change or
forge what they send. Each check has a path in a new folder, for the server's journal."""
import contextlib
import os
import random
import select
import socket
import subprocess
import threading

import journal_model
import vault_client_model as client_model
import vault_model as model
from over_tcp import HOST, KEY, NET, SECONDS, Server, client_journal, client_path, ends, no_larger_than, read, receive, same, write

TOP = os.path.dirname(os.path.dirname(os.path.abspath(__file__)))
SERVER = os.path.join(TOP, "crates", "vault_served", "out", "vault_served")
CLIENT = os.path.join(TOP, "crates", "sse_vault", "out", "sse_vault")
SCRIPTS, RESTORES, KILLED = 100, 30, 8
ZEROS, OTHER_KEY = bytes(32), bytes(range(32))
ROW = b"put 5 6869\nget 5\ndrop 5\nget 5\nput 5 00\nget 5\n"
ROW_LINES = b"stored 5\nbody 5: 6869\ndropped 5\nno body 5\nstored 5\nbody 5: 00\n"
FIRST = KEY + ROW


def vault(path, *count, **given):
    return Server(path, *count, program=SERVER, **given)


def client(words, script, **given):
    """What the program prints, and its status."""
    ran = subprocess.run([CLIENT, *words], input=script, stdout=subprocess.PIPE, stderr=subprocess.DEVNULL, timeout=SECONDS, check=False, **given)
    return ran.stdout, ran.returncode


def session(told, records):
    """A session over a vault of the model."""
    return client_model.Session(told.answer, records)


def agrees(words, mode, script, run):
    """The program does what the model's session does."""
    lines, status = run.run(mode, script)
    printed, ended = client([*words, mode], script)
    same(f"the output of {mode}", printed, lines)
    same(f"the status of {mode}", ended, status)


def records_in(path):
    """The records in a journal's file."""
    file = read(path)
    found, _ = journal_model.start(lambda at, n: file[at : at + n], len(file))
    return [file[at : at + n] for at, n in found]


def have(path, told, records):
    """Both journals are whole, and those of a model's vault and of these records."""
    same("the server's journal", read(path), told.journal())
    same("the client's journal", read(client_path(path)), journal_model.file_of(records))


class Peer:
    """A vault of the check's own: each body of a frame is answered by the function, whose None cuts the connection. It keeps the bodies."""

    def __init__(self, answer):
        self.answer, self.frames = answer, []
        self.listener = socket.create_server((HOST, 0))
        self.listener.settimeout(SECONDS)
        self.address = f"{HOST}:{self.listener.getsockname()[1]}"
        self.thread = threading.Thread(target=self.serve)

    def __enter__(self):
        self.thread.start()
        return self

    def __exit__(self, *_):
        self.thread.join(SECONDS)
        self.listener.close()

    def serve(self):
        """One connection, up to its end."""
        with contextlib.suppress(OSError), self.listener.accept()[0] as peer:
            peer.settimeout(SECONDS)
            while len(size := receive(peer, 4)) == 4:
                self.frames.append(receive(peer, int.from_bytes(size, "big")))
                reply = self.answer(self.frames[-1])
                if reply is None:
                    return
                peer.sendall(model.framed(reply))


def over_peer(path, answer, mode, script, records=()):
    """The program and the model over the same answers: lines, status, frames and the client's journal. What is given back is the session."""
    asked = []

    def ask(frame):
        asked.append(frame)
        return answer[0](frame)

    run = client_model.Session(ask, records)
    lines, status = run.run(mode, script)
    if records:
        write(client_path(path), journal_model.file_of(records))
    with Peer(answer[1]) as peer:
        printed, ended = client([peer.address, mode] if mode == "restore" else [peer.address, client_path(path), mode], script)
    same("the output", printed, lines)
    same("the status", ended, status)
    same("the frames", peer.frames, asked)
    if mode != "restore":
        same("the client's journal", read(client_path(path)), journal_model.file_of(run.records))
    return status


def twice(make):
    """Two functions of the same kind, each over a vault of its own."""
    return make(model.Vault()), make(model.Vault())


def started(words):
    """The program, whose input is told it piece by piece."""
    return subprocess.Popen([CLIENT, *words], stdin=subprocess.PIPE, stdout=subprocess.PIPE, stderr=subprocess.DEVNULL)


def left_by(process):
    """What the program has printed that nobody read, once it has ended."""
    with process:
        return process.stdout.read()


# Scripts.


def script_with_server(path, seed):
    """Sessions of a random script: the first begins, and each after it goes on."""
    rng = random.Random(seed)
    key, told, records = rng.randbytes(32), model.Vault(), []
    with vault(path) as server:
        for number in range(rng.randrange(1, 4)):
            run = session(told, records)
            agrees([server.address, client_path(path)], "more" if number else "run", client_model.with_key(key, client_model.made(rng, key)), run)
            records = run.records
    have(path, told, records)


def script_with_peer(path, seed):
    """A session whose server does what the model's does, but for one reply that is changed, cut, or of another kind."""
    rng = random.Random(seed)
    key, place = rng.randbytes(32), rng.randrange(12)
    script = client_model.with_key(key, client_model.made(rng, key))
    odd = rng.choice((None, None, bytes([model.CLASH]), bytes([model.NO_MEMORY]), bytes([model.STORE_FAULT]), bytes([model.BAD_FRAME]), bytes([model.ABSENT]),
                      model.took(2**32 - 2), model.expects(1), bytes([model.BODY]) + bytes(40), bytes([model.BODY]), bytes([model.TOOK]), b"\0"))
    is_taken, at = rng.random() < 0.5, rng.random()

    def make(told):
        replies = []

        def answer(frame):
            replies.append(None)
            if len(replies) - 1 != place:
                return told.answer(frame)
            reply = told.answer(frame) if is_taken else None
            return changed(reply, at) if reply and reply[0] == model.BODY else odd

        return answer

    over_peer(path, twice(make), "run", script)


def changed(reply, at):
    """A reply with one bit of its tag or of its text changed."""
    place = 1 + int(at * (len(reply) - 1))
    return reply[:place] + bytes([reply[place] ^ 1]) + reply[place + 1 :]


def row(path):
    """The script of the first row, over TCP and over memory; over memory nothing is kept."""
    with vault(path, "1") as server:
        same("the output and the status", client([server.address, client_path(path), "run"], FIRST), (ROW_LINES, 0))
        server.ends_with(b"serving\n", 0)
    told = model.Vault()
    run = session(told, [])
    same("the lines of the model", run.run("run", FIRST), (ROW_LINES, 0))
    have(path, told, run.records)
    same("the permissions of the client's journal", os.stat(client_path(path)).st_mode & 0o777, 0o600)
    same("the output and the status over memory", client(["run"], FIRST), (ROW_LINES, 0))
    same("the output and the status of more over memory", client(["more"], FIRST), (b"stopped: no journal\n", 10))


def longest(path):
    """A text of 65,536 bytes is stored and comes back; a longer one is refused."""
    text = random.Random(2).randbytes(client_model.LONGEST)
    script = KEY + b"put 1 " + text.hex().encode() + b"\nget 1\nput 2 " + text.hex().encode() + b"00\n"
    told = model.Vault()
    run = session(told, [])
    with vault(path) as server:
        agrees([server.address, client_path(path)], "run", script, run)
    have(path, told, run.records)


# Ends of either program.


def updates(count):
    """Commands that each keep a record, with what each prints: every third drops what was put before."""
    for n in range(1, count + 1):
        if n % 3:
            yield f"put {n} {bytes([n % 256]).hex() * (n * 7 % 400)}\n".encode(), f"stored {n}\n".encode()
        else:
            yield f"drop {n - 1}\n".encode(), f"dropped {n - 1}\n".encode()


def goes_on(path, commands):
    """A session that goes on from what an earlier one left, of these commands' puts and drops, and makes the rest."""
    records = records_in(client_path(path))
    whole = session(model.Vault(), [])
    whole.run("run", KEY + b"".join(text for text, _ in commands))
    same("the client's records", records, whole.records[: len(records)])
    kept, taken = max(len(records) - 1, 0), len(records_in(path))
    same("whether the server has all that was kept, or all but the last", taken in (kept, kept - 1), True)
    told = model.Vault()
    rest = KEY + b"".join(text for text, _ in commands[kept:])
    lines = b"".join(line for _, line in commands[kept:])
    with vault(path) as server:
        if records:
            lines = b"resumed %d frames\n" % (kept - taken) + lines
        same("the output and the status", client([server.address, client_path(path), "more" if records else "run"], rest), (lines, 0))
    session(told, []).run("run", KEY + b"".join(text for text, _ in commands))
    have(path, told, whole.records)
    return kept


def killed_client(path, seed):
    """The client is killed after so many lines; what it printed is kept at both sides, and `more` makes the rest."""
    commands = list(updates(60))
    with vault(path) as server:
        process = started([server.address, client_path(path), "run"])
        seen = tell_and_kill(process, commands, process, random.Random(seed).randrange(200))
    same("whether all is there that was printed", goes_on(path, commands) >= seen.count(b"\n"), True)


def killed_server(path, seed):
    """The server is killed while a client is at work; the client stops, and `more` makes the rest with the server started again."""
    commands = list(updates(60))
    with vault(path) as server:
        process = started([server.address, client_path(path), "run"])
        seen = tell_and_kill(process, commands, server.process, random.Random(seed).randrange(200))
    lines = b"".join(line for _, line in commands)
    if seen != lines:
        same("the last line", seen.endswith(b"stopped: link\n"), True)
        same("the status", process.returncode, 5)
        seen = seen[: -len(b"stopped: link\n")]
    same("the lines", seen, lines[: len(seen)])
    same("whether all is there that was printed", goes_on(path, commands) >= seen.count(b"\n"), True)


def tell_and_kill(process, commands, victim, size):
    """Tells the program all of its script, reads so many bytes of what it prints, kills one of the two, and gives all that is printed."""
    sender = threading.Thread(target=tell, args=(process, KEY + b"".join(text for text, _ in commands)))
    sender.start()
    seen = process.stdout.read(size) if size else b""
    victim.kill()
    sender.join(SECONDS)
    return seen + left_by(process)


def tell(process, text):
    with contextlib.suppress(OSError):
        process.stdin.write(text)
        process.stdin.flush()
    with contextlib.suppress(OSError):
        process.stdin.close()


def full_disk_of_client(path):
    """The client's disk fills within a record: nothing of the command is sent. Once there is room, `more` goes on."""
    commands = list(updates(8))
    whole = session(model.Vault(), [])
    whole.run("run", KEY + b"".join(text for text, _ in commands))
    for kept, more in ((1, 0), (1, 3), (3, 8), (5, 30)):
        for file in (path, client_path(path)):
            with contextlib.suppress(FileNotFoundError):
                os.remove(file)
        size = len(journal_model.file_of(whole.records[:kept])) + more
        with vault(path) as server:
            printed = client([server.address, client_path(path), "run"], KEY + b"".join(text for text, _ in commands), preexec_fn=lambda size=size: no_larger_than(size))
        same("the output and the status", printed, (b"".join(line for _, line in commands[: kept - 1]) + b"stopped: disk\n", 6))
        same("how many the server took", len(records_in(path)), kept - 1)
        goes_on(path, commands)


def full_disk_of_server(path):
    """The server's disk fills: the client stops, and `more` goes on once there is room."""
    commands = list(updates(8))
    told = model.Vault()
    session(told, []).run("run", KEY + b"".join(text for text, _ in commands[:4]))
    with vault(path, preexec_fn=lambda: no_larger_than(len(told.journal()) + 3)) as server:
        printed = client([server.address, client_path(path), "run"], KEY + b"".join(text for text, _ in commands))
    same("the output and the status", printed, (b"".join(line for _, line in commands[:4]) + b"stopped: link\n", 5))
    same("how many were kept", goes_on(path, commands), 5)


# What isn't right.


def stops(path):
    """Each cause at which a session that goes on stops before its first command: another key, other records, another server."""
    told = model.Vault()
    first = session(told, [])
    first.run("run", FIRST)
    server_file, client_file = told.journal(), journal_model.file_of(first.records)
    mark = client_model.mark_record(ZEROS)
    bodies = ([mark, b"\x24"], [mark, client_model.record_of("drop", 5)], [mark, mark], [client_model.record_of("put", 5)], [mark + b"\0"], first.records + [client_model.record_of("put", 5)])
    cases = [(KEY, client_file, model.Vault().journal(), b"stopped: server is at 0, wanted 2 to 3\n", 9), (b"key " + OTHER_KEY.hex().encode() + b"\n", client_file, server_file, b"stopped: key\n", 11),
             (KEY, server_file, server_file, b"stopped: record 0\n", 10), (KEY, client_journal(KEY + b"doc 3 a\nsetup 4 4\n"), server_file, b"stopped: record 0\n", 10),
             (KEY, journal_model.EMPTY, server_file, b"stopped: no journal\n", 10), (KEY, bytes(20), server_file, b"stopped: no journal\n", 10), (b"get 5\n", client_file, server_file, b"stopped: line 1\n", 2),
             (b"", client_file, server_file, b"stopped: line 1\n", 2)]
    cases += [(KEY, journal_model.file_of(records), server_file, b"stopped: record %d\n" % (len(records) - 1), 10) for records in bodies]
    for key, own, others, line, status in cases:
        write(path, others)
        write(client_path(path), own)
        with vault(path) as server:
            same("the output and the status", client([server.address, client_path(path), "more"], key + ROW), (line, status))
        same("the server's journal", read(path), others)
        same("the client's journal", read(client_path(path)), own)
    for own, line, status in ((client_file, b"stopped: journal has records\n", 10), (b"", b"stopped: server is at 3, wanted 0 to 0\n", 9)):
        write(client_path(path), own)
        with vault(path) as server:
            same("the output and the status of run", client([server.address, client_path(path), "run"], FIRST), (line, status))
        same("the server's journal", read(path), server_file)


def forged(path):
    """The second row: a body of which a bit is changed is not printed, nor is one that belongs to another put, or one that is too long."""
    for change in (lambda body: body[:33] + bytes([body[33] ^ 1]) + body[34:], lambda body: body[:5] + bytes([body[5] ^ 128]) + body[6:], lambda body: body + b"\0", lambda body: body[:-1], lambda body: body + bytes(65_567 - len(body))):

        def make(told, change=change):
            return lambda frame: change(told.answer(frame)) if frame[0] == 0x43 else told.answer(frame)

        with contextlib.suppress(FileNotFoundError):
            os.remove(client_path(path))
        same("the status", over_peer(path, twice(make), "run", FIRST), 12)
        with contextlib.suppress(FileNotFoundError):
            os.remove(client_path(path))
        same("the status", over_peer(path, twice(lambda told: put_before(told)), "run", KEY + b"put 5 6869\nput 6 6869\nget 6\n"), 12)


def put_before(told):
    """A vault that gives the text of the first put for each."""
    def answer(frame):
        if frame[0] == 0x43:
            return told.answer(model.fetch(next(iter(told.slots))))
        return told.answer(frame)

    return answer


def too_long_under_the_key(path):
    """A text above 65,536 bytes whose tag is right is an unexpected reply."""
    text = bytes(client_model.LONGEST + 1)
    reply = bytes([model.BODY]) + client_model.tag_of(ZEROS, 0, 5, text) + text

    def make(told):
        return lambda frame: reply if frame[0] == 0x43 else told.answer(frame)

    same("the status", over_peer(path, twice(make), "run", FIRST), 9)


def cut(path):
    """The connection is cut at each frame of a script, after the server took it or before; `more` makes the rest."""
    script = KEY + b"put 1 aa\nput 2\ndrop 1\nget 2\nput 3 bb\n"
    for place in range(6):
        for is_taken in (False, True):
            with contextlib.suppress(FileNotFoundError):
                os.remove(client_path(path))
            tolds = model.Vault(), model.Vault()
            sides = [cutting(told, place, is_taken) for told in tolds]
            same("the status", over_peer(path, sides, "run", script), 5)
            records = records_in(client_path(path))
            if records:
                run = session(tolds[0], records)
                with Peer(tolds[1].answer) as peer:
                    agrees([peer.address, client_path(path)], "more", KEY + b"put 9\nget 9\nget 2\n", run)
                same("the client's journal", read(client_path(path)), journal_model.file_of(run.records))
                same("what the vault took", tolds[1].records, tolds[0].records)


def cutting(told, place, is_taken):
    """A vault that cuts the connection at one frame, which it took or not."""
    count = iter(range(1_000))

    def answer(frame):
        if next(count) != place:
            return told.answer(frame)
        if is_taken:
            told.answer(frame)
        return None

    return answer


# Restores.


def filled(key, script):
    """A vault of the model after a session of this script."""
    told = model.Vault()
    session(told, []).run("run", client_model.with_key(key, script))
    return told


def restored(path, seed):
    """All texts that are there come back from the key, in order, and the server's journal stays as it is."""
    rng = random.Random(seed)
    key = rng.randbytes(32)
    told = filled(key, client_model.made_in_order(rng))
    write(path, told.journal())
    with vault(path) as server:
        agrees([server.address], "restore", client_model.with_key(key, b""), session(told, []))
    same("the server's journal", read(path), told.journal())


def restored_from_peer(path, seed):
    """The same of a server that answers one frame otherwise: with a changed text, with none, with another reply, or not at all."""
    rng = random.Random(seed)
    key, place, at = rng.randbytes(32), rng.randrange(8), rng.random()
    script = client_model.made_in_order(rng)
    odd = rng.choice((b"", b"", b"", None, bytes([model.ABSENT]), bytes([model.ABSENT]), bytes([model.CLASH]), bytes([model.NO_MEMORY]), bytes([model.STORE_FAULT]), model.took(1), model.expects(3)))

    def make(_):
        told, count = filled(key, script), iter(range(1_000))

        def answer(frame):
            reply = told.answer(frame)
            if next(count) != place:
                return reply
            return odd if odd != b"" else changed(reply, at) if reply[0] == model.BODY else reply

        return answer

    over_peer(path, twice(make), "restore", client_model.with_key(key, b""))


def restores(path):
    """All texts; one forged among others, and one where none may be; one or two missing, which is noticed after all others came back; two
    missing at the end, which isn't, since they look like a put and its drop; a key of which nothing is there; and scripts that are none."""
    told = filled(ZEROS, b"put 1 61\nput 2\nput 3 63\ndrop 2\nput 4 64\n")
    slots = [client_model.slot_of(ZEROS, v) for v in range(4)]
    first, last = told.slots[slots[0]], told.slots[slots[3]]
    whole = b"body 1: 61\nbody 3: 63\nbody 4: 64\n"
    stopped = b"stopped: reply " + model.framed(model.expects(5)).hex().encode() + b"\n"
    cases = [({}, KEY, whole, 0), ({slots[0]: changed(b"\0" + first, 0.99)[1:]}, KEY, b"forged 1\nbody 3: 63\nbody 4: 64\n", 1), ({slots[3]: first}, KEY, b"body 1: 61\nbody 3: 63\nforged 4\n", 1),
             ({slots[1]: first}, KEY, b"body 1: 61\nforged 2\nbody 3: 63\nbody 4: 64\n" + stopped, 9), ({slots[3]: None}, KEY, b"body 1: 61\nbody 3: 63\n" + stopped, 9),
             ({slots[0]: None}, KEY, b"body 3: 63\nbody 4: 64\n" + stopped, 9), ({slots[0]: None, slots[2]: None}, KEY, b"body 4: 64\n" + stopped, 9), ({slots[2]: None, slots[3]: None}, KEY, b"body 1: 61\n", 0),
             ({}, b"key " + OTHER_KEY.hex().encode() + b"\n", stopped, 9), ({}, KEY + b" \n\n", whole, 0), ({}, KEY[:-1], whole, 0), ({}, b"\n" + KEY, whole, 0), ({}, KEY + b"get 1\n", b"stopped: line 2\n", 2),
             ({}, KEY + b"\n" + KEY, b"stopped: line 3\n", 2), ({}, b"", b"stopped: line 1\n", 2), ({}, b"get 1\n", b"stopped: line 1\n", 2), ({}, KEY + b"what\n", b"stopped: line 2\n", 2)]
    for change, script, lines, status in cases:
        def make(_, change=change):
            vault_now = model.Vault()
            vault_now.records = list(told.records)
            vault_now.slots = {slot: held for slot, held in {**told.slots, **change}.items() if held is not None}
            return vault_now.answer

        same("the lines of the model", session_lines(make(None), script), (lines, status))
        same("the status", over_peer(path, twice(make), "restore", script), status)


def session_lines(answer, script):
    return client_model.Session(answer).run("restore", script)


# The program.


def wrong_words(path):
    """Words that ask for nothing: nothing is opened, made or connected to, and nothing is read."""
    with socket.create_server((HOST, 0)) as listener:
        address = f"{HOST}:{listener.getsockname()[1]}"
        for words in (
            [], ["--help"], ["Run"], ["restore"], ["run", "more"], ["run", "run"], [address], [address, path], [address, "run"], [address, "Restore"], [address, "--restore"], [address, path, "restore"],
            [address, path, ""], [address, path, "Run"], [address, path, "run", "run"], [address, path, "--", "run"], [address, path, "-run"], [address, path, "1"], ["run", address, path], [address, "restore", path],
            [address, "restore", "restore"], [address, path, b"run\xff"], [b"\xff", path, "run"], [b"\xff", "restore"], [address, path, "more", "more"],
        ):
            ends(CLIENT, words, b"stopped: words\n", 2, FIRST)
            same(f"a file after {words}", os.path.exists(path), False)
            same(f"a connection after {words}", select.select([listener], [], [], 0)[0], [])


def other_files(path):
    """What is no plain file is refused before anything is connected to, and so is the file of another program that is at work."""
    folder = os.path.dirname(path)
    os.mkfifo(path + ".pipe")
    with socket.create_server((HOST, 0)) as listener:
        address = f"{HOST}:{listener.getsockname()[1]}"
        for refused in (folder, "/dev/null", path + ".pipe", os.path.join(folder, "none", "journal"), ""):
            ends(CLIENT, [address, refused, "run"], b"stopped: disk\n", 6, FIRST)
        same("a connection", select.select([listener], [], [], 0)[0], [])
    with vault(path) as server:
        ends(CLIENT, [server.address, path, "run"], b"stopped: disk\n", 6, FIRST)
        process = started([server.address, client_path(path), "run"])
        process.stdin.write(KEY + b"put 1\n")
        process.stdin.flush()
        same("the first line", process.stdout.readline(), b"stored 1\n")
        for program in (CLIENT, NET):
            ends(program, [server.address, client_path(path), "more"], b"stopped: disk\n", 6, FIRST)
        tell(process, b"get 1\n")
        same("the rest", left_by(process), b"body 1: \n")
        same("the status", process.returncode, 0)


def other_addresses(path):
    """An address that can't be reached, with a file and without one."""
    for address in ("", HOST, "256.0.0.1:1", HOST + ":65536", HOST + ":x"):
        ends(CLIENT, [address, client_path(path), "run"], b"stopped: link\n", 5, FIRST)
        same("the client's journal", read(client_path(path)), b"")
        ends(CLIENT, [address, "restore"], b"stopped: link\n", 5, FIRST)


def no_output(path):
    """If standard output takes nothing, the status is 4, and only the record of the first command is kept."""
    with vault(path) as server, open("/dev/full", "wb") as full:
        ran = subprocess.run([CLIENT, server.address, client_path(path), "run"], input=FIRST, stdout=full, timeout=SECONDS, check=False)
    same("the status", ran.returncode, 4)
    same("how many records", (len(records_in(client_path(path))), len(records_in(path))), (2, 1))


def checks():
    """Each check with its name, and what it is given besides the path."""
    yield from ((f"a client's script {seed}", script_with_server, seed) for seed in range(SCRIPTS))
    yield from ((f"a client's script {seed} with a server of the check's own", script_with_peer, seed) for seed in range(SCRIPTS))
    yield from ((f"a client killed {seed}", killed_client, seed) for seed in range(KILLED))
    yield from ((f"a server killed under a client {seed}", killed_server, seed) for seed in range(KILLED))
    yield from ((f"a restore {seed}", restored, seed) for seed in range(RESTORES))
    yield from ((f"a restore {seed} with a server of the check's own", restored_from_peer, seed) for seed in range(RESTORES))
    for check in (row, longest, full_disk_of_client, full_disk_of_server, stops, forged, too_long_under_the_key, cut, restores, wrong_words, other_files, other_addresses, no_output):
        yield f"a client: {check.__name__.replace('_', ' ')}", check
