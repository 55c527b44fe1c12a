"""The words of `archive`, and what each command calls."""
from __future__ import annotations

import argparse
import os
import time
from typing import Callable, List, Optional

from . import caller, folder, kept, programs, settings, version
from .opened import Opened
from .progress import Progress
from .report import on_a_line, say
from .statuses import LOCKED, WORDS, Trouble

DESCRIPTION = """An archive of mails, notes and files, which a server keeps searchable without seeing a word.

  archive new FOLDER --server ADDRESS    makes one; start its server too: sse_served ADDRESS FILE
                     --vault ADDRESS     the same, and keeps the texts too, at a vault: vault_served ADDRESS FILE
  archive index PATHS..                  indexes what is new, changed or gone at these paths since the last time
  archive search WORDS..                 prints the texts that hold these words; AND, OR, NOT, "phrases", from:, date: and more
  archive show NUMBER                    prints a text
  archive status                         prints what is indexed, and whether the server has all of it
  archive check                          looks whether anything is broken, and says what to do
  archive renew                          takes a new key at the same server, where what was deleted is gone then
                --server ADDRESS         sets all up again under a new key at a new server: after every restore
  archive restore FOLDER --key FILE --vault ADDRESS    writes the texts at a vault into FOLDER, from its key alone
  archive set vault ADDRESS              names the vault of an archive that is there already
  archive backup FILE                    makes a copy of what `renew` needs
  archive leaks                          prints what the server has learned so far
  archive lock                           ends the process that is kept for a minute after a command

The archive is the one in the folder that --archive names, else the variable SSE_ARCHIVE, else the current folder. In it are
a key, a journal with all words as they are, the names of texts and the words that were searched, and with a vault its key and
all texts: keep it to yourself, and keep a copy of the keys. The manual has all of this: man archive.
"""
NEW = """Makes FOLDER, which isn't there yet or is empty, with a new key. Nothing is sent; the first `archive index` needs a server at
ADDRESS (host:port) that has taken nothing yet: sse_served ADDRESS FILE. With --vault the texts are kept too, under a key of their own, at a
vault that has taken nothing yet: vault_served ADDRESS FILE."""
KEY_COMMAND = """take the 64 hexadecimal digits of the key from what this command prints, such as 'pass show archive', in place of a file"""
INDEX = """Indexes the texts at PATHS: maildirs, mbox files, mails, CSV files (a text for each row) and other files that are text, in
folders below too. What is there already and hasn't changed is left alone; what is gone is deleted. Without PATHS all of the
earlier ones are looked through. Of a mail From, To, Cc, Subject, Date and the texts are indexed. Key, journal and server are
opened even if there is nothing to do, so a status of 0 says that the archive works. If the archive has a vault, the files are put there as
they are, compressed and encrypted, and those that are gone are dropped."""
SEARCH = """Prints how many texts are found, and of each, the newest first, its number, its name and a piece of it. Words are joined by AND unless
OR or NOT stands between them; "..." is a phrase (in a shell: '"garden wall"'), garden* a beginning, from: to: subject: name a
field of a mail, and date:2026-01..2026-03 days. The server is asked the words that narrow most; with --at-once it is asked every
word."""
SHOW = """Prints a text as it is in its file now; with --stored, as it is at the vault, byte for byte. NAME is the number that `archive search` prints, or the path of its file; if that
has several texts they are listed."""
STATUS = """Prints what is indexed, what is still to do, and whether the server and the vault have all of it."""
CHECK = """Looks at the key, the journal, the texts, the server and the vault, searches a word of each of ten texts, and fetches ten pieces of texts. Prints
a line for each, with what to do if something is wrong. The server learns the ten searches, the vault the ten pieces."""
RENEW = """Makes a new key, and sets up everything live again under it at the same server: what others learn of the old key opens nothing that is
there from then on, and what was deleted is gone from the lists. With --server it also makes a new journal, and sets up all documents of the
journal at the server at ADDRESS, which has taken nothing yet; the archive stays as it is until that server has answered. This mends a server
that lost updates, a folder that was put back from a copy, and a journal that has grown too large. If the archive has a vault its key is made
anew too, and all texts are put at the vault at the address of --vault, which has taken nothing yet."""
RESTORE = """Writes the files at the vault at ADDRESS into FOLDER, which isn't there yet or is empty, from the vault's key alone. A file of which a piece is
missing or forged is named, and the others are written. With --server and --new-vault an archive of them is made too, in the folder that
--archive names, under new keys and at servers that have taken nothing yet; nothing goes on at the old vault."""
SET = """Names the address of the archive's vault, which keeps its texts. The first time a key is made for it, and the next `archive index` puts
the texts there; the vault has taken nothing yet: vault_served ADDRESS FILE."""
BACKUP = """Copies the journal, the settings and the names of the texts into FILE, an archive of tar. The key isn't in it: the copy is meant
for `archive renew`, which makes a new one."""
LEAKS = """Prints what the server has learned so far, by sse_leaks, a line for each setup, addition, deletion and
search (docs/FORMATS.md, "What is leaked, as lines")."""
LOCK = """Ends the process that is kept for a minute after a command, with its connection to the server."""


def number_option(read: Callable[[str, str], int], name: str) -> Callable[[str], int]:
    def number(text: str) -> int:
        return read(text, name)

    number.__name__ = f"size {name}"
    return number


def limit_in(text: str) -> int:
    number = int(text)
    if number < 0:
        raise ValueError(text)
    return number


limit_in.__name__ = "count"
settings.command_in.__name__ = "command of one line"
settings.owner_in.__name__ = "number of an owner"


def parser() -> argparse.ArgumentParser:
    shared = argparse.ArgumentParser(add_help=False, argument_default=argparse.SUPPRESS)
    shared.add_argument("--archive", metavar="FOLDER", help=f"the archive (else ${folder.VARIABLE}, else the current folder)")
    shared.add_argument("--progress", action="store_true", help="tell on standard error how far it is, though that is no terminal")
    top = argparse.ArgumentParser(prog="archive", description=DESCRIPTION, formatter_class=argparse.RawDescriptionHelpFormatter,
                                  parents=[shared], allow_abbrev=False)
    top.add_argument("--version", action="version", version=f"archive {version()}")
    every = top.add_subparsers(dest="command", metavar="COMMAND", required=True)

    def command(name: str, text: str) -> argparse.ArgumentParser:
        return every.add_parser(name, description=text, parents=[shared], allow_abbrev=False)

    one = command("new", NEW)
    one.add_argument("folder", metavar="FOLDER")
    one.add_argument("--server", metavar="ADDRESS", required=True, type=settings.address_in, help="host:port of the server")
    one.add_argument("--owner", metavar="N", default=None, type=settings.owner_in, help="the number of this archive's owner, at a server of many owners")
    one.add_argument("--key-command", metavar="CMD", default=None, type=settings.command_in, help=KEY_COMMAND)
    one.add_argument("--vault", metavar="ADDRESS", type=settings.address_in, help="host:port of a vault, which keeps the texts")
    for name, size in settings.SIZES.items():
        limit = settings.LIMITS[name]
        one.add_argument(f"-{name}", metavar="N", type=number_option(settings.size_in, name), default=size,
                         help=f"{name} of the setup, up to {limit} ({size})")
    one = command("index", INDEX)
    one.add_argument("paths", metavar="PATHS", nargs="*")
    one.add_argument("--gone", action="store_true", help="delete the texts of paths that aren't there any more")
    one = command("search", SEARCH)
    one.add_argument("words", metavar="WORDS", nargs="+")
    one.add_argument("--at-once", action="store_true", help="send words, AND, OR and NOT as one line `query`: the server learns all its words")
    one.add_argument("--limit", metavar="N", type=limit_in, help="print N texts at most, 0 for all (20; all with --files, -0 and --json)")
    one.add_argument("--json", action="store_true", help="print what is found as JSON")
    one.add_argument("--files", action="store_true", help="print only the paths of their files")
    one.add_argument("-0", "--null", action="store_true", help="the paths as they are, each ended by a zero byte")
    one = command("show", SHOW)
    one.add_argument("name", metavar="NAME")
    one.add_argument("--stored", action="store_true", help="print it as it is at the vault")
    one = command("status", STATUS)
    one.add_argument("--offline", action="store_true", help="don't ask the server")
    command("check", CHECK)
    one = command("renew", RENEW)
    one.add_argument("--server", metavar="ADDRESS", type=settings.address_in, help="host:port of a new server (the same one)")
    one.add_argument("--owner", metavar="N", default=None, type=settings.owner_in, help="the number of this archive's owner at a new server (as before)")
    one.add_argument("--key-command", metavar="CMD", default=None, type=settings.command_in, help=KEY_COMMAND)
    one.add_argument("--vault", metavar="ADDRESS", type=settings.address_in, help="host:port of the new vault")
    one = command("restore", RESTORE)
    one.add_argument("folder", metavar="FOLDER")
    one.add_argument("--key", metavar="FILE", required=True, help="the file with the vault's key")
    one.add_argument("--vault", metavar="ADDRESS", required=True, type=settings.address_in, help="host:port of the vault")
    one.add_argument("--server", metavar="ADDRESS", type=settings.address_in, help="make an archive too, with a server at host:port")
    one.add_argument("--new-vault", metavar="ADDRESS", type=settings.address_in, help="host:port of that archive's vault")
    one = command("set", SET)
    one.add_argument("name", metavar="vault", choices=["vault"])
    one.add_argument("address", metavar="ADDRESS", type=settings.address_in)
    one = command("backup", BACKUP)
    one.add_argument("file", metavar="FILE")
    command("leaks", LEAKS)
    command("lock", LOCK)
    return top


def main(words: List[str]) -> int:
    programs.prepare()
    if words[:1] == ["--kept"]:
        return kept.keep(int(words[1]), run_through)
    asked = parser().parse_args(words)
    return programs.carried_out(lambda: carry_out(asked))


def carry_out(asked: argparse.Namespace) -> int:
    if asked.command == "new":
        sizes = {name: getattr(asked, name) for name in settings.SIZES}
        folder.make(asked.folder, settings.Settings(asked.server, sizes, asked.key_command or "", owner=asked.owner, vault=asked.vault or ""))
        return 0
    if asked.command == "restore":
        return restored(asked)
    place = folder.path_of(getattr(asked, "archive", None))
    if asked.command == "lock":
        return lock(place)
    archive = Opened(place)
    try:
        return in_folder(asked, archive)
    finally:
        archive.close()


def restored(asked: argparse.Namespace) -> int:
    """Writes the texts, and makes an archive of them if that is asked for."""
    from .restore import Place, restore  # pylint: disable=import-outside-toplevel

    named = getattr(asked, "archive", None) or os.environ.get(folder.VARIABLE)
    if bool(asked.server) != bool(asked.new_vault) or asked.server and not named:
        raise Trouble(WORDS, "to make an archive of the texts, name its folder and its new servers: --archive FOLDER --server ADDRESS --new-vault ADDRESS")
    if asked.server and os.path.lexists(named):
        raise Trouble(WORDS, f"{on_a_line(named)} is there already: name another folder by --archive; nothing was restored")
    progress = Progress(getattr(asked, "progress", False))
    try:
        status = restore(asked.folder, Place(asked.vault, asked.key), progress)
    finally:
        progress.end()
    if not asked.server:
        return status
    folder.make(named, settings.Settings(asked.server, dict(settings.SIZES), vault=asked.new_vault))
    return indexed_again(named, asked) or status


def indexed_again(named: str, asked: argparse.Namespace) -> int:
    """The status of indexing the restored files in the new archive."""
    from .index import index  # pylint: disable=import-outside-toplevel

    archive, progress = Opened(os.path.realpath(named)), Progress(getattr(asked, "progress", False))
    try:
        return index(archive, [asked.folder], False, progress)
    except Trouble:
        say(f"the files are in {on_a_line(asked.folder)} and the archive is in {on_a_line(named)}: `archive index --archive {on_a_line(named)} {on_a_line(asked.folder)}` "
            "does what is left, after this:")
        raise
    finally:
        progress.end()
        archive.close()


def lock(place: str) -> int:
    folder.read_settings(place)
    until = time.monotonic() + caller.WAIT
    while True:
        status = caller.ask(place, ["lock"])
        if status is not None:
            return status
        # nobody was reached: if the folder is locked all the same, that is said, unless it is by a process that ends
        try:
            Opened(place).close()
            return 0
        except Trouble as error:
            if error.status != LOCKED or time.monotonic() > until:
                raise
        time.sleep(kept.LOOK)


def run_through(words: List[str], opened: Callable[[str], Opened]) -> int:
    """A command that a kept process carries out."""
    asked = parser().parse_args(words)
    place: Optional[str] = getattr(asked, "archive", None)

    def command() -> int:
        archive = opened(folder.path_of(place))
        try:
            status = in_folder(asked, archive)
            archive.leave()
            return status
        except BaseException:
            archive.forget()
            raise

    return programs.carried_out(command)


def in_folder(asked: argparse.Namespace, archive: Opened) -> int:
    """What reads mails and the like is loaded only if it is needed: that takes longer than a search."""
    # pylint: disable=import-outside-toplevel
    progress = Progress(getattr(asked, "progress", False))
    try:
        archive.take_note()
        if asked.command != "search":
            archive.known.pop("searched", None)
        if asked.command == "search":
            from .search import Form, search

            return search(archive, asked.words, Form(asked.limit, asked.files, asked.null, asked.json), progress, asked.at_once)
        if asked.command == "index":
            from .index import index

            return index(archive, asked.paths, asked.gone, progress)
        if asked.command == "show":
            from .show import show

            return show(archive, asked.name, asked.stored)
        if asked.command == "check":
            from .check import check

            return check(archive, progress)
        if asked.command == "renew" and not asked.server:
            from .new_key import take_new_key

            if asked.owner is not None:
                raise Trouble(WORDS, "--owner is for a new server: name its address by --server")
            return take_new_key(archive, asked.key_command or "", asked.vault or "", progress)
        if asked.command == "renew":
            from .renew import renew

            return renew(archive, asked.server, asked.owner, asked.key_command or "", asked.vault or "", progress)
        if asked.command == "set":
            from .vault import set_vault

            return set_vault(archive, asked.address)
        if asked.command == "backup":
            from .backup import backup

            return backup(archive, asked.file)
        from .status import leaks, status

        return leaks(archive, progress) if asked.command == "leaks" else status(archive, asked.offline, progress)
    finally:
        progress.end()
