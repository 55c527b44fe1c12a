"""`archive status` and `archive leaks`: what is indexed, and what the server has learned."""
from __future__ import annotations

from . import programs, vault
from .folder import SEARCHES
from .opened import Opened
from .progress import Progress
from .report import nearer, on_a_line
from .state import Standing, trouble
from .statuses import WORDS, Trouble
from .texts_file import names_lost


def status(archive: Opened, is_offline: bool, progress: Progress) -> int:
    """Prints what the archive is, and asks the server. Returns the status."""
    folder, journal, texts = archive.folder, archive.journal(), archive.texts()
    to_read, to_delete = texts.to_do()
    words = sum(count for count, _ in journal.live.values())
    print(f"archive:  {on_a_line(folder.path)}")
    print(f"indexed:  {len(texts.every()):,} texts of {len(texts.sources):,} files, {words:,} words, each once for a text")
    for path in texts.paths:
        print(f"          {on_a_line(nearer(path))}")
    print(f"journal:  {journal.records:,} records, {journal.bytes:,} bytes")
    print(f"searched: {len(folder.searches()):,} words, kept in {SEARCHES}")
    if to_read or to_delete:
        print(f"to do:    {to_read:,} files to be read again, {to_delete:,} documents to be deleted: archive index")
    has_server = bool(journal.records) and not is_offline
    print(f"server:   {folder.settings.server}", end="" if has_server else "\n", flush=True)
    if has_server:
        progress.show("the client goes on")
        try:
            line = archive.greeted()
        except Trouble:
            progress.end()
            print(flush=True)
            raise
        progress.end()
        print(f", has all that is indexed ({line})")
    if journal.records:
        found = archive.standing()
        if found is not Standing.AGREES:
            raise trouble(journal, journal.mark(), found)
        if not texts.is_there and journal.live:
            raise names_lost(folder, len(journal.live))
    if folder.settings.vault:
        tell_vault(archive, is_offline)
    return 0


def tell_vault(archive: Opened, is_offline: bool) -> None:
    print(f"vault:    {archive.folder.settings.vault}", end="", flush=True)
    try:
        said = vault.described(archive, archive.texts())
        line = "" if is_offline else f" ({vault.greeted(archive)})"
    except Trouble:
        print(flush=True)
        raise
    print(f", {said}{line}")


def leaks(archive: Opened, progress: Progress) -> int:
    """Prints what the server has learned, a line for each command. Returns the status."""
    journal = archive.journal()
    if not journal.records:
        archive.texts()
        raise Trouble(WORDS, "nothing was indexed yet, so the server has learned nothing")
    progress.show("the history of {:,} records is looked through", journal.records)
    script = [f"key {archive.key()}", *journal.script(archive.folder.searches())]
    lines, ended = programs.run("\n".join(script).encode() + b"\n", "sse_leaks")
    progress.end()
    for line in lines:
        print(line)
    return ended
