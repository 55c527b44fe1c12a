"""The documents, deletions, additions and searches of a script in SQLite's FTS5, in plain text and in memory. It prints the processor
time that they took in milliseconds, without the interpreter's start and without reading the script, and how many identifiers all
searches found.

    python3 bench/fts5.py SCRIPT

The documents of the setup are inserted in one transaction; each later update is a transaction of its own, as it is a command of its own
here."""
import sqlite3
import sys
import time


def main():
    with open(sys.argv[1], encoding="utf-8") as file:
        commands = [line.rstrip("\n").split(" ", 2) for line in file]
    texts = [(int(fields[1]), fields[2]) for fields in commands if fields[0] == "doc"]
    behind = [fields for fields in commands if fields[0] in ("add", "del", "find")]
    begun = time.process_time()
    base = sqlite3.connect(":memory:", isolation_level=None)
    base.execute("CREATE VIRTUAL TABLE texts USING fts5(words)")
    base.execute("BEGIN")
    base.executemany("INSERT INTO texts(rowid, words) VALUES (?, ?)", texts)
    base.execute("COMMIT")
    found = 0
    for name, *fields in behind:
        if name == "add":
            base.execute("INSERT INTO texts(rowid, words) VALUES (?, ?)", (int(fields[0]), fields[1]))
        elif name == "del":
            base.execute("DELETE FROM texts WHERE rowid = ?", (int(fields[0]),))
        else:
            found += len(base.execute("SELECT rowid FROM texts WHERE texts MATCH ? ORDER BY rowid", (fields[0],)).fetchall())
    print(f"{1000 * (time.process_time() - begun):.3f} {found}")


main()
