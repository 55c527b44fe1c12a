"""Reads what crates.txt and the head comments of the crates say, and makes of it the table of docs/ARCHITECTURE.md. `.ci/layers` compares
the two, and `.ci/layers --write` writes the table.

A head comment is the first lines of a crate's src/lib.rt or src/main.rt. Its first sentence says what the crate is for. A paragraph of it
begins with `Proved:` or `Tested:`, or with another such word, and its last line is `Side: client.`, `Side: server.` or `Side: both.`"""
import os
import re

TOP = os.path.dirname(os.path.dirname(os.path.dirname(os.path.abspath(__file__))))
PAGE = "docs/ARCHITECTURE.md"
BEGIN, END = "<!-- generated from crates.txt and the head comments of the crates by .ci/layers --write -->", "<!-- end of what is generated -->"
HEADING = "| Level | Side | Crate | What it is for | What is proved or tested |\n|---|---|---|---|---|\n"
LABELS = ("Proved", "Tested", "Not here", "Not covered", "Not for", "Side")


def read(path):
    with open(os.path.join(TOP, path), encoding="utf-8") as file:
        return file.read()


class Crate:
    """A crate with its level, and what its head comment says: its side, what it is for, what is proved and what is tested."""

    def __init__(self, name, level, head, is_program):
        said = {"": ""}
        label = ""
        for line in head:
            new = re.match(rf"({'|'.join(LABELS)}): (.*)", line)
            if new:
                label, line = new[1], new[2]
            said[label] = f"{said.get(label, '')} {line}".strip()
        self.name, self.level, self.is_program = name, level, is_program
        self.side = said.get("Side", "").rstrip(".")
        self.purpose = re.split(r"(?<=[.])\s", said[""])[0]
        self.proved, self.tested = said.get("Proved", ""), said.get("Tested", "")
        self.is_test = not is_program and not self.proved and bool(self.tested)

    def complaints(self):
        """What its head comment lacks."""
        wanted = [(self.purpose, "says nothing of what the crate is for"), (self.proved or self.tested, "has no line Proved or Tested"),
                  (self.side in ("client", "server", "both"), "doesn't end with its side")]
        return [f"the head comment of {self.name} {complaint}" for there, complaint in wanted if not there]

    def row(self):
        shown = " ".join(f"{label}: {text}" for label, text in (("Proved", self.proved), ("Tested", self.tested)) if text)
        return f"| {self.level} | {self.side} | `{self.name}` | {self.purpose} | {shown} |\n"


def depends_on(text):
    """By crate, in the order of crates.txt, all that it depends on."""
    rows = [line.partition("#")[0].partition(":") for line in text.splitlines()]
    return {name.strip(): below.split() for name, colon, below in rows if colon}


def levels(below):
    """The level of each crate: one more than the highest that it depends on. A crate that is named only later counts as the kit's."""
    found = {}
    for name, others in below.items():
        found[name] = 1 + max((found[other] for other in others if other in found), default=0)
    return found


def head_of(name):
    """The lines of the head comment, and whether the crate is a program."""
    is_program = os.path.exists(os.path.join(TOP, "crates", name, "src", "main.rt"))
    lines = []
    for line in read(f"crates/{name}/src/{'main' if is_program else 'lib'}.rt").splitlines():
        if not line.startswith("//!"):
            break
        lines.append(line[3:].strip())
    return lines, is_program


def crates():
    """All crates, in the order of crates.txt."""
    return [Crate(name, level, *head_of(name)) for name, level in levels(depends_on(read("crates.txt"))).items()]


def table(of):
    """The lowest crates first, of one level those of both sides, then the server's, then the client's."""
    ordered = sorted(of, key=lambda crate: (crate.level, ("both", "server", "client", "").index(crate.side)))
    return f"{BEGIN}\n\n{HEADING}{''.join(crate.row() for crate in ordered)}\n{END}"


def with_table(page, made):
    """The page with this table in place of its own, or None if it has no place for one."""
    parts = re.split(f"{re.escape(BEGIN)}.*?{re.escape(END)}", page, flags=re.DOTALL)
    return made.join(parts) if len(parts) == 2 else None
