"""Reads what the pages of promises and of definitions are made of: functions with their clauses, laws with their statements, and
the tags in the comments above them. A tag is a comment of this form, `//` in a source and `--` in a file of definitions or laws:

    // Promise P07 (user): One sentence of at most 25 words.
    //   clauses: runs, headline; fields: Headline.simulated; assumes: honest link; checks: .ci/tcp; not: What isn't claimed.

A second function that carries the same promise has the line `Promise P07, also here; clauses: NAMES`. The clause without a name is
called `ensures`. A law has no clauses: its statement is the clause. A line that is indented by five places continues the one above.
A tag takes few lines, since `rt` plans its memory by the lines of a source."""
import functools
import re
import textwrap

TAG = re.compile(r"Promise (P\d\d+)(?: \((user|caller|inside)\): (.+)|, also here(?:; (clauses: .+))?)$")
KEYS = ("clauses", "fields", "assumes", "checks", "not")
KEY = re.compile(rf"(?:^|; )({'|'.join(KEYS)}): ")
NAME = r"[A-Za-z_][\w'≢≡]*(?:-[\w'≢≡]+)*"


class Fault(Exception):
    """The text says what is wrong with a tag or its place."""


class Item:
    """A function with its clauses by name, or a law with its statement."""

    def __init__(self, path, name, is_public, is_law, clauses, needs=()):
        self.path, self.name, self.is_public, self.is_law, self.clauses, self.needs = path, name, is_public, is_law, clauses, needs

    @property
    def crate(self):
        return self.path.split("/")[1]

    @property
    def file(self):
        return self.path.split("/", 2)[2]


class Tag:
    """A promise at one of the places that carry it."""

    def __init__(self, number, part, sentence, keys, item):
        self.number, self.part, self.sentence, self.keys, self.item = number, part, sentence, keys, item

    def listed(self, key):
        return [word.strip() for word in self.keys.get(key, "").split(",") if word.strip()]


def read(path):
    with open(path, encoding="utf-8") as file:
        return file.read()


def tag_starts(lines, mark):
    """Where a comment begins that is a tag, or means to be one."""
    return [i for i, line in enumerate(lines) if re.match(rf"\s*{mark} Promise\b", line)]


def tag_at(lines, start, mark, path):
    """The parts of the tag's first line, its keys, and the number of the line after it."""
    texts, at = [re.sub(rf"^\s*{mark} ", "", lines[start])], start + 1
    while at < len(lines):
        more = re.match(rf"\s*{mark}   ( *)(\S.*)$", lines[at])
        if not more:
            break
        if more[1]:
            texts[-1] += " " + more[2]
        else:
            texts.append(more[2])
        at += 1
    head = TAG.match(texts[0])
    if not head:
        raise Fault(f"{path}: no tag has this form: {texts[0][:60]!r}")
    keys = {}
    for text in [head[4] or "", *texts[1:]]:
        front, *parts = KEY.split(text)
        keys.update(zip(parts[::2], parts[1::2]))
        if front:
            raise Fault(f"{path}: a tag has a line that begins with no key: {text[:40]!r}")
    return head, keys, at


def braced(text, start):
    """The place after the brace that closes the one at this place."""
    depth = 0
    for at in range(start, len(text)):
        depth += {"{": 1, "}": -1}.get(text[at], 0)
        if depth == 0:
            return at + 1
    return len(text)


def clauses_of(lines, start):
    """The clauses of the function whose line is the first: what it ensures, by name, and what it requires."""
    indent = len(lines[start]) - len(lines[start].lstrip())
    at = start
    block = [lines[at]]
    while at + 1 < len(lines):
        at += 1
        line = lines[at]
        if line.strip() and len(line) - len(line.lstrip()) <= indent and not line.lstrip().startswith(")") and line.strip() != "where":
            break
        block.append(line)
    text = "\n".join(block)
    ensures, needs = {}, []
    for found in re.finditer(r"^[ ]+(requires|ensures)( \w+)? \{", text, re.M):
        clause = text[found.start() : braced(text, found.end() - 1)].strip()
        clause = "\n".join([clause.split("\n")[0]] + ["    " + part.strip() for part in clause.split("\n")[1:]])
        if found[1] == "requires":
            needs.append(clause)
            continue
        name = (found[2] or " ensures").strip()
        ensures[name] = ensures[name] + "\n" + clause if name in ensures else clause
    return ensures, needs


def owner_of(code):
    """The type, or else the trait, of an item that begins in this line."""
    code = code.replace("pub(crate)", "pub")
    while re.search(r"<[^<>]*>", code.replace("->", "")):
        code = re.sub(r"<[^<>]*>", "", code.replace("->", ""))
    found = re.match(r"(?:pub )?(?:impl\s+(?:(\w+) for )?(\w+)|trait (\w+))", code)
    return next((name for name in (found[2], found[3]) if name), None) if found else None


def items_of_source(path, text):
    """The functions of a source and the laws of its traits, by line."""
    lines, found, owner, in_trait = text.split("\n"), {}, None, False
    for i, line in enumerate(lines):
        code = line.partition("//")[0]
        if code[:1].strip() and code[0] not in "}#)":
            owner = owner_of(code)
            in_trait = bool(re.match(r"(?:pub(?:\(crate\))? )?trait ", code)) or bool(re.match(r"impl.* for ", code))
        fn = re.match(r"( *)(pub(?:\(crate\))? )?fn (\w+)", code)
        law = re.match(r"    ghost (\w+): \{", code)
        if fn:
            name = f"{owner}::{fn[3]}" if fn[1] and owner else fn[3]
            is_public = (fn[2] or "").strip() == "pub" or (bool(fn[1]) and in_trait)
            ensures, needs = clauses_of(lines, i)
            found[i] = Item(path, name, is_public, False, ensures, needs)
        elif law:
            whole = "\n".join(lines[i:])
            statement = whole[: braced(whole, whole.index("{"))].strip()
            found[i] = Item(path, f"{owner}::{law[1]}", True, True, {law[1]: statement})
    return found


def indent_of(line):
    return len(line) - len(line.lstrip())


def headers_of(lines, at):
    """The headers of the modules around a line, from outside, or nothing where anything else is around it."""
    found, indent = [], indent_of(lines[at])
    while indent:
        at -= 1
        if at < 0:
            return None
        if lines[at].strip() and not lines[at].lstrip().startswith("--") and indent_of(lines[at]) < indent:
            if not re.match(r" *module ", lines[at]):
                return None
            indent = indent_of(lines[at])
            end = at
            while not lines[end].rstrip().endswith(" where"):
                end += 1
            found.insert(0, "\n".join(lines[at : end + 1]))
    return found


def items_of_laws(path, text):
    """The laws and definitions of a file, by line. A law in a module is stated with the module's header."""
    lines, found = text.split("\n"), {}
    for i, line in enumerate(lines):
        head = re.match(rf"(?:pub )?(?:abbrev|unfoldable|record|data) (pub )?({NAME}) ?[:(={{]", line)
        is_definition = bool(head)
        head = head or re.match(rf" *(pub )?({NAME}) :", line)
        headers = headers_of(lines, i) if head and (not line.startswith(" ") or head[1]) else None
        if headers is None:
            continue
        end = i + 1
        while end < len(lines) and (indent_of(lines[end]) > indent_of(line) or lines[end].strip() in ("}", ")")):
            end += 1
        while is_definition and end < len(lines) and re.match(rf"({re.escape(head[2])}\b| )", lines[end]):
            end += 1
        found[i] = Item(path, head[2], "pub " in line[: indent_of(line) + 20], True, {head[2]: "\n".join([*headers, *lines[i:end]])})
    return found


@functools.lru_cache(maxsize=None)
def items_of(path, text):
    return items_of_source(path, text) if path.endswith(".rt") else items_of_laws(path, text)


@functools.lru_cache(maxsize=None)
def tags_of(path, text):
    """The tags of a file, in order, each with the item below it."""
    mark = "//" if path.endswith(".rt") else "--"
    lines, found = text.split("\n"), []
    starts = tag_starts(lines, mark)
    items = items_of(path, text) if starts else {}
    for start in starts:
        head, keys, at = tag_at(lines, start, mark, path)
        while at < len(lines) and at not in items:
            if not re.match(rf"\s*(?:{mark}|#\[|ghost use )", lines[at]):
                raise Fault(f"{path}: nothing that can carry it stands below the tag {head[1]}")
            at += 1
        if at == len(lines):
            raise Fault(f"{path}: nothing stands below the tag {head[1]}")
        found.append(Tag(head[1], head[2], head[3], keys, items[at]))
    return found


@functools.lru_cache(maxsize=None)
def field_of(text, record, field):
    """The text of a record's field, or none. The record may stand inside a module."""
    head = re.search(rf"^( *)(?:pub )?(?:record|data) (?:pub )?{re.escape(record)}\b.*\n", text, re.M)
    if not head:
        return None
    block = re.match(rf"(?:{head[1]} +.*\n|\n(?={head[1]}  ))*", text[head.end() :] + "\n")[0]
    found = re.search(rf"^  (?:pub )?{re.escape(field)} : .*\n?((?:    .*\n?)*)", textwrap.indent(textwrap.dedent(block), "  "), re.M)
    return found[0].rstrip() if found else None
