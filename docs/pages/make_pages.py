#!/usr/bin/env python3
"""Makes docs/PROMISES.md and docs/DEFINITIONS.md from the sources, and says what is wrong with them.

    docs/pages/make_pages.py                  writes both pages
    docs/pages/make_pages.py --check          compares them with the sources; ends with 0 only if nothing is wrong
    docs/pages/make_pages.py --self-test      plants faults in copies of the texts, each of which must be found

docs/pages/sources.py says what a tag is. The text around the tables stands in docs/pages/promises.md and docs/pages/definitions.md: a
line `<!-- P01 to P13, P15 -->` stands for the rows of these promises, `<!-- clauses -->` for the text of all clauses, and
`<!-- definitions -->` for the definitions. Wrong bodies are the must-fail edits, each with a line `# promise: P07`, and those of
docs/pages/tried_by_hand.txt. Each file of specs begins with a line that says what it defines."""
import glob
import os
import re
import sys

TOP = os.path.dirname(os.path.dirname(os.path.dirname(os.path.abspath(__file__))))
os.chdir(TOP)
sys.dont_write_bytecode = True
sys.path.insert(0, os.path.join(TOP, "docs", "pages"))
from sources import Fault, field_of, items_of, read, tags_of  # noqa: E402

PROMISES, DEFINITIONS = "docs/PROMISES.md", "docs/DEFINITIONS.md"
PROMISES_FRAME, DEFINITIONS_FRAME, BY_HAND = "docs/pages/promises.md", "docs/pages/definitions.md", "docs/pages/tried_by_hand.txt"
GENERATED = "<!-- Made by `make docs` from the sources and from {}. Don't edit this page. -->\n\n"
MOST_WORDS = 25
RANGES = re.compile(r"^<!-- (P\d+[^\n]*) -->$", re.M)
STANDARD = re.compile(r"(?:RFC \d+|FIPS \d+(?:-\d+)?)(?:, \d[\d.]*\d(?: (?:to|and) \d[\d.]*\d)?)?")


def texts_of():
    """All texts that the pages are made of, and the pages, by path."""
    paths = ["crates.txt", PROMISES, DEFINITIONS, PROMISES_FRAME, DEFINITIONS_FRAME, BY_HAND]
    for pattern in ("src/**/*.rt", "specs/**/*.antt", "proofs/**/*.antt"):
        paths += glob.glob(f"crates/*/{pattern}", recursive=True)
    paths += glob.glob("crates/*/must-fail/*.edit") + glob.glob("tests-that-fail/bodies/*/*.edit")
    return {path: read(path) for path in sorted(paths) if os.path.exists(path)}


def number_of(promise):
    return int(promise[1:])


def span(text):
    """A sentence with its code in backquotes, fit for a cell of a table."""
    return text.replace("|", "\\|")


class Promise:
    """A promise with all places that carry it."""

    def __init__(self, number):
        self.number, self.tags, self.edits = number, [], []

    @property
    def main(self):
        return next((tag for tag in self.tags if tag.part), None)


def promises_of(texts, found):
    """The promises of the sources by number; what is wrong with their tags is added to what was found."""
    promises = {}
    for path, text in texts.items():
        if not path.endswith((".rt", ".antt")) or "Promise" not in text:
            continue
        try:
            for tag in tags_of(path, text):
                promises.setdefault(tag.number, Promise(tag.number)).tags.append(tag)
        except Fault as fault:
            found.append(f"tag: {fault}")
    return promises


def tag_complaints(promise, programs, names, specs):
    """What is wrong with the tags of one promise."""
    found, mains = [], [tag for tag in promise.tags if tag.part]
    if len(mains) != 1:
        return [f"tag: {promise.number} has {len(mains)} sentences"]
    main = mains[0]
    if len(main.sentence.split()) > MOST_WORDS:
        found.append(f"tag: the sentence of {promise.number} has more than {MOST_WORDS} words")
    for tag in promise.tags:
        item = tag.item
        if item.is_law and tag.keys.get("clauses"):
            found.append(f"tag: {promise.number} names clauses of the law {item.name}")
        if not item.is_law and not tag.listed("clauses"):
            found.append(f"tag: {promise.number} names no clause of {item.name}")
        missing = [name for name in tag.listed("clauses") if name not in item.clauses and not item.is_law]
        found += [f"tag: {promise.number}: {item.name} has no clause {name}" for name in missing]
        if item.is_law and not item.is_public:
            found.append(f"tag: {promise.number}: the law {item.name} isn't public")
    is_called = any(not tag.item.is_law and (tag.item.is_public or tag.item.crate in programs) for tag in promise.tags)
    if main.part != "inside" and not is_called:
        found.append(f"tag: {promise.number} is for the {main.part} and has no public call")
    found += [f"tag: {promise.number} assumes {name}, which isn't in the list" for name in main.listed("assumes") if name not in names]
    found += [f"tag: {promise.number}: there is no {name}" for name in main.listed("checks") if not os.path.exists(name)]
    found += [f"tag: {promise.number}: no record has the field {name}" for name in main.listed("fields") if not field_text(name, specs)]
    return found


def field_text(name, specs):
    """The path and the text of a field RECORD.FIELD."""
    record, _, field = name.partition(".")
    for path, text in specs.items():
        there = field_of(text, record, field) if record in text else None
        if there:
            return path, there
    return None


def take_edits(texts, promises, found):
    """Gives each promise the must-fail edits that name it."""
    for path, text in texts.items():
        if not path.endswith(".edit"):
            continue
        parts = path.split("/")
        crate, name = (parts[1] if parts[0] == "crates" else parts[2]), os.path.basename(path)[: -len(".edit")]
        line = re.search(r"^# promise:(.*)$", text, re.M)
        named = line[1].split() if line else []
        if not named:
            found.append(f"edit: {path} names no promise")
        for number in named:
            if number in promises:
                promises[number].edits.append((crate, name))
            else:
                found.append(f"edit: {path} names {number}, which no tag has")


def take_by_hand(texts, promises, found):
    """The bodies that were tried by hand, by promise."""
    by_hand = {}
    for line in texts.get(BY_HAND, "").splitlines():
        if not line.strip() or line.startswith("#"):
            continue
        number, colon, bodies = line.partition(": ")
        if number not in promises or not colon:
            found.append(f"by hand: no tag has {number}")
        by_hand[number] = bodies
    return by_hand


def assumptions_of(frame):
    """The short names in the list of assumptions."""
    return re.findall(r"^- \*\*([\w ]+)\*\*: ", frame, re.M)


def numbers_in(ranges):
    """The promises of a line such as P01 to P13, P15."""
    numbers = []
    for part in ranges.split(", "):
        ends = [number_of(end) for end in part.split(" to ")]
        numbers += range(ends[0], ends[-1] + 1)
    return numbers


def place_of(tag):
    """The function or law, with its file and clauses."""
    item = tag.item
    owner, _, name = item.name.rpartition("::")
    shown = f"`{name}` of `{owner}`" if item.is_law and owner else f"`{item.name}`"
    clauses = ", ".join(f"`{name}`" for name in tag.listed("clauses") if name != "ensures")
    kind = "law " if item.is_law else ""
    return f"{kind}{shown} ({item.crate}, {item.file})" + (f": {clauses}" if clauses else "")


def evidence_of(promise, by_hand):
    """The edits, the checks and the bodies tried by hand."""
    parts = []
    if promise.edits:
        parts.append("edits: " + ", ".join(f"{name} ({crate})" for crate, name in sorted(promise.edits)))
    if promise.main.listed("checks"):
        parts.append("checks: " + ", ".join(promise.main.listed("checks")))
    if promise.number in by_hand:
        parts.append("by hand: " + by_hand[promise.number])
    return "<br>".join(span(part) for part in parts)


HEAD = "| No. | Promise | Carried by | Assumes | Evidence | Not covered |\n|---|---|---|---|---|---|\n"


def row_of(promise, by_hand):
    main = promise.main
    tags = [main] + [tag for tag in promise.tags if tag is not main]
    cells = [
        f"[{promise.number}](#{promise.number.lower()})",
        span(main.sentence),
        "<br>".join(place_of(tag) for tag in tags),
        ", ".join(main.listed("assumes")),
        evidence_of(promise, by_hand),
        span(main.keys.get("not", "")),
    ]
    return "| " + " | ".join(cells) + " |\n"


def unindented(text):
    """The text moved to the left, as far as its first line is indented."""
    lines = text.split("\n")
    indent = len(lines[0]) - len(lines[0].lstrip())
    return "\n".join(line[indent:] if not line[:indent].strip() else line for line in lines)


def statement_of(item, specs):
    """The definition of a law's statement, where the law names it in one word."""
    named = re.search(r" : (\w+)$", item.clauses.get(item.name, ""))
    if not named:
        return []
    for path, text in specs.items():
        for other in items_of(path, text).values() if named[1] in text and path.split("/")[1] == item.crate else []:
            if other.name == named[1]:
                return [other.clauses[other.name]]
    return []


def clauses_text(promise, specs):
    """The section of a promise: its sentence, and under it the text of each clause."""
    main = promise.main
    parts = [f"### {promise.number}\n\n{main.sentence}\n\n"]
    for tag in [main] + [tag for tag in promise.tags if tag is not main]:
        item = tag.item
        parts.append(f"{item.name}, in {item.path}:\n\n```\n")
        if item.is_law:
            parts += [f"{unindented(text)}\n" for text in [*item.clauses.values(), *statement_of(item, specs)]]
        else:
            ensured = [text for name, text in item.clauses.items() if name in tag.listed("clauses")]
            parts += [f"{text}\n" for text in [*item.needs, *ensured]]
        parts.append("```\n\n")
    for name in main.listed("fields"):
        there = field_text(name, specs)
        if there:
            parts.append(f"The field {name.partition('.')[2]} of {name.partition('.')[0]}, in {there[0]}:\n\n```\n{unindented(there[1])}\n```\n\n")
    return "".join(parts)


def promises_page(texts, found):
    """The page of promises."""
    promises = promises_of(texts, found)
    frame = texts.get(PROMISES_FRAME, "")
    specs = {path: text for path, text in texts.items() if "/specs/" in path}
    programs = {path.split("/")[1] for path in texts if re.match(r"crates/\w+/src/main\.rt$", path)}
    names = assumptions_of(frame)
    for promise in promises.values():
        found += tag_complaints(promise, programs, names, specs)
    take_edits(texts, promises, found)
    by_hand = take_by_hand(texts, promises, found)
    used = {name for promise in promises.values() if promise.main for name in promise.main.listed("assumes")}
    found += [f"assumption: no promise has {name}" for name in names if name not in used]
    shown = [number for ranges in RANGES.findall(frame) for number in numbers_in(ranges)]
    whole = {number_of(number): promise for number, promise in promises.items() if promise.main}
    found += [f"frame: {PROMISES_FRAME} shows P{number:02}, which no tag has" for number in shown if number not in whole]
    found += [f"frame: {PROMISES_FRAME} shows P{number:02} {shown.count(number)} times" for number in whole if shown.count(number) != 1]
    if any(complaint.startswith(("tag:", "frame:")) for complaint in found):
        return None

    def rows(ranges):
        return HEAD + "".join(row_of(whole[number], by_hand) for number in numbers_in(ranges[1])).rstrip("\n")

    text = RANGES.sub(rows, frame)
    counts = f"{len(whole)} promises, carried by {sum(len(promise.tags) for promise in whole.values())} functions and laws"
    text = text.replace("<!-- counts -->", counts)
    text = text.replace("<!-- clauses -->", "".join(clauses_text(whole[number], specs) for number in sorted(whole)).rstrip("\n"))
    return GENERATED.format(PROMISES_FRAME) + text


def head_of(text):
    """The comment at the front of a file, in one line."""
    lines = []
    for line in text.split("\n"):
        if not line.startswith("-- ") or line.startswith("-- Promise P"):
            break
        lines.append(line[3:].strip())
    return " ".join(lines)


def in_reading_order(crate, texts):
    """The files of definitions of a crate, each after those of the crate that it uses."""
    folder = f"crates/{crate}/specs/"
    files = {path[len(folder) : -len(".antt")].replace("/", "."): path for path in texts if path.startswith(folder) and not path.endswith("/Lib.antt")}
    ordered = []

    def take(name, above):
        if name in ordered or name in above:
            return
        for used in sorted(set(re.findall(rf"\bRattle\.{crate}\.specs\.([\w.]+?)(?:\.\{{| as |$)", texts[files[name]], re.M))):
            if used in files:
                take(used, [*above, name])
        ordered.append(name)

    for name in sorted(files):
        take(name, [])
    return [(name, files[name]) for name in ordered]


def definitions_page(texts, found):
    """The page of definitions: for each crate, lowest first, a row for each file."""
    crates = [line.partition(":")[0].strip() for line in texts["crates.txt"].splitlines() if ":" in line.partition("#")[0]]
    with_specs = {path.split("/")[1] for path in texts if "/specs/" in path}
    found += [f"definitions: crates.txt has no {crate}" for crate in sorted(with_specs.difference(crates))]
    parts = []
    for crate in crates:
        rows = []
        for name, path in in_reading_order(crate, texts):
            head = head_of(texts[path])
            if not head:
                found.append(f"definitions: {path} doesn't begin with what it defines")
            sentence = re.split(r"(?<=\.)\s+(?=[A-Z])", head)[0]
            standards = []
            for standard in STANDARD.findall("\n".join(re.findall(r"-- (.*)", texts[path]))):
                if standard not in sentence and standard not in standards:
                    standards.append(standard)
            rows.append(f"| {crate}, {name} | {span(sentence)}{' (also ' + '; '.join(standards) + ')' if standards else ''} |\n")
        if rows:
            parts.append(f"## {crate}\n\n| Crate, file | Defines |\n|---|---|\n{''.join(rows)}")
    return GENERATED.format(DEFINITIONS_FRAME) + texts.get(DEFINITIONS_FRAME, "").replace("<!-- definitions -->", "\n".join(parts).rstrip("\n"))


def pages_of(texts, found):
    return {PROMISES: promises_page(texts, found), DEFINITIONS: definitions_page(texts, found)}


def complaints(texts=None):
    """What is wrong with the tags, the edits and both pages, each in words."""
    texts, found = texts or texts_of(), []
    for path, made in pages_of(texts, found).items():
        if made is not None and texts.get(path) != made:
            found.append(f"page: {path} isn't made from these sources: run make docs")
    return found


def planted(texts):
    """Faults: a name, the texts with the fault, and what must be said of it."""

    def changed(path, old, new, count=1):
        if old not in texts[path]:
            raise Fault(f"self-test: {path} has no {old!r}")
        return {**texts, path: texts[path].replace(old, new, count)}

    tagged = next(path for path in sorted(texts) if path.endswith(".rt") and "//   clauses: " in texts[path])
    clause = re.search(r"^ *//   clauses: (\w+)", texts[tagged], re.M)[1]
    line = re.search(r"^ *//   clauses: .*\n", texts[tagged], re.M)[0]
    sentence = re.search(r"Promise (P\d+) \(\w+\): (.*)", texts[tagged])
    tag = next(tag for tag in tags_of(tagged, texts[tagged]) if tag.part)
    text = tag.item.clauses[tag.listed("clauses")[0]]
    yield "a changed clause", changed(tagged, text.split("\n")[0], text.split("\n")[0].replace("{", "{ 0 ≡ 0 × ", 1)), "page: "
    yield "a clause that isn't there", changed(tagged, f"clauses: {clause}", "clauses: no_such_clause"), "no clause no_such_clause"
    yield "a tag without a clause", changed(tagged, line, ""), "names no clause"
    yield "a long sentence", changed(tagged, sentence[2], sentence[2] + " and" * MOST_WORDS), "more than"
    yield "a tag of another form", changed(tagged, f"Promise {sentence[1]} (", f"Promise {sentence[1]} for ("), "form"
    yield "a number used twice", changed(tagged, f"Promise {sentence[1]} (", "Promise P999 ("), "P999"
    assumed = line.replace("assumes: ", "assumes: good luck, ") if "assumes: " in line else line.rstrip("\n") + "; assumes: good luck\n"
    yield "an assumption that isn't in the list", changed(tagged, line, assumed), "good luck"
    edit = next(path for path in sorted(texts) if path.endswith(".edit"))
    promise = re.search(r"# promise:.*\n", texts[edit])[0]
    yield "a missing promise line", changed(edit, promise, ""), "names no promise"
    yield "a promise that no tag has", changed(edit, promise, "# promise: P999\n"), "names P999"
    law = next(path for path in sorted(texts) if "/proofs/" in path and "-- Promise P" in texts[path])
    law_item = tags_of(law, texts[law])[0].item
    head = next(line for line in law_item.clauses[law_item.name].split("\n") if f"{law_item.name} :" in line)
    yield "a changed law", changed(law, head, head.replace(" :", " : (n : ℕ) →", 1)), "page: "
    yield "a private function for callers", without_pub(texts), "no public call"
    yield "an edited page", {**texts, PROMISES: texts[PROMISES] + "more\n"}, "page: " + PROMISES
    yield "an edited page of definitions", {**texts, DEFINITIONS: texts[DEFINITIONS].replace("Defines", "Says", 1)}, "page: " + DEFINITIONS
    specs = next(path for path in sorted(texts) if "/specs/" in path and not path.endswith("/Lib.antt"))
    yield "another head line", {**texts, specs: "-- Another head.\n" + texts[specs]}, "page: " + DEFINITIONS
    yield "no head line", {**texts, specs: "\n" + texts[specs]}, "doesn't begin"
    yield "a promise that the frame leaves out", changed(PROMISES_FRAME, RANGES.search(texts[PROMISES_FRAME])[0], ""), "frame: "
    yield "a body tried by hand for no promise", {**texts, BY_HAND: texts[BY_HAND] + "P999: another\n"}, "by hand: "


def without_pub(texts):
    """The texts with the one public call of some promise made private."""
    promises = promises_of(texts, [])
    for promise in promises.values():
        if promise.main and promise.main.part == "caller" and len(promise.tags) == 1 and "::" not in promise.main.item.name:
            path, name = promise.main.item.path, promise.main.item.name
            if f"\npub fn {name}" in texts[path]:
                return {**texts, path: texts[path].replace(f"\npub fn {name}", f"\nfn {name}", 1)}
    raise Fault("self-test: no promise has one public call")


def self_test():
    """Faults that weren't found, each in words, and the number of those that were planted."""
    texts, missed, count = texts_of(), [], 0
    already = complaints(texts)
    for name, faulty, wanted in planted(texts):
        count += 1
        said = [line for line in complaints(faulty) if line not in already]
        if not any(wanted in line for line in said):
            missed.append(f"{name}: said {said[:3]}")
    return missed, count


def main():
    if sys.argv[1:] == ["--self-test"]:
        missed, count = self_test()
        for line in missed:
            print(f"pages, self test: {line}")
        print(f"pages, self test: {count - len(missed)} passed, {len(missed)} failed")
        return bool(missed)
    if sys.argv[1:] == ["--check"]:
        said = complaints()
        for line in said:
            print(f"pages: {line}")
        print(f"pages: {'right' if not said else 'wrong'}")
        return bool(said)
    if sys.argv[1:]:
        sys.exit(__doc__)
    texts, found = texts_of(), []
    for path, made in pages_of(texts, found).items():
        if made is not None and texts.get(path) != made:
            with open(path, "w", encoding="utf-8") as file:
                file.write(made)
            print(f"pages: wrote {path}")
    for line in found:
        print(f"pages: {line}")
    return bool(found)


if __name__ == "__main__":
    sys.exit(main())
