"""The commands in the documents, read out of their text: those of code blocks, with the output that is printed below each, and those in
backquotes, in tables and elsewhere. `.ci/commands` runs them."""
import glob
import os
import re
import shutil

TOP = os.path.dirname(os.path.dirname(os.path.abspath(__file__)))
# the pages at the top, those of docs/, and the README of each folder at the top
DOCUMENTS = [path for pattern in ("README.md", "[!R]*.md", "docs/*.md", "*/README.md") for path in sorted(glob.glob(pattern, root_dir=TOP))]

# where programs stand, and how one of them is named: without an ending, or as a file that can be run
PROGRAM = re.compile(r"(?:\./)?((?:bin|\.ci|tests|bench|examples|archive|docs/pictures)/[\w.-]+)")
# programs of others that are a command alone too
ALONE = {"make", "rt"}
# programs that are no command alone, since their names are those of crates, documents or ordinary words, but are with words behind them
WITH_WORDS = {"archive", "tool_journal_records", "tool_leak_bytes", "tool_bench", "sse_leaks", "sse_local", "sse_net", "sse_served", "tool_transcript",
              "apt", "apt-get", "bash", "cargo", "cat", "cc", "cd", "chmod", "cp", "curl", "docker", "gcc", "git", "grep", "groff", "head", "kill", "ln",
              "ls", "man", "mkdir", "mv", "nginx", "notmuch", "openssl", "pip", "python3", "rm", "sed", "sh", "socat", "sort", "ssh", "sudo", "systemctl", "tail",
              "tar", "time", "ulimit", "wget"}
# words that begin a line of a script or of its meaning, and on many machines are programs too
NO_PROGRAMS = {"add", "del", "doc", "file", "find", "id", "join", "key", "more", "run", "setup", "size", "split", "test", "turn", "twin"}
OPTION = re.compile(r"--[a-z]")


def read(path):
    with open(os.path.join(TOP, path), encoding="utf-8") as file:
        return file.read()


# the rows of tool_bench, each a command with a number behind it
BENCH_ROWS = set(re.findall(r'^    \("(\w+)", Row::', read("crates/tool_bench/src/row.rt"), re.MULTILINE))


class Command:
    """A command of a document: its text on one line; the output that is printed below it, or None; and whether it stands in a code block."""

    def __init__(self, document, text, output=None, in_block=False):
        self.document, self.text, self.output, self.in_block = document, text, output, in_block

    def __repr__(self):
        return f"{self.document}: {self.text}"


def is_command(text):
    """Whether a piece of code is a command: it begins with a program, or is an option."""
    words = text.lstrip("(").split()
    while words and re.match(r"\w+=\S", words[0]):
        del words[0]
    if not words or words[0].startswith("-"):
        return bool(words and OPTION.match(words[0]))
    program = PROGRAM.fullmatch(words[0])
    if program:
        path = os.path.join(TOP, program[1])
        return not os.path.exists(path) and "." not in os.path.basename(path) or os.path.isfile(path) and os.access(path, os.X_OK)
    if len(words) == 1:
        return words[0] in ALONE
    if words[0] in BENCH_ROWS:
        return len(words) == 2 and words[1].isdigit()
    return words[0] in ALONE | WITH_WORDS or words[0] not in NO_PROGRAMS and bool(re.fullmatch(r"[a-z][\w-]+", words[0])) and bool(shutil.which(words[0]))


def commands_of_block(document, language, block):
    """Of a code block the lines behind `$ `, each with the lines below it; without any, those that are commands, and of a block for the
    shell all."""
    if block.startswith("$ "):
        for part in re.split(r"^\$ ", block, flags=re.MULTILINE)[1:]:
            text, output = part.split("\n", 1)
            yield Command(document, text, output, True)
        return
    for line in block.splitlines():
        text = re.sub(r"\s\s+#.*", "", line).strip()
        # columns of a picture or a table are no words of a command
        if text and (language == "sh" or not language and "  " not in text and is_command(text)):
            yield Command(document, text, None, True)


def commands_of(document, text):
    """Each command of a document, in the order in which they stand there."""
    found = []
    pieces = re.compile(r"^```(\w*)\n(.*?)^```$|((?:^    [^\n]*\n)+)|`([^`]+)`", re.DOTALL | re.MULTILINE)
    for language, block, indented, span in pieces.findall(text):
        span = " ".join(span.split())
        indented = re.sub(r"^    ", "", indented, flags=re.MULTILINE)
        if "`" in indented:  # a list's further lines, and no block
            found += commands_of(document, indented)
        elif block or indented:
            found += commands_of_block(document, language, block or indented)
        elif span and is_command(span):
            found.append(Command(document, span))
    return found


def blocks_of(text, first):
    """The code blocks without a language, those too that are set in by four spaces, whose first line matches."""
    pieces = re.compile(r"^```\n(.*?)^```$|((?:^    [^\n]*\n)+)", re.DOTALL | re.MULTILINE)
    blocks = [block or re.sub(r"^    ", "", indented, flags=re.MULTILINE) for block, indented in pieces.findall(text)]
    return [block for block in blocks if re.match(first, block)]
