"""What the examples share: a shelf of texts, and a search of it by bin/sse_local.

The program is given a script under a key that is made for this one run. Script and answers go through pipes
alone, so no key and no word is left behind in a file, however the run ends.

How texts are read, and what a word is, they share with the archive (../archive): a word is a run of letters, digits
and the marks that combine with them, in lower case; queries are read in the same way.
"""
import argparse
import collections
import os
import random
import secrets
import sys

sys.path.insert(0, os.path.join(os.path.dirname(os.path.abspath(__file__)), os.pardir, "archive"))
from cemdrusma.limits import BLOCK, INDEX_BYTES, documents_of, first_setup, index_bytes  # noqa: E402
from cemdrusma.programs import carried_out, prepare, run  # noqa: E402
from cemdrusma.report import Report, Unreadable, on_a_line, say  # noqa: E402
from cemdrusma.words import fault_of, words_of  # noqa: E402

# What is tried for b: the largest hides the most. A smaller one is taken only if the index would be too
# large, so b tells the server no more than the counts of words and blocks do, which it sees in any case. With b = 8
# no setup is refused: a list has at most 2^18 identifiers, below b * B * B, and of all lists those of 9 identifiers
# take the most bytes for each pair, 81 + 2,048 for 9, which makes 2.5 * 10^8 for 2^20 pairs.
CELLS = (64, 32, 16, 8)
# what the examples themselves use
__all__ = ["Unreadable", "main", "on_a_line"]


class Shelf(Report):
    """Named texts with the words of each."""

    def __init__(self):
        super().__init__()
        self.names = []
        self.documents = []  # for each: the place of its name, and at most DOCUMENT_WORDS different words

    def put(self, name, text):
        for words in documents_of(self.words(name, text)):
            self.documents.append((len(self.names), words))
        self.names.append(name)

    def search(self, queries):
        """Prints for each query that is a word the names of the texts that hold it. Returns the status."""
        self.tell()
        wanted = []
        for query in queries:
            fault = fault_of(query)
            if fault is None:
                wanted += words_of(query)
            else:
                say(f"{on_a_line(query)} is no word: {fault}")
        status = self.answer(wanted) if wanted else 0
        return status or int(len(wanted) < len(queries))

    def answer(self, wanted):
        identifiers, script = self.script(wanted)
        lines, status = run(script.encode(), "sse_local", "run")
        if status not in (0, 1):
            say(lines[-1] if lines else f"the program ended with {status}")
            return status
        # the setup, each addition and each search print one line; a document prints one where it is refused
        found = lines[-len(wanted) :]
        refused = collections.Counter(line for line in lines[: -len(wanted)] if line.startswith("refused: "))
        for refusal in refused:
            say(refusal)
        if "refused: not set up" in found:
            say("the store wasn't set up")
            return status
        if refused:
            say(f"not searched: documents: {sum(refused.values())} of {len(self.documents)}")
        for word, line in zip(wanted, found):
            # found <n>: <identifier> ..
            places = sorted({identifiers[identifier] for identifier in line.partition(":")[2].split()})
            print(f"{word}: {len(places)}")
            for place in places:
                print(f"  {on_a_line(self.names[place])}")
        return status

    def script(self, wanted):
        """A name's place by identifier, and the script. Numbers and order are drawn at random, so that they say
        nothing of the texts. What one setup doesn't hold is added behind it."""
        key = secrets.token_hex(32)
        documents = random.SystemRandom().sample(self.documents, len(self.documents))
        identifiers = {}
        while len(identifiers) < len(documents):
            identifier = str(secrets.randbelow(2**64 - 1) + 1)
            identifiers.setdefault(identifier, documents[len(identifiers)][0])
        lines = [" ".join([identifier, *words]) for identifier, (_, words) in zip(identifiers, documents)]
        count = first_setup([words for _, words in documents])
        if count < len(documents):
            say(f"one setup holds {count} of {len(documents)} documents; the others are added behind it")
        script = [f"key {key}"]
        script += [f"doc {line}" for line in lines[:count]]
        script += [f"setup {cell_for(words for _, words in documents[:count])} {BLOCK}"]
        script += [f"add {line}" for line in lines[count:]]
        script += [f"find {word}" for word in wanted]
        return identifiers, "\n".join(script) + "\n"


def cell_for(documents):
    """b, the largest with which the index keeps its limit of bytes."""
    counts = collections.Counter()
    for words in documents:
        counts.update(words)
    lengths = counts.values()
    return next((b for b in CELLS if index_bytes(lengths, b) <= INDEX_BYTES), CELLS[-1])


def main(description, source, read):
    """An example: `read(source, shelf)` puts the texts of the source on the shelf, then the words are searched.

    It ends with 0; with 1 where a query was no word or the store refused something; with 2 where it was called
    in another way, or the source can't be read; else with the status of the program (docs/FORMATS.md).
    """
    prepare()
    parser = argparse.ArgumentParser(description=description, formatter_class=argparse.RawDescriptionHelpFormatter)
    parser.add_argument("source", metavar=source)
    parser.add_argument("words", metavar="WORD", nargs="+")
    asked = parser.parse_args()
    shelf = Shelf()

    def answer():
        read(asked.source, shelf)
        return shelf.search(asked.words)

    sys.exit(carried_out(answer))
