"""The scripts of the benchmark, each a list of lines: documents of 60 words, a setup with b = 16 and B = 64, then updates and
searches.

A document has the word `all`, as every document has, `m` with one of 10 numbers, `u` with its own identifier, and 57 of 1,000
words, each of which is in 57 of 1,000 documents. So a few words are in many documents and most are in one. There are also
documents whose words are drawn by Zipf's law: the n-th of 20,000 words comes in proportion to 1/n."""
import random

B_SMALL, B_LARGE = 16, 64
SEED = 7
SEARCHES = 200


def words(number):
    return ["all", f"m{number % 10}", f"u{number}", *(f"w{(number + SEED + 17 * place) % 1000}" for place in range(57))]


def zipf_words(number):
    draw, found = random.Random(number), set()
    while len(found) < 60:
        found.add(int(20_000 ** draw.random()))
    return [f"w{word}" for word in sorted(found)]


def searches():
    return ["all", *(f"m{number}" for number in range(10)), *(f"w{(SEED + 5 * number) % 1000}" for number in range(11, SEARCHES))]


def line(name, number, words_of=words):
    return " ".join([name, str(number), *words_of(number)])


def setup(documents, words_of=words):
    lines = ["key " + "0" * 63 + str(SEED), *(line("doc", number, words_of) for number in range(1, documents + 1))]
    return [*lines, f"setup {B_SMALL} {B_LARGE}"]


def updated(documents, words_of=words):
    """A tenth deleted, half of those added again, as many new ones added, and searches."""
    lines = setup(documents, words_of)
    lines += [f"del {number}" for number in range(10, documents + 1, 10)]
    lines += [line("add", number, words_of) for number in range(20, documents + 1, 20)]
    lines += [line("add", number, words_of) for number in range(documents + 1, documents + documents // 20 + 1)]
    found = searches() if words_of is words else [f"w{number}" for number in range(1, SEARCHES + 1)]
    return lines + [f"find {word}" for word in found]


def added(documents, additions):
    return setup(documents) + [line("add", number) for number in range(documents + 1, documents + additions + 1)]


def deleted(documents, deletions):
    return setup(documents) + [f"del {number}" for number in range(1, deletions + 1)]


def of_words(table):
    """Documents of 16 words out of a table, half of them in a setup and half added: each word four times."""
    lines = ["key " + "0" * 64]
    count = len(table) // 4
    for number in range(count):
        if number == count // 2:
            lines.append(f"setup {B_SMALL} {B_LARGE}")
        taken = (table[(16 * number + place) % len(table)] for place in range(16))
        lines.append(" ".join(["doc" if number < count // 2 else "add", str(number + 1), *taken]))
    return lines
