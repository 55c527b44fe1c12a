"""The English of the pages that people write and read: words and lengths that a program can judge. `.ci/documents` runs it.

A page whose first line says that it is generated isn't judged here, nor is a part between `<!-- generated .. -->` and
`<!-- end of what is generated -->`, nor code, in blocks or in backquotes. Words of a page are counted as
`wc -w` counts them; in a sentence code in backquotes is one word, and a link is its text."""
import re

README_WORDS, PAGES_WORDS, SENTENCE_WORDS = 900, 30_000, 40

# what reads as if it were translated, and what is written instead
TRANSLATED = [
    (r"behind", "write after for time and order; behind is a place"),
    (r"(?:is|are|was|were|be|being|been) wanting|want of", "write out of, or is missing"),
    (r"anew", "write again"),
    (r"(?:is|are|was|were|be|been) had|to be had", "write who has it, or there is"),
]
# what can stand before somebody, and what can be left: here behind is a place
PLACES = re.compile(
    r"\bbehind (?:[\w-]+ ){0,3}(?:prox(?:y|ies)|tunnels?|firewalls?|routers?|gateways?|NAT|nginx)\b"
    r"|\b(?:leave|leaves|leaving|left)(?: \w+){0,3} behind\b", re.I)


def is_generated(text):
    """Whether the first line is a comment that says so."""
    return re.match(r"<!--.*\b(?:generated|made by)\b", text.partition("\n")[0], re.I) is not None


def written_in(text):
    """The page without the parts that are generated."""
    return re.sub(r"<!-- generated\b.*?<!-- end of what is generated -->", "", text, flags=re.DOTALL)


def count(text):
    return len(written_in(text).split())


def prose_of(text):
    """The page without its code blocks and comments, each link as its text and each piece of code as one word."""
    text = re.sub(r"^```.*?^```", "", written_in(text), flags=re.MULTILINE | re.DOTALL)
    text = re.sub(r"<!--.*?-->", "", text, flags=re.DOTALL)
    text = re.sub(r"(?:^\n|\A)(?:^ {4}[^\n`]*\n)+", "\n", text, flags=re.MULTILINE)
    text = re.sub(r"`[^`]+`", "Code", text)
    return re.sub(r"!?\[([^\]]*)\]\([^)]*\)", r"\1", text)


def sentences_of(text):
    """The sentences of the paragraphs, list items, headings and cells of a page."""
    for block in re.split(r"\n\s*\n|\n(?=\s*(?:[-*] |\d+\. |#|\|))", prose_of(text)):
        for part in re.split(r"(?<!\\)\|", block) if block.startswith("|") else [block]:
            yield from re.split(r"(?<=[.!?])[)\"”*]*\s+(?=[(\"“*\[]*[A-Z0-9])", " ".join(part.split()))


def english_complaints(path, text):
    """What is wrong with the English of a page, each in words; nothing of a page that is generated."""
    if is_generated(text):
        return []
    found = []
    if path == "README.md" and count(text) > README_WORDS:
        found.append(f"English: {count(text)} words, and at most {README_WORDS} are allowed")
    for sentence in sentences_of(text):
        elsewhere = PLACES.sub("", sentence)
        for words, advice in TRANSLATED:
            at = re.search(rf"\b(?:{words})\b", elsewhere, re.I)
            if at:
                found.append(f"English: {at[0]} ({advice}): {excerpt(elsewhere, at.start())}")
        words = [word for word in sentence.split() if re.search(r"[^\W_]", word)]
        if len(words) > SENTENCE_WORDS:
            found.append(f"English: a sentence of {len(words)} words: {' '.join(words[:8])} ..")
    return found


def excerpt(sentence, at):
    return ".. " + sentence[max(0, at - 30):at + 30].strip() + " .."


def total_complaints(pages):
    """Whether the pages that are written by hand, texts by path, are too long together."""
    total = sum(count(text) for text in pages.values() if not is_generated(text))
    return [f"English: {total} words in the pages that are written by hand, and at most {PAGES_WORDS} are allowed"] if total > PAGES_WORDS else []
