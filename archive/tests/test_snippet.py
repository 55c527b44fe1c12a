import unittest

from cemdrusma.query import Phrase
from cemdrusma.snippet import holds, snippet_of


class SnippetTest(unittest.TestCase):
    def marked(self, text: str, *phrases: Phrase) -> str:
        return snippet_of([("Subject", "of it"), ("", text)], phrases).marked("[", "]")

    def test_what_is_marked(self) -> None:
        rows = [
            ("The Wall, and the wall.", [Phrase(("wall",))], "The [Wall], and the [wall]."),
            ("the garden\n\n wall", [Phrase(("garden", "wall"))], "the [garden wall]"),
            ("a wall of a wall of a wall", [Phrase(("wall", "of", "a", "wall"))], "a [wall of a wall of a wall]"),
            ("garden walls", [Phrase(("wall",), True)], "garden [walls]"),
            ("garden wall", [Phrase(("wall", "garden"))], "garden wall"),
            ("Grüße, MÜLLER", [Phrase(("müller",))], "Grüße, [MÜLLER]"),
            ("nothing", [Phrase(("it",))], "Subject: of [it]"),
            ("", [], ""),
        ]
        for text, phrases, wanted in rows:
            self.assertEqual(self.marked(text, *phrases), wanted)

    def test_a_long_text_is_cut_at_words_around_the_first_one(self) -> None:
        found = snippet_of([("", "before " * 100 + "wall " + "after " * 100)], [Phrase(("wall",))])
        self.assertTrue(found.text.startswith(".. before ") and found.text.endswith(" after .."), found.text)
        self.assertLess(len(found.text), 180)
        self.assertEqual([found.text[begin:end] for begin, end in found.marks], ["wall"])

    def test_a_word_that_is_longer_than_the_piece(self) -> None:
        found = snippet_of([("", "x" * 1000 + " wall")], [Phrase(("wall",))])
        self.assertEqual([found.text[begin:end] for begin, end in found.marks], ["wall"])

    def test_a_phrase_is_held_by_one_piece(self) -> None:
        pieces = [("Subject", "garden"), ("", "wall of it")]
        self.assertEqual([holds(pieces, Phrase(words)) for words in (("garden", "wall"), ("wall", "of"), ("wall", "it"))], [False, True, False])


if __name__ == "__main__":
    unittest.main()
