import datetime
import unittest
from typing import Dict, List

from cemdrusma.query import And, Beginning, Dates, Field, Not, Or, Phrase, Word, asked, chosen, fields_in, parsed, wanted, words_asked
from cemdrusma.statuses import REFUSED, Trouble

DAY = datetime.date(2026, 3, 1)


class ReadingTest(unittest.TestCase):
    def test_what_is_read(self) -> None:
        a, b, c = Word("a"), Word("b"), Word("c")
        rows = {
            "a": a,
            "A b": And((a, b)),
            "a AND b c": And((a, b, c)),
            "a OR b c": Or((a, And((b, c)))),
            "(a OR b) c": And((Or((a, b)), c)),
            "NOT a b": And((Not(a), b)),
            "NOT (a b)": Not(And((a, b))),
            "NOT NOT a": Not(Not(a)),
            "or and not": And((Word("or"), Word("and"), Word("not"))),
            '"a b"': Phrase(("a", "b")),
            '"a"': a,
            '"a OR b"': Phrase(("a", "or", "b")),
            '"a  (b"': Phrase(("a", "b")),
            "a-b": Phrase(("a", "b")),
            "wal*": Beginning("wal"),
            '"a wal*"': Phrase(("a", "wal"), True),
            "from:a": Field("from", Phrase(("a",))),
            'to:"a b"': Field("to", Phrase(("a", "b"))),
            "subject:wal*": Field("subject", Phrase(("wal",), True)),
            "from:a@b.c": Field("from", Phrase(("a", "b", "c"))),
            "cc:a": Phrase(("cc", "a")),
            "MÜLLER": Word("müller"),
            "date:2026": Dates("2026-01-01", "2026-12-31"),
            "date:9999": Dates("9999-01-01", "9999-12-31"),
            "date:2026-04..2026-11": Dates("2026-04-01", "2026-11-30"),
            "date:2024-02": Dates("2024-02-01", "2024-02-29"),
            "date:2026-1-5": Dates("2026-01-05", "2026-01-05"),
            "date:2025..2026-02": Dates("2025-01-01", "2026-02-28"),
            "date:2026..": Dates("2026-01-01", ""),
            "date:..2026-02-03": Dates("", "2026-02-03"),
            "date:today": Dates("2026-03-01", "2026-03-01"),
            "date:yesterday..today": Dates("2026-02-28", "2026-03-01"),
        }
        for text, query in rows.items():
            self.assertEqual(parsed(text, DAY), query, text)

    def test_what_cannot_be_read(self) -> None:
        for text in ("", " ", "(", ")", "a )", "( a", "()", "OR", "a OR", "OR a", "AND a", "a AND AND b", "NOT", '"a', '"', '""', "!?", "from:", 'from:""', "date:", "date:..", "date:x", "date:2026-13",
                     "date:2026-02-30", "date:1..2", "x" * 65, "caf\udce9", "date:٢٠٢٦"):
            with self.assertRaises(Trouble, msg=text) as raised:
                parsed(text, DAY)
            self.assertEqual(raised.exception.status, REFUSED)


class LineTest(unittest.TestCase):
    holders = {"a": {1, 2, 3}, "b": {2, 3, 4}, "c": {3, 5}, "or": {1}}

    def test_lines(self) -> None:
        rows = {
            "a": ("=a", {1, 2, 3}),
            "a b": ("=a and =b", {2, 3}),
            "a NOT b": ("=a not =b", {1}),
            "NOT b a": ("=a not =b", {1}),
            "a OR b c": ("=a or =b and =c", {1, 2, 3}),
            "(a OR b) c": ("( =a or =b ) and =c", {3}),
            "a NOT (b OR c)": ("=a not ( =b or =c )", {1}),
            "a OR (b OR c)": ("=a or ( =b or =c )", {1, 2, 3, 4, 5}),
            "a (b NOT c)": ("=a and ( =b not =c )", {2}),
            "a or": ("=a and =or", {1}),
        }
        for text, (line, found) in rows.items():
            query = parsed(text)
            self.assertEqual(" ".join(fields_in(query, text)), line)
            self.assertEqual(chosen(query, self.holders.__getitem__), found, text)
        self.assertEqual(words_asked(["=b", "or", "=a", "and", "=b"]), ["b", "a"])

    def test_no_lines(self) -> None:
        for text in ("NOT a", "NOT a NOT b", "a OR NOT b", "NOT NOT a", "a NOT NOT b", '"a b"', "wal*", "from:a", "date:2026", " ".join(33 * ["a"])):
            with self.assertRaises(Trouble, msg=text) as raised:
                fields_in(parsed(text), text)
            self.assertEqual(raised.exception.status, REFUSED)


class AskingTest(unittest.TestCase):
    counts: Dict[str, int] = {"often": 100, "some": 10, "rare": 1, "wall": 5, "walls": 2, "none": 0}

    def ask(self, text: str, beginnings: int = 2):  # type: ignore[no-untyped-def]
        words: List[str] = ["wall", "walls"] + [f"wall{number}" for number in range(beginnings - 2)]
        return asked(parsed(text, DAY), lambda word: self.counts.get(word, 0), lambda _: {word: self.counts.get(word, 1) for word in words})

    def test_what_is_asked(self) -> None:
        rows = {
            "often": {"often"},
            "often some": {"some"},
            "often some rare": {"rare"},
            "often none": {"none"},
            "rare OR some": {"rare", "some"},
            "often (rare OR some)": {"rare", "some"},
            "some (often OR rare)": {"some"},
            "often NOT rare": {"often"},
            "NOT rare": None,
            "often OR NOT rare": None,
            "some (often OR NOT rare)": {"some"},
            '"often some"': {"some"},
            "from:rare often": {"rare"},
            "date:2026": None,
            "date:2026 often": {"often"},
            "wal*": {"wall", "walls"},
            "wal* rare": {"rare"},
            "wal* often": {"wall", "walls"},
            '"often wal*"': {"often"},
        }
        for text, words in rows.items():
            self.assertEqual(self.ask(text), words if words is None else frozenset(words), text)

    def test_a_beginning_of_many_words_is_not_asked(self) -> None:
        self.assertEqual([self.ask("wal*", 10) is None, self.ask("wal*", 11) is None, self.ask("wal* often", 11)], [False, True, frozenset(["often"])])

    def test_what_is_marked(self) -> None:
        self.assertEqual(wanted(parsed('a NOT b (from:c OR "d e")')), [Phrase(("a",)), Phrase(("c",)), Phrase(("d", "e"))])


if __name__ == "__main__":
    unittest.main()
