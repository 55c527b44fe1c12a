import hashlib
import os
import tempfile
import unittest
from unittest import mock

from cemdrusma.journal import Journal
from cemdrusma.key import mark_of
from cemdrusma.statuses import NO_JOURNAL, Trouble
from tests.journals import DIGITS, addition, content_of, deletion, journal_in, rebuild, setup


class JournalTest(unittest.TestCase):
    def setUp(self) -> None:
        self.folder = self.enter(tempfile.TemporaryDirectory())
        self.records = [setup({3: ["garden", "wall"], 9: ["wall"]}), addition(4, ["walls", "wallpaper"]), deletion(9), addition(5, ["wall", "e"])]

    def enter(self, context):  # type: ignore[no-untyped-def]
        self.addCleanup(context.cleanup)
        return context.name

    def test_what_is_live_after_additions_and_deletions(self) -> None:
        journal = journal_in(self.folder, self.records)
        self.assertEqual((journal.records, sorted(journal.live), journal.used), (4, [3, 4, 5], {3, 4, 5, 9}))
        self.assertEqual(journal.words(3), ["garden", "wall"])

    def test_who_holds_a_word(self) -> None:
        journal = journal_in(self.folder, self.records)
        self.assertEqual([journal.holders(word) for word in ("wall", "garden", "walls", "all", "nowhere", "")], [{3, 5}, {3}, {4}, set(), set(), set()])

    def test_who_holds_a_word_with_a_beginning(self) -> None:
        journal = journal_in(self.folder, self.records)
        self.assertEqual(journal.beginning_with("wall"), {"wall": {3, 5}, "walls": {4}, "wallpaper": {4}})
        self.assertEqual((journal.beginning_with("x"), journal.beginning_with("")), ({}, {}))

    def test_a_word_whose_length_is_a_digit_is_not_found_within_another(self) -> None:
        long = "1" * 49
        journal = journal_in(self.folder, [setup({1: [long], 2: ["1" + long], 3: ["2" + long], 4: ["x", long]})])
        self.assertEqual((journal.holders(long), journal.holders("1" + long)), ({1, 4}, {2}))
        self.assertEqual(journal.beginning_with("1" * 40), {long: {1, 4}, "1" + long: {2}})
        self.assertEqual(journal.beginning_with("1"), {long: {1, 4}, "1" + long: {2}})

    def test_identifiers_whose_bytes_look_like_a_word(self) -> None:
        journal = journal_in(self.folder, [setup({int.from_bytes(b"\0\0\0\0\0\1e\0", "big"): ["x"], 2: ["e"]})])
        self.assertEqual(journal.holders("e"), {2})

    def test_an_identifier_that_is_added_again_holds_the_new_words(self) -> None:
        journal = journal_in(self.folder, [setup({3: ["old"]}), deletion(3), addition(3, ["new"])])
        self.assertEqual((journal.holders("old"), journal.holders("new"), journal.words(3)), (set(), {3}, ["new"]))

    def test_a_rebuild_leaves_what_is_live_and_takes_another_key(self) -> None:
        journal = journal_in(self.folder, [*self.records, rebuild("11" * 32), addition(7, ["wall"]), deletion(3)])
        self.assertEqual((sorted(journal.live), journal.holders("wall"), journal.words(5)), ([4, 5, 7], {5, 7}, ["wall", "e"]))
        self.assertEqual((journal.mark(), journal.key_mark(), journal.marks), (mark_of(DIGITS), mark_of("11" * 32), [mark_of(DIGITS), mark_of("11" * 32)]))
        key = hashlib.sha256(mark_of("11" * 32)).hexdigest()
        self.assertEqual(journal.script([(4, "wall"), (5, "wall"), (7, "e")]), [
            "doc 3 garden wall", "doc 9 wall", "setup 64 256 4096", "add 4 walls wallpaper", "del 9", "add 5 wall e", "find wall",
            f"rebuild {key}", "find wall", "add 7 wall", "del 3", "find e"])

    def test_a_rebuild_first_is_none(self) -> None:
        with self.assertRaises(Trouble) as raised:
            journal_in(self.folder, [rebuild("11" * 32)])
        self.assertEqual(raised.exception.status, NO_JOURNAL)

    def test_records_that_come_later_are_taken(self) -> None:
        journal = journal_in(self.folder, self.records[:2])
        journal_in(self.folder, self.records)
        journal.go_on()
        self.assertEqual((journal.records, journal.holders("wall")), (4, {3, 5}))

    def test_a_record_that_is_not_committed_is_none(self) -> None:
        whole = content_of(self.records)
        with open(os.path.join(self.folder, "journal"), "wb") as file:
            file.write(whole[:-1] + b"\0" + b"\0\0\0\5torn")
        self.assertEqual(Journal(self.folder).records, 4)

    def test_a_record_whose_commit_byte_is_set_after_it_was_mapped(self) -> None:
        whole = content_of(self.records)
        journal = journal_in(self.folder, self.records[:3])
        begin = journal.end
        for half in (whole[: begin + 4], whole[: begin + 8], whole[:-1]):
            journal = journal_in(self.folder, self.records[:3])
            with mock.patch.object(journal, "read", side_effect=[half, whole]):
                journal.go_on()
            self.assertEqual((journal.records, sorted(journal.live), journal.holders("wall")), (4, [3, 4, 5], {3, 5}))

    def test_what_is_behind_the_last_record_may_be_cut_off(self) -> None:
        path = os.path.join(self.folder, "journal")
        with open(path, "wb") as file:
            file.write(content_of(self.records) + b"torn" * 2**14)
        journal = Journal(self.folder)
        os.truncate(path, journal.end + 1)
        # a look behind the end would end the process that looks
        child = os.fork()
        if child == 0:
            is_found = journal.holders("wall") == {3, 5} and journal.beginning_with("wallp") == {"wallpaper": {4}}
            os._exit(0 if is_found else 1)
        self.assertEqual(os.waitpid(child, 0)[1], 0)

    def test_what_is_no_journal(self) -> None:
        for content in (b"something else", content_of(self.records)[:-20], content_of([addition(1, ["x"])])):
            with open(os.path.join(self.folder, "journal"), "wb") as file:
                file.write(content)
            with self.assertRaises(Trouble) as raised:
                Journal(self.folder)
            self.assertEqual(raised.exception.status, NO_JOURNAL)

    def test_none_and_an_empty_one(self) -> None:
        self.assertEqual(Journal(self.folder).records, 0)
        self.assertEqual(journal_in(self.folder, []).records, 0)

    def test_the_script_with_searches_among_the_records(self) -> None:
        journal = journal_in(self.folder, self.records)
        self.assertEqual(journal.script([(1, "wall"), (4, "e")]),
                         ["doc 3 garden wall", "doc 9 wall", "setup 64 256 4096", "find wall", "add 4 walls wallpaper", "del 9", "add 5 wall e", "find e"])


if __name__ == "__main__":
    unittest.main()
