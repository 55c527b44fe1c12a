import os
import tempfile
import unittest
from unittest import mock

from cemdrusma import state
from cemdrusma.key import mark_of
from cemdrusma.state import Standing
from cemdrusma.statuses import DISK, LOCKED, NO_STATE, OLDER_JOURNAL, Trouble
from tests.journals import DIGITS, addition, deletion, journal_in, setup


class StateTest(unittest.TestCase):
    def setUp(self) -> None:
        place = tempfile.TemporaryDirectory()
        self.addCleanup(place.cleanup)
        self.folder = place.name
        patch = mock.patch.dict(os.environ, {state.VARIABLE: os.path.join(self.folder, "state")})
        patch.start()
        self.addCleanup(patch.stop)
        self.mark = mark_of(DIGITS)
        self.records = [setup({3: ["wall"]}), addition(4, ["fence"]), addition(5, ["deed"])]

    def standing(self, records) -> Standing:  # type: ignore[no-untyped-def]
        return state.standing(journal_in(self.folder, records), self.mark)

    def test_nothing_is_known(self) -> None:
        self.assertEqual(self.standing(self.records), Standing.UNKNOWN)

    def test_the_same_journal_and_one_that_has_grown(self) -> None:
        state.remember(journal_in(self.folder, self.records[:2]), self.mark)
        self.assertEqual((self.standing(self.records[:2]), self.standing(self.records)), (Standing.AGREES, Standing.AGREES))
        self.assertTrue(state.is_ahead(journal_in(self.folder, self.records), self.mark))

    def test_fewer_records(self) -> None:
        state.remember(journal_in(self.folder, self.records), self.mark)
        for count in range(3):
            self.assertEqual(self.standing(self.records[:count]), Standing.FEWER)

    def test_other_records_of_the_same_number_and_of_more(self) -> None:
        state.remember(journal_in(self.folder, self.records), self.mark)
        other = self.records[:2] + [addition(6, ["deed"])]
        longer = self.records[:2] + [addition(5, ["deeds"])]
        for records in (other, longer, other + [deletion(3)], [setup({3: ["walls"]}), *self.records[1:]]):
            self.assertEqual(self.standing(records), Standing.OTHER)

    def test_a_change_that_is_further_back_than_the_checksum_moves_the_end(self) -> None:
        many = [addition(number, ["x" * 60] * 1) for number in range(10, 2000)]
        state.remember(journal_in(self.folder, [setup({3: ["wall"]}), *many]), self.mark)
        self.assertEqual(self.standing([setup({3: ["walls"]}), *many]), Standing.OTHER)

    def test_an_older_copy_without_a_record_less(self) -> None:
        journal = journal_in(self.folder, self.records)
        state.begin_attempt(journal, self.mark)
        attempts = os.path.join(self.folder, state.ATTEMPTS)
        with open(attempts, encoding="ascii") as file:
            older = file.read()
        self.assertEqual(self.standing(self.records), Standing.AGREES)
        state.begin_attempt(journal, self.mark)
        self.assertEqual((self.standing(self.records), older, state.attempts_of(self.folder)), (Standing.AGREES, "1\n", 2))
        with open(attempts, "w", encoding="ascii") as file:
            file.write(older)
        self.assertEqual(self.standing(self.records), Standing.BEFORE)
        os.remove(attempts)
        self.assertEqual(self.standing(self.records), Standing.BEFORE)

    def test_a_stop_between_the_folders_number_and_this_machines(self) -> None:
        journal = journal_in(self.folder, self.records)
        state.begin_attempt(journal, self.mark)
        with mock.patch.object(state, "remember", side_effect=KeyboardInterrupt), self.assertRaises(KeyboardInterrupt):
            state.begin_attempt(journal, self.mark)
        known = state.read(self.mark)
        self.assertEqual((known and known.attempts, state.attempts_of(self.folder), self.standing(self.records)), (1, 2, Standing.AGREES))

    def test_what_an_older_version_remembered(self) -> None:
        state.remember(journal_in(self.folder, self.records), self.mark)
        with open(state.path_of(self.mark), encoding="ascii") as file:
            lines = [line for line in file if not line.startswith(state.ATTEMPTS)]
        with open(state.path_of(self.mark), "w", encoding="ascii") as file:
            file.writelines(lines)
        self.assertEqual(self.standing(self.records), Standing.AGREES)

    def test_one_at_a_time_holds_it(self) -> None:
        with state.held(self.mark):
            with self.assertRaises(Trouble) as raised, state.held(self.mark):
                pass
            self.assertEqual(raised.exception.status, LOCKED)
            with state.held(mark_of("11" * 32)):
                pass
        with state.held(self.mark):
            pass

    def test_it_is_on_the_disk_before_it_takes_its_place(self) -> None:
        journal = journal_in(self.folder, self.records)
        for is_synced in (True, False):
            steps = []
            with mock.patch("os.fsync", side_effect=lambda _: steps.append("fsync")), mock.patch("os.replace", side_effect=lambda *_: steps.append("replace")):
                state.remember(journal, self.mark, is_synced)
            self.assertEqual(steps[:2], ["fsync", "replace"])

    def test_an_archive_without_records(self) -> None:
        state.remember(journal_in(self.folder, []), self.mark)
        self.assertEqual((self.standing([]), self.standing(self.records)), (Standing.AGREES, Standing.AGREES))

    def test_what_is_remembered_is_private(self) -> None:
        state.remember(journal_in(self.folder, self.records), self.mark)
        self.assertEqual(os.stat(state.path_of(self.mark)).st_mode & 0o777, 0o600)
        self.assertEqual(os.stat(state.directory()).st_mode & 0o777, 0o700)

    def test_a_file_that_is_damaged(self) -> None:
        state.remember(journal_in(self.folder, self.records), self.mark)
        for content in ("", "records 3\n", "records three\nend 9\nchecksum x\n", "records"):
            with open(state.path_of(self.mark), "w", encoding="ascii") as file:
                file.write(content)
            with self.assertRaises(Trouble) as raised:
                state.read(self.mark)
            self.assertEqual(raised.exception.status, NO_STATE)

    def test_a_directory_that_cannot_be_made(self) -> None:
        with open(os.path.join(self.folder, "state"), "w", encoding="ascii"):
            pass
        with self.assertRaises(Trouble) as raised:
            state.remember(journal_in(self.folder, self.records), self.mark)
        self.assertEqual(raised.exception.status, DISK)

    def test_the_place_without_a_variable_and_with_a_relative_one(self) -> None:
        for given in ("", "relative"):
            with mock.patch.dict(os.environ, {state.VARIABLE: given, "HOME": "/there"}):
                self.assertEqual(state.directory(), "/there/.local/state/cemdrusma")

    def test_what_is_said(self) -> None:
        state.remember(journal_in(self.folder, self.records), self.mark)
        journal = journal_in(self.folder, self.records[:1])
        for found, status, part in ((Standing.FEWER, OLDER_JOURNAL, "has 1 records and had 3"), (Standing.OTHER, OLDER_JOURNAL, "isn't the one that had 3"),
                                    (Standing.BEFORE, OLDER_JOURNAL, "as before something was sent"), (Standing.UNKNOWN, NO_STATE, "no record of")):
            trouble = state.trouble(journal, self.mark, found)
            self.assertEqual((trouble.status, part in str(trouble), "archive renew" in str(trouble), "two texts under one keystream" in str(trouble)),
                             (status, True, True, True))


if __name__ == "__main__":
    unittest.main()
