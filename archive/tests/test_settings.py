import unittest
from unittest import mock

from cemdrusma import client
from cemdrusma.settings import SIZES, Settings, owner_in
from cemdrusma.statuses import OTHER_SERVER

TEXT = "server 127.0.0.1:47312\nb 64\nB 256\nQ 4096\nstate kept\n"


class OwnerTest(unittest.TestCase):
    def test_numbers_of_owners_are_spelt_as_the_programs_expect(self) -> None:
        for text in ("0", "7", "18446744073709551615"):
            self.assertEqual(str(owner_in(text)), text)
        for text in ("", "+7", "-1", "07", "00", " 7", "7 ", "0x7", "1_0", "\u0667", "\u00b2", "18446744073709551616"):
            with self.assertRaises(ValueError, msg=text):
                owner_in(text)

    def test_settings_keep_the_owner(self) -> None:
        settings = Settings.of(TEXT + "owner 7\n")
        self.assertEqual((settings.owner, Settings.of(settings.text()).owner), (7, 7))
        settings.owner = None
        self.assertEqual(settings.text(), TEXT)

    def test_settings_of_one_archive_stay_as_they_were(self) -> None:
        self.assertEqual((Settings.of(TEXT).owner, Settings.of(TEXT).text()), (None, TEXT))
        self.assertNotIn("owner", Settings("127.0.0.1:47312", dict(SIZES)).text())

    def test_other_owners_are_refused(self) -> None:
        for value in ("", "x", "-1", "18446744073709551616"):
            with self.assertRaises(ValueError, msg=value):
                Settings.of(TEXT + f"owner {value}\n")

    def test_the_client_is_told_the_owner_before_its_mode(self) -> None:
        self.assertEqual((client.words_of(None), client.words_of(0), client.words_of(7)), ([], ["as", "0"], ["as", "7"]))

    def test_an_owner_whom_the_server_does_not_have(self) -> None:
        session = mock.Mock(server="127.0.0.1:47312", owner=7, place="", journal="journal", folder=mock.Mock())
        session.is_begun.return_value = False
        session.folder.shown.return_value = "settings"
        trouble = client.trouble_of(session, "stopped: reply 000000018a", OTHER_SERVER)
        self.assertEqual(trouble.status, OTHER_SERVER)
        self.assertIn("has no owner 7", str(trouble))
