import io
import os
import shutil
import tempfile
import unittest
from contextlib import redirect_stderr, redirect_stdout
from unittest import mock

from cemdrusma import caller, folder, key, state
from cemdrusma.files import write_whole
from cemdrusma.folder import Folder
from cemdrusma.settings import Settings
from cemdrusma.statuses import DISK, KEY_COMMAND, LOCKED, NO_KEY, WORDS, Trouble
from cemdrusma.texts_file import Texts
from tests.journals import DIGITS, addition, journal_in, rebuild, setup

SIZES = {"b": 64, "B": 256, "Q": 4096}


class SettingsTest(unittest.TestCase):
    whole = "server localhost:1\nb 64\nB 256\nQ 4096\n"

    def test_what_is_read(self) -> None:
        settings = Settings.of(self.whole + "state kept\nkeep 5\nkey-command pass show x\nnew thing\n")
        self.assertEqual((settings.server, settings.sizes, settings.is_state_kept, settings.seconds, settings.key_command),
                         ("localhost:1", SIZES, True, {"keep": 5, "wait": 60}, "pass show x"))
        self.assertEqual(Settings.of(settings.text()).lines, settings.lines)

    def test_one_of_an_older_version(self) -> None:
        settings = Settings.of(self.whole)
        self.assertFalse(settings.is_state_kept)
        settings.is_state_kept = True
        self.assertEqual(settings.text(), self.whole + "state kept\n")

    def test_the_vault(self) -> None:
        settings = Settings.of(self.whole + "vault localhost:2\n")
        self.assertEqual((settings.vault, Settings.of(self.whole).vault), ("localhost:2", ""))
        self.assertEqual(settings.text(), self.whole + "vault localhost:2\n")
        settings.vault = ""
        self.assertNotIn("vault", settings.text())

    def test_what_cannot_be_read(self) -> None:
        for text in ("", "server x\n", self.whole + "vault x\n", self.whole.replace("64", "65"), self.whole.replace("4096", "3"), self.whole.replace(":1", ""), self.whole + "keep x\n", self.whole + "keep 3601\n",
                     self.whole + "wait -1\n"):
            with self.assertRaises((KeyError, ValueError), msg=text):
                Settings.of(text)


class FolderTest(unittest.TestCase):
    def setUp(self) -> None:
        place = tempfile.TemporaryDirectory()
        self.addCleanup(place.cleanup)
        self.place = place.name
        patch = mock.patch.dict(os.environ, {state.VARIABLE: os.path.join(self.place, "state"), "XDG_RUNTIME_DIR": self.place})
        patch.start()
        self.addCleanup(patch.stop)
        self.path = os.path.join(self.place, "archive")

    def make(self, command: str = "", vault: str = "") -> Folder:
        with redirect_stdout(io.StringIO()):
            folder.make(self.path, Settings("localhost:1", dict(SIZES), command, vault=vault))
        made = Folder(self.path)
        self.addCleanup(made.close)
        return made

    def test_a_new_one(self) -> None:
        made = self.make()
        self.assertEqual(sorted(os.listdir(self.path)), ["key", "lock", "settings"])
        known = state.read(key.mark_of(made.key()))
        self.assertEqual(known and known.records, 0)
        with self.assertRaises(Trouble) as raised:
            folder.make(self.path, Settings("localhost:1", dict(SIZES)))
        self.assertEqual(raised.exception.status, WORDS)

    def test_a_new_one_with_a_vault(self) -> None:
        made = self.make(vault="localhost:2")
        self.assertEqual(sorted(os.listdir(self.path)), ["key", "lock", "settings", "vault.key"])
        self.assertEqual((os.stat(made.of("vault.key")).st_mode & 0o777, made.vault_key() == made.key()), (0o600, False))
        known = state.read(key.mark_of(made.vault_key()))
        self.assertEqual((known and known.records, made.read_settings().vault), (0, "localhost:2"))
        os.remove(made.of("vault.key"))
        with self.assertRaises(Trouble) as raised:
            made.vault_key()
        self.assertEqual(raised.exception.status, NO_KEY)

    def test_one_at_a_time(self) -> None:
        self.make()
        with self.assertRaises(Trouble) as raised:
            Folder(self.path)
        self.assertEqual(raised.exception.status, LOCKED)

    def test_keys_of_commands(self) -> None:
        made = self.make(f"echo {DIGITS}")
        self.assertEqual((made.key(), os.path.exists(os.path.join(self.path, "key"))), (DIGITS, False))
        for command in ("false", "echo no", "echo " + "g" * 64):
            made.settings.key_command = command
            with self.assertRaises(Trouble) as raised:
                made.key()
            self.assertEqual(raised.exception.status, KEY_COMMAND)

    def test_a_key_that_was_used(self) -> None:
        os.mkdir(self.path)
        state.remember(journal_in(self.path, [setup({1: ["x"]})]), key.mark_of(DIGITS))
        for content in ([setup({1: ["x"]})], []):
            state.remember(journal_in(self.path, content), key.mark_of(DIGITS))
            with self.assertRaises(Trouble) as raised:
                folder.new_key(f"echo {DIGITS}", lambda *_: True)
            self.assertEqual(raised.exception.status, KEY_COMMAND)
        self.assertEqual(folder.new_key(f"echo {DIGITS}", lambda mark, known: known.records > 0), DIGITS)

    def test_keys_in_files(self) -> None:
        made = self.make()
        path = os.path.join(self.path, "key")
        for content in (b"no", b"\xff" * 64, b""):
            with open(path, "wb") as file:
                file.write(content)
            with self.assertRaises(Trouble) as raised:
                made.key()
            self.assertEqual(raised.exception.status, NO_KEY)

    def test_the_mark_is_that_of_a_journal(self) -> None:
        # the first 16 bytes of HMAC-SHA-256 of the byte 07 under a key of zeros, by openssl
        self.assertEqual(key.mark_of(DIGITS).hex(), "ee921c1c17c2e4f3b9fd0258fef4e347")
        os.mkdir(self.path)
        self.assertEqual(journal_in(self.path, [setup({1: ["x"]})]).mark(), key.mark_of(DIGITS))

    def test_a_renewal_takes_its_place_wherever_it_was_stopped(self) -> None:
        for done in range(4):
            with self.subTest(done=done):
                made = self.make()
                renewed = os.path.join(self.path, "renewed")
                os.mkdir(renewed)
                new = {"key": b"11" * 32, "journal": b"new", "settings": made.settings.text().replace(":1", ":2").encode()}
                for name, content in new.items():
                    write_whole(os.path.join(renewed, name), content)
                write_whole(os.path.join(self.path, "texts"), b"old")
                write_whole(os.path.join(renewed, "ready"), "\n".join(new).encode())
                for name in list(new)[:done]:
                    os.replace(os.path.join(renewed, name), os.path.join(self.path, name))
                made.close()
                again = Folder(self.path)
                self.assertEqual((again.settings.server, sorted(os.listdir(self.path))), ("localhost:2", ["journal", "key", "lock", "settings"]))
                again.close()
                made.lock = os.open(os.devnull, os.O_RDONLY)
                shutil.rmtree(self.path)

    def test_a_renewal_that_is_not_ready_is_left_alone(self) -> None:
        made = self.make()
        os.mkdir(os.path.join(self.path, "renewed"))
        write_whole(os.path.join(self.path, "renewed", "key"), b"11" * 32)
        digits = made.key()
        made.finish_renewal()
        self.assertEqual(made.key(), digits)

    def test_a_new_key_takes_its_place_once_the_journal_has_it(self) -> None:
        made = self.make()
        first = made.key()
        records = [setup({1: ["x"]}, first)]
        journal_in(self.path, records)
        made.keep_new_key("11" * 32, "")
        made.finish_new_key()
        self.assertEqual((made.key(), made.new_key_kept()["key"]), (first, "11" * 32))
        journal_in(self.path, [*records, rebuild("11" * 32)])
        made.finish_new_key()
        self.assertEqual((made.key(), made.new_key_kept()), ("11" * 32, {}))

    def test_a_file_that_cannot_be_written(self) -> None:
        with self.assertRaises(Trouble) as raised:
            write_whole(os.path.join(self.place, "nosuch", "file"), b"")
        self.assertEqual(raised.exception.status, DISK)

    def test_texts_of_an_older_version(self) -> None:
        made = self.make()
        write_whole(os.path.join(self.path, "texts"), b'{"version":1,"paths":["/x"],"records":1,"last":1,"leaving":{},'
                    b'"sources":{"/x/a":["/x/a","text",[3,4],[[1,"/x/a","00",[5]]]],"/x/b":["/x/b","text",null,[]]}}')
        texts = Texts(made)
        journal = journal_in(self.path, [setup({5: ["x"]}), addition(6, ["y"])])
        texts.follow(journal)
        ((_, text),) = texts.every()
        self.assertEqual((text.number, text.details, texts.nameless(), texts.to_do()), (1, None, [6], (1, 1)))
        texts.keep()
        self.assertEqual([text.number for _, text in Texts(made).every()], [1])


class CallerTest(unittest.TestCase):
    def test_the_command_and_the_folder(self) -> None:
        rows = [(["--archive", "x", "search", "y"], "search", "x"), (["search", "--archive=z", "y"], "search", "z"), (["--help"], None, "."), (["--archive"], None, "."),
                (["search", "--", "--archive", "y"], "search", "."), (["--archive", "a", "show", "--archive", "b", "1"], "show", "b")]
        for words, command, path in rows:
            with mock.patch.dict(os.environ):
                os.environ.pop("SSE_ARCHIVE", None)
                self.assertEqual((caller.command_of(words), caller.folder_of(words)), (command, os.path.realpath(path)), words)

    def test_the_socket_is_in_a_private_folder(self) -> None:
        with tempfile.TemporaryDirectory() as place, mock.patch.dict(os.environ, {"XDG_RUNTIME_DIR": place}):
            self.assertIsNone(caller.socket_of(place))
            made = caller.socket_of(place, True)
            self.assertEqual(made and os.path.dirname(made), os.path.join(place, "cemdrusma"))
            os.chmod(os.path.join(place, "cemdrusma"), 0o755)
            self.assertIsNone(caller.socket_of(place, True))
            os.rmdir(os.path.join(place, "cemdrusma"))
            os.symlink("/tmp", os.path.join(place, "cemdrusma"))
            self.assertIsNone(caller.socket_of(place, True))
        with tempfile.TemporaryDirectory() as place, mock.patch.dict(os.environ, {"XDG_RUNTIME_DIR": "", "TMPDIR": place}):
            made = caller.socket_of(place, True)
            self.assertEqual(made and os.path.dirname(made), os.path.join(place, f"cemdrusma-{os.getuid()}"))

    def test_a_socket_that_nobody_listens_at(self) -> None:
        with tempfile.TemporaryDirectory() as place:
            self.assertIsNone(caller.reached(os.path.join(place, "nosuch")))

    def test_a_fault_is_said_on_a_line(self) -> None:
        with redirect_stderr(io.StringIO()) as said:
            from cemdrusma.report import say  # pylint: disable=import-outside-toplevel

            say("x")
        self.assertTrue(said.getvalue().endswith(": x\n"))


if __name__ == "__main__":
    unittest.main()
