import hashlib
import io
import os
import random
import tempfile
import unittest
import zlib
from contextlib import redirect_stderr
from unittest import mock

from cemdrusma import sources, state
from cemdrusma.key import mark_of
from cemdrusma.pieces import LIST, LIST_MORE, TEXT, TEXT_MORE, Stored, Unpacked, cut, text_pieces
from cemdrusma.progress import Progress
from cemdrusma.restore import Taken, Written, is_safe
from cemdrusma.statuses import NO_JOURNAL, Trouble
from cemdrusma.storing import parts_in, wanted_of
from cemdrusma.text_list import Entry, identifiers_of, list_in, list_pieces, name_of, some_of_list
from cemdrusma.vault_journal import VaultJournal
from tests.journals import DIGITS, addition, content_of, dropped, put, setup, vault_in

PIECE = 65536
RANDOM = random.Random(1).getrandbits(8 * 200_000).to_bytes(200_000, "big")


def unpacked(pieces, first=1):  # type: ignore[no-untyped-def]
    found = io.BytesIO()
    text = Unpacked(first, found.write)
    for piece in pieces:
        text.take(piece)
    return text, found.getvalue()


def text_of(content: bytes, first: int, count: int) -> Stored:
    return Stored(first, count, len(content), hashlib.sha256(content).hexdigest())


class PiecesTest(unittest.TestCase):
    def test_sizes(self) -> None:
        for length in (0, 1, 4095, 4096, PIECE - 2, PIECE - 1, PIECE, 2 * PIECE - 2, 2 * PIECE):
            pieces = list(cut([RANDOM[:length]], LIST, LIST_MORE))
            self.assertEqual([piece[:1] for piece in pieces], [LIST] + [LIST_MORE] * (len(pieces) - 1))
            self.assertEqual({len(piece) for piece in pieces[:-1]} - {PIECE}, set())
            self.assertEqual((len(pieces[-1]) % 4096, len(pieces[-1]) > 0), (0, True))
            self.assertEqual(len(pieces), max(1, -(-length // (PIECE - 1))))
            joined = b"".join(piece[1:] for piece in pieces)
            self.assertEqual((joined[:length], set(joined[length:]) - {0}), (RANDOM[:length], set()))

    def test_a_text_comes_back(self) -> None:
        for content in (b"", b"wall", b"wall " * 10**6, RANDOM, RANDOM + bytes(10**6)):
            pieces = list(text_pieces([content[:10], content[10:]]))
            text, found = unpacked(pieces)
            self.assertEqual((text.is_whole, found, text.stored()), (True, content, text_of(content, 1, len(pieces))))

    def test_a_text_is_compressed(self) -> None:
        self.assertEqual([len(piece) for piece in text_pieces([b"wall " * 10**5])], [4096])

    def test_a_piece_that_is_missing_exchanged_or_too_many(self) -> None:
        pieces = list(text_pieces([RANDOM]))
        for wrong in (pieces[:-1], pieces[1:], [*pieces, pieces[-1]], [pieces[0], *pieces[2:]]):
            text, _ = unpacked(wrong)
            self.assertFalse(text.is_whole and text.stored() == text_of(RANDOM, 1, len(pieces)))
        self.assertFalse(unpacked([*pieces, pieces[-1]])[0].is_whole)

    def test_the_first_byte_is_never_the_texts(self) -> None:
        # bytes that can't be compressed, and which look like a list at the begin of each piece
        stream = b"".join(LIST + RANDOM[:PIECE] for _ in range(4))
        self.assertEqual([piece[:1] for piece in text_pieces([stream])], [TEXT] + [TEXT_MORE] * (len(stream) // PIECE))


class ListTest(unittest.TestCase):
    entries = {name: Entry(name, 10**18 + number, number == 1, (Stored(number, 2, 70_000, "ab" * 32), Stored(number + 7, 1, 0, "cd" * 32)))
               for number, name in enumerate(["home/me/a", "home/me/it's\nodd", "home/caf\udce9"])}

    def test_it_comes_back(self) -> None:
        self.assertEqual(list_in(list_pieces(self.entries)), self.entries)
        self.assertEqual(list_in(list_pieces({})), {})
        many = {f"n{number}": Entry(f"n{number}", number, False, (Stored(number, 1, 5, "ef" * 32),)) for number in range(2000)}
        pieces = list(list_pieces(many))
        self.assertGreater(len(pieces), 2)
        self.assertEqual(list_in(pieces), many)
        for wrong in ([], pieces[:-1], pieces[1:], [pieces[0], *pieces[2:]]):
            self.assertIsNone(list_in(wrong))

    def test_what_is_no_list(self) -> None:
        for content in (b"", b"[]\n", b'{"version":2}\n', b'{"version":1}\n["a",1]\n', b'{"version":1}\n["a",1,false,[[1]],"text"]\n', b'{"version":1}\n["a","x",false,[],"text"]\n', b"\xff"):
            piece = LIST + len(content).to_bytes(8, "big") + hashlib.sha256(content).digest() + content
            self.assertIsNone(list_in([piece]))

    def test_what_is_left_of_one_without_all_pieces(self) -> None:
        many = {f"n{number:05}": Entry(f"n{number:05}", number, False, (Stored(number, 1, 5, "ef" * 32),)) for number in range(3000)}
        pieces = dict(enumerate(list_pieces(many), 7))
        self.assertEqual(some_of_list(pieces), many)
        for gone in pieces:
            left = some_of_list({identifier: piece for identifier, piece in pieces.items() if identifier != gone})
            self.assertEqual((left.items() <= many.items(), len(many) - len(left) < 1000), (True, True))
            self.assertLess(len(left), len(many))
        self.assertEqual(some_of_list({}), {})

    def test_its_identifiers_and_names(self) -> None:
        self.assertEqual(list(identifiers_of([self.entries["home/me/a"]])), [0, 1, 7])
        self.assertEqual((name_of("/mail/a"), name_of("//a")), ("mail/a", "a"))


class JournalTest(unittest.TestCase):
    def setUp(self) -> None:
        place = tempfile.TemporaryDirectory()
        self.addCleanup(place.cleanup)
        self.folder = place.name

    def test_nothing_and_what_is_put_and_dropped(self) -> None:
        self.assertEqual((VaultJournal(self.folder).records, VaultJournal(self.folder).newest_list()), (0, ({}, [])))
        journal = vault_in(self.folder, [put(1, b"Ta"), put(2, b""), dropped(1), put(3, b"Tb")])
        self.assertEqual((journal.records, journal.puts, sorted(journal.live), journal.body(2), journal.body(3)), (5, 3, [2, 3], b"", b"Tb"))
        self.assertEqual(journal.mark(), mark_of(DIGITS))

    def test_what_is_no_vaults_journal(self) -> None:
        key = b"\x23" + mark_of(DIGITS)
        for records in ([put(1, b"T")], [setup({1: ["x"]})], [key, put(2, b"T")], [key, put(1, b"T"), put(1, b"T")], [key, dropped(1)], [key, key],
                        [key, put(1, b"T"), dropped(1), dropped(1)], [key, addition(1, ["x"])]):
            with open(os.path.join(self.folder, "vault"), "wb") as file:
                file.write(content_of(records))
            with self.assertRaises(Trouble) as raised:
                VaultJournal(self.folder)
            self.assertEqual(raised.exception.status, NO_JOURNAL)

    def test_the_newest_list_that_is_whole(self) -> None:
        older, newer = {"a": Entry("a", 1, False, ())}, {"b" * 50: Entry("b" * 50, number, False, ()) for number in range(1)}
        many = {f"{number:05}": Entry(f"{number:05}", 1, False, ()) for number in range(4000)}
        first, second, large = (list(list_pieces(entries)) for entries in (older, newer, many))
        records = [put(1, b"Tx"), put(2, first[0])]
        self.assertEqual(vault_in(self.folder, records).newest_list(), (older, [2]))
        records.append(put(3, second[0]))
        self.assertEqual(vault_in(self.folder, records).newest_list(), (newer, [3]))
        # a run was stopped within its list
        records += [put(4 + number, piece) for number, piece in enumerate(large[:-1])]
        self.assertEqual(vault_in(self.folder, records).newest_list(), (newer, [3]))
        records.append(put(3 + len(large), large[-1]))
        self.assertEqual(vault_in(self.folder, records).newest_list(), (many, list(range(4, 4 + len(large)))))

    def test_what_a_stopped_run_had_put(self) -> None:
        pieces = list(text_pieces([RANDOM]))
        texts = [*pieces, *text_pieces([b"wall"]), *pieces[:-1]]
        journal = vault_in(self.folder, [put(number, piece) for number, piece in enumerate(texts, 1)])
        count = len(pieces)
        whole = [text_of(RANDOM, 1, count), text_of(b"wall", count + 1, 1)]
        self.assertEqual(list(journal.unnamed([])), whole)
        self.assertEqual(list(journal.unnamed(range(1, count + 1))), whole[1:])

    def test_an_older_copy(self) -> None:
        with mock.patch.dict(os.environ, {state.VARIABLE: os.path.join(self.folder, "state")}):
            records = [put(1, b"Ta"), put(2, b"Tb")]
            state.remember(vault_in(self.folder, records), mark_of(DIGITS))
            for other, found in ((records, state.Standing.AGREES), (records[:1], state.Standing.FEWER), ([records[0], put(2, b"Tc")], state.Standing.OTHER),
                                 ([*records, dropped(1)], state.Standing.AGREES)):
                self.assertEqual(state.standing(vault_in(self.folder, other), mark_of(DIGITS)), found)


class FilesTest(unittest.TestCase):
    def setUp(self) -> None:
        place = tempfile.TemporaryDirectory()
        self.addCleanup(place.cleanup)
        self.path = os.path.join(place.name, "file")

    def write(self, content: bytes) -> None:
        with open(self.path, "wb") as file:
            file.write(content)

    def lengths(self, are_mails: bool):  # type: ignore[no-untyped-def]
        with open(self.path, "rb") as file:
            return [part.length for part in parts_in(self.path, file, are_mails)]

    def test_a_mail_of_an_mbox_file_is_a_text(self) -> None:
        for content, lengths in ((b"From a\nx\n\nFrom b\ny\n", [10, 9]), (b"", [0]), (b"x\nFrom a\n", [2, 7]), (b"From a", [6])):
            self.write(content)
            self.assertEqual((self.lengths(True), self.lengths(False)), (lengths, [len(content)]))

    def test_the_texts_are_the_files_bytes(self) -> None:
        self.write(b"From a\nx\n\nFrom b\n" + RANDOM)
        wanted = wanted_of(self.path, sources.MBOX, None, sources.Reading())
        assert wanted
        whole = b"".join(unpacked(part.pieces())[1] for part in wanted.parts)
        self.assertEqual((wanted.entry.name, whole), (self.path[1:], b"From a\nx\n\nFrom b\n" + RANDOM))

    def test_a_file_that_changes_and_one_that_is_gone(self) -> None:
        self.write(RANDOM)
        wanted = wanted_of(self.path, sources.TEXT, None, sources.Reading())
        assert wanted
        for content in (RANDOM[:-1] + b"x", RANDOM[:-1]):
            self.write(content)
            with self.assertRaises(sources.Changed):
                list(wanted.parts[0].pieces())
        os.remove(self.path)
        with self.assertRaises(OSError):
            list(wanted.parts[0].pieces())
        reading = sources.Reading()
        self.assertIsNone(wanted_of(self.path, sources.TEXT, None, reading))
        self.assertEqual(reading.places, [self.path])


class RestoreTest(unittest.TestCase):
    def setUp(self) -> None:
        place = tempfile.TemporaryDirectory()
        self.addCleanup(place.cleanup)
        self.place = place.name
        self.taken = Taken(self.place, Progress(False))

    def take(self, *texts: bytes) -> list:
        """Texts as the vault hands them out, one after the other."""
        stored, begin = [], 1
        for content in texts:
            pieces = list(text_pieces([content]))
            for number, piece in enumerate(pieces):
                self.taken.take(begin + number, piece)
            stored.append(text_of(content, begin, len(pieces)))
            begin += len(pieces)
        self.taken.end_text()
        self.taken.lists = {}
        self.next = begin
        return stored

    def written(self, entries: dict):  # type: ignore[no-untyped-def]
        for number, piece in enumerate(list_pieces(entries)):
            self.taken.take(self.next + number, piece)
        said = io.StringIO()
        written = Written(os.path.join(self.place, "whole"), self.taken)
        with redirect_stderr(said):
            written.write()
        found = {}
        for place, _, files in os.walk(written.folder):
            for name in files:
                with open(os.path.join(place, name), "rb") as file:
                    found[os.path.relpath(os.path.join(place, name), written.folder)] = file.read()
        return written, found, said.getvalue()

    def test_files_of_one_text_of_several_and_of_a_shared_one(self) -> None:
        one, two, three = self.take(b"wall", RANDOM, b"")
        entries = {name: Entry(name, 10**18, False, texts) for name, texts in (("home/a", (one,)), ("home/b", (one, two, three)), ("c", (three,)))}
        written, found, said = self.written(entries)
        self.assertEqual((found, written.failed, said), ({"home/a": b"wall", "home/b": b"wall" + RANDOM, "c": b""}, 0, ""))
        path = os.path.join(written.folder, "home", "a")
        self.assertEqual((os.stat(path).st_mtime_ns, os.stat(path).st_mode & 0o777), (10**18, 0o600))

    def test_a_maildir_stays_one(self) -> None:
        one, two, three = self.take(b"1", b"2", b"3")
        entries = {name: Entry(name, 1, False, (text,), kind) for name, text, kind in (("m/cur/1", one, "mail"), ("notes/new/2", two, "text"), ("cur/3", three, "mail"))}
        written, found, _ = self.written(entries)
        self.assertEqual((written.failed, sorted(found)), (0, ["cur/3", "m/cur/1", "notes/new/2"]))
        self.assertEqual([sorted(os.listdir(os.path.join(written.folder, name))) for name in ("", "m", "notes")],
                         [["cur", "m", "new", "notes", "tmp"], ["cur", "new", "tmp"], ["new"]])

    def test_names_that_lead_elsewhere(self) -> None:
        names = ["", "/etc/x", "../x", "a/../../x", "a/./x", "a//x", "a/", ".", "..", "x\0y"]
        self.assertEqual([is_safe(name) for name in names], [False] * len(names))
        self.assertTrue(is_safe("home/.../x..") and is_safe("-n") and is_safe("caf\udce9"))
        texts = self.take(*(f"text {number}".encode() for number in range(len(names) + 1)))
        entries = {name: Entry(name, 1, False, (text,)) for name, text in zip([*names, "good"], texts)}
        written, found, said = self.written(entries)
        self.assertEqual((written.failed, said.count("isn't a name within a folder")), (len(names), len(names)))
        self.assertEqual(found, {"good": b"text 10", **{f"unnamed/{number + 1}": f"text {number}".encode() for number in range(len(names))}})
        self.assertEqual(sorted(os.listdir(self.place)), ["texts", "whole"])

    def test_names_that_are_in_each_others_way(self) -> None:
        one, two, three = self.take(b"1", b"2", b"3")
        entries = {name: Entry(name, 1, False, (text,)) for name, text in (("a", one), ("a/b", two), ("x" * 300, three))}
        written, found, said = self.written(entries)
        self.assertEqual((found, written.failed, said.count("isn't restored")), ({"a": b"1"}, 2, 2))

    def test_a_name_where_a_text_without_one_is_already(self) -> None:
        one, two = self.take(b"1", b"2")
        written, found, _ = self.written({name: Entry(name, 1, False, (text,)) for name, text in (("../x", one), ("unnamed/1", two))})
        self.assertEqual((found, written.failed), ({"unnamed/1": b"1"}, 2))

    def test_a_piece_that_is_missing_and_one_that_is_forged(self) -> None:
        pieces = list(text_pieces([RANDOM]))
        for number, piece in enumerate([*pieces, *pieces, *text_pieces([b"wall"])], 1):
            if number not in (2, 2 + len(pieces)):
                self.taken.take(number, piece)
        self.taken.forged.add(2 + len(pieces))
        self.taken.end_text()
        count = len(pieces)
        self.next = 2 * count + 2
        texts = {"gone": text_of(RANDOM, 1, count), "forged": text_of(RANDOM, count + 1, count), "good": text_of(b"wall", 2 * count + 1, 1)}
        written, found, said = self.written({name: Entry(name, 1, False, (text,)) for name, text in texts.items()})
        self.assertEqual((found, written.failed), ({"good": b"wall"}, 2))
        self.assertIn(f"forged isn't restored: the vault handed out another piece {2 + count} than was put", said)
        self.assertIn("gone isn't restored: a piece of it isn't at the vault", said)

    def test_a_text_that_is_another_than_the_list_says(self) -> None:
        one, = self.take(b"wall")
        _, found, said = self.written({"a": Entry("a", 1, False, (one._replace(checksum="00" * 32),))})
        self.assertEqual((found, "isn't at the vault" in said), ({}, True))

    def test_without_a_list_texts_have_no_name(self) -> None:
        self.take(b"wall", RANDOM)
        self.taken.lists = {}
        written = Written(os.path.join(self.place, "whole"), self.taken)
        with redirect_stderr(io.StringIO()) as said:
            written.write()
        self.assertEqual((written.count, written.failed, "no list" in said.getvalue()), (2, 1, True))
        self.assertEqual(sorted(os.listdir(os.path.join(written.folder, "unnamed"))), ["1", "2"])

    def test_what_a_stopped_run_put_after_the_list_has_no_name(self) -> None:
        one, = self.take(b"wall")
        for number, piece in enumerate(list_pieces({"a": Entry("a", 1, False, (one,))}), self.next):
            self.taken.take(number, piece)
        self.taken.take(number + 1, next(text_pieces([b"late"])))
        self.taken.take(number + 2, next(text_pieces([RANDOM])))
        self.taken.end_text()
        written = Written(os.path.join(self.place, "whole"), self.taken)
        with redirect_stderr(io.StringIO()) as said:
            written.write()
        self.assertEqual((written.count, written.failed, "texts without a name: 1, which" in said.getvalue()), (2, 0, True))

    def test_a_list_without_one_of_its_pieces(self) -> None:
        stored = self.take(b"wall")
        names = [f"{number:0200}" for number in range(500)]
        entries = {name: Entry(name, 1, False, (stored[0],)) for name in names}
        pieces = list(list_pieces(entries))
        for number, piece in enumerate(pieces):
            if number != 1:
                self.taken.take(self.next + number, piece)
        written = Written(os.path.join(self.place, "whole"), self.taken)
        with redirect_stderr(io.StringIO()) as said:
            written.write()
        self.assertEqual((written.failed, "missing a piece, or has a forged one" in said.getvalue()), (1, True))
        self.assertTrue(200 < written.count < 400)

    def test_a_text_that_unpacks_to_something_else(self) -> None:
        self.taken.take(1, TEXT + b"no stream")
        self.taken.take(2, TEXT + zlib.compress(b"cut")[:-4])
        self.taken.end_text()
        self.assertEqual((self.taken.texts, os.listdir(self.taken.folder)), ({}, []))
