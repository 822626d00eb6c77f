"""Tests of checks in a session and of files, in slipseal.py: yes, no and calls as in one call, annex A byte by byte, every refusal
and its order, the finish of the other purpose, records that no call handed out; files that deliver oddly, fail, are too long or
not as long as declared; and what Python alone can get wrong.

    python3 -m unittest          in this folder
"""

import array
import errno
import io
import os
import tempfile
import unittest

import slipseal
from slipseal import Agreement, CheckingSession, Session, check, check_file, make
from test_slipseal import FORGED, KEY, KEYS, MESSAGE, Case, Delivering, annex_a, forged, one_by_one, turned

PLAIN, DECLARED = Agreement(5, 4, 64), Agreement(1, 3, 64)
LIMIT, CHUNK = 1048576, 32768
CERTIFICATE = bytes(i * i // 251 % 256 for i in range(100000))


def fed(agreement, keys, tag, *pieces):
    session = CheckingSession(agreement, keys, 8 * sum(map(len, pieces)), tag)
    for piece in pieces:
        session.piece(piece)
    return session


def checking(**fields):
    """As forged, for a session that checks."""
    session = CheckingSession(Agreement(1, 1, 64), KEY, 0, bytes(8))
    session._record = forged(**dict({"purpose": 1}, **fields))._record
    return session


class Sessions(Case):
    def test_annex_a(self):
        for agreement, keys, message, tag, calls in annex_a():
            for cut in range(len(message) + 1):
                self.assertEqual(fed(agreement, keys, tag, message[:cut], message[cut:]).finish(), (True, calls))
            self.assertEqual(fed(agreement, keys, tag, *one_by_one(message)).finish(), (True, calls))
            for place in range(8 * len(tag)):
                self.assertEqual(fed(agreement, keys, turned(tag, place), *one_by_one(message)).finish(), (False, calls))

    def test_every_number_of_bits(self):
        for algorithm, padding, keys in ((1, 3, KEY), (3, 2, KEYS), (5, 4, KEY), (8, 4, KEY)):
            agreement = Agreement(algorithm, padding, 63)
            for bits in range(257):
                message, cut = MESSAGE[: (bits + 7) // 8], bits // 16
                right = make(agreement, keys, message, bits).tag
                for tag, yes in ((right, True), (turned(right, bits % 64), False)):
                    session = CheckingSession(agreement, keys, bits, tag)
                    session.piece(message[:cut])
                    session.piece(message[cut:], bits - 8 * cut)
                    session.piece(b"")
                    answer = session.finish()
                    self.assertEqual(answer, check(agreement, keys, message, tag, bits))
                    self.assertIs(answer.yes, yes)

    def test_a_no_is_false_and_closes(self):
        for tag, yes in ((make(PLAIN, KEY, MESSAGE).tag, True), (bytes(8), False)):
            session = fed(PLAIN, KEY, tag, MESSAGE)
            self.assertFalse(session.closed)
            answer = session.finish()
            self.assertIs(bool(answer), yes)
            self.assertEqual(answer.calls, 3)
            self.assertTrue(session.closed)
            self.assertEqual(bytes(session._record), bytes(152))
            self.refused(11, session.piece, b"")
            self.refused(11, session.finish)

    def test_the_record(self):
        """That of a session for making, with the purpose and the tag beside it, spare bits too."""
        making = bytearray(bytes(Session(Agreement(1, 2, 12), KEY)._record))
        self.assertEqual((making[16:24], making[136:]), (bytes(8), bytes(16)))
        making[16], making[136:138] = 1, b"\xA3\x31"
        step = slipseal._library.slipseal_start_check(slipseal._agreed(Agreement(1, 2, 12)), KEY, 16, 0, b"\xA3\x31", 2)
        self.assertEqual((bytes(step.answer), bytes(step.session)), (bytes(24), making))
        session = CheckingSession(Agreement(1, 2, 12), KEY, 0, b"\xA3\x31")
        self.assertEqual(bytes(session._record), making)
        session.piece(MESSAGE)
        self.assertEqual((session._record.purpose, bytes(session._record.expected)), (1, b"\xA3\x31" + bytes(14)))

    def test_refused_starts(self):
        for number, agreed, keys, declared, tag in (
            (1, (9, 9, 0), b"", 2**64 - 1, 17),
            (2, (4, 9, 0), b"", 2**64 - 1, 17),
            (3, (4, 3, 0), b"", 2**64 - 1, 17),
            (4, (4, 3, 64), b"", 2**64 - 1, 17),
            (5, (4, 3, 64), KEY + KEY, 2**64 - 1, 17),
            (8, (4, 3, 64), KEYS, 2**64 - 1, 17),
            (8, (1, 3, 64), KEY, 8388609, 7),
            (10, (1, 3, 64), KEY, 8388608, 7),
            (10, (1, 2, 64), KEY, 2**64 - 1, 9),
            (10, (1, 2, 64), KEY, 0, 0),
            (10, (1, 2, 64), KEY, 0, 16),
            (10, (1, 2, 65), KEY, 0, 8),
        ):
            with self.subTest(number=number, agreed=agreed, declared=declared, tag=tag):
                self.refused(number, CheckingSession, Agreement(*agreed), keys, declared, bytes(tag))
                step = slipseal._library.slipseal_start_check(
                    slipseal._agreed(Agreement(*agreed)), keys, len(keys), declared, bytes(tag), tag
                )
                self.assertEqual(bytes(step), number.to_bytes(8, "little") + bytes(168))
        CheckingSession(Agreement(1, 2, 64), KEY, 2**64 - 1, bytes(8))

    def test_refusals_leave_the_session(self):
        session = CheckingSession(Agreement(2, 3, 128), KEYS, 40, make(Agreement(2, 3, 128), KEYS, MESSAGE[:5]).tag)
        session.piece(MESSAGE[:4])
        self.refused(7, session.piece, b"a", 0)
        self.refused(8, session.piece, bytes(LIMIT - 3))
        self.refused(12, session.piece, MESSAGE[4:6], 9)
        self.refused(12, session.finish)
        session.piece(MESSAGE[4:5])
        self.assertEqual(session.finish(), (True, 3))

        four = Agreement(4, 1, 64)
        session = CheckingSession(four, KEYS, 0, make(four, KEYS, MESSAGE[:17], 129).tag)
        session.piece(MESSAGE[:16])
        self.refused(9, session.finish)
        session.piece(MESSAGE[16:17], 1)
        self.refused(11, session.piece, b"a")
        self.assertEqual(session.finish(), (True, 4))

    def test_spare_bits(self):
        for m in (1, 7, 9, 12, 63, 127):
            tag = make(Agreement(1, 1, m), KEY, MESSAGE).tag
            self.assertTrue(fed(Agreement(1, 1, m), KEY, tag, MESSAGE).finish())
            for place in range(m, 8 * len(tag)):
                self.assertEqual(fed(Agreement(1, 1, m), KEY, turned(tag, place), MESSAGE).finish(), (False, 2))

    def test_the_finish_of_the_other_purpose(self):
        """11, also with 12, 9 and 10 beside it; the session stays as it was."""
        for fields in ({}, {"padding": 3, "declared": 9}, {"algorithm": 4}):
            session, other = forged(**fields), checking(**fields)
            before = bytes(session._record), bytes(other._record)
            session._record, other._record = other._record, session._record
            self.refused(11, session.finish)
            self.refused(11, other.finish)
            self.assertEqual((bytes(other._record), bytes(session._record)), before)
            for length in (0, 16):
                room = slipseal._room(length)
                step = slipseal._library.slipseal_finish(session._record, room, length)
                self.assertEqual((step.answer.number, bytes(room)), (11, bytes(length)))

    def test_forged_records(self):
        for fields, closed in FORGED:
            session = checking(**fields)
            with self.subTest(**fields):
                self.assertIs(self.closed(session), closed)
                if not closed:
                    self.assertIs(session.finish().yes, False)

    def test_bytes_past_the_tag_are_not_read(self):
        tag = make(Agreement(1, 1, 64), KEY, b"a").tag
        self.assertTrue(checking(expected=tuple(tag) + (0x77,) * 8).finish())
        self.assertFalse(checking(expected=tuple(turned(tag, 63)) + (0x77,) * 8).finish())

    def test_what_does_not_fit(self):
        for number in (-1, 2**64, 2**64 + 1):
            self.assertRaises(ValueError, CheckingSession, DECLARED, KEY, number, bytes(8))
            self.assertRaises(ValueError, CheckingSession, Agreement(1, 1, number), KEY, 0, bytes(8))
            self.assertRaises(ValueError, fed(PLAIN, KEY, bytes(8)).piece, b"", number)
        for tag in (None, 8, "0" * 8, [0] * 8):
            self.assertRaises(TypeError, CheckingSession, PLAIN, KEY, 0, tag)
        for kind in (bytearray, memoryview, lambda value: array.array("B", value)):
            tag = make(PLAIN, KEY, MESSAGE).tag
            self.assertTrue(fed(PLAIN, kind(KEY), kind(tag), kind(MESSAGE)).finish())


class Files(Case):
    def setUp(self):
        folder = tempfile.TemporaryDirectory()
        self.addCleanup(folder.cleanup)
        self.path = os.path.join(folder.name, "certificate")

    def write(self, data):
        with open(self.path, "wb") as file:
            file.write(data)

    def test_chunks_and_what_is_told(self):
        for length, progress in (
            (0, []),
            (1, [1]),
            (CHUNK, [CHUNK]),
            (CHUNK + 1, [CHUNK, CHUNK + 1]),
            (100000, [32768, 65536, 98304, 100000]),
        ):
            data = CERTIFICATE[:length]
            self.write(data)
            for agreement in (PLAIN, DECLARED):
                tag, calls = make(agreement, KEY, data)
                for file in (self.path, os.fsencode(self.path), io.BytesIO(data), open(self.path, "rb")):
                    told = []
                    self.assertEqual(check_file(agreement, KEY, file, tag, told.append), (True, calls))
                    self.assertEqual(told, progress)
                    if hasattr(file, "close"):
                        file.close()
                self.assertEqual(check_file(agreement, KEY, self.path, turned(tag, 63)), (False, calls))

    def test_from_where_the_file_stands(self):
        for agreement in (PLAIN, DECLARED):
            tag, calls = make(agreement, KEY, MESSAGE)
            scanner = io.BytesIO(tag + MESSAGE)
            self.assertEqual(check_file(agreement, KEY, scanner, scanner.read(8)), (True, calls))
            past = io.BytesIO(MESSAGE)
            past.seek(100)
            self.assertEqual(check_file(agreement, KEY, past, tag), (False, make(agreement, KEY, b"").calls))

    def test_files_that_deliver_oddly(self):
        tag = make(PLAIN, KEY, MESSAGE).tag
        told = []
        self.assertEqual(check_file(PLAIN, KEY, Delivering(*one_by_one(MESSAGE)), tag, told.append), (True, 3))
        self.assertEqual(told, list(range(1, 33)))
        for cut in range(33):
            self.assertTrue(check_file(PLAIN, KEY, Delivering(*filter(None, (MESSAGE[:cut], MESSAGE[cut:]))), tag))
            self.assertIs(check_file(PLAIN, KEY, Delivering(MESSAGE[:cut]), tag).yes, cut == 32)
        late = Delivering(MESSAGE, b"", b"after the end")
        self.assertTrue(check_file(PLAIN, KEY, late, tag))
        self.assertEqual(late.reads, [b"after the end"])

    def test_a_declared_length(self):
        tag = make(DECLARED, KEY, MESSAGE).tag
        for declared, number in ((255, 12), (257, 12), (0, 12), (8388609, 8)):
            self.refused(number, check_file, DECLARED, KEY, Delivering(MESSAGE), tag, declared=declared)
        self.assertTrue(check_file(DECLARED, KEY, Delivering(MESSAGE), tag, declared=256))
        self.write(MESSAGE)
        self.refused(12, check_file, DECLARED, KEY, self.path, tag, declared=255)
        scanner, line = os.pipe()
        os.write(line, MESSAGE + MESSAGE)
        os.close(line)
        with open(scanner, "rb", buffering=0) as file:
            self.assertRaises(OSError, check_file, DECLARED, KEY, file, tag)
            self.assertEqual(file.read(32), MESSAGE)
            self.assertTrue(check_file(DECLARED, KEY, file, tag, declared=256))

    def test_refused_starts_read_nothing(self):
        for number, agreement, keys, tag in (
            (1, Agreement(9, 9, 999), KEY, 7),
            (4, PLAIN, KEY[:15], 7),
            (10, PLAIN, KEY, 7),
            (10, DECLARED, KEY, 9),
        ):
            file = io.BytesIO(MESSAGE)
            self.refused(number, check_file, agreement, keys, file, bytes(tag))
            self.assertEqual(file.tell(), 0)

    def test_too_long_and_too_short(self):
        tag, calls = make(PLAIN, KEY, bytes(LIMIT))
        self.assertEqual(check_file(PLAIN, KEY, io.BytesIO(bytes(LIMIT)), tag), (True, calls))
        told = []
        self.refused(8, check_file, PLAIN, KEY, "/dev/zero", tag, told.append)
        self.assertEqual(told, list(range(CHUNK, LIMIT + 1, CHUNK)))
        self.write(bytes(LIMIT + 1))
        for agreement, last in ((PLAIN, told[-1:]), (DECLARED, [])):
            told = []
            self.refused(8, check_file, agreement, KEY, self.path, tag, told.append)
            self.assertEqual(told[-1:], last)
        self.refused(9, check_file, Agreement(4, 1, 64), KEYS, io.BytesIO(MESSAGE[:16]), tag)

    def test_a_file_that_grows_or_shrinks(self):
        tag = make(DECLARED, KEY, CERTIFICATE).tag

        def changes(length):
            self.write(CERTIFICATE)
            return lambda _: os.truncate(self.path, length)

        self.refused(12, check_file, DECLARED, KEY, self.path, tag, changes(100001))
        self.refused(12, check_file, DECLARED, KEY, self.path, tag, changes(99999))
        self.assertTrue(check_file(DECLARED, KEY, self.path, tag, changes(100000)))

    def test_errors_come_through(self):
        tag = make(PLAIN, KEY, MESSAGE).tag
        for cut in range(33):
            file = Delivering(*one_by_one(MESSAGE[:cut]), OSError(errno.EIO, "unplugged"), MESSAGE[cut:])
            with self.assertRaisesRegex(OSError, "unplugged"):
                check_file(PLAIN, KEY, file, tag)
        with self.assertRaises(BlockingIOError) as caught:
            check_file(PLAIN, KEY, Delivering(MESSAGE, None), tag)
        self.assertEqual(caught.exception.errno, errno.EAGAIN)
        self.assertRaises(FileNotFoundError, check_file, PLAIN, KEY, self.path, tag)
        self.assertRaises(IsADirectoryError, check_file, PLAIN, KEY, os.path.dirname(self.path), tag)
        self.write(MESSAGE)
        self.assertRaises(ZeroDivisionError, check_file, PLAIN, KEY, self.path, tag, lambda total: 1 // 0)

    def test_what_is_no_file(self):
        for file in (None, 0, [0], 1.0):
            self.assertRaises(TypeError, check_file, PLAIN, KEY, file, bytes(8))
        for agreement in (PLAIN, DECLARED):
            for text in ("", "certificate"):
                self.assertRaises(TypeError, check_file, agreement, KEY, io.StringIO(text), bytes(8))
        self.assertRaises(ValueError, check_file, DECLARED, KEY, io.BytesIO(), bytes(8), declared=-1)


if __name__ == "__main__":
    unittest.main()
