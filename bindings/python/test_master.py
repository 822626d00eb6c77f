"""Tests of masters in slipseal.py: A.7 under its master, with the printed tags and 2 calls more, and R8 with algorithm 4, in one call
and in sessions; the values that stand for yes; the refusals of keys, and their order; records that no call handed out; slips, also
read with the master told wrongly; lost blocks; and what Python alone can get wrong.

    python3 -m unittest          in this folder
"""

import io
import unittest

from slipseal import (
    Agreement,
    CheckingSession,
    Refused,
    Session,
    SlipReader,
    check,
    check_file,
    make,
    read_slip,
    read_slip_from,
    restore,
    write_slip,
)
from test_checking import checking
from test_slipseal import COVERED, DAY, KEY, KEYS, MESSAGE, Case, annex_a, forged, turned

# Derived from the key: K and K' of A.7.
DERIVED = [bytes.fromhex(key) for key in ("4E595BF03F23BD10329BAF5698E898EC", "B3136C044E95482D4F652E694F2741CD")]

# R8, algorithm 4, padding 1, data 1, with K' of annex A as the master. The first 8 bytes are the tag of R8.
FOURTH = bytes.fromhex("DD64873EEB7C9605B80D0AF097A3B554")

# Agreement, keys, seal and calls of the slip of R6's fields.
SEALED = (
    (Agreement(6, 1, 64, True), KEY, "7F000B06014046CC7AF860723DB2", 4),
    (Agreement(4, 1, 64, True), KEYS, "7F000B040140F1C38C2644B31AA7", 6),
)

# Numbers that stand for yes in an agreement; in a record the first alone does.
YES = (1, 2, 3, 255, 256, 257, 2**32, 2**32 + 1, 2**63, 2**64 - 1)


def under_master(*agreed):
    return Agreement(*agreed, master=True)


def cases():
    """Agreement, keys, message, tag and calls: A.7, of algorithm 2 what the derived keys make that are handed in, and R8."""
    a_7 = [case for case in annex_a() if case[0].algorithm == 6]
    counts = [calls for calls in (4, 5, 5, 4, 4, 5) for _ in (64, 128)]
    assert len(a_7) == len(counts)
    for (agreement, keys, message, tag, _), calls in zip(a_7, counts):
        assert keys == DERIVED[0] + DERIVED[1]
        yield agreement._replace(master=True), KEY, message, tag, calls
        two = agreement._replace(algorithm=2)
        yield two._replace(master=True), KEY, message, make(two, keys, message).tag, calls + 1
    yield under_master(4, 1, 64), KEYS, MESSAGE, FOURTH[:8], 6
    yield under_master(4, 1, 128), KEYS, MESSAGE, FOURTH, 6


class Tags(Case):
    def test_one_call(self):
        for agreement, keys, message, tag, calls in cases():
            with self.subTest(agreement=agreement):
                self.assertEqual(make(agreement, keys, message), (tag, calls))
                self.assertEqual(check(agreement, keys, message, tag), (True, calls))
                for place in range(8 * len(tag)):
                    self.assertEqual(check(agreement, keys, message, turned(tag, place)), (False, calls))

    def test_sessions_cut_at_every_byte(self):
        for agreement, keys, message, tag, calls in cases():
            for cut in range(len(message) + 1):
                with self.subTest(agreement=agreement, cut=cut):
                    session = Session(agreement, keys, 8 * len(message))
                    checks = CheckingSession(agreement, keys, 8 * len(message), tag)
                    for piece in (message[:cut], message[cut:]):
                        session.piece(piece)
                        checks.piece(piece)
                    self.assertEqual(session.finish(), (tag, calls))
                    self.assertEqual(checks.finish(), (True, calls))
            for place in range(8 * len(tag)):
                checks = CheckingSession(agreement, keys, 8 * len(message), turned(tag, place))
                checks.piece(message)
                self.assertEqual(checks.finish(), (False, calls))

    def test_files(self):
        for agreement, keys, message, tag, calls in cases():
            self.assertEqual(check_file(agreement, keys, io.BytesIO(message), tag), (True, calls))

    def test_every_number_of_bits(self):
        """Of algorithms 2 and 6, the derived keys handed in make the same tags with 2 calls less."""
        for algorithm in (2, 6):
            for padding in (1, 2, 3):
                agreement = Agreement(algorithm, padding, 127)
                for bits in range(257):
                    message = MESSAGE[: (bits + 7) // 8]
                    tag, calls = make(agreement, DERIVED[0] + DERIVED[1], message, bits)
                    self.assertEqual(make(agreement._replace(master=True), KEY, message, bits), (tag, calls + 2))

    def test_any_number_but_0_is_yes(self):
        agreement, tag = under_master(6, 1, 128), make(under_master(6, 1, 128), KEY, MESSAGE).tag
        slip = write_slip(agreement, KEY, DAY, b"A7", 500)
        for yes in YES + (True,):
            agreement = agreement._replace(master=yes)
            with self.subTest(master=yes):
                self.assertEqual(make(agreement, KEY, MESSAGE), (tag, 4))
                self.assertEqual(check(agreement, KEY, MESSAGE, tag), (True, 4))
                self.assertEqual(restore(agreement, KEY, bytes(16) + MESSAGE[16:], 0, tag), MESSAGE)
                self.assertEqual(write_slip(agreement, KEY, DAY, b"A7", 500), slip)
                self.assertEqual(read_slip(agreement, KEY, slip).calls, 4)
                self.assertEqual(read_slip_from(agreement, KEY, io.BytesIO(slip)).calls, 4)
                for session in (Session(agreement, KEY), CheckingSession(agreement, KEY, 0, tag)):
                    self.assertEqual(session._record.agreement.master, 1)
        for no in (0, False):
            self.refused(4, make, agreement._replace(master=no), KEY, MESSAGE)
            self.assertEqual(Session(Agreement(5, 4, 64, no), KEY)._record.agreement.master, 0)


class Refusals(Case):
    def judged(self, agreement, keys):
        """The number that an agreement and keys get, 0 where they are taken; it must be the same of all calls."""

        def number(call, *arguments):
            try:
                call(*arguments)
            except Refused as refused:
                return refused.number
            return 0

        judged, tag = number(make, agreement, keys, MESSAGE), bytes((agreement.m + 7) // 8)
        slip = COVERED + b"\x7F\0\x0B" + bytes(agreement[:3]) + bytes(8)
        full = agreement if judged == 3 else agreement._replace(m=128)
        restored = number(restore, full, keys, MESSAGE, 0, bytes(16))
        if agreement.algorithm == 7 and restored == 3:
            restored = judged  # no full tag: 3 before 4
        for other in (
            restored,
            number(check, agreement, keys, MESSAGE, tag),
            number(Session, agreement, keys),
            number(CheckingSession, agreement, keys, 0, tag),
            number(write_slip, agreement, keys, DAY, b"A7", 500),
            number(read_slip, agreement, keys, slip) % 30,  # a wrong seal is told after these
        ):
            self.assertEqual(other, judged)
        return judged

    def test_bytes_of_keys(self):
        """Under a master 2 and 6 take 16 bytes, 4 takes 32, and no other takes any."""
        for algorithm in range(1, 9):
            agreement = under_master(algorithm, 4 if algorithm in (5, 7, 8) else 1, 63)
            right = {2: 16, 4: 32, 6: 16}.get(algorithm)
            for length in range(65):
                with self.subTest(algorithm=algorithm, length=length):
                    self.assertEqual(self.judged(agreement, bytes(range(length))), 0 if length == right else 4)

    def test_the_first_fault_is_told(self):
        """1 to 5, then 7, 9 and 10, each with every later one that can be had beside it."""
        same = DERIVED[0] + KEY
        for number, agreed, keys in (
            (1, (9, 4, 129), same + b"\0"),
            (2, (3, 4, 129), same + b"\0"),
            (3, (3, 1, 129), same + b"\0"),
            (3, (4, 1, 129), same + b"\0"),
            (3, (4, 1, 129), same),
            (4, (4, 1, 64), same + b"\0"),
            (4, (3, 1, 64), KEY + KEY),
            (5, (4, 1, 64), same),
        ):
            with self.subTest(number=number, agreed=agreed):
                self.assertEqual(self.judged(under_master(*agreed), keys), number)
        four = under_master(4, 1, 64)
        self.refused(5, make, four, same, b"", 2**64 - 1)
        self.refused(7, make, four, KEYS, b"", 2**64 - 1)
        self.refused(9, check, four, KEYS, MESSAGE[:16], b"")
        self.refused(10, check, four, KEYS, MESSAGE, b"")

    def test_keys_that_must_differ(self):
        """5 compares the keys in use: K may be the master, and must be none of the derived keys."""
        third = bytes(byte ^ 0xF0 for byte in KEY)
        for first, under, without in (
            (DERIVED[0], 5, 0),
            (DERIVED[1], 5, 0),
            (KEY, 0, 5),
            (third, 0, 5),
            (KEYS[16:], 0, 0),
        ):
            with self.subTest(first=first):
                self.assertEqual(self.judged(under_master(4, 1, 64), first + KEY), under)
                self.assertEqual(self.judged(Agreement(4, 1, 64), first + KEY), without)
        for place in range(128):
            self.assertEqual(self.judged(under_master(4, 1, 64), turned(DERIVED[0], place) + KEY), 0)


class Records(Case):
    def test_what_a_record_keeps(self):
        self.assertEqual(bytes(Session(under_master(4, 1, 64), KEYS)._record.keys), KEYS)
        for algorithm in (2, 6):
            agreement = under_master(algorithm, 1, 64)
            session = Session(agreement, KEY)
            self.assertEqual(bytes(session._record.keys), KEY + bytes(16))
            session._record.keys = type(session._record.keys)(*KEY, *16 * b"\xC3")
            session.piece(MESSAGE)
            self.assertEqual(bytes(session._record.keys), KEY + 16 * b"\xC3")
            self.assertEqual(session._record.agreement.master, 1)
            self.assertEqual(session.finish(), make(agreement, KEY, MESSAGE))

    def forged_is_closed(self, forge, **fields):
        """Whether a record with these values counts as closed; one that is open can be finished."""
        session = forge(**fields)
        closed = self.closed(session)
        if not closed:
            session.finish()
        return closed

    def test_forged_records(self):
        keys = {name: tuple(first + KEY) for name, first in (("first", DERIVED[0]), ("second", DERIVED[1]), ("same", KEY))}
        other = tuple(KEY) + (0xC3,) * 16
        for forge in (forged, checking):
            for master in (0,) + YES:
                closed = self.forged_is_closed(forge, algorithm=6, master=master, keys=other)
                self.assertIs(closed, master > 1, master)
            for algorithm in (1, 2, 3, 5, 6, 7, 8):
                padding = 4 if algorithm in (5, 7, 8) else 1
                for master in (0, 1):
                    fields = dict(algorithm=algorithm, padding=padding, m=63, master=master, keys=other)
                    closed = self.forged_is_closed(forge, **fields)
                    self.assertIs(closed, master == 1 and algorithm not in (2, 6), algorithm)
            for name, under, without in (("first", True, False), ("second", True, False), ("same", False, True)):
                for master, expected in ((1, under), (0, without)):
                    fields = dict(algorithm=4, padding=3, declared=8, master=master, keys=keys[name])
                    self.assertIs(self.forged_is_closed(forge, **fields), expected, name)


class Slips(Case):
    def test_written_and_read(self):
        for agreement, keys, seal, calls in SEALED:
            slip = write_slip(agreement, keys, DAY, b"A7", 500)
            self.assertEqual(slip, COVERED + bytes.fromhex(seal))
            read = read_slip(agreement, keys, slip)
            self.assertEqual(read, (2026, 11, 4, 500, b"A7", 14, calls))
            reader = SlipReader()
            reader.feed(slip[:20])
            reader.feed(slip[20:])
            self.assertEqual(reader.read(agreement, keys), read)
            self.assertEqual(read_slip_from(agreement, keys, io.BytesIO(slip)), read)

    def test_the_master_told_wrongly(self):
        """A slip does not name the master: 25 does not look at it, and the seal is wrong under the other keys."""
        six, four = (COVERED + bytes.fromhex(seal) for _, _, seal, _ in SEALED)
        self.refused(30, read_slip, Agreement(4, 1, 64), KEYS, four)
        self.refused(4, read_slip, Agreement(6, 1, 64), KEY, six)
        self.refused(30, read_slip, Agreement(6, 1, 64), KEYS, six)
        self.assertEqual(read_slip(Agreement(6, 1, 64), DERIVED[0] + DERIVED[1], six).calls, 2)
        plain = write_slip(Agreement(4, 1, 64), KEYS, DAY, b"A7", 500)
        self.assertEqual(read_slip(Agreement(4, 1, 64), KEYS, plain).calls, 4)
        self.refused(30, read_slip, under_master(4, 1, 64), KEYS, plain)
        for agreement, keys, slip in ((under_master(6, 1, 64), KEY, six), (under_master(4, 1, 64), KEYS, four)):
            self.refused(30, read_slip, agreement, bytes(len(keys)), slip)
            for other in (agreement._replace(m=63), agreement._replace(padding=2), under_master(3, 1, 64)):
                self.refused(25, read_slip, other, keys, slip)


class Restoring(Case):
    def test_every_block(self):
        for agreement, keys, message, tag, _ in cases():
            if agreement.m != 128:
                self.refused(3, restore, agreement, keys, message, 0, tag)
                continue
            for block in range(len(message) // 16):
                lost = message[: 16 * block] + 16 * b"?" + message[16 * block + 16 :]
                self.assertEqual(restore(agreement, keys, lost, block, tag), message)
            self.refused(41, restore, agreement, keys, message, len(message) // 16, tag)


class Handed(Case):
    def test_three_are_enough(self):
        self.assertEqual(Agreement(5, 4, 64), Agreement(5, 4, 64, False))
        self.assertEqual(Agreement(5, 4, 64), Agreement(algorithm=5, padding=4, m=64, master=False))
        self.assertNotEqual(Agreement(6, 1, 64), Agreement(6, 1, 64, True))

    def test_what_is_no_number(self):
        for master in (None, "yes", "", b"", 1.0, 0.0, [True]):
            self.assertRaises(TypeError, make, Agreement(6, 1, 64, master), KEY, MESSAGE)
            self.assertRaises(TypeError, Session, Agreement(6, 1, 64, master), KEY)
            self.assertRaises(TypeError, read_slip, Agreement(6, 1, 64, master), KEY, COVERED)


if __name__ == "__main__":
    unittest.main()
