"""Tests of slipseal.py: annex A in one call and in pieces, the runs R4 to R7 of the requirements, slips written and read, slips
that name something else than was agreed, slips that come in odd lengths, every refusal, what one says, records that no call handed
out, and what Python alone can get wrong (numbers too large, other kinds of bytes and of files, what is no date, a "no" taken for
true). Checks in a session and of files are in test_checking.py, lost blocks in test_restoring.py, masters in test_master.py.

    python3 -m unittest          in this folder
"""

import array
import datetime
import doctest
import errno
import io
import os
import subprocess
import sys
import threading
import time
import unittest

import slipseal
from slipseal import Agreement, Refused, Session, SlipReader, check, make, read_slip, read_slip_from, write_slip

HERE = os.path.dirname(os.path.abspath(__file__))
MESSAGE = b"This is the test message for mac"
KEY = bytes.fromhex("0123456789ABCDEFFEDCBA9876543210")
KEYS = KEY + bytes.fromhex("4149D2ADED9456681EC8B511D9E7EE04")
COVERED = bytes.fromhex("01000832303236313130340200024137030004000001F4")
SLIP = COVERED + bytes.fromhex("7F000B050440A47A9299C7B8456C")
AGREED, DAY = Agreement(5, 4, 64), datetime.date(2026, 11, 4)  # those of SLIP
R6 = (
    (AGREED, "7F000B050440A47A9299C7B8456C", KEY, 3),
    (Agreement(2, 2, 64), "7F000B02024025BE21F5FDEE57F4", KEYS, 3),
    (Agreement(1, 1, 12), "7F000501010CA330", KEY, 2),
)


def annex_a():
    """Agreement, keys, message, tag and calls of each printed tag, and of each printed G as a tag of 128 bits. Algorithm 7 prints
    64 bits, which are refused, so 63 of them are taken."""
    with open(os.path.join(HERE, "..", "annex_a.txt"), encoding="utf-8") as file:
        rows = [line.split() for line in file if not line.startswith("#")]
    for algorithm, padding, data, keys, tag, g in rows:
        algorithm, padding, message = int(algorithm), int(padding), MESSAGE if data == "1" else MESSAGE[:25]
        q = 2 if padding in (1, 4) else len(message) // 16 + 1 if padding == 2 else 3
        calls = q + (0, 1, 2, 2, 1, 0, 0, 1)[algorithm - 1]
        if algorithm == 7:
            number = int(tag, 16)
            number = number & ~1 if data == "1" else number << 1 & 2**64 - 1
            tags = {63: number.to_bytes(8, "big")}
        else:
            tags = {64: bytes.fromhex(tag), 128: bytes.fromhex(g)}
        for m, tag in tags.items():
            yield Agreement(algorithm, padding, m), bytes.fromhex(keys), message, tag, calls


def keys_of(algorithm):
    return KEYS if algorithm in (2, 3, 4, 6) else KEY


def turned(data, place):
    """With one bit turned."""
    other = bytearray(data)
    other[place // 8] ^= 0x80 >> place % 8
    return bytes(other)


# Other values in the record of a session that has the byte 61, and whether it then counts as closed.
FORGED = (
    ({}, False),
    ({"phase": 0}, True),
    ({"phase": 0, "part": 5}, True),
    ({"phase": 3}, True),
    ({"phase": 2**32 + 1}, True),
    ({"part": 1}, True),
    ({"phase": 2}, True),
    ({"phase": 2, "part": 8}, True),
    ({"total": 9}, True),
    ({"phase": 2, "part": 1, "total": 129}, True),
    ({"algorithm": 9}, True),
    ({"algorithm": 257}, True),
    ({"algorithm": 3}, False),
    ({"padding": 4}, True),
    ({"m": 129}, True),
    ({"padding": 3}, True),
    ({"padding": 3, "declared": 8}, False),
    ({"padding": 3, "declared": 8388609}, True),
    ({"declared": 2**64 - 1}, False),
    ({"total": 2**63}, True),
    ({"total": 8388608}, False),
    ({"chain": (1,) * 16}, False),
    ({"held": (97, 1)}, True),
    ({"held": (98,)}, False),
    ({"expected": (0x77,) * 16}, False),
    ({"purpose": 2}, True),
    ({"purpose": 255}, True),
    ({"purpose": 256}, True),
    ({"purpose": 2**32}, True),
    ({"purpose": 2**32 + 1}, True),
    ({"purpose": 2**64 - 1}, True),
)


def forged(**fields):
    """A session that has the byte 61, with other values in its record."""
    session = Session(Agreement(1, 1, 64), KEY)
    session.piece(b"a")
    for name, value in fields.items():
        part = session._record.agreement if name in Agreement._fields else session._record
        kind = type(getattr(part, name))
        setattr(part, name, kind(*value) if isinstance(value, tuple) else value)
    return session


class Case(unittest.TestCase):
    def refused(self, number, call, *arguments, **named):
        with self.assertRaises(Refused) as caught:
            call(*arguments, **named)
        self.assertEqual(caught.exception.number, number)

    def closed(self, session):
        """Whether a session's record counts as closed: its calls are refused with 11. A piece of no bits leaves it as it is."""
        before = bytes(session._record)
        try:
            session.piece(b"")
            closed = False
        except Refused as refused:
            closed = True
            self.assertEqual(refused.number, 11)
            self.refused(11, session.piece, b"ab", 8)
            self.refused(11, session.finish)
        self.assertEqual(bytes(session._record), before)
        return closed


class AnnexA(Case):
    def test_count(self):
        self.assertEqual(len(list(annex_a())), 34 * 2 + 2)

    def test_one_call(self):
        for agreement, keys, message, tag, calls in annex_a():
            self.assertEqual(make(agreement, keys, message), (tag, calls))
            self.assertEqual(check(agreement, keys, message, tag), (True, calls))
            for place in range(8 * len(tag)):
                self.assertEqual(check(agreement, keys, message, turned(tag, place)), (False, calls))

    def test_sessions_cut_at_every_byte(self):
        for agreement, keys, message, tag, calls in annex_a():
            cuts = [[message[:cut], message[cut:]] for cut in range(len(message) + 1)]
            for pieces in cuts + [[message[i : i + 1] for i in range(len(message))]]:
                session = Session(agreement, keys, declared=8 * len(message))
                for piece in pieces:
                    session.piece(piece)
                self.assertEqual(session.finish(), (tag, calls))


class OneCall(Case):
    def test_r4_short_messages(self):
        for algorithm, padding, m, message, bits, tag, calls in (
            (1, 1, 128, b"", 0, "2677F46B09C122CC975533105BD4A22A", 1),
            (2, 1, 128, b"", 0, "FD3953C695FCC2D3ED8176F328B8F33E", 2),
            (3, 1, 128, b"", 0, "065F25BDB348C4E48A27C67D1D3A85A6", 3),
            (6, 1, 128, b"", 0, "7D7DD196206F4C9717D8DAF065E4784B", 1),
            (5, 4, 128, b"", 0, "29E154322E5C7BD8EE6A25BA549B24BC", 2),
            (8, 4, 128, b"", 0, "C3362C82CE0474032E8A086D256C6062", 2),
            (4, 3, 128, b"", 0, "E43F42910128F6D7EA83ACFE2F6B3362", 4),
            (4, 2, 128, b"\xFF" * 16, 128, "6EFA155411596610AB488508185BB691", 4),
            (6, 1, 128, b"\xFF", 1, "32A9B595071FB6A555C318906399D419", 1),
            (7, 4, 63, b"\xFF" * 16, 128, "6811AF7E097364E6", 1),
        ):
            agreement = Agreement(algorithm, padding, m)
            self.assertEqual(make(agreement, keys_of(algorithm), message, bits), (bytes.fromhex(tag), calls))

    def test_r5_algorithm_3_with_the_same_key_twice(self):
        tag = bytes.fromhex("9054FCCFF72871FDAD5202C821DBEA05")
        self.assertEqual(make(Agreement(3, 1, 128), KEY + KEY, b"abc"), (tag, 3))
        self.assertEqual(make(Agreement(1, 1, 128), KEY, b"abc"), (tag, 1))

    def test_r7_the_longest_message(self):
        tag = bytes.fromhex("52E7B8DB5C984966E56E4943745D6392")
        self.assertEqual(make(Agreement(1, 1, 128), KEY, bytes(1048576)), (tag, 65536))
        self.refused(8, make, Agreement(1, 1, 128), KEY, bytes(1048577), bits=8388609)
        self.refused(7, make, Agreement(1, 1, 128), KEY, bytes(1048576), bits=8388609)

    def test_refusals(self):
        for number, agreed, keys, message, bits in (
            (1, (9, 9, 0), b"", b"", 0),
            (1, (2**64 - 1, 1, 64), KEY, b"", 0),
            (1, (2**32 + 1, 1, 64), KEY, b"", 0),
            (2, (1, 4, 0), b"", b"", 0),
            (2, (1, 2**32 + 1, 64), KEY, b"", 0),
            (3, (7, 4, 64), b"", b"", 0),
            (3, (1, 1, 2**32 + 64), KEY, b"", 0),
            (4, (1, 1, 64), KEYS, b"", 0),
            (5, (4, 1, 64), KEY + KEY, b"", 1),
            (7, (4, 1, 64), KEYS, b"", 2**64 - 1),
            (9, (4, 1, 64), KEYS, MESSAGE[:16], 128),
        ):
            self.refused(number, make, Agreement(*agreed), keys, message, bits)
            self.refused(number, check, Agreement(*agreed), keys, message, b"", bits)
        for tag in (b"", bytes(1), bytes(3)):
            self.refused(10, check, Agreement(1, 1, 12), KEY, b"", tag)

    def test_a_no_is_false(self):
        answer = check(Agreement(1, 1, 64), KEY, MESSAGE, bytes(8))
        self.assertFalse(answer)
        self.assertEqual((answer.yes, answer.calls), (False, 2))
        self.assertTrue(check(Agreement(1, 1, 64), KEY, MESSAGE, bytes.fromhex("16E02904EFB765B7")))


class Sessions(Case):
    def test_every_number_of_bits(self):
        for algorithm, padding, keys in ((1, 3, KEY), (3, 2, KEYS), (5, 4, KEY), (8, 4, KEY)):
            agreement = Agreement(algorithm, padding, 63)
            for bits in range(257):
                message, cut = MESSAGE[: (bits + 7) // 8], bits // 16
                session = Session(agreement, keys, declared=bits)
                session.piece(message[:cut])
                session.piece(message[cut:], bits - 8 * cut)
                session.piece(b"")
                self.assertEqual(session.finish(), make(agreement, keys, message, bits))

    def test_refused_starts(self):
        self.refused(1, Session, Agreement(9, 9, 0), b"")
        self.refused(4, Session, Agreement(1, 3, 64), b"", declared=8388609)
        self.refused(8, Session, Agreement(1, 3, 64), KEY, declared=8388609)
        Session(Agreement(1, 2, 64), KEY, declared=8388609)

    def test_refused_pieces_leave_the_session(self):
        session = Session(Agreement(5, 4, 128), KEY)
        session.piece(MESSAGE[:4])
        self.refused(7, session.piece, b"a", 0)
        self.refused(7, session.piece, b"", 2**64 - 1)
        self.refused(8, session.piece, bytes(1048573))
        session.piece(MESSAGE[4:6], 11)
        self.refused(11, session.piece, b"a")
        self.refused(11, session.piece, b"", 8)
        self.refused(7, session.piece, b"a", 0)
        self.assertEqual(session.finish(), make(Agreement(5, 4, 128), KEY, MESSAGE[:6], 43))

    def test_refused_finishes_leave_the_session(self):
        session = Session(Agreement(2, 3, 128), KEYS, declared=40)
        session.piece(MESSAGE[:4])
        self.refused(12, session.piece, MESSAGE[4:6], 9)
        self.refused(12, session.finish)
        session.piece(MESSAGE[4:5])
        self.assertEqual(session.finish(), make(Agreement(2, 3, 128), KEYS, MESSAGE[:5]))

        session = Session(Agreement(4, 1, 64), KEYS)
        session.piece(MESSAGE[:16])
        self.refused(9, session.finish)
        session.piece(MESSAGE[16:17], 1)
        self.assertEqual(session.finish(), make(Agreement(4, 1, 64), KEYS, MESSAGE[:17], 129))

    def test_a_finish_closes(self):
        for session in (Session(Agreement(1, 1, 64), KEY), forged(expected=(0x77,) * 16)):
            self.assertFalse(session.closed)
            session.finish()
            self.assertTrue(session.closed)
            self.assertEqual(bytes(session._record), bytes(152))
            self.refused(11, session.piece, b"")
            self.refused(11, session.finish)

    def test_forged_records(self):
        for fields, closed in FORGED:
            session = forged(**fields)
            with self.subTest(**fields):
                self.assertIs(self.closed(session), closed)
                if not closed:
                    self.assertEqual(len(session.finish().tag), 8)

    def test_a_refusal_hands_back_the_very_record(self):
        """Every refusal but a start's, with whatever stands in what is not read."""
        odd = {"declared": 2**64 - 1, "keys": tuple(KEY) + (0xC3,) * 16, "chain": (0x5A,) * 16, "expected": (0x77,) * 16}
        far = {"algorithm": 2**64 - 1, "padding": 2**64 - 1, "m": 2**64 - 1}
        for number, fields, piece in (
            (7, {}, (b"ab", 8)),
            (8, {"total": 8388600}, (b"ab", 9)),
            (11, far, (b"a", 8)),
            (12, {"padding": 3, "declared": 15}, (b"a", 8)),
            (9, {"algorithm": 4}, None),
            (11, far, None),
            (12, {"padding": 3, "declared": 9}, None),
        ):
            session = forged(**dict(odd, **fields))
            before = bytes(session._record)
            with self.subTest(number=number, piece=piece):
                self.refused(number, session.finish if piece is None else session.piece, *(piece or ()))
                self.assertEqual(bytes(session._record), before)

    def test_the_record_holds_the_agreement(self):
        record = Session(Agreement(1, 2, 64), KEY)._record
        self.assertEqual(bytes(record)[24:56], bytes.fromhex("01" + "00" * 7 + "02" + "00" * 7 + "40" + "00" * 15))


class Slips(Case):
    def slip_refused(self, number, agreement, keys, slip):
        """The struct that comes with a refusal has zeros beside its number."""
        self.refused(number, read_slip, agreement, keys, slip)
        read = slipseal._library.slipseal_read(slipseal._agreed(agreement), keys, len(keys), slip, len(slip))
        self.assertEqual(bytes(read), number.to_bytes(8, "little") + bytes(56))

    def test_r6_accepted(self):
        for agreement, seal, keys, calls in R6:
            slip = read_slip(agreement, keys, COVERED + bytes.fromhex(seal))
            self.assertEqual(slip, (2026, 11, 4, 500, b"A7", 14, calls))
            self.assertEqual(slip.expiry, DAY)

    def test_r6_refused(self):
        self.slip_refused(4, AGREED, KEY[:15], SLIP)
        self.slip_refused(30, AGREED, KEY, SLIP[:-1] + b"\x6D")
        self.slip_refused(24, AGREED, KEY, SLIP + b"\0")
        self.slip_refused(20, AGREED, KEY, SLIP[:-1])
        for date, number in ((b"20230229", 23), (b"04112026", 23), (b"20260411", 30)):
            self.slip_refused(number, AGREED, KEY, SLIP[:3] + date + SLIP[11:])
        self.slip_refused(30, Agreement(1, 1, 12), KEY, COVERED + bytes.fromhex("7F000501010CA331"))
        for digits, number in (("", 20), ("55", 20), ("010009", 22), ("01000832", 20), ("020008", 21)):
            self.slip_refused(number, AGREED, KEY, bytes.fromhex(digits))
        self.slip_refused(20, AGREED, KEY, COVERED)

    def test_another_agreement(self):
        """The three numbers are compared whole: the other one is off by one, or equal in its low 8, 16, 32 or 63 bits."""
        for agreement, seal, keys, _ in R6:
            slip = COVERED + bytes.fromhex(seal)
            wrong = slip[:-1] + bytes([slip[-1] ^ 1])
            self.slip_refused(30, agreement, keys, wrong)
            for name in ("algorithm", "padding", "m"):
                for off in (-1, 1, 2**8, 2**16, 2**32, 2**63):
                    other = agreement._replace(**{name: getattr(agreement, name) + off})
                    with self.subTest(other=other):
                        self.slip_refused(25, other, keys, slip)
                        self.slip_refused(25, other, keys, wrong)
                        self.slip_refused(25, other, KEY[:15], slip)

    def test_every_byte_of_a_seal(self):
        """A slip that names anything else than was agreed gets 25; under what it names it is judged."""
        for place in range(3):
            for byte in range(256):
                slip = SLIP[: 26 + place] + bytes([byte]) + SLIP[27 + place :]
                if slip == SLIP:
                    continue
                self.slip_refused(25, AGREED, KEY, slip)
                try:
                    read_slip(Agreement(*slip[26:29]), KEY, slip)
                    self.assertIn((place, byte), ((2, 62), (2, 63)))  # the tag ends in two zero bits
                except Refused as refused:
                    self.assertIn(refused.number, (1, 2, 3, 10, 30))

    def test_one_bit(self):
        """A seal of one bit is right for one of two tags, and 25 for both where 64 bits were agreed."""
        zero, one = (COVERED + bytes.fromhex("7F0004050401" + tag) for tag in ("00", "80"))
        self.slip_refused(25, AGREED, KEY, zero)
        self.slip_refused(25, AGREED, KEY, one)
        self.slip_refused(30, Agreement(5, 4, 1), KEY, zero)
        self.assertEqual(read_slip(Agreement(5, 4, 1), KEY, one).lot, b"A7")

    def test_the_order_of_reads(self):
        """Each refusal with later ones: 20 to 24, 25, 1 to 5, 10."""
        for number, agreed, keys, seal in (
            (20, (9, 9, 999), b"", "7F000B050440A47A9299C7B845"),
            (21, (9, 9, 999), b"", "7E000B050440A47A9299C7B8456C"),
            (22, (9, 9, 999), b"", "7F0003050440"),
            (24, (9, 9, 999), b"", "7F000B050440A47A9299C7B8456C00"),
            (25, (9, 9, 999), b"", "7F000B050440A47A9299C7B8456C"),
            (25, (9, 4, 64), KEY, "7F000B050440A47A9299C7B8456C"),
            (25, (5, 4, 64), KEY, "7F000B090440A47A9299C7B8456C"),
            (1, (9, 4, 64), b"", "7F000B090440A47A9299C7B8456C"),
            (25, (5, 4, 64), b"", "7F000B050340A47A9299C7B8456C"),
            (2, (5, 3, 64), b"", "7F000B050340A47A9299C7B8456C"),
            (25, (7, 4, 63), b"", "7F000B070440A47A9299C7B8456C"),
            (3, (7, 4, 64), b"", "7F000B070440A47A9299C7B8456C"),
            (25, (2, 1, 64), KEY, "7F000B020240A47A9299C7B8456C"),
            (4, (2, 2, 64), KEY, "7F000B020240A47A9299C7B8456C"),
            (25, (2, 1, 64), KEY + KEY, "7F000C020240A47A9299C7B8456C00"),
            (5, (2, 2, 64), KEY + KEY, "7F000C020240A47A9299C7B8456C00"),
            (25, (5, 4, 72), KEY, "7F000C050440A47A9299C7B8456C00"),
            (10, (5, 4, 64), KEY, "7F000C050440A47A9299C7B8456C00"),
        ):
            with self.subTest(number=number, agreed=agreed, seal=seal):
                self.slip_refused(number, Agreement(*agreed), keys, COVERED + bytes.fromhex(seal))
        self.slip_refused(23, Agreement(9, 9, 999), b"", SLIP[:3] + b"20230229" + SLIP[11:])

    def test_r6_written(self):
        for agreement, seal, keys, _ in R6:
            for expiry in (DAY, (2026, 11, 4), [2026, 11, 4]):
                slip = write_slip(agreement, keys, expiry, b"A7", 500)
                self.assertIs(type(slip), bytes)
                self.assertEqual(slip, COVERED + bytes.fromhex(seal))

    def test_both_ways(self):
        """A slip made with make is read to its contents and written from them."""
        for algorithm in range(1, 9):
            keys = keys_of(algorithm)
            for padding in (4,) if algorithm in (5, 7, 8) else (1, 2, 3):
                for m in (1, 7, 8, 9, 12, 63) if algorithm == 7 else (1, 7, 8, 9, 12, 63, 64, 127, 128):
                    agreement = Agreement(algorithm, padding, m)
                    expiry = DAY + datetime.timedelta(days=m)
                    lot, amount = MESSAGE.replace(b" ", b"~")[: m % 32 + 1], 7812 * m
                    covered = b"\1\0\x08" + expiry.strftime("%Y%m%d").encode() + b"\2\0" + bytes([len(lot)]) + lot
                    covered += b"\3\0\4" + amount.to_bytes(4, "big")
                    tag, calls = make(agreement, keys, covered)
                    slip = covered + b"\x7F\0" + bytes([3 + len(tag), algorithm, padding, m]) + tag
                    with self.subTest(agreement=agreement):
                        read = read_slip(agreement, keys, slip)
                        self.assertEqual((read.expiry, read.lot, read.amount, read.calls), (expiry, lot, amount, calls))
                        self.assertEqual(write_slip(agreement, keys, read.expiry, read.lot, read.amount), slip)
                        self.slip_refused(25, agreement._replace(m=m + 1), keys, slip)

    def test_every_day(self):
        day = datetime.date(2000, 1, 1)
        while day.year < 2100:
            self.assertEqual(write_slip(AGREED, KEY, day, b"A7", 500)[3:11], day.strftime("%Y%m%d").encode())
            day += datetime.timedelta(days=1)
        for day in (day, datetime.date(1999, 12, 31), datetime.date.min, datetime.date.max):
            self.refused(23, write_slip, AGREED, KEY, day, b"A7", 500)

    def test_refused_writes(self):
        for number, agreed, keys, expiry, lot, amount in (
            (22, (9, 9, 0), b"", (2026, 11, 31), b"", 500),
            (22, (9, 9, 0), b"", (2026, 11, 31), b"A7", 0),
            (22, (5, 4, 64), KEY, (2026, 11, 4), b"A" * 33, 500),
            (22, (5, 4, 64), KEY, (2026, 11, 4), b"A 7", 500),
            (22, (5, 4, 64), KEY, (2026, 11, 4), b"A\0", 500),
            (22, (5, 4, 64), KEY, (2026, 11, 4), b"A\x7F", 500),
            (22, (5, 4, 64), KEY, (2026, 11, 4), b"A7", 1000001),
            (22, (5, 4, 64), KEY, (2026, 11, 4), b"A7", 2**32 + 500),
            (22, (5, 4, 64), KEY, (2026, 11, 4), b"A7", 2**64 - 1),
            (23, (9, 9, 0), b"", (2026, 11, 31), b"A7", 500),
            (23, (5, 4, 64), KEY, (2026, 0, 4), b"A7", 500),
            (23, (5, 4, 64), KEY, (2026, 13, 4), b"A7", 500),
            (23, (5, 4, 64), KEY, (2026, 11, 0), b"A7", 500),
            (23, (5, 4, 64), KEY, (2023, 2, 29), b"A7", 500),
            (23, (5, 4, 64), KEY, (2**32 + 2026, 11, 4), b"A7", 500),
            (23, (5, 4, 64), KEY, (2026, 2**32 + 11, 4), b"A7", 500),
            (23, (5, 4, 64), KEY, (2026, 11, 2**32 + 4), b"A7", 500),
            (1, (9, 9, 0), b"", (2026, 11, 4), b"A7", 500),
            (1, (2**32 + 5, 4, 64), KEY, (2026, 11, 4), b"A7", 500),
            (2, (4, 9, 0), b"", (2026, 11, 4), b"A7", 500),
            (3, (4, 1, 0), b"", (2026, 11, 4), b"A7", 500),
            (4, (4, 1, 64), b"", (2026, 11, 4), b"A7", 500),
            (5, (4, 1, 64), KEY + KEY, (2026, 11, 4), b"A7", 500),
        ):
            with self.subTest(number=number, agreed=agreed, expiry=expiry, lot=lot, amount=amount):
                self.refused(number, write_slip, Agreement(*agreed), keys, expiry, lot, amount)

    def test_the_longest_and_the_shortest(self):
        self.assertEqual(len(write_slip(Agreement(8, 4, 128), KEY, DAY, b"~" * 32, 1000000)), 75)
        self.assertEqual(len(write_slip(Agreement(8, 4, 1), KEY, DAY, b"!", 1)), 29)


def gathered(*reads):
    reader = SlipReader()
    for read in reads:
        reader.feed(read)
    return reader


def one_by_one(data):
    return [data[i : i + 1] for i in range(len(data))]


def record_of(data):
    """The bytes of the record of these: the count of the first 76, these, and zeros."""
    kept = data[:76]
    return len(kept).to_bytes(8, "little") + kept + bytes(80 - len(kept))


class Delivering:
    """A file that gives one of these at each read, then the end of input. An error is raised."""

    def __init__(self, *reads):
        self.reads = list(reads)

    def read(self, length):
        read = self.reads.pop(0) if self.reads else b""
        if isinstance(read, Exception):
            raise read
        return read


class Gathering(Case):
    """Slips that come in odd lengths."""

    LONGEST = Agreement(8, 4, 128), KEY, write_slip(Agreement(8, 4, 128), KEY, DAY, b"~" * 32, 500)
    GOOD = [(agreement, keys, COVERED + bytes.fromhex(seal)) for agreement, seal, keys, _ in R6] + [LONGEST]

    def answer(self, call, *arguments):
        """What a call gives, or the number of its refusal."""
        try:
            return call(*arguments)
        except Refused as refused:
            return refused.number

    def read_as(self, reader, agreement, keys, slip):
        """The struct that comes is that of the slip in one read, in every field."""
        lent = slipseal._agreed(agreement), keys, len(keys)
        whole = slipseal._library.slipseal_read(*lent, slip, len(slip))
        self.assertEqual(bytes(slipseal._library.slipseal_read_gathered(*lent, reader._record)), bytes(whole))

    def test_r6_in_two_reads(self):
        for agreement, seal, keys, calls in R6:
            slip = COVERED + bytes.fromhex(seal)
            for cut in range(len(slip) + 1):
                with self.subTest(agreement=agreement, cut=cut):
                    read = gathered(slip[:cut], slip[cut:]).read(agreement, keys)
                    self.assertEqual(read, (2026, 11, 4, 500, b"A7", 14, calls))

    def test_byte_by_byte_and_reads_of_none(self):
        for agreement, keys, slip in self.GOOD:
            reader = gathered(b"", *one_by_one(slip), b"")
            self.assertEqual(reader.read(agreement, keys), read_slip(agreement, keys, slip))
        self.refused(20, SlipReader().read, AGREED, KEY)
        self.refused(20, gathered(b"", b"").read, AGREED, KEY)

    def test_the_users_own_morning(self):
        """An old reader compared only the seal bytes that the first read had brought, often none, and a rewritten slip passed."""
        rewritten = SLIP[:3] + b"20260411" + SLIP[11:]
        for cut in range(len(rewritten) + 1):
            with self.subTest(cut=cut):
                reader = gathered(rewritten[:cut])
                self.refused(20 if cut < len(rewritten) else 30, reader.read, AGREED, KEY)
                reader.feed(rewritten[cut:])
                self.refused(30, reader.read, AGREED, KEY)

    def test_beginnings_and_lengthenings(self):
        for agreement, keys, slip in self.GOOD:
            for cut in range(len(slip)):
                self.refused(20, gathered(slip[:cut]).read, agreement, keys)
            for more in (b"\0", b"\x7F", bytes(40), bytes(100000)):
                self.refused(24, gathered(slip, more).read, agreement, keys)
                self.refused(24, gathered(slip + more).read, agreement, keys)
                self.refused(24, gathered(*one_by_one(slip + more)).read, agreement, keys)

    def test_other_bytes_get_their_own_answer(self):
        for place in range(len(SLIP)):
            for byte in range(256):
                slip, cut = SLIP[:place] + bytes([byte]) + SLIP[place + 1 :], byte % len(SLIP)
                reader = gathered(slip[:cut], slip[cut:])
                self.read_as(reader, AGREED, KEY, slip)
                self.assertEqual(self.answer(reader.read, AGREED, KEY), self.answer(read_slip, AGREED, KEY, slip))

    def test_one_record_however_it_is_cut(self):
        data = bytes(range(1, 201))
        for length in (0, 1, 37, 75, 76, 77, 80, 81, 152, 200):
            for cut in range(length + 1):
                record = gathered(data[:cut], data[cut:length])._record
                self.assertEqual(bytes(record), record_of(data[:length]))
            self.assertEqual(bytes(gathered(*one_by_one(data[:length]))._record), record_of(data[:length]))

    def test_forged_records(self):
        """A count over 76 is read as 76, and nothing past it is read or handed back."""
        for agreement, keys, slip in self.GOOD:
            for count in (0, 37, 75, 76, 77, 80, 81, 2**8 + 37, 2**16 + 37, 2**32 + 37, 2**63 + 37, 2**64 - 1):
                data = slip + b"\xA5" * (80 - len(slip))
                held = data[: min(count, 76)]
                number = 20 if len(held) < len(slip) else 24
                for more in (b"", b"A", b"A" * 39, b"A" * 100000):
                    reader = SlipReader()
                    reader._record = slipseal._Gathered(count, type(reader._record.bytes)(*data))
                    with self.subTest(agreement=agreement, count=count, more=len(more)):
                        if held == slip:
                            self.assertEqual(reader.read(agreement, keys), read_slip(agreement, keys, slip))
                        else:
                            self.refused(number, reader.read, agreement, keys)
                        reader.feed(more)
                        self.assertEqual(bytes(reader._record), record_of(held + more))
                        self.read_as(reader, agreement, keys, held + more)

    def test_files(self):
        for agreement, keys, slip in self.GOOD:
            expected = read_slip(agreement, keys, slip)
            self.assertEqual(read_slip_from(agreement, keys, io.BytesIO(slip)), expected)
            self.assertEqual(read_slip_from(agreement, keys, Delivering(*one_by_one(slip))), expected)
            late = Delivering(slip, b"", b"after the end")
            self.assertEqual(read_slip_from(agreement, keys, late), expected)
            self.assertEqual(late.reads, [b"after the end"])
        for cut in range(len(SLIP)):
            self.refused(20, read_slip_from, AGREED, KEY, io.BytesIO(SLIP[:cut]))
        for more in (1, 40, 100000):
            self.refused(24, read_slip_from, AGREED, KEY, io.BytesIO(SLIP + bytes(more)))

    def test_a_pipe_trickled_byte_by_byte(self):
        rewritten = SLIP[:3] + b"20260411" + SLIP[11:]
        for buffering in (0, -1):
            for slip in (SLIP, SLIP[:-1], SLIP + b"\0", rewritten):
                scanner, line = os.pipe()

                def trickle(slip=slip, line=line):
                    for byte in one_by_one(slip):
                        os.write(line, byte)
                        time.sleep(0.001)
                    os.close(line)

                thread = threading.Thread(target=trickle)
                with open(scanner, "rb", buffering=buffering) as file, self.subTest(slip=slip, buffering=buffering):
                    thread.start()
                    read = self.answer(read_slip_from, AGREED, KEY, file)
                    thread.join()
                    self.assertEqual(read, self.answer(read_slip, AGREED, KEY, slip))

    def test_no_bytes_yet_is_no_end(self):
        for buffering in (0, -1):
            for brought in (b"", SLIP[:23], SLIP):
                scanner, line = os.pipe()
                os.set_blocking(scanner, False)
                os.write(line, brought)
                with open(scanner, "rb", buffering=buffering) as file, self.subTest(brought=brought, buffering=buffering):
                    with self.assertRaises(BlockingIOError) as caught:
                        read_slip_from(AGREED, KEY, file)
                    self.assertEqual(caught.exception.errno, errno.EAGAIN)
                os.close(line)

    def test_errors_of_the_file_come_through(self):
        for cut in range(len(SLIP) + 1):
            file = Delivering(*one_by_one(SLIP[:cut]), OSError(errno.EIO, "unplugged"), SLIP[cut:])
            with self.assertRaisesRegex(OSError, "unplugged"):
                read_slip_from(AGREED, KEY, file)

    def test_text(self):
        for text in ("", "A7", SLIP.decode("latin-1")):
            self.assertRaises(TypeError, read_slip_from, AGREED, KEY, io.StringIO(text))
        with open(os.devnull, encoding="utf-8") as file:
            self.assertRaises(TypeError, read_slip_from, AGREED, KEY, file)

    def test_what_is_no_bytes_leaves_the_reader(self):
        reader = gathered(SLIP)
        for data in (None, 16, "A7", [0]):
            self.assertRaises(TypeError, reader.feed, data)
        self.assertEqual(reader.read(AGREED, KEY).lot, b"A7")


class Words(Case):
    def test_refused_says_them(self):
        refused = Refused(30)
        self.assertEqual((refused.number, refused.words), (30, "the seal is wrong"))
        self.assertEqual(str(refused), "refused 30: the seal is wrong")


class Handed(Case):
    def test_numbers_that_do_not_fit(self):
        for number in (-1, 2**64, 2**64 + 1):
            for agreed in ((number, 1, 64), (1, number, 64), (1, 1, number), (1, 1, 64, number)):
                agreement = Agreement(*agreed)
                self.assertRaises(ValueError, make, agreement, KEY, b"")
                self.assertRaises(ValueError, check, agreement, KEY, b"", bytes(8))
                self.assertRaises(ValueError, Session, agreement, KEY)
                self.assertRaises(ValueError, read_slip, agreement, KEY, SLIP)
            self.assertRaises(ValueError, make, Agreement(1, 1, 64), KEY, b"", number)
            self.assertRaises(ValueError, Session, Agreement(1, 3, 64), KEY, number)
            self.assertRaises(ValueError, Session(Agreement(1, 1, 64), KEY).piece, b"", number)
            self.assertRaises(ValueError, write_slip, Agreement(number, 4, 64), KEY, DAY, b"A7", 500)
            self.assertRaises(ValueError, write_slip, AGREED, KEY, DAY, b"A7", number)
            for date in ((number, 11, 4), (2026, number, 4), (2026, 11, number)):
                self.assertRaises(ValueError, write_slip, AGREED, KEY, date, b"A7", 500)

    def test_an_agreement_beyond_64_bits_is_not_cut_down(self):
        for name, number in AGREED._asdict().items():
            far = AGREED._replace(**{name: 2**64 + number})
            self.assertRaises(ValueError, read_slip, far, KEY, SLIP)
            self.assertRaises(ValueError, gathered(SLIP).read, far, KEY)

    def test_what_is_no_number_or_no_bytes(self):
        self.assertRaises(TypeError, make, Agreement(1.0, 1, 64), KEY, b"")
        self.assertRaises(TypeError, read_slip, Agreement(5, 4, 64.0), KEY, SLIP)
        self.assertRaises(TypeError, read_slip, SLIP, KEY)
        for keys in (None, 16, "0" * 16, [0] * 16):
            self.assertRaises(TypeError, make, Agreement(1, 1, 64), keys, b"")
            self.assertRaises(TypeError, read_slip, AGREED, keys, SLIP)
            self.assertRaises(TypeError, read_slip, AGREED, KEY, keys)
            self.assertRaises(TypeError, write_slip, AGREED, KEY, DAY, keys, 500)
        for date in (None, 20261104, (2026, 11, 4.0), "204"):
            self.assertRaises(TypeError, write_slip, AGREED, KEY, date, b"A7", 500)
        for date in ((), (2026, 11), (2026, 11, 4, 0), "2026-11-04"):
            self.assertRaises(ValueError, write_slip, AGREED, KEY, date, b"A7", 500)
        self.assertRaises(TypeError, write_slip, AGREED, KEY, DAY, b"A7", 500.0)

    def test_other_kinds_of_bytes(self):
        plain = Agreement(1, 1, 64)
        made = make(plain, KEY, MESSAGE)
        for kind in (bytearray, memoryview, lambda value: array.array("B", value)):
            self.assertEqual(make(plain, kind(KEY), kind(MESSAGE)), made)
            self.assertEqual(read_slip(AGREED, kind(KEY), kind(SLIP)).lot, b"A7")
            self.assertEqual(gathered(kind(SLIP[:20]), kind(SLIP[20:])).read(AGREED, kind(KEY)).lot, b"A7")
            self.assertEqual(write_slip(AGREED, kind(KEY), DAY, kind(b"A7"), 500), SLIP)
        self.assertEqual(make(plain, KEY, memoryview(MESSAGE)[::2]), make(plain, KEY, MESSAGE[::2]))

    def test_a_missing_library_is_named(self):
        environment = dict(os.environ, SLIPSEAL_LIB="/nowhere/libslipseal.so")
        run = subprocess.run(
            [sys.executable, "-c", "import slipseal"], cwd=HERE, env=environment, stderr=subprocess.PIPE, universal_newlines=True
        )
        self.assertIn("ImportError: /nowhere/libslipseal.so", run.stderr)
        self.assertIn("run bindings/build, or set SLIPSEAL_LIB", run.stderr)


def load_tests(loader, tests, pattern):
    """The examples in the module's own documentation are tests too."""
    tests.addTests(doctest.DocTestSuite(slipseal))
    return tests


if __name__ == "__main__":
    unittest.main()
