"""Tests of restore in slipseal.py: the runs C5.9 of the requirements, every block of annex A's data and of messages of many
lengths, the longest message, each refusal and their order, that the message handed in stays as it is, what a restored block is
worth, and what Python alone can get wrong.

    python3 -m unittest          in this folder
"""

import array
import ctypes
import unittest

import slipseal
from slipseal import Agreement, check, make, restore
from test_slipseal import KEY, KEYS, MESSAGE, Case, annex_a, keys_of, turned

PLAIN = Agreement(1, 1, 128)
TAG = bytes.fromhex("16E02904EFB765B706459C9EDABDB519")  # G of A.2, data 1, padding 1
FULL = [(a, p) for a in (1, 2, 3, 4, 6) for p in (1, 2, 3)] + [(5, 4), (8, 4)]
FAR = 2**64 - 1


def without(message, block, byte=b"?"):
    """With other bytes in the place of one whole block."""
    return message[: 16 * block] + 16 * byte + message[16 * block + 16 :]


class Restoring(Case):
    def restored(self, agreement, keys, message, block, tag, bits=None):
        """The restored message: as long as before, the same but for the block, and a check of it says yes."""
        given = bytearray(message)
        after = restore(agreement, keys, given, block, tag, bits)
        self.assertEqual(given, message)
        self.assertIs(type(after), bytes)
        self.assertTrue(check(agreement, keys, after, tag, bits))
        self.assertEqual(without(after, block), without(message, block))
        return after

    def left(self, number, agreement, keys, message, block, tag, bits):
        """Refused, and the room that was lent to the library itself stays too."""
        self.refused(number, restore, agreement, keys, message, block, tag, bits)
        room = (ctypes.c_uint8 * len(message)).from_buffer_copy(message)
        answer = slipseal._library.slipseal_restore(
            slipseal._agreed(agreement), keys, len(keys), room, len(room), bits, block, tag, len(tag)
        )
        self.assertEqual((answer, bytes(room)), (number, message))

    def test_c5_9_data_1_and_2_of_a_1(self):
        for block in (0, 1):
            self.assertEqual(self.restored(PLAIN, KEY, without(MESSAGE, block), block, TAG), MESSAGE)
        self.left(41, PLAIN, KEY, MESSAGE, 2, TAG, 256)
        two = bytes.fromhex("BA89E45FE8ABF242E26CE032AD007C09")
        self.assertEqual(self.restored(PLAIN, KEY, without(MESSAGE[:25], 0), 0, two), MESSAGE[:25])
        self.left(41, PLAIN, KEY, MESSAGE[:25], 1, two, 200)

    def test_annex_a(self):
        restorations = 0
        for agreement, keys, message, tag, _ in annex_a():
            for block in range(len(message) // 16):
                lost = without(message, block)
                if agreement.m == 128:
                    for byte in (b"\0", b"\x5A", b"\xFF"):
                        self.assertEqual(self.restored(agreement, keys, without(message, block, byte), block, tag), message)
                    self.assertEqual(self.restored(agreement, keys, message, block, tag), message)
                    restorations += 1
                else:
                    self.left(3, agreement, keys, lost, block, tag, 8 * len(lost))
                    self.left(3, agreement, keys, lost, block, bytes(16), 8 * len(lost))
            if agreement.m == 128:
                self.left(41, agreement, keys, message, len(message) // 16, tag, 8 * len(message))
        self.assertEqual(restorations, 17 * 3)

    def test_many_numbers_of_bits(self):
        data = bytes((i * i * 37 // 11 + 91) % 256 for i in range(64))
        for algorithm, padding in FULL:
            agreement, keys = Agreement(algorithm, padding, 128), keys_of(algorithm)
            for bits in list(range(0, 513, 7)) + [127, 128, 129, 255, 256, 257, 384]:
                message = data[: (bits + 7) // 8]
                if algorithm == 4 and padding < 3 and bits < 130 - padding:
                    self.left(9, agreement, keys, message, 0, bytes(16), bits)
                    continue
                tag = make(agreement, keys, message, bits).tag
                for block in range(bits // 128):
                    self.assertEqual(self.restored(agreement, keys, without(message, block), block, tag, bits), message)
                for block in (bits // 128, bits // 128 + 1, 2**57, FAR):
                    self.left(41, agreement, keys, message, block, tag, bits)

    def test_spare_bits_stay(self):
        for algorithm, padding in FULL:
            agreement, keys = Agreement(algorithm, padding, 128), keys_of(algorithm)
            tag = make(agreement, keys, MESSAGE[:17], 131).tag
            for spare in range(32):
                message = MESSAGE[:16] + bytes([MESSAGE[16] & 0xE0 | spare])
                self.assertEqual(self.restored(agreement, keys, without(message, 0), 0, tag, 131), message)

    def test_the_longest_message(self):
        message = bytes(i * i // 251 % 256 for i in range(1048576))
        tag = make(PLAIN, KEY, message).tag
        for block in (0, 32768, 65535):
            self.assertTrue(restore(PLAIN, KEY, without(message, block), block, tag) == message)
        self.refused(41, restore, PLAIN, KEY, message, 65536, tag)
        self.refused(8, restore, PLAIN, KEY, message + b"a", 0, tag)
        self.refused(7, restore, PLAIN, KEY, message, 0, tag, 8388609)

    def test_far_numbers(self):
        """Among them those that a product with 128 or with 16 would turn into that of a block."""
        for far in (2**16, 2**32, 2**57, 2**60, 2**61, 2**63, FAR - 1):
            for block in (far, far + 1):
                self.left(41, PLAIN, KEY, MESSAGE, block, TAG, 256)

    def test_the_first_fault_is_told(self):
        """Each with every later fault that can be had beside it, and some alone."""
        for number, agreed, keys, length, bits, block, tag in (
            (1, (9, 9, 999), b"", 16, 256, FAR, 17),
            (1, (2**32 + 1, 1, 128), KEY, 16, 128, 0, 16),
            (2, (4, 9, 999), b"", 16, 256, FAR, 17),
            (2, (7, 1, 128), b"", 16, 256, FAR, 17),
            (3, (4, 1, 64), b"", 16, 256, FAR, 17),
            (3, (7, 4, 63), b"", 16, 256, FAR, 17),
            (3, (7, 4, 128), KEY, 16, 128, 0, 16),
            (3, (1, 1, 127), KEY, 16, 128, 0, 16),
            (3, (1, 1, 129), KEY, 16, 128, 0, 16),
            (3, (1, 1, 2**32 + 128), KEY, 16, 128, 0, 16),
            (4, (4, 1, 128), b"", 16, 256, FAR, 17),
            (5, (4, 1, 128), KEY + KEY, 16, 256, FAR, 17),
            (7, (4, 1, 128), KEYS, 16, 256, FAR, 17),
            (7, (4, 1, 128), KEYS, 0, FAR, FAR, 17),
            (8, (4, 1, 128), KEYS, 1048577, 8388609, FAR, 17),
            (9, (4, 1, 128), KEYS, 16, 128, FAR, 17),
            (9, (4, 1, 128), KEYS, 16, 128, 0, 16),
            (9, (4, 2, 128), KEYS, 16, 127, 0, 16),
            (10, (4, 2, 128), KEYS, 16, 128, FAR, 17),
            (10, (4, 2, 128), KEYS, 16, 128, 0, 15),
            (10, (1, 1, 128), KEY, 0, 0, 0, 0),
            (41, (4, 2, 128), KEYS, 16, 128, FAR, 16),
            (41, (1, 3, 128), KEY, 16, 128, 1, 16),
            (41, (5, 4, 128), KEY, 16, 127, 0, 16),
            (41, (8, 4, 128), KEY, 0, 0, 0, 16),
        ):
            with self.subTest(number=number, agreed=agreed, bits=bits, tag=tag):
                self.left(number, Agreement(*agreed), keys, b"\x5C" * length, block, b"\xB7" * tag, bits)

    def test_the_only_filling(self):
        for agreement, keys, message, tag, _ in annex_a():
            if agreement.m == 128:
                after = self.restored(agreement, keys, without(message, 0), 0, tag)
                for place in range(128):
                    self.assertFalse(check(agreement, keys, turned(after, place), tag))

    def test_what_a_restored_block_is_worth(self):
        """A false tag and an altered byte elsewhere restore to some block too, and checking says yes to it."""
        for algorithm, padding in FULL:
            agreement, keys = Agreement(algorithm, padding, 128), keys_of(algorithm)
            tag = make(agreement, keys, MESSAGE).tag
            for block in (0, 1):
                lost = without(MESSAGE, block)
                for place in range(0, 128, 5):
                    self.assertNotEqual(self.restored(agreement, keys, lost, block, turned(tag, place)), MESSAGE)
                    altered = turned(lost, 128 * (1 - block) + place)
                    after = self.restored(agreement, keys, altered, block, tag)
                    self.assertNotEqual(after[16 * block : 16 * block + 16], MESSAGE[16 * block : 16 * block + 16])

    def test_what_does_not_fit(self):
        lost = without(MESSAGE, 0)
        for number in (-1, 2**64, 2**64 + 1):
            self.assertRaises(ValueError, restore, PLAIN, KEY, lost, number, TAG)
            self.assertRaises(ValueError, restore, PLAIN, KEY, lost, 0, TAG, number)
            self.assertRaises(ValueError, restore, Agreement(1, 1, number), KEY, lost, 0, TAG)
        for block in (None, 0.0, "0", b"0"):
            self.assertRaises(TypeError, restore, PLAIN, KEY, lost, block, TAG)
        for value in (None, 32, "0" * 32, [0] * 32):
            self.assertRaises(TypeError, restore, PLAIN, value, lost, 0, TAG)
            self.assertRaises(TypeError, restore, PLAIN, KEY, value, 0, TAG)
            self.assertRaises(TypeError, restore, PLAIN, KEY, lost, 0, value)

    def test_other_kinds_of_bytes(self):
        lost = without(MESSAGE, 1)
        for kind in (bytes, bytearray, memoryview, lambda value: array.array("B", value)):
            given = kind(lost)
            self.assertEqual(restore(PLAIN, kind(KEY), given, 1, kind(TAG)), MESSAGE)
            self.assertEqual(bytes(given), lost)


if __name__ == "__main__":
    unittest.main()
