"""Message authentication codes of GB/T 15852.1 over SM4, and sealed lot slips.

The work is done by a library that is written and proved in Rattle; this module hands bytes over by ctypes and turns its numbers
into results. It loads the shared library that SLIPSEAL_LIB names, else the one that bindings/build puts below target/.

A message is bytes and a count of bits, the highest bit of a byte first; without a count all bits are meant. The bytes are exactly
as many as hold the bits, and spare bits of the last byte have no influence.

What was agreed on how a tag is made is an Agreement: algorithm, padding, m, the tag's number of bits, and whether a master is in
use. It comes from the caller's own records and never from what is checked under it.

    algorithm     padding   key bytes       under a master          m
    1             1 to 3    16              refused                 1 to 128
    2, 6          1 to 3    32, K then K'   16, the master          1 to 128
    3             1 to 3    32, K then K'   refused                 1 to 128
    4             1 to 3    32, K then K'   32, K then the master   1 to 128
    5, 8          4         16              refused                 1 to 128
    7             4         16              refused                 1 to 63

A call that is not allowed raises Refused with the number and the words of docs/ANSWERS.md; nothing has then changed. A number
below 0 or over 2**64 - 1 cannot be handed over and raises ValueError.
"""

import ctypes
import datetime
import errno
import operator
import os
from typing import BinaryIO, Callable, NamedTuple, Optional, Tuple, Union

__all__ = [
    "Agreement",
    "Checked",
    "CheckingSession",
    "Made",
    "Refused",
    "Session",
    "Slip",
    "SlipReader",
    "check",
    "check_file",
    "make",
    "read_slip",
    "read_slip_from",
    "restore",
    "write_slip",
]

Bytes = Union[bytes, bytearray, memoryview]
Date = Union[datetime.date, Tuple[int, int, int]]
Path = Union[str, bytes, "os.PathLike[str]"]

WORDS = {
    1: "the algorithm is not one of 1 to 8",
    2: "the padding does not belong to the algorithm",
    3: "the tag's number of bits is not allowed for the algorithm",
    4: "the keys have the wrong length for the algorithm, or it takes no master",
    5: "the first key is the same as another and must differ",
    7: "the message has the wrong number of bytes for its bits",
    8: "the message has more than 8388608 bits",
    9: "the message is too short for the algorithm",
    10: "the tag or the room for it has the wrong number of bytes",
    11: "the session is closed or for the other purpose, or its last piece ended within a byte",
    12: "the message is not as long as was declared",
    20: "the slip is cut short",
    21: "a field is missing or out of order",
    22: "a field's length or value is not allowed",
    23: "the expiry is not a real date from 2000 to 2099",
    24: "there are bytes after the seal",
    25: "the slip names another algorithm, padding or m than agreed",
    30: "the seal is wrong",
    41: "no such whole block",
}


class Refused(Exception):
    """A refused call: its number, and the words for it."""

    def __init__(self, number: int) -> None:
        super().__init__(number)
        self.number = number
        self.words = WORDS.get(number, "a number that this binding has no words for")

    def __str__(self) -> str:
        return "refused {}: {}".format(self.number, self.words)


class Agreement(NamedTuple):
    """What was agreed. Any numbers may stand here; the calls refuse those that are not allowed, with 1, 2 and 3, or read_slip with
    25 where the slip names others.

    A supplier may send one key, the master, of which two are derived by key derivation method 1 of the standard (6.2.2): the first
    is the number 1 and the second the number 2, each written as a block of 128 bits and enciphered under the master. They serve as K
    and K' in algorithms 2 and 6, and as K' and K'' in algorithm 4. The number of calls that is reported for a tag or a slip is 2
    larger under a master. Refusal 4 is also for a master with another algorithm, and 5 for a K that is one of the derived keys.
    master is False or True; as a number, 0 is no and any other yes.

    >>> master = bytes.fromhex("0123456789ABCDEFFEDCBA9876543210")
    >>> agreement = Agreement(algorithm=6, padding=1, m=64, master=True)
    >>> made = make(agreement, master, b"This is the test message for mac")
    >>> made.tag.hex(), made.calls
    ('b38a96195baa61fc', 4)
    >>> check(agreement, master, b"This is the test message for mac", made.tag)
    Checked(yes=True, calls=4)
    """

    algorithm: int
    padding: int
    m: int
    master: bool = False


class Made(NamedTuple):
    """A tag that was made, in (m + 7) // 8 bytes, and the number of cipher calls."""

    tag: bytes
    calls: int


class Checked(NamedTuple):
    """What a check answers, and the number of cipher calls. It is true where the tag is the message's, else false."""

    yes: bool
    calls: int

    def __bool__(self) -> bool:
        return self.yes


class Slip(NamedTuple):
    """An accepted slip: the expiry, the amount in microlitres, the lot, where it stands in the slip, and the cipher calls. The
    expiry can be had as a datetime.date too."""

    year: int
    month: int
    day: int
    amount: int
    lot: bytes
    lot_at: int
    calls: int

    @property
    def expiry(self) -> datetime.date:
        return datetime.date(self.year, self.month, self.day)


def make(agreement: Agreement, keys: Bytes, message: Bytes, bits: Optional[int] = None) -> Made:
    """Makes the tag of a message. Refused with the first that applies of 1 to 5 and 7 to 9.

    >>> key = bytes.fromhex("0123456789ABCDEFFEDCBA9876543210")
    >>> made = make(Agreement(5, 4, 64), key, b"This is the test message for mac")
    >>> made.tag.hex(), made.calls
    ('692c437100f3b5ee', 3)
    >>> plain = Agreement(algorithm=1, padding=1, m=64)
    >>> make(plain, key, bytes([0xFF]), bits=1) == make(plain, key, bytes([0x80]), bits=1)
    True
    >>> make(Agreement(7, 4, 64), key, b"")
    Traceback (most recent call last):
    slipseal.Refused: refused 3: the tag's number of bits is not allowed for the algorithm
    """
    room = _room(16)
    answer = _library.slipseal_make(
        _agreed(agreement), *_slice(keys), *_slice_and_bits(message, bits), room, len(room)
    )
    _accept(answer.number)
    return _made(room, agreement.m, answer)


def check(agreement: Agreement, keys: Bytes, message: Bytes, tag: Bytes, bits: Optional[int] = None) -> Checked:
    """Checks the tag of a message. The answer is true or false; a wrong tag raises nothing. Refused with the first that applies
    of 1 to 5 and 7 to 10; 10 where the tag is not exactly (m + 7) // 8 bytes.

    >>> key = bytes.fromhex("0123456789ABCDEFFEDCBA9876543210")
    >>> agreement, message = Agreement(5, 4, 64), b"This is the test message for mac"
    >>> check(agreement, key, message, bytes.fromhex("692c437100f3b5ee"))
    Checked(yes=True, calls=3)
    >>> bool(check(agreement, key, message, bytes(8)))
    False
    """
    answer = _library.slipseal_check(
        _agreed(agreement), *_slice(keys), *_slice_and_bits(message, bits), *_slice(tag)
    )
    return _checked(answer)


def restore(
    agreement: Agreement, keys: Bytes, message: Bytes, block: int, tag: Bytes, bits: Optional[int] = None
) -> bytes:
    """Works a lost block out of the other bits of a message and its full tag, and gives the whole message with the block where it
    was; the message that is handed in stays as it is. Blocks are whole ones of 128 bits, counted from 0 in the message's bits; the
    block with the length, of padding 3, is not counted. What the block held has no influence. It is the only filling that the tag
    fits: check then says yes.

    A restored block is worth no more than the tag and the rest of the message. Every tag has exactly one filling: a false tag, or
    an altered byte elsewhere in the message, restores to some block too, and check says yes to that as well. After a restoration
    its yes is no evidence for any byte of the message.

    Refused with the first that applies of 1 to 5 and 7 to 10, as check is, 3 also where m is not 128 (algorithm 7 always gets it);
    then 41 where there is no such whole block.

    >>> key, agreement = bytes.fromhex("0123456789ABCDEFFEDCBA9876543210"), Agreement(5, 4, 128)
    >>> tag = bytes.fromhex("692c437100f3b5ee2b8abcef373d990c")
    >>> restore(agreement, key, b"This is the test________________", 1, tag)
    b'This is the test message for mac'
    >>> restore(agreement, key, b"This is the test________________", 2, tag)
    Traceback (most recent call last):
    slipseal.Refused: refused 41: no such whole block
    """
    given, length, bits = _slice_and_bits(message, bits)
    room = (ctypes.c_uint8 * length).from_buffer_copy(given)
    number = _library.slipseal_restore(
        _agreed(agreement), *_slice(keys), room, length, bits, *_numbers(block), *_slice(tag)
    )
    _accept(number)
    return bytes(room)


class _Pieces:
    """What the sessions of both purposes share."""

    _record: "_Record"

    @property
    def closed(self) -> bool:
        """Whether a finish has closed the session."""
        return self._record.phase == 0

    def piece(self, message: Bytes, bits: Optional[int] = None) -> None:
        """Gives the next bits of the message; only the last may end within a byte. Refused with the first that applies of 11, 7,
        8, 12."""
        step = _library.slipseal_piece(self._record, *_slice_and_bits(message, bits))
        self._record = step.session
        _accept(step.answer.number)


class Session(_Pieces):
    """A message that comes in pieces, cut anyhow; the tag that is made is that of the whole. The session holds the keys. A good
    finish closes it, and a refusal leaves it as it was. Calls from several threads must not meet in one session.

    >>> agreement = Agreement(1, 3, 128)
    >>> session = Session(agreement, bytes(16), declared=20)
    >>> session.piece(b"a")
    >>> session.finish()
    Traceback (most recent call last):
    slipseal.Refused: refused 12: the message is not as long as was declared
    >>> session.piece(b"bc", bits=12)
    >>> session.finish() == make(agreement, bytes(16), b"abc", bits=20)
    True
    >>> session.closed
    True
    """

    def __init__(self, agreement: Agreement, keys: Bytes, declared: int = 0) -> None:
        """Starts. declared is the message's number of bits, read under padding 3 only. Refused with the first that applies of 1
        to 5, then 8 for the declared length."""
        step = _library.slipseal_start(_agreed(agreement), *_slice(keys), *_numbers(declared))
        _accept(step.answer.number)
        self._record = step.session

    def finish(self) -> Made:
        """Ends the session. Refused with the first that applies of 11, 12, 9; more bits may then follow."""
        room, m = _room(16), self._record.agreement.m
        step = _library.slipseal_finish(self._record, room, len(room))
        self._record = step.session
        _accept(step.answer.number)
        return _made(room, m, step.answer)


class CheckingSession(_Pieces):
    """A message that comes in pieces, cut anyhow, after its tag, which is checked. The session holds the keys and the tag. A finish
    closes it, whether the answer is true or false, and a refusal leaves it as it was. Calls from several threads must not meet in
    one session.

    >>> key = bytes.fromhex("0123456789ABCDEFFEDCBA9876543210")
    >>> session = CheckingSession(Agreement(5, 4, 64), key, 0, bytes.fromhex("692c437100f3b5ee"))
    >>> for page in b"This is the test ", b"message", b" for mac":
    ...     session.piece(page)
    >>> session.finish()
    Checked(yes=True, calls=3)
    >>> session.closed
    True
    """

    def __init__(self, agreement: Agreement, keys: Bytes, declared: int, tag: Bytes) -> None:
        """Starts. declared is the message's number of bits, read under padding 3 only. Refused with the first that applies of 1
        to 5, then 8 for the declared length, and last 10 where the tag is not exactly (m + 7) // 8 bytes."""
        step = _library.slipseal_start_check(_agreed(agreement), *_slice(keys), *_numbers(declared), *_slice(tag))
        _accept(step.answer.number)
        self._record = step.session

    def finish(self) -> Checked:
        """Ends the session and tells whether the tag is the message's, as check does for the whole message; a wrong tag raises
        nothing. Refused with the first that applies of 11, 12, 9; more bits may then follow."""
        step = _library.slipseal_finish_check(self._record)
        self._record = step.session
        return _checked(step.answer)


def check_file(
    agreement: Agreement,
    keys: Bytes,
    file: Union[Path, BinaryIO],
    tag: Bytes,
    on_progress: Optional[Callable[[int], object]] = None,
    declared: Optional[int] = None,
) -> Checked:
    """Checks a certificate under its tag while it is read, in chunks of up to 32 KiB: each read is one piece of a CheckingSession.
    The file is a path, or a binary file: anything with read(n), a pipe without a buffer too, from where it stands to its end of
    input. After each chunk on_progress is told the number of bytes so far; an exception that it raises ends the check.

    Under padding 3 the number of bits must be known at the start. It is that of the file, which must then be able to seek, unless
    it is declared here; a file that grows or shrinks meanwhile is refused with 12.

    The answer is true or false, as that of check for the whole certificate; a wrong tag raises nothing. Refused with the first that
    applies, and no more is read: those of a CheckingSession's start before the first read; 8, or 12 under padding 3, at the chunk
    that makes the certificate too long; 12 and 9 at its end.

    An error of the file comes through, and nothing is then said of the certificate. Where read(n) gives None, a non-blocking file
    has no bytes yet; that is no end of input, and BlockingIOError is raised. A file opened as text raises TypeError.

    >>> import io
    >>> key, agreement = bytes.fromhex("0123456789ABCDEFFEDCBA9876543210"), Agreement(5, 4, 64)
    >>> scanner = io.BytesIO(bytes.fromhex("692c437100f3b5ee") + b"This is the test message for mac")
    >>> tag = scanner.read(8)
    >>> check_file(agreement, key, scanner, tag, on_progress=print)
    32
    Checked(yes=True, calls=3)
    >>> bool(check_file(agreement, key, io.BytesIO(b"This is the test"), tag))
    False
    """
    if not hasattr(file, "read"):
        with open(os.fspath(file), "rb", buffering=0) as opened:
            return check_file(agreement, keys, opened, tag, on_progress, declared)
    if declared is None:
        declared = _bits_left(file) if agreement.padding == 3 else 0
    session, total = CheckingSession(agreement, keys, declared, tag), 0
    while True:
        data = _read(file, 32 << 10)
        session.piece(data)
        if len(data) == 0:
            return session.finish()
        total += len(data)
        if on_progress is not None:
            on_progress(total)


def read_slip(agreement: Agreement, keys: Bytes, slip: Bytes) -> Slip:
    """Reads a lot slip under keys and what was agreed with its supplier. The agreement is handed in and never taken from the slip,
    and the seal is checked under it. Do not copy the three values that a slip names into the agreement: whoever makes the slip
    would choose how it is checked, and a slip that names m = 1 passes with one of two tags.

    The bytes are the whole slip. Where it comes in several reads, take read_slip_from or a SlipReader.

    Refused with 20 to 24 for the slip's form, field by field; 25 where its seal names another algorithm, padding or m than agreed,
    however well the tag fits; then 1 to 5, 10, and 30 where the seal is wrong.

    A slip does not name the master, and 25 does not look at it: whether one is in use is the agreement's alone to say. Where it says
    so wrongly, the slip is judged under other keys, and as a rule gets 4 or 30.

    An accepted slip names exactly the agreement's algorithm, padding and m. Its tag covers all bytes before field 7F, and under one
    agreement and keys two accepted slips with the same bytes before field 7F are one slip.

    >>> key = bytes.fromhex("0123456789ABCDEFFEDCBA9876543210")
    >>> agreement = Agreement(algorithm=5, padding=4, m=64)  # from what is on file for the supplier
    >>> fields = bytes.fromhex("01000832303236313130340200024137030004000001F4")
    >>> slip = fields + bytes.fromhex("7F000B050440A47A9299C7B8456C")
    >>> read_slip(agreement, key, slip)
    Slip(year=2026, month=11, day=4, amount=500, lot=b'A7', lot_at=14, calls=3)
    >>> read_slip(agreement, key, slip).expiry
    datetime.date(2026, 11, 4)
    >>> read_slip(agreement, bytes(16), slip)
    Traceback (most recent call last):
    slipseal.Refused: refused 30: the seal is wrong

    Sealed with a single bit, and one of the two would fit:

    >>> for tag in "00", "80":
    ...     try:
    ...         read_slip(agreement, key, fields + bytes.fromhex("7F0004050401" + tag))
    ...     except Refused as refused:
    ...         print(refused)
    refused 25: the slip names another algorithm, padding or m than agreed
    refused 25: the slip names another algorithm, padding or m than agreed
    """
    slip = _bytes(slip)
    return _slip(_library.slipseal_read(_agreed(agreement), *_slice(keys), *_slice(slip)), slip)


class SlipReader:
    """A slip that comes in odd lengths: its reads are gathered, however they are cut, and the slip is read once. A slip has 75
    bytes at most, so only the first 76 that come can matter, and no more are kept. Calls from several threads must not meet in one
    reader.

    Read it once, at the end of input. Until then nothing tells whether more bytes will come: a proper beginning of an accepted slip
    is refused with 20, bytes after an accepted slip turn the yes into 24, and other bytes get their own refusal.

    >>> key, agreement = bytes.fromhex("0123456789ABCDEFFEDCBA9876543210"), Agreement(5, 4, 64)
    >>> scanner, line = os.pipe()
    >>> os.write(line, write_slip(agreement, key, (2026, 11, 4), b"A7", 500))
    37
    >>> os.close(line)

    A scanner's driver would write the loop below, which read_slip_from has too. A read of no bytes is the end of input, and nothing
    else is. An error of the scanner leaves the loop before the slip is read, so that nothing is believed of the bottle.

    >>> reader = SlipReader()
    >>> while True:
    ...     data = os.read(scanner, 20)
    ...     if len(data) == 0:
    ...         break
    ...     reader.feed(data)
    >>> reader.read(agreement, key)
    Slip(year=2026, month=11, day=4, amount=500, lot=b'A7', lot_at=14, calls=3)
    >>> os.close(scanner)
    """

    def __init__(self) -> None:
        """Nothing has come yet."""
        self._record = _Gathered()

    def feed(self, data: Bytes) -> None:
        """Gives the bytes of the next read, of any length, none included. Nothing is refused here: the slip is judged once, by
        read."""
        self._record = _library.slipseal_gather(self._record, *_slice(data))

    def read(self, agreement: Agreement, keys: Bytes) -> Slip:
        """Reads the slip under keys and what was agreed with its supplier; to be asked once, at the end of input. It answers as
        read_slip does for all bytes that came, joined."""
        read = _library.slipseal_read_gathered(_agreed(agreement), *_slice(keys), self._record)
        return _slip(read, bytes(self._record.bytes))


def read_slip_from(agreement: Agreement, keys: Bytes, file: BinaryIO) -> Slip:
    """Reads a lot slip from a binary file: anything with read(n), a pipe without a buffer too. All bytes to the end of input are
    gathered, in whatever lengths the file delivers them, and the slip is read once. It answers as read_slip does for these bytes.

    An error of the file comes through, and nothing is then believed of the bottle. Where read(n) gives None, a non-blocking file
    has no bytes yet; that is no end of input, and BlockingIOError is raised. A file opened as text raises TypeError.

    >>> import io
    >>> key, agreement = bytes.fromhex("0123456789ABCDEFFEDCBA9876543210"), Agreement(5, 4, 64)
    >>> slip = write_slip(agreement, key, (2026, 11, 4), b"A7", 500)
    >>> read_slip_from(agreement, key, io.BytesIO(slip))
    Slip(year=2026, month=11, day=4, amount=500, lot=b'A7', lot_at=14, calls=3)
    >>> read_slip_from(agreement, key, io.BytesIO(slip[:20]))
    Traceback (most recent call last):
    slipseal.Refused: refused 20: the slip is cut short
    """
    reader = SlipReader()
    while True:
        data = _read(file, 64)
        reader.feed(data)
        if len(data) == 0:
            return reader.read(agreement, keys)


def write_slip(agreement: Agreement, keys: Bytes, expiry: Date, lot: Bytes, amount: int) -> bytes:
    """Writes a lot slip, sealed under an agreement and keys. The expiry is a datetime.date or a tuple of year, month and day; the lot
    1 to 32 bytes, each 21 to 7E; the amount 1 to 1,000,000 microlitres. Refused with the first that applies of 22 (lot or amount),
    23 (expiry), 1 to 5.

    read_slip accepts the slip under the same agreement and keys, gives expiry, lot and amount back and tells the cipher calls. An
    accepted slip, written again under the same agreement and keys, comes out the same byte for byte.

    >>> key, agreement = bytes.fromhex("0123456789ABCDEFFEDCBA9876543210"), Agreement(5, 4, 64)
    >>> slip = write_slip(agreement, key, datetime.date(2026, 11, 4), b"A7", 500)
    >>> slip.hex().upper()
    '01000832303236313130340200024137030004000001F47F000B050440A47A9299C7B8456C'
    >>> read = read_slip(agreement, key, slip)
    >>> write_slip(agreement, key, read.expiry, read.lot, read.amount) == slip
    True
    >>> write_slip(agreement, key, (2023, 2, 29), b"A7", 500)
    Traceback (most recent call last):
    slipseal.Refused: refused 23: the expiry is not a real date from 2000 to 2099
    """
    room = _room(75)
    written = _library.slipseal_write(
        _agreed(agreement), *_slice(keys), *_date(expiry), *_slice(lot), *_numbers(amount), room, len(room)
    )
    _accept(written.number)
    return bytes(room)[: written.length]


# ---- what crosses


def _numbers(*values: int) -> "list[int]":
    """The numbers, if they fit: ctypes would cut them down without a word, and 2**64 + 1 would pass as 1."""
    numbers = [operator.index(value) for value in values]
    for number in numbers:
        if not 0 <= number < 2**64:
            raise ValueError("{} is not a number from 0 to 2**64 - 1".format(number))
    return numbers


def _bytes(value: Bytes) -> bytes:
    return value if isinstance(value, bytes) else memoryview(value).tobytes()


def _slice(value: Bytes) -> "tuple[bytes, int]":
    """Pointer and length; the pointer to a bytes object's bytes is never null."""
    value = _bytes(value)
    return value, len(value)


def _slice_and_bits(value: Bytes, bits: Optional[int]) -> "tuple[bytes, int, int]":
    value, length = _slice(value)
    return value, length, 8 * length if bits is None else _numbers(bits)[0]


def _date(value: Date) -> "list[int]":
    if isinstance(value, datetime.date):
        value = value.year, value.month, value.day
    year, month, day = value
    return _numbers(year, month, day)


def _room(length: int) -> "ctypes.Array[ctypes.c_uint8]":
    """The longest tag has 16 bytes, the longest slip 75."""
    return (ctypes.c_uint8 * length)()


def _read(file: BinaryIO, length: int) -> bytes:
    """The next bytes of a file, none at its end alone."""
    data = file.read(length)
    if data is None:
        raise BlockingIOError(errno.EAGAIN, "the file has no bytes yet and has not ended")
    return data


def _bits_left(file: BinaryIO) -> int:
    """From where the file stands to its end."""
    here = file.tell()
    end = file.seek(0, os.SEEK_END)
    file.seek(here)
    return 8 * max(end - here, 0)


def _accept(number: int) -> None:
    if number != 0:
        raise Refused(number)


class _Answer(ctypes.Structure):
    _fields_ = [(name, ctypes.c_uint64) for name in ("number", "yes", "calls")]


class _Agreement(ctypes.Structure):
    _fields_ = [(name, ctypes.c_uint64) for name in Agreement._fields]


class _Record(ctypes.Structure):
    _fields_ = [
        ("phase", ctypes.c_uint64),
        ("part", ctypes.c_uint64),
        ("purpose", ctypes.c_uint64),
        ("agreement", _Agreement),
        ("declared", ctypes.c_uint64),
        ("total", ctypes.c_uint64),
        ("keys", ctypes.c_uint8 * 32),
        ("chain", ctypes.c_uint8 * 16),
        ("held", ctypes.c_uint8 * 16),
        ("expected", ctypes.c_uint8 * 16),
    ]


class _Step(ctypes.Structure):
    _fields_ = [("answer", _Answer), ("session", _Record)]


class _Slip(ctypes.Structure):
    _fields_ = [
        (name, ctypes.c_uint64)
        for name in ("number", "year", "month", "day", "amount", "calls", "lot_at", "lot_len")
    ]


class _Gathered(ctypes.Structure):
    _fields_ = [("count", ctypes.c_uint64), ("bytes", ctypes.c_uint8 * 80)]


class _Written(ctypes.Structure):
    _fields_ = [(name, ctypes.c_uint64) for name in ("number", "length", "calls")]


def _agreed(agreement: Agreement) -> _Agreement:
    return _Agreement(*_numbers(agreement.algorithm, agreement.padding, agreement.m, agreement.master))


def _made(room: "ctypes.Array[ctypes.c_uint8]", m: int, answer: _Answer) -> Made:
    return Made(bytes(room)[: (m + 7) // 8], answer.calls)


def _checked(answer: _Answer) -> Checked:
    _accept(answer.number)
    return Checked(answer.yes == 1, answer.calls)


def _slip(read: _Slip, slip: bytes) -> Slip:
    """What is told of a slip, with the lot out of the bytes that were read."""
    _accept(read.number)
    lot = slip[read.lot_at : read.lot_at + read.lot_len]
    return Slip(read.year, read.month, read.day, read.amount, lot, read.lot_at, read.calls)


def _loaded() -> ctypes.CDLL:
    here = os.path.dirname(os.path.abspath(__file__))
    built = os.path.normpath(os.path.join(here, "..", "..", "target", "lib", "libslipseal.so"))
    path = os.environ.get("SLIPSEAL_LIB", built)
    try:
        library = ctypes.CDLL(path)
    except OSError as error:
        message = "{}; run bindings/build, or set SLIPSEAL_LIB to the path of libslipseal.so".format(error)
        raise ImportError(message) from error
    number, lent, room = ctypes.c_size_t, [ctypes.c_char_p, ctypes.c_size_t], [ctypes.POINTER(ctypes.c_uint8), ctypes.c_size_t]
    for name, arguments, result in (
        ("make", [_Agreement] + lent + lent + [number] + room, _Answer),
        ("check", [_Agreement] + lent + lent + [number] + lent, _Answer),
        ("restore", [_Agreement] + lent + room + [number] * 2 + lent, ctypes.c_uint64),
        ("start", [_Agreement] + lent + [number], _Step),
        ("start_check", [_Agreement] + lent + [number] + lent, _Step),
        ("piece", [_Record] + lent + [number], _Step),
        ("finish", [_Record] + room, _Step),
        ("finish_check", [_Record], _Step),
        ("read", [_Agreement] + lent + lent, _Slip),
        ("gather", [_Gathered] + lent, _Gathered),
        ("read_gathered", [_Agreement] + lent + [_Gathered], _Slip),
        ("write", [_Agreement] + lent + [number] * 3 + lent + [number] + room, _Written),
    ):
        function = getattr(library, "slipseal_" + name)
        function.argtypes, function.restype = arguments, result
    return library


_library = _loaded()
