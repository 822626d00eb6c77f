# What the texts about lot slips share: a slip's parts, the slips of appendix R6, and the answers that the documents give. By
# itself it writes nothing.
import datetime
from collections import Counter
from .common import K, K1, Run, calls, size, tag_in


def digits(text):
    return text.encode('ascii').hex().upper()


def field(tag, value, length=None):
    """A field; its length is that of the value, or another."""
    return '%02X%04X%s' % (tag, len(value) // 2 if length is None else length, value)


def covered(day='20261104', lot=digits('A7'), amount=500):
    return field(1, digits(day)) + field(2, lot) + field(3, '%08X' % amount)


def seal(a, p, m, tag, length=None):
    return field(0x7F, '%02X%02X%02X%s' % (a, p, m, tag), length)


def tag_of(part, a=5, p=4, m=64, keys=K):
    """The reference's tag of the bytes that a seal covers."""
    return tag_in('make %d %d %d %s %s %d %d' % (a, p, m, keys, part, 4 * len(part), size(m)))


def sealed(part, a=5, p=4, m=64, keys=K):
    return part + seal(a, p, m, tag_of(part, a, p, m, keys))


def accepted(a, p, day='20261104', lot=digits('A7'), amount=500):
    """The answer to a good slip: what was put in, and the calls by the table of document 01."""
    name = bytes.fromhex(lot).decode('ascii')
    count = calls(a, p, 4 * len(covered(day, lot, amount)))
    return 'accepted %s-%s-%s lot %s at 14 length %d amount %d calls %d' % (
        day[:4], day[4:6], day[6:], name, len(name), amount, count)


def named(slip):
    """The algorithm, padding and m that a slip's seal names; 5, 4, 64 where its seal cannot be read."""
    at = 0
    for tag in ('01', '02', '03'):
        if slip[at:at + 2] == tag:
            at += 6 + 2 * int(slip[at + 2:at + 6] or '0', 16)
    rest = slip[at:]
    return tuple(bytes.fromhex(rest[6:12])) if rest[:2] == '7F' and len(rest) >= 12 else (5, 4, 64)


def command(what, slip, keys=K, agreed=None):
    """A command on a slip, under what it names or under another agreement."""
    return '%s %d %d %s %s %s' % (what, *(agreed or named(slip)), keys or '-', slip or '-')


def one_off(agreed):
    """The agreements of which one number is another, one less and one more."""
    for place in range(3):
        for other in (agreed[place] - 1, agreed[place] + 1):
            yield (*agreed[:place], other, *agreed[place + 1:])


# the parts of the first slip of appendix R6, and that slip
EXPIRY, LOT, AMOUNT = '0100083230323631313034', '0200024137', '030004000001F4'
PART, TAG = EXPIRY + LOT + AMOUNT, 'A47A9299C7B8456C'
REST = '7F000B050440' + TAG
FIRST = PART + REST
A7 = 'accepted 2026-11-04 lot A7 at 14 length 2 amount 500 calls %d'
# the three accepted slips of R6: settings, keys, the seal, and the calls
R6 = ((5, 4, 64, K, REST, 3), (2, 2, 64, K + K1, '7F000B02024025BE21F5FDEE57F4', 3), (1, 1, 12, K, '7F000501010CA330', 2))
LONG_LOT = digits('32-bytes-and-not-one-more-in-it!')


class Slips(Run):
    whole = []  # the good slips of these texts: settings, keys and fields, and the slip

    def no(self, number, *slips, keys=K, agreed=None):
        for slip in slips:
            self.line(command('slip', slip, keys, agreed), 'refused %d' % number)

    def yes(self, a=5, p=4, m=64, keys=K, **fields):
        slip = sealed(covered(**fields), a, p, m, keys)
        self.whole.append((a, p, m, keys, fields, slip))
        self.line(command('slip', slip, keys, (a, p, m)), accepted(a, p, **fields))


def changes(m, lot=digits('A7'), met=None):
    """The answers to a slip of 4 November 2026, 500 microlitres, with a right seal of m bits, with each byte changed to each other
    value, under what it names: counted by the documents, field by field. Or under an agreement of which one number is another, so
    that one change makes the slip name what was agreed; this one gets the number met."""
    amount, count, tag = 500, len(lot) // 2, size(m)
    wrong = 30 if met is None else 25  # where nothing but the seal is
    given = Counter()
    given[21] += 4 * 255            # the tags of the fields
    given[22] += 6 * 255            # the lengths of the expiry and the amount; the high bytes of the lot's and the seal's
    given[22] += 8 * 246            # the expiry: bytes that are no digits; other digits
    for place in range(8):
        for digit in set('0123456789') - {'20261104'[place]}:
            day = '20261104'[:place] + digit + '20261104'[place + 1:]
            try:
                real = 2000 <= datetime.datetime.strptime(day, '%Y%m%d').year <= 2099
            except ValueError:
                real = False
            given[wrong if real else 23] += 1
    given[22] += 1 + 223            # the lot's length: 0; over 32
    given[21] += count - 1          # less: the next field begins with a byte of the lot
    for more in range(count + 1, 33):
        # more: the lot takes in the byte 03 after it; or has more bytes than the 13 and the tag that are left
        given[22 if more <= count + 13 + tag else 20] += 1
    given[22] += count * 162        # the lot's bytes: outside 21 to 7E; inside
    given[wrong] += count * 93
    for place in range(4):
        for byte in set(range(256)) - {amount.to_bytes(4, 'big')[place]}:
            value = bytearray(amount.to_bytes(4, 'big'))
            value[place] = byte
            given[wrong if 1 <= int.from_bytes(value, 'big') <= 1000000 else 22] += 1
    given[22] += 4 + 236            # the seal's length: under 4, over 19; less; more
    given[24] += tag - 1
    given[20] += 16 - tag
    given[25] += 3 * 255            # the algorithm, the padding and m, of which one change may be to what was agreed
    if met is not None:
        given[25] -= 1
        given[met] += 1
    given[wrong] += tag * 255       # the tag
    refused = (', %d refused %d' % (given[number], number) for number in sorted(given) if number and given[number])
    return '%d accepted' % given[0] + ''.join(refused)
