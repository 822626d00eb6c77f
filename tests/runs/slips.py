# Writes the texts slips and slips_2: lot slips under what they name, right and wrong.
from .common import ALL, K, K1, TWO, keys_of, reference, second, size, turned
from .slip_parts import (
    A7, AMOUNT, EXPIRY, FIRST, LONG_LOT, LOT, PART, R6, REST, Slips, TAG, accepted, changes, command, covered, digits, field, seal,
    sealed, tag_of)


def slips():
    run = Slips('slips', 'lot slips under what they name, every answer known beforehand')
    yes, no = run.yes, run.no
    run.say('appendix R6: the bytes and the answers as they stand there')
    for a, p, m, keys, rest, count in R6:
        run.line(command('slip', PART + rest, keys, (a, p, m)), A7 % count)
    no(30, PART + '7F000501010CA331')
    no(4, FIRST, keys=K[:30])
    no(30, FIRST[:-2] + '6D')
    no(24, FIRST + '00')
    no(20, FIRST[:-2])
    no(23, covered('20230229') + REST)
    no(20, '55')
    no(22, '010009')
    no(20, '01000832', PART, '')
    run.say('one morning: the expiry written day first, and month and day swapped, under the seal of 4 November 2026')
    no(23, covered('04112026') + REST)
    no(30, covered('20260411') + REST)

    run.say('each refusal by a slip of its own: 20, 21, 22, 23, 24, 30, and 1, 2, 3, 4, 5, 10')
    no(20, EXPIRY + LOT + AMOUNT[:-2])
    no(21, '00' + FIRST[2:])
    no(22, sealed(covered(amount=0)))
    no(23, sealed(covered('20261131')))
    no(24, FIRST + 'FF')
    no(30, PART + seal(5, 4, 64, turned(TAG, 0)))
    no(1, PART + seal(9, 4, 64, TAG))
    no(2, PART + seal(5, 1, 64, TAG))
    no(3, PART + seal(5, 4, 0, TAG))
    no(4, FIRST, keys=K + K1)
    no(5, PART + seal(2, 1, 64, TAG), keys=K + K)
    no(10, PART + seal(5, 4, 64, TAG[:-2]))

    run.say('expiry: the last day of every month and the day after it, in a common year and in a leap year')
    for year, february in ((2026, 28), (2024, 29)):
        for month, days in enumerate((31, february, 31, 30, 31, 30, 31, 31, 30, 31, 30, 31)):
            yes(day='%d%02d%02d' % (year, month + 1, days))
            no(23, sealed(covered('%d%02d%02d' % (year, month + 1, days + 1))))
    run.say('expiry: years, months and days at their borders')
    for day in ('20000101', '20000229', '20240229', '20991231', '20960229', '20261009'):
        yes(day=day)
    for day in ('19991231', '21000101', '20230229', '21000228', '20260431', '20261301', '20260100', '20260001', '20260000', '20261232',
                '00000000', '99999999', '20260199', '20269901', '02261104', '12261104', '30261104'):
        no(23, sealed(covered(day)))
    run.say('expiry: a byte that is no digit')
    for day in ('2026110A', 'O0261104', '2026110/', '2026110:', '20 61104', '2023 229', '2023O229', '19991 31', '2026-1-4', '+0261104'):
        no(22, sealed(covered(day)))
    for byte in ('00', '2F', '3A', '80', 'B0', 'FF'):
        for place in (0, 3, 4, 7):
            no(22, FIRST[:6 + 2 * place] + byte + FIRST[8 + 2 * place:])

    run.say('lot: every length from 1 to 32, so that the covered part ends at, before and after a block; 0 and 33')
    for length in range(1, 33):
        yes(lot=digits('0123456789abcdefghijklmnopqrstuv'[:length]))
    no(22, sealed(covered(lot='')), sealed(covered(lot='41' * 33)), sealed(covered(lot='41' * 64)))
    run.say('lot: bytes 21 to 7E')
    for byte in ('21', '7E', '2D', '5C'):
        yes(lot=byte)
        yes(lot='41%s42' % byte)
    for byte in ('00', '20', '7F', '80', 'A1', 'FF'):
        no(22, sealed(covered(lot=byte)), sealed(covered(lot=byte + '4142')), sealed(covered(lot='4142' + byte)))

    run.say('amount: 1 to 1,000,000')
    for count in (1, 2, 255, 256, 65535, 65536, 999999, 1000000):
        yes(amount=count)
    for count in (0, 1000001, 1000002, 0x1000000, 0x1000001, 0xF424000, 0x80000001, 0xFFFFFFFF):
        no(22, sealed(covered(amount=count)))

    run.say('lengths: of the expiry 8, of the amount 4, of the seal 4 to 19, high byte first')
    for length in (0, 7, 9, 0x108, 0x800, 0xFFFF):
        no(22, field(1, digits('20261104'), length) + LOT + AMOUNT + REST)
    no(22, field(1, digits('2026110')) + LOT + AMOUNT + REST, field(1, digits('020261104')) + LOT + AMOUNT + REST)
    for length in (0, 33, 255, 256, 0x102, 0x200, 0x2000):
        no(22, EXPIRY + field(2, digits('A7'), length) + AMOUNT + REST)
    for length in (0, 3, 5, 0x104, 0x400):
        no(22, EXPIRY + LOT + field(3, '000001F4', length) + REST)
    for length in (0, 1, 2, 3, 20, 0x10B, 0xB00, 0x7F0B):
        no(22, PART + seal(5, 4, 64, TAG, length))
    for m, count in ((1, 0), (128, 17), (136, 17)):
        no(22, PART + seal(5, 4, m, '00' * count))

    run.say('m: 1 to 128, in algorithm 7 to 63; the seal is 4 bytes long with m = 8, and 19 with m = 128')
    for m in (1, 2, 7, 8, 9, 12, 63, 64, 65, 127, 128):
        yes(m=m)
    for m in (0, 129, 136, 192, 255):
        no(3, PART + seal(5, 4, m, '00' * min(16, max(1, size(m)))))
    for m in (1, 62, 63):
        yes(7, 4, m)
    for m in (0, 64, 65, 127, 128):
        no(3, PART + seal(7, 4, m, '00' * max(1, size(m))))

    run.say('every algorithm and padding with its longest tag: an incomplete last block, a complete one, the longest lot')
    for lot in (digits('A7'), digits('lot-of-week'), LONG_LOT):
        for a, p in ALL:
            yes(a, p, 63 if a == 7 else 128, keys_of(a), lot=lot)
    run.say('algorithms and paddings that no seal may name')
    for a in (0, 9, 16, 255):
        no(1, PART + seal(a, 4, 64, TAG))
    for a in range(1, 9):
        no(2, *(PART + seal(a, p, 32, TAG[:8]) for p in (0, 1, 3, 4, 5, 255) if (a, p) not in ALL), keys=keys_of(a))

    run.say('keys: 16 bytes for one and 32 for two, and none that are the same')
    for count in (0, 1, 15, 17, 32):
        no(4, FIRST, keys=(K + K1)[:2 * count])
    for a in TWO:
        for count in (16, 31, 33):
            no(4, PART + seal(a, 1, 64, TAG), keys=(K + K1 + K)[:2 * count])
        for other in (K, second(K)):
            if a == 4 or (a, other) in ((2, K), (6, K)):
                no(5, PART + seal(a, 2, 64, TAG), keys=K + other)
            else:
                yes(a, 2, 64, K + other)
    run.store()


def more_slips():
    run = Slips('slips_2', 'lot slips: wrong seals, several faults at once, every byte changed, every beginning, pseudo-random ones')
    no = run.no
    run.say('another key, day, lot and amount; a seal over all but the expiry, and one over its own head too')
    no(30, FIRST, keys=K1)
    no(30, covered('20261105') + REST, covered(lot=digits('A8')) + REST, covered(amount=501) + REST)
    no(30, PART + seal(5, 4, 64, tag_of(LOT + AMOUNT)), PART + seal(5, 4, 64, tag_of(PART + REST[:6])))
    run.say('the seal: every bit of a short tag, spare bits, one bit of every byte of a long one')
    for m in (1, 12, 63):
        short = tag_of(PART, m=m)
        for bit in range(8 * size(m)) if m < 63 else (0, 62, 63):
            no(30, PART + seal(5, 4, m, turned(short, bit)))
    full = tag_of(PART, m=128)
    for byte in range(16):
        no(30, PART + seal(5, 4, 128, turned(full, 8 * byte + byte % 8)))
    no(30, PART + seal(5, 4, 64, '00' * 8), PART + seal(5, 4, 64, 'FF' * 8), PART + seal(5, 4, 64, full[16:]))

    run.say('fields missing, swapped, twice, and bytes before or between')
    no(21, LOT + AMOUNT + REST, EXPIRY + AMOUNT + REST, EXPIRY + LOT + REST, LOT + EXPIRY + AMOUNT + REST, EXPIRY + AMOUNT + LOT + REST,
       EXPIRY + LOT + REST + AMOUNT, REST + PART, EXPIRY + FIRST, EXPIRY + LOT + LOT + AMOUNT + REST, PART + AMOUNT + REST, '00' + FIRST,
       field(0, '') + FIRST, EXPIRY + field(4, '00') + LOT + AMOUNT + REST)
    no(20, PART, EXPIRY + LOT, EXPIRY)
    no(24, FIRST + REST, FIRST + FIRST)
    order(run)

    run.say('the longest slip has 75 bytes; with one more, and with many')
    longest = sealed(covered(lot=LONG_LOT), 4, 3, 128, K + K1)
    run.line(command('slip', longest, K + K1), accepted(4, 3, lot=LONG_LOT))
    no(24, longest + '00', longest + '7F' * 200, keys=K + K1)

    run.say('under what was agreed no byte can be changed, and none left out at the end')
    run.line(command('changed', sealed(PART, m=128)), changes(128))
    run.line(command('prefixes', sealed(PART, m=128)), '0 accepted, 45 refused 20')
    run.line(command('changed', longest, K + K1), changes(128, LONG_LOT))
    run.line(command('prefixes', longest, K + K1), '0 accepted, 75 refused 20')
    run.say('the first tag ends in two zeros and is right with m = 63 and 62 too: slips that name these get 25 under m = 64')
    for m in (63, 62):
        run.line(command('slip', PART + seal(5, 4, m, TAG)), A7 % 3)
        no(25, PART + seal(5, 4, m, TAG), agreed=(5, 4, 64))
    no(30, PART + seal(5, 4, 61, TAG))
    no(25, PART + seal(5, 4, 61, TAG), agreed=(5, 4, 64))
    run.line(command('changed', FIRST), changes(64))
    run.line(command('prefixes', FIRST), '0 accepted, 37 refused 20')

    run.say('no bytes, and no cut that ends with a tag')
    run.line('halves 1 4 64 %s 616263 0 -' % K, '0 of 4 cuts')
    run.line(command('changed', '', ''), '0 accepted')
    run.line(command('prefixes', '', ''), '0 accepted')
    run.line(command('prefixes', '55', ''), '0 accepted, 1 refused 20')

    run.say('pseudo-random slips: whole, cut, changed; mostly under what they name')
    for line in reference('commands', 'slip', '1', '240').splitlines():
        run.line(line)
    run.store()


def order(run):
    """Two faults and more in one slip: the earlier one answers."""
    def no(number, why, slip, keys=K, agreed=None):
        run.say('%d: %s' % (number, why))
        run.no(number, slip, keys=keys, agreed=agreed)

    for before, good, bad, name in (('', '010008', '010009', 'the expiry'), (EXPIRY, '020005', '020021', 'the lot'),
                                    (EXPIRY + LOT, '030004', '030005', 'the amount'), (PART, '7F0004', '7F0014', 'the seal')):
        no(20, 'one byte left for %s, and another tag' % name, before + '55')
        no(20, 'two bytes left for %s, and another tag' % name, before + '5500')
        no(21, 'another tag for %s, a length not allowed, and cut short' % name, before + '55FFFF')
        no(22, 'a length not allowed for %s, and cut short' % name, before + bad)
        no(22, 'a length not allowed for %s, and cut short to one byte' % name, before + bad + '30')
        no(20, '%s cut short to nothing' % name, before + good)
        no(20, '%s cut short, and wrong bytes' % name, before + good + 'FFFFFF')
    no(22, 'a letter in a day that is not real', field(1, digits('2023022Z')) + LOT + AMOUNT + REST)
    no(22, 'a letter in a year that is over', field(1, digits('1999123Z')) + LOT + AMOUNT + REST)
    no(23, 'a day that is not real, and no lot', field(1, digits('20230229')) + AMOUNT + REST)
    no(23, 'a day that is not real, and nothing after it', field(1, digits('20230229')))
    no(23, 'a day that is not real, and a wrong lot', covered('20230229', '20') + REST)
    no(22, 'a letter in the expiry, and no lot', field(1, digits('2026110A')) + AMOUNT + REST)
    no(22, 'a wrong lot, and no amount', EXPIRY + field(2, '20') + REST)
    no(22, 'a wrong lot, and nothing after it', EXPIRY + field(2, '7F'))
    no(22, 'a wrong amount, and no seal', covered(amount=0))
    no(22, 'a wrong amount, and bytes after the seal', covered(amount=1000001) + REST + '00')
    no(21, 'no amount, and bytes after the seal', EXPIRY + LOT + REST + '00')
    no(22, 'a length not allowed for the seal, and bytes after it', PART + '7F0003050440' + TAG)
    no(24, 'bytes after the seal, and algorithm 9', PART + seal(9, 4, 64, TAG) + '00')
    no(24, 'bytes after the seal, and padding 9', PART + seal(5, 9, 64, TAG) + '00')
    no(24, 'bytes after the seal, and m = 129', PART + seal(5, 4, 129, TAG) + '00')
    no(24, 'bytes after the seal, and 15 key bytes', FIRST + '00', K[:30])
    no(24, 'bytes after the seal, and the same keys', PART + seal(2, 1, 64, TAG) + '00', K + K)
    no(24, 'bytes after the seal, and a tag too short', PART + seal(5, 4, 64, TAG[:-2]) + TAG[-2:])
    no(24, 'bytes after the seal, and a wrong tag', PART + seal(5, 4, 64, turned(TAG, 5)) + '00')
    no(24, 'bytes after the seal, and another algorithm than agreed', FIRST + '00', agreed=(8, 4, 64))
    no(24, 'bytes after the seal, and another padding than agreed', FIRST + '00', agreed=(5, 3, 64))
    no(24, 'bytes after the seal, and another m than agreed', FIRST + '00', agreed=(5, 4, 63))
    no(25, 'another algorithm than agreed, which is 9', FIRST, agreed=(9, 4, 64))
    no(25, 'another padding than agreed, which is 7', FIRST, agreed=(5, 7, 64))
    no(25, 'another m than agreed, which is 129', FIRST, agreed=(5, 4, 129))
    no(25, 'another algorithm than agreed, and 15 key bytes', FIRST, K[:30], (8, 4, 64))
    no(25, 'another padding than agreed, and the same keys', PART + seal(2, 1, 64, TAG), K + K, (2, 2, 64))
    no(25, 'another m than agreed, and a tag too short', PART + seal(5, 4, 63, TAG[:-2]), agreed=(5, 4, 64))
    no(25, 'another algorithm than agreed, and a wrong tag', PART + seal(5, 4, 64, turned(TAG, 5)), agreed=(8, 4, 64))
    no(1, 'algorithm 9 with padding 7', PART + seal(9, 7, 64, TAG))
    no(1, 'algorithm 0 with m = 0 and no keys', PART + seal(0, 4, 0, TAG), '')
    no(2, 'algorithm 5 with padding 1 and m = 129', PART + seal(5, 1, 129, TAG))
    no(2, 'algorithm 1 with padding 4 and 15 key bytes', PART + seal(1, 4, 64, TAG), K[:30])
    no(3, 'm = 129 and 15 key bytes', PART + seal(5, 4, 129, TAG), K[:30])
    no(3, 'm = 0 and one tag byte', PART + seal(5, 4, 0, '00'))
    no(3, 'algorithm 7 with m = 64 and 15 key bytes', PART + seal(7, 4, 64, TAG), K[:30])
    no(3, 'algorithm 2 with m = 129 and the same keys', PART + seal(2, 1, 129, TAG), K + K)
    no(4, 'm = 64 with nine tag bytes, and 15 key bytes', PART + seal(5, 4, 64, TAG + '00'), K[:30])
    no(10, 'm = 64 with nine tag bytes, and good keys', PART + seal(5, 4, 64, TAG + '00'))
    no(4, 'the same keys, and a byte more', PART + seal(2, 1, 64, TAG), K + K + '00')
    no(5, 'the same keys, and a tag too short', PART + seal(2, 1, 64, TAG[:-2]), K + K)
    no(5, "K = K'' in algorithm 4, and a tag too long", PART + seal(4, 1, 64, TAG + '00'), K + second(K))
    no(10, 'a wrong tag that is too short', PART + seal(5, 4, 64, '00' * 7))
    no(10, 'a tag of 16 bytes where 8 are named', PART + seal(5, 4, 64, tag_of(PART, m=128)))
    no(10, 'm = 1 with two tag bytes', PART + seal(5, 4, 1, tag_of(PART, m=1) + '00'))
    no(10, 'm = 9 with one tag byte', PART + seal(5, 4, 9, TAG[:2]))
