# Writes the texts morning and gathered: lot slips gathered from reads.
from .common import K, K1, Run, turned
from .slip_parts import (
    A7, AMOUNT, EXPIRY, FIRST, LONG_LOT, PART, R6, REST, TAG, accepted, command, covered, digits, named, seal, sealed)


class Reads(Run):
    def firsts(self, answer, slip, keys=K, agreed=None):
        """Each beginning as the first read, and its rest as the second."""
        self.line(command('firsts', slip, keys, agreed), answer)

    def trickled(self, answer, slip, sizes, keys=K, agreed=None):
        for count in sizes:
            self.line(command('trickled', slip, keys, agreed) + ' %d' % count, answer)

    def record(self, count, held, read, alone, with_read, slip, keys=K):
        """A record under what a slip names; a read leaves the first 76 bytes of what it held and of the read, and zeros."""
        came = (held.ljust(160, '0')[:2 * min(count, 76)] + read)[:152]
        answer = 'alone %s; with the read %s; record %d %s' % (alone, with_read, len(came) // 2, came.ljust(160, '0'))
        self.line('record %d %d %d %s %d %s %s' % (*named(slip), keys, count, held or '-', read or '-'), answer)


def cut_short(slip, seen, number):
    """The answer to `firsts` for a slip with one fault, which shows when so many bytes have come: what is shorter gets 20."""
    cuts = len(slip) // 2 + 1
    alone = ', '.join('%d refused %d' % (count, no) for no, count in sorted({20: seen, number: cuts - seen}.items()))
    return 'alone 0 accepted, %s; with the rest 0 accepted, %d refused %d' % (alone, cuts, number)


def lengthened(slip, length):
    """The answer to `firsts` for a good slip that is followed by bytes, to this length."""
    own = len(slip) // 2
    return 'alone 1 accepted, %d refused 20, %d refused 24; with the rest 0 accepted, %d refused 24' % (
        own, length - own, length + 1)


def morning():
    run = Reads('morning', "the user's own morning: a slip that came in two reads, every answer known beforehand")
    swapped, day_first = covered('20260411'), covered('04112026')
    run.say('the good slip: its first read alone is accepted only where it is the whole; with the rest it always is')
    run.firsts('alone 1 accepted, 37 refused 20; with the rest 38 accepted', FIRST)
    run.say('11 April under the seal of 4 November: not accepted, whatever the first read brought; with the rest the seal is wrong')
    run.firsts('alone 0 accepted, 37 refused 20, 1 refused 30; with the rest 0 accepted, 38 refused 30', swapped + REST)
    run.say('the day written first: no such year, seen from the last byte of the expiry on')
    run.firsts('alone 0 accepted, 11 refused 20, 27 refused 23; with the rest 0 accepted, 38 refused 23', day_first + REST)

    run.say('the same for the two other slips of appendix R6')
    two, three = R6[1][4], R6[2][4]  # their seals
    run.firsts('alone 1 accepted, 37 refused 20; with the rest 38 accepted', PART + two, K + K1)
    run.firsts('alone 0 accepted, 37 refused 20, 1 refused 30; with the rest 0 accepted, 38 refused 30', swapped + two, K + K1)
    run.firsts('alone 0 accepted, 11 refused 20, 27 refused 23; with the rest 0 accepted, 38 refused 23', day_first + two, K + K1)
    run.firsts('alone 1 accepted, 31 refused 20; with the rest 32 accepted', PART + three)
    run.firsts('alone 0 accepted, 31 refused 20, 1 refused 30; with the rest 0 accepted, 32 refused 30', swapped + three)
    run.firsts('alone 0 accepted, 11 refused 20, 21 refused 23; with the rest 0 accepted, 32 refused 23', day_first + three)

    run.say('each of them byte by byte')
    for _, _, _, keys, rest, count in R6:
        run.trickled(A7 % count, PART + rest, (1,), keys)
        run.trickled('refused 30', swapped + rest, (1,), keys)
        run.trickled('refused 23', day_first + rest, (1,), keys)
    run.store()


def gathered():
    run = Reads('gathered', 'lot slips gathered from reads, and records of any content, every answer known beforehand')
    longest = sealed(covered(lot=LONG_LOT), 4, 3, 128, K + K1)
    longest_answer = accepted(4, 3, lot=LONG_LOT)
    sizes = (1, 2, 3, 7, 36, 37, 38, 4096)
    run.say('whole slips: the longest one, of 75 bytes, and those of appendix R6, whose first reads stand in the text morning')
    run.firsts('alone 1 accepted, 75 refused 20; with the rest 76 accepted', longest, K + K1)
    run.trickled(longest_answer, longest, (*sizes, 74, 75, 76), K + K1)
    for _, _, _, keys, rest, count in R6:
        run.trickled(A7 % count, PART + rest, sizes, keys)

    run.say('bytes after the seal, to 76, 77, 80, 81, 100 and 1000 bytes in all, so that a first read passes 76')
    for slip, keys in ((FIRST, K), (longest, K + K1)):
        for length in (76, 77, 80, 81, 100, 1000):
            long = slip + 'A5' * (length - len(slip) // 2)
            run.firsts(lengthened(slip, length), long, keys)
            if length < 80:
                run.trickled('refused 24', long, (1, 75, 76, 77), keys)
    run.trickled('refused 24', FIRST + 'A5' * 963, (1, 4096))
    run.say('two slips one after the other')
    run.firsts(lengthened(FIRST, 74), FIRST + FIRST)
    run.firsts(lengthened(FIRST, 112), FIRST + longest)
    run.trickled('refused 24', FIRST + FIRST, sizes)

    run.say('a fault shows when its last byte has come, and before that 20: 21, 22, 23, 25, 30, 10, and 1 to 5')
    faulty_slips(run)
    run.say('no bytes at all, and one byte')
    run.firsts('alone 0 accepted, 1 refused 20; with the rest 0 accepted, 1 refused 20', '')
    run.firsts('alone 0 accepted, 2 refused 20; with the rest 0 accepted, 2 refused 20', '55')
    run.trickled('refused 20', '', (1, 4096))
    run.trickled('refused 20', '55', (1, 4096))
    for slip, keys, answer in ((FIRST, K, A7 % 3), (longest, K + K1, longest_answer)):
        any_count(run, slip, keys, answer)
    any_bytes(run, longest, longest_answer)
    run.store()


def faulty_slips(run):
    """One fault each: how many bytes show it, its number, the slip; then the keys, and an agreement that the slip does not name."""
    for seen, number, slip, *under in (
            (3, 21, '00' + FIRST[2:]), (14, 21, EXPIRY + AMOUNT + REST), (26, 21, PART + AMOUNT + REST),
            (3, 22, '010009' + FIRST[6:]), (11, 22, covered('2026110A') + REST), (16, 22, covered(lot=digits('A ')) + REST),
            (23, 22, covered(amount=0) + REST), (26, 22, PART + seal(5, 4, 64, TAG, 3)), (11, 23, covered('20230229') + REST),
            (37, 25, FIRST, K, (8, 4, 64)), (37, 25, FIRST, K, (5, 3, 64)), (37, 25, FIRST, K[:30], (5, 4, 63)),
            (37, 30, PART + seal(5, 4, 64, turned(TAG, 0))), (37, 30, FIRST[:-2] + '6D'), (37, 30, FIRST, K1),
            (36, 10, PART + seal(5, 4, 64, TAG[:-2])), (38, 10, PART + seal(5, 4, 64, TAG + '00')),
            (37, 1, PART + seal(9, 4, 64, TAG)), (37, 2, PART + seal(5, 1, 64, TAG)), (37, 3, PART + seal(5, 4, 0, TAG)),
            (37, 4, FIRST, K[:30]), (37, 4, FIRST, ''), (37, 5, PART + seal(2, 1, 64, TAG), K + K)):
        run.firsts(cut_short(slip, seen, number), slip, *under)
        run.trickled('refused %d' % number, slip, (1,), *under)
    run.say('a fault before bytes after the seal, and after them: the earlier one answers, past 76 bytes too')
    for number, slip in ((21, '00' + FIRST[2:]), (22, covered(amount=0) + REST), (23, covered('20230229') + REST)):
        run.trickled('refused %d' % number, slip + 'A5' * 40, (1, 4096))
    for agreed, keys in (((8, 4, 64), K), ((5, 4, 64), K1), ((5, 4, 64), '')):
        run.trickled('refused 24', FIRST + 'A5' * 40, (1, 4096), keys, agreed)


def any_count(run, slip, keys, answer):
    """Records that begin with a good slip and go on with other bytes, under every kind of count: fewer bytes than the slip has get
    20, more get 24. The reads go on with the slip, from where the record ends, and then with other bytes."""
    own = len(slip) // 2
    run.say('records that begin with a slip of %d bytes, any count; reads of 0 and 1 byte, the rest of the slip, 38, 76, 77' % own)

    def judged(length):
        return answer if length == own else 'refused %d' % (20 if length < own else 24)

    for count in sorted({0, 1, 37, own - 1, own, 75, 76, 77, 80, 81, 2**8 + own, 2**32, 2**32 + own, 2**64 - 1}):
        held, has = slip + 'A5' * (80 - own), min(count, 76)
        left = max(own - has, 0)
        more = slip[2 * has:] + '5A' * 77
        for length in sorted({0, 1, left} | ({38, 76, 77} if count in (0, own) else set())):
            run.record(count, held, more[:2 * length], judged(has), judged(has + length), slip, keys)
    run.say('the same with zeros after the slip')
    for count in (own, 2**64 - 1):
        run.record(count, slip, '', judged(min(count, 76)), judged(min(count, 76)), slip, keys)


def any_bytes(run, longest, answer):
    """What lies past the count, or in the last four bytes, is not looked at, and does not stay."""
    run.say('nothing but other bytes: with a count of 0 a slip may follow; with more, what they say is the fault')
    for read, with_read in (('', 'refused 20'), (FIRST, A7 % 3), (FIRST[:-2], 'refused 20'), (FIRST + '00', 'refused 24')):
        run.record(0, 'FF' * 80, read, 'refused 20', with_read, FIRST)
    for count, alone, with_read in ((1, 20, 21), (2, 20, 21), (3, 21, 21), (76, 21, 21), (80, 21, 21), (2**64 - 1, 21, 21)):
        run.record(count, 'FF' * 80, FIRST, 'refused %d' % alone, 'refused %d' % with_read, FIRST)
    run.say('the longest slip and other bytes in the last four places alone')
    for count, alone in ((75, answer), (76, 'refused 24'), (79, 'refused 24'), (80, 'refused 24'), (2**64 - 1, 'refused 24')):
        run.record(count, longest + '00FFFFFFFF', '', alone, alone, longest, K + K1)
    run.record(0, '00' * 76 + 'FFFFFFFF', longest, 'refused 20', answer, longest, K + K1)
    run.record(0, '', '00' * 80, 'refused 20', 'refused 21', longest, K + K1)
    run.say('a read of 4096 bytes, and none')
    run.record(0, 'FF' * 80, FIRST + '00' * 4059, 'refused 20', 'refused 24', FIRST)
    run.record(0, '', '', 'refused 20', 'refused 20', FIRST)
    run.record(76, '', '', 'refused 21', 'refused 21', FIRST)
