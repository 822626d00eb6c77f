# Writes the text slips_3: lot slips under what was agreed.
from .common import FOUR, K, K1, cut, keys_of, turned
from .slip_parts import (
    A7, AMOUNT, FIRST, LOT, PART, R6, REST, Slips, TAG, accepted, changes, command, covered, one_off, seal, sealed)


def agreements():
    run = Slips('slips_3', 'lot slips under what was agreed, every answer known beforehand')
    no = run.no
    run.say('appendix R6 under what the slips name; then each number one less and one more: right and wrong tags, 15, 0 and 33 key bytes')
    for a, p, m, keys, rest, count in R6:
        right, wrong = PART + rest, PART + rest[:12] + turned(rest[12:], 0)
        run.line(command('slip', right, keys, (a, p, m)), A7 % count)
        no(30, wrong, keys=keys, agreed=(a, p, m))
        for other in one_off((a, p, m)):
            for given in (keys, K[:30], '', K + K1 + '00'):
                no(25, right, wrong, keys=given, agreed=other)

    run.say('every algorithm and padding, sealed rightly: accepted under what the slip names, 25 under another padding, algorithm or m')
    after = {1: 2, 2: 3, 3: 4, 4: 6, 6: 1, 5: 8, 7: 5, 8: 7}
    for a in range(1, 9):
        m = 63 if a in (5, 7) else 64
        for p in (4,) if a in FOUR else (1, 2, 3):
            slip, keys = sealed(PART, a, p, m, keys_of(a)), keys_of(a)
            run.line(command('slip', slip, keys, (a, p, m)), accepted(a, p))
            for other in ((a, p % 3 + 1, m), (after[a], p, m), (5, 4, 64)):
                no(25, slip, keys=keys, agreed=other)
    run.say('the tag of what was agreed beside other names: 25; under these names 30')
    for a, p, m in ((1, 1, 64), (1, 2, 64), (8, 4, 64), (5, 4, 61), (5, 4, 57)):
        no(25, PART + seal(a, p, m, TAG), agreed=(5, 4, 64))
        no(30, PART + seal(a, p, m, TAG), agreed=(a, p, m))

    run.say('a tag of one bit: where m = 1 was agreed, one of 00 and 80 is accepted and the other gets 30; where more was, both get 25')
    for a, p, m, keys, rest, count in R6:
        right, wrong = sorted(('00', '80'), key=lambda tag: tag != cut(rest[12:], 1))
        run.line(command('slip', PART + seal(a, p, 1, right), keys, (a, p, 1)), A7 % count)
        no(30, PART + seal(a, p, 1, wrong), keys=keys, agreed=(a, p, 1))
        for other in sorted({2, m, 64, 128}):
            no(25, PART + seal(a, p, 1, right), PART + seal(a, p, 1, wrong), keys=keys, agreed=(a, p, other))

    run.say('what no seal may name: its own number where it was agreed, 25 where it was not, and 25 where it was agreed but not named')
    bad = ((9, 4, 64, 1), (0, 4, 64, 1), (255, 4, 64, 1), (5, 7, 64, 2), (5, 0, 64, 2), (5, 1, 64, 2), (1, 4, 64, 2), (5, 4, 0, 3),
           (5, 4, 129, 3), (5, 4, 255, 3), (7, 4, 64, 3))
    for a, p, m, number in bad:
        slip = PART + seal(a, p, m, TAG)
        no(number, slip, agreed=(a, p, m))
        no(25, slip, agreed=(5, 4, 64))
        no(25, FIRST, agreed=(a, p, m))

    run.say('the same in the lowest 8, 16, 32 and 63 bits alone')
    for a, p, m in ((5, 4, 64), (9, 4, 64), (5, 7, 64), (5, 4, 0), (255, 255, 255)):
        slip = PART + seal(a, p, m, TAG)
        for more in (2**8, 2**16, 2**32, 2**63, 2**64 - 2**8):
            for other in ((a + more, p, m), (a, p + more, m), (a, p, m + more)):
                no(25, slip, agreed=other)
        no(25, slip, agreed=(a + 2**8, p + 2**8, m + 2**8))

    run.say('faults of the layout, whatever was agreed')
    for other in ((8, 4, 64), (5, 3, 64), (5, 4, 63), (9, 7, 0), (5 + 2**32, 4, 64)):
        no(20, FIRST[:-2], FIRST[:56], PART, '', agreed=other)
        no(21, LOT + AMOUNT + REST, agreed=other)
        no(22, covered(amount=0) + REST, PART + seal(5, 4, 64, TAG, 3), agreed=other)
        no(23, covered('20230229') + REST, agreed=other)
        no(24, FIRST + '00', agreed=other)
        run.line(command('prefixes', FIRST, agreed=other), '0 accepted, 37 refused 20')
    run.say('each byte of the first slip changed where another number was agreed: the change to that number gets 30, 1, 2, 3, 10, 4, 0')
    for other, keys, number in (((8, 4, 64), K, 30), ((9, 4, 64), K, 1), ((5, 1, 64), K, 2), ((5, 4, 129), K, 3), ((5, 4, 65), K, 10),
                                ((8, 4, 64), K[:30], 4), ((5, 4, 63), K, 0)):
        run.line(command('changed', FIRST, keys, other), changes(64, met=number))
    run.store()
