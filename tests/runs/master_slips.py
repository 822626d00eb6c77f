# Writes the text master_3: lot slips and lost blocks under a master.
from .common import K, K1, MOST, calls
from .slip_parts import FIRST, PART, R6, REST, Slips, TAG, accepted, changes, command, covered, one_off, seal, sealed
from .master import A7_KEYS, FIRST_KEY, MASTER_FAULTS, SECOND_KEY, SHORT, annex_rows, g_under, master_pairs, two_more


def master_slips():
    run = Slips('master_3', 'lot slips and lost blocks under a master')
    write = 'write %d %d %s %s 2026 11 4 4137 500 %d'
    slips = {}
    for a, p in [(a, p) for a in (2, 4, 6) for p in (1, 2, 3)]:
        keys, plain = K + K1 if a == 4 else K, sealed(PART, a, p, 64, K + K1)
        slip = PART + seal(a, p, 64, g_under(a, p, PART)[:16])
        slips[a, p] = slip
        run.say('algorithm %d, padding %d: written and read under a master, and read without it; sealed without it' % (a, p))
        run.line(write % (a, p, '64*', keys, 39), 'written 37 bytes %d calls %sEEEE' % (calls(a, p, 184) + 2, slip))
        run.line(write % (a, p, '64*', keys, 36), 'refused 10 untouched')
        run.line(command('slip', slip, keys, (a, p, '64*')), two_more(accepted(a, p)))
        run.no(30, slip, keys=K + K1, agreed=(a, p, 64))
        run.no(30, plain, slip[:-2] + '%02X' % (int(slip[-2:], 16) ^ 1), keys=keys, agreed=(a, p, '64*'))
        run.line(command('slip', plain, K + K1, (a, p, 64)), accepted(a, p))
        if a != 4:
            run.line(command('slip', slip, A7_KEYS, (a, p, 64)), accepted(a, p))
            run.no(4, slip, keys=A7_KEYS, agreed=(a, p, '64*'))
            run.no(4, slip, keys=K, agreed=(a, p, 64))
        for other in one_off((a, p, 64)):
            run.no(25, slip, keys=keys, agreed=(*other[:2], '%d*' % other[2]))
        run.no(25, slip, keys='', agreed=(a, p, '63*'))
    run.say('a master with another algorithm: 4 where the slip names what was agreed, and 25 where it does not')
    for a, p, m, _, rest, _ in R6[::2]:
        for given in ('', K, K + K1, A7_KEYS + K):
            run.no(4, PART + rest, keys=given, agreed=(a, p, '%d*' % m))
            run.no(25, PART + rest, keys=given, agreed=(3, p, '%d*' % m))
    run.no(30, PART + R6[1][4], keys=K, agreed=(2, 2, '64*'))
    run.say('faults of the layout come first, and what a seal may not name has its own number')
    for agreed in ((6, 1, '64*'), (3, 1, '64*')):
        run.no(20, FIRST[:-2], agreed=agreed)
        run.no(23, covered('20230229') + REST, agreed=agreed)
        run.no(24, FIRST + '00', agreed=agreed)
    run.no(1, PART + seal(9, 4, 64, TAG), agreed=(9, 4, '64*'))
    run.no(2, PART + seal(3, 4, 64, TAG), agreed=(3, 4, '64*'))
    run.no(3, PART + seal(3, 1, 129, TAG), agreed=(3, 1, '129*'))
    run.no(4, PART + seal(3, 1, 64, TAG[:-2]), keys=K + K1, agreed=(3, 1, '64*'))
    run.no(5, PART + seal(4, 1, 64, TAG[:-2]), keys=FIRST_KEY + K1, agreed=(4, 1, '64*'))
    run.no(5, slips[4, 1], keys=SECOND_KEY + K1, agreed=(4, 1, '64*'))
    run.no(10, slips[6, 1][:50] + '0A' + slips[6, 1][52:-2], agreed=(6, 1, '64*'))
    run.say('every byte changed, every beginning, every first read, reads of other sizes, a record')
    slip, agreed = slips[6, 2], (6, 2, '64*')
    run.line(command('changed', slip, K, agreed), changes(64))
    run.line(command('prefixes', slip, K, agreed), '0 accepted, 37 refused 20')
    for a, p in ((2, 3), (4, 1), (6, 2)):
        keys = K + K1 if a == 4 else K
        run.line(command('firsts', slips[a, p], keys, (a, p, '64*')), 'alone 1 accepted, 37 refused 20; with the rest 38 accepted')
        for count in (1, 7, 4096):
            run.line(command('trickled', slips[a, p], keys, (a, p, '64*')) + ' %d' % count, two_more(accepted(a, p)))
    run.line('record 6 2 64* %s 30 %s %s' % (K, slip, slip[60:]),
             'alone refused 20; with the read %s; record 37 %s' % (two_more(accepted(6, 2)), slip.ljust(160, '0')))

    good = {'a': 4, 'p': 1, 'm': 64, 'keys': K + K1, 'date': '2026 11 4', 'amount': 500, 'room': 37}
    faults = {'22': {'amount': 0}, '23': {'date': '2023 2 29'}, '1': {'a': 9}, '2': {'p': 7}, '3': {'m': 129}, **MASTER_FAULTS,
              '10': {'room': 36}}
    for number, why, it in master_pairs(good, faults):
        run.say('write: ' + why)
        run.line('write %d %d %d* %s %s 4137 %d %d' % tuple(it.values()), 'refused %s untouched' % number)
    master_lost(run)
    run.store()


def master_lost(run):
    run.say("each whole block of annex A's data lost and worked out under a master")
    restore = 'restore %d %d %s %s %s %d %d %s'
    for a, p, keys, _, message, bits, g, count in annex_rows():
        for block in range(bits // 128):
            wet = message[:32 * block] + '2E' * 16 + message[32 * block + 32:]
            run.line(restore % (a, p, '128*', keys, wet, bits, block, g), 'filled %s yes %d calls' % (message, count))
        run.line(restore % (a, p, '128*', keys, message, bits, bits // 128, g), 'refused 41 untouched')
    run.say('any 16 bytes are a tag that one filling fits, and without the master another one')
    for a, p in ((2, 1), (4, 2), (6, 3)):
        keys = K + K1 if a == 4 else K
        for m, given in (('128*', keys), (128, K + K1)):
            run.line(restore % (a, p, m, given, '5A' * 33, 264, 1, 'FF' * 16))
    good = {'a': 4, 'p': 1, 'm': 128, 'keys': K + K1, 'message': SHORT, 'bits': 136, 'block': 0, 'tag': 'A5' * 16}
    faults = {
        '1': {'a': 9}, '2': {'p': 4}, '3 (64 bits)': {'m': 64}, '3 (129 bits)': {'m': 129}, **MASTER_FAULTS, '7': {'message': SHORT[:32]},
        '8': {'bits': MOST + 1}, '9': {'message': SHORT[:32], 'bits': 128}, '10': {'tag': 'A5' * 15}, '41': {'block': 1}}
    for number, why, it in master_pairs(good, faults):
        run.say('restore: ' + why)
        it['m'] = '%d*' % it['m']
        run.line(restore % tuple(it.values()), 'refused %s untouched' % number)
