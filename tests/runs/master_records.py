# Writes the text master_2: records of sessions under a master, and the order of refusals there.
from .common import FOUR, K, K1, MOST, ZERO, made, second, size, vectors
from .records import CLOSED, record
from .sessions import pieces
from .master import A7_KEYS, FIRST_KEY, MASTER_FAULTS, Masters, SECOND_KEY, SHORT, enciphered, g_under, master_pairs, two_more


def master_records():
    run = Masters('master_2', 'records of sessions under a master, and the order of refusals')
    a7 = [e for e in vectors if e['alg'] == 6]
    run.say('what a start leaves: the key bytes as they were given, zeros after a master that came alone, and the mark')
    for a, k1 in ((2, ZERO), (4, K1), (6, ZERO)):
        keys, after_l = K, a7[2]['chain']['H_1']  # L of 256 bits enciphered under the first derived key
        if a == 4:
            keys, after_l = K + K1, enciphered(SECOND_KEY, enciphered(K, '%032X' % 256))
        for p, declared, kept, chain in ((1, 77, 0, ZERO), (2, MOST + 1, 0, ZERO), (3, 256, 256, after_l)):
            words = (1, 0, a, p, '60*', kept, 0, K, k1, chain, ZERO)
            run.line('start %d %d 60* %s %d' % (a, p, keys, declared), 'accepted, edge')
            run.kept('edge', (record(*words), 'forged'))
            run.steps((record(*words[:4], 60, *words[5:]), 'forged, edge'), ('same', 'changed, edge'))
            run.line('start_check %d %d 60* %s %d %s' % (a, p, keys, declared, 'FF' * 8), 'accepted, edge')
            run.kept('edge', ('aim 1 ' + 'FF' * 8, 'aimed'))
            run.steps(('aim 0 -', 'aimed, edge'), ('same', 'changed, edge'))
            run.kept('edge', (record(*words), 'forged'))
    run.say('a refused start leaves no mark')
    run.steps(('start 3 1 64* %s 0' % (K + K1), 'refused 4, closed'), (CLOSED, 'forged, closed'), ('same', 'same, closed'),
              (CLOSED.replace('0 0 0 0 0 0 0', '0 0 0 0 0* 0 0'), 'forged, closed'), ('same', 'changed, closed'))

    run.say('A.7 byte by byte: the record before the end has the printed chain value, and the last sixteen key bytes are not read')
    for e, count in zip(a7, (4, 5, 5, 4, 4, 5)):
        p, bits, message = e['pad'], e['bits'], e['msg']
        declared, made_it = bits if p == 3 else 0, 'made %d calls %s, closed' % (count, e['tag'])
        run.line('start 6 %d 64* %s %d' % (p, K, bits), 'accepted, edge')
        for line in pieces(message, bits, range(1, size(bits))):
            run.line(line, 'accepted, edge')
        chain = e['chain']['H_%d' % ((bits - 1) // 128 + (p == 3))]
        words = (1, 0, 6, p, '64*', declared, bits, K, '%s', chain, (message[32:] + ZERO)[:32])
        run.kept('edge', (record(*words) % ZERO, 'forged'))
        run.line('finish 8', made_it)
        for other in ('FF' * 16, K, A7_KEYS[:32]):
            run.steps((record(*words) % other, 'forged, edge'), ('piece - 0', 'accepted, edge'), ('same', 'same, edge'),
                      ('finish 8', made_it))
            run.steps((record(*words) % other, 'forged, edge'), ('aim 1 ' + e['tag'], 'aimed, edge'),
                      ('finish_check', 'yes %d calls, closed' % count))
    run.say('the same of algorithm 2, data 1, from the record that a start leaves')
    tag = g_under(2, 1, a7[0]['msg'])[:16]
    for other in (ZERO, 'FF' * 16, K):
        run.steps((record(1, 0, 2, 1, '64*', 0, 0, K, other, ZERO, ZERO), 'forged, edge'))
        for line in pieces(a7[0]['msg'], 256, [16]):
            run.line(line, 'accepted, edge')
        run.line('finish 8', 'made 5 calls %s, closed' % tag)
    master_forged(run)
    master_order(run)
    run.store()


def master_forged(run):
    """Records of any content with the mark."""
    def forged(why, a, p, k, k1, m='32*', total=136):
        run.say(why)
        return record(1, 0, a, p, m, 0, total, k, k1, ZERO, '61' + ZERO[2:])

    def closed(line):
        run.line(line, 'forged, edge')
        run.kept('edge', ('piece - 0', 'refused 11'), ('piece 62 8', 'refused 11'), ('finish 16', 'refused 11 untouched'))
        run.line('aim 1 -', 'aimed, edge')
        run.kept('edge', ('piece - 0', 'refused 11'), ('finish_check', 'refused 11'))

    for a in (1, 3, 5, 7, 8):
        p = 4 if a in FOUR else 1
        closed(forged('a master with algorithm %d, and K and another key' % a, a, p, K, K1))
        closed(forged('a master with algorithm %d, and K alone' % a, a, p, K, ZERO))
        run.say('the same without a master is open')
        run.steps((record(1, 0, a, p, 32, 0, 136, K, ZERO, ZERO, '61' + ZERO[2:]), 'forged, edge'), ('piece - 0', 'accepted, edge'))
    for k in (FIRST_KEY, SECOND_KEY):
        closed(forged('algorithm 4 with a K that is a derived key', 4, 1, k, K1))
    closed(forged('a master with algorithm 0', 0, 1, K, K1))
    closed(forged('a master with algorithm 6 and padding 4', 6, 4, K, K1))
    closed(forged('a master with algorithm 6 and no tag bits', 6, 1, K, K1, '0*'))
    closed(forged('a master with algorithm 2 and too many bits', 2, 1, K, K1, total=MOST + 8))
    for a, p, k1 in ((2, 1, K), (6, 2, K), (6, 1, second(K))):
        run.line(forged('algorithm %d with the master, or its complement, in the second place too: open' % a, a, p, K, k1, total=8),
                 'forged, edge')
        run.kept('edge', ('piece - 0', 'accepted'))
        run.line('finish 4', two_more(made(a, p, 8, g_under(a, p, '61')[:8])) + ', closed')
    run.say('algorithm 4 where K is the master, or its complement: open, and closed without the mark')
    for k in (K1, second(K1)):
        whole = 'A5' * 16 + '61'
        run.steps(('start 4 2 32* %s 0' % (k + K1), 'accepted, edge'), ('piece %s 136' % whole, 'accepted, edge'))
        chain = enciphered(SECOND_KEY, enciphered(k, 'A5' * 16))
        run.kept('edge', (record(1, 0, 4, 2, '32*', 0, 136, k, K1, chain, '61' + ZERO[2:]), 'forged'))
        run.line('finish 4', 'made 6 calls %s, closed' % g_under(4, 2, whole, k + K1)[:8])
        closed(record(1, 0, 4, 2, 32, 0, 136, k, K1, chain, '61' + ZERO[2:]))


def master_order(run):
    """Two faults at once, one of them 4 or 5."""
    good = {'a': 4, 'p': 1, 'm': 64, 'keys': K + K1, 'message': SHORT, 'bits': 136, 'room': 8}
    faults = {
        '1': {'a': 9}, '2': {'p': 4}, '3': {'m': 129}, **MASTER_FAULTS, '7': {'message': SHORT[:32]}, '8': {'bits': MOST + 1},
        '9': {'message': '', 'bits': 0}, '10': {'room': 7}}
    run.say('two faults at once: the earlier one answers (8 with a short message is 7 as well)')
    for number, why, it in master_pairs(good, faults):
        run.say(why)
        one = '%d %d %d* %s %s %d' % (it['a'], it['p'], it['m'], it['keys'], it['message'] or '-', it['bits'])
        run.line('make %s %d' % (one, it['room']), 'refused %s untouched' % number)
        run.line('check %s %s' % (one, '00' * it['room']), 'refused ' + number)
    good = {'a': 4, 'p': 3, 'm': 64, 'keys': K + K1, 'declared': 24, 'tag': '00' * 8}
    faults = {'1': {'a': 9}, '2': {'p': 4}, '3': {'m': 129}, **MASTER_FAULTS, '8': {'declared': MOST + 1}, '10': {'tag': '00' * 7}}
    for number, why, it in master_pairs(good, faults):
        run.say('start_check: ' + why)
        run.line('start_check %d %d %d* %s %d %s' % tuple(it.values()), 'refused %s, closed' % number)
        if len(it['tag']) == 16:
            run.line('start %d %d %d* %s %d' % tuple(it.values())[:5], 'refused %s, closed' % number)
