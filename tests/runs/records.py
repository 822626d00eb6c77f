# Writes the text records: pseudo-random records of sessions. It also has the records of any content that stand in the texts
# sessions and checking_2.
from .common import ALL, K, K1, MOST, Run, ZERO, asked, cut, drawing, reference, second, size

CLOSED = 'forge 0 0 0 0 0 0 0 ' + ' '.join([ZERO] * 4)


def record(phase, part, a, p, m, declared, total, k, k1, chain, held):
    return 'forge %d %d %d %d %s %d %d %s %s %s %s' % (phase, part, a, p, m, declared, total, k, k1, chain, held)


def forged(run, aim=None):
    """Records of any content: those that count as closed, one for each reason, and some that do not. With an aim each of them is
    for checking; an open one then expects the tag that the reference makes of it."""
    one = '61' + '00' * 15
    good = {'phase': 1, 'part': 0, 'a': 1, 'p': 1, 'm': 64, 'declared': 0, 'total': 8, 'k': K, 'k1': K1, 'chain': ZERO, 'held': one}

    def words(changes):
        it = dict(good)
        it.update(changes)
        phase = ('closed', 'edge', 'part %d' % it['part'])[it['phase']]
        return record(*it.values()), phase

    def closed(why, **changes):
        line, phase = words(changes)
        run.say(why)
        run.line(line, 'forged, ' + phase)
        if aim:
            run.line(aim, 'aimed, ' + phase)
        for call in ('piece - 0', 'finish_check', 'finish 16') if aim else ('piece - 0', 'piece 62 8', 'piece 62 0', 'finish 16'):
            run.line(call, ('refused 11 untouched, ' if call == 'finish 16' else 'refused 11, ') + phase)
            run.line('same', 'same, ' + phase)

    def opened(why, *lines, **changes):
        line, phase = words(changes)
        run.say(why)
        run.line(line, 'forged, ' + phase)
        if aim:
            return checked(line, phase, lines, size({**good, **changes}['m']))
        run.line('piece - 0', 'accepted, ' + phase)
        run.line('same', 'same, ' + phase)
        for other in lines:
            run.line(other)

    def checked(line, phase, lines, count):
        """The record with the right tag expected: the same pieces, and at the end yes with the calls of the tag that is made."""
        lines = [other for other in lines if other[0] == 'p']
        answers = reference('answer', text='\n'.join([line, *lines, 'finish %d' % count])).splitlines()
        _, number, _, tag = answers[-1].split(' -> ')[1].split(', ')[0].split(' ')
        run.line('aim 1 ' + tag, 'aimed, ' + phase)
        run.line('piece - 0', 'accepted, ' + phase)
        run.line('same', 'same, ' + phase)
        for other, answer in zip(lines, answers[1:]):
            run.line(other, answer.split(' -> ')[1])
        run.line('finish_check', 'yes %s calls, closed' % number)

    opened('a good record')
    if not aim:
        run.line('finish 8', asked('make 1 1 64 %s 61 8 8' % K) + ', closed')
    closed('its phase is closed', phase=0)
    closed('at a byte edge, with a total of 3 bits', total=3, held='E0' + ZERO[2:])
    closed('after a part byte of 3 bits, with a total of 8', phase=2, part=3)
    closed('after a part byte of 3 bits, with a total of 4', phase=2, part=3, total=4, held='E0' + ZERO[2:])
    closed('after a part byte of no bits', phase=2, part=0)
    closed('after a part byte of 8 bits', phase=2, part=8)
    closed('after a part byte of 11 bits', phase=2, part=11, total=3, held='E0' + ZERO[2:])
    closed('after a part byte of 2^64 - 5 bits', phase=2, part=18446744073709551611, total=3, held='E0' + ZERO[2:])
    closed('algorithm 0', a=0)
    closed('algorithm 9', a=9)
    closed('algorithm 257', a=257)
    closed('algorithm 1 with padding 0', p=0)
    closed('algorithm 1 with padding 4', p=4)
    closed('algorithm 5 with padding 1', a=5)
    closed('no tag bits', m=0)
    closed('129 tag bits', m=129)
    closed('2^32 + 64 tag bits', m=4294967360)
    closed('algorithm 7 with 64 tag bits', a=7, p=4)
    for a in (2, 4, 6):
        closed("algorithm %d with K = K'" % a, a=a, k1=K, p=3, declared=8)
    closed("algorithm 4 with K = K''", a=4, p=3, declared=8, k1=second(K))
    closed('a total of 8 bits over the limit', total=MOST + 8)
    closed('a total of 1 bit over the limit', phase=2, part=1, total=MOST + 1, held='80' + ZERO[2:])
    closed('a total of 2^64 - 8 bits', total=18446744073709551608)
    closed('padding 3 with a declared length over the limit', p=3, declared=MOST + 1)
    closed('padding 3 with a declared length of 2^64 - 1', p=3, declared=18446744073709551615)
    closed('padding 3 with a total over the declared length', p=3, declared=7)
    closed('padding 3 with a total over the declared length 0', p=3)
    closed('no bits, and a bit set in the waiting block', total=0, held=ZERO[:-1] + '1')
    closed('no bits, and the first bit set', total=0, held='80' + ZERO[2:])
    closed('3 bits, and a fourth one set', phase=2, part=3, total=3, held='F0' + ZERO[2:])
    closed('8 bits, and a ninth one set', held='6180' + ZERO[4:])
    closed('127 bits, and the last one set', phase=2, part=7, total=127, held='FF' * 16)
    closed('136 bits: 8 wait, and a ninth one is set', total=136, held='6180' + ZERO[4:])
    opened('3 bits', 'finish 16', phase=2, part=3, total=3, held='E0' + ZERO[2:])
    opened('127 bits', 'finish 16', phase=2, part=7, total=127, held='FF' * 15 + 'FE')
    opened('a whole block waits', 'piece 61 8', 'finish 16', total=128, held='FF' * 16)
    opened('256 bits: a whole block waits', 'finish 16', total=256, held='FF' * 16)
    opened('no bits', 'piece 61 8', 'finish 8', total=0, held=ZERO)
    opened('a chain value that no start leaves', 'finish 16', chain='01' * 16)
    opened('a chain value before the first block of algorithm 4', 'piece %s 128' % ('5A' * 16), 'finish 16', a=4, chain='01' * 16)
    opened('a declared length under padding 1', 'finish 16', declared=18446744073709551615)
    opened('a declared length over the limit under padding 4', 'finish 16', a=8, p=4, declared=MOST + 1)
    opened('a second key, alike, where the algorithm has one', 'finish 16', k1=K)
    opened("algorithm 3 with K = K'", 'finish 16', a=3, k1=K)
    opened("algorithm 6 with K = K''", 'finish 16', a=6, k1=second(K))
    opened('the declared length is reached', 'piece 80 1', 'finish 16', p=3, declared=8)
    opened('the declared length is not reached', 'finish 16', 'same', 'piece 80 1', 'finish 16', p=3, declared=9)
    opened('the longest total', 'piece 80 1', 'same', 'finish 16', total=MOST, held='FF' * 16)


def random_records():
    """Open records of any content, half of them with one field changed: a piece, and a finish."""
    run = Run('records', 'pseudo-random records, many of them forged: a piece, a finish, and what they leave')
    below, some_bytes = drawing(2)

    for turn in range(300):
        a, p = ALL[turn % len(ALL)]
        total = below(2) * 128 * below(4) + below(137) if below(3) else 8 * below(50)
        waits = (total - 1) % 128 + 1 if total else 0
        it = {'phase': 2 if total % 8 else 1, 'part': total % 8, 'a': a, 'p': p, 'm': 1 + below(63 if a == 7 else 128),
              'declared': total + below(3) * 8 if p == 3 else 0, 'total': total, 'k': some_bytes(16), 'k1': some_bytes(16), 'chain': some_bytes(16),
              'held': cut(some_bytes(16), waits) if waits else ''}
        it['held'] = (it['held'] + ZERO)[:32]
        if turn % 2:
            name, value = (('phase', below(3)), ('part', below(9)), ('a', below(10)), ('p', below(6)), ('m', below(140)), ('declared', below(total + 2)),
                           ('total', below(400)), ('total', MOST + below(9)), ('k1', it['k']), ('k1', second(it['k'])), ('held', some_bytes(16)))[below(11)]
            it[name] = value
        bits = 8 * below(20) if below(3) else below(40)
        count = size(bits) + (1 if below(8) == 0 else 0)
        run.line(record(*it.values()))
        run.line('piece %s %d' % (some_bytes(count) or '-', bits))
        run.line('same')
        run.line('finish %d' % (below(17) if below(4) == 0 else 16))
        run.line('same')
    run.store()
