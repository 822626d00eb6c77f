# Writes the texts master and master_4: keys derived from a master. The third word of an agreement ends in * there. It also has what
# master_records.py and master_slips.py take from it.
from .common import (
    FOUR, K, K1, ZERO, asked, blocks, calls, drawing, in_pairs, made, number_of, reference, second, size, tag_in, turned, vectors)
from .sessions import pieces
from .checking import Checks

A7_KEYS = next(e['keys'] for e in vectors if e['alg'] == 6)  # the first and the second key that K makes as a master, as A.7 prints them
SHORT = '5A' * 16 + '80'                                     # two blocks under each padding


def enciphered(key, block):
    """One cipher call: the tag of one block in algorithm 1."""
    return tag_in('make 1 1 128 %s %s 128 16' % (key, block))


def derived(master):
    return [enciphered(master, '%032X' % counter) for counter in (1, 2)]


FIRST_KEY, SECOND_KEY = derived(K1)  # of annex A's K' as the master in algorithm 4


def padded(p, message):
    """The blocks of a message of whole bytes under padding 1 to 3."""
    text = message + '80' * (p == 2)
    text = '%032X' % (4 * len(message)) * (p == 3) + text.ljust(32 * blocks(1, 4 * len(text)), '0')
    return [text[at:at + 32] for at in range(0, len(text), 32)]


def fourth(k, k1, k2, first, *others):
    """G of algorithm 4 over padded blocks, one cipher call after the other."""
    h = enciphered(k2, enciphered(k, first))
    for block in others:
        h = enciphered(k, '%032X' % (int(h, 16) ^ int(block, 16)))
    return enciphered(k1, h)


def two_more(answer):
    """An answer with the two calls of the derivation more."""
    words = answer.split(' ')
    place = -1 if words[0] == 'accepted' else words.index('calls') - 1
    words[place] = str(int(words[place]) + 2)
    return ' '.join(words)


def g_under(a, p, message, keys=None):
    """G of a message of whole bytes under a master: in algorithm 4 by single cipher calls, else by the derived keys, given."""
    if a == 4:
        k, master = (keys or K + K1)[:32], (keys or K + K1)[32:]
        return fourth(k, *derived(master), *padded(p, message))
    return tag_in('make %d %d 128 %s %s %d 16' % (a, p, ''.join(derived(keys or K)), message, 4 * len(message)))


def annex_rows():
    """Annex A's data under a master, K alone or K and then K': settings, keys, the data's number, message, bits, G and the calls. A.7
    is as printed, its calls as appendix R8 has them."""
    a7 = [e for e in vectors if e['alg'] == 6]
    rows = [(6, e['pad'], K, e['data_string'], e['msg'], e['bits'], e['g'], count) for e, count in zip(a7, (4, 5, 5, 4, 4, 5))]
    for a, keys in ((2, K), (4, K + K1)):
        for e in a7:
            p, message, bits = e['pad'], e['msg'], e['bits']
            rows.append((a, p, keys, e['data_string'], message, bits, g_under(a, p, message), calls(a, p, bits) + 2))
    return rows


class Masters(Checks):
    def both(self, one, answer):
        """Made into a room of 8 bytes and checked, with the same refusal."""
        self.line('make %s 8' % one, answer + ' untouched')
        self.line('check %s %s' % (one, '00' * 8), answer)

    def session(self, start, lines, end, answer):
        """A session from its start to its end; all pieces are of whole bytes."""
        self.steps((start, 'accepted, edge'), *((line, 'accepted, edge') for line in lines), (end, answer + ', closed'))


# what 4 and 5 find under a master, where a call is good with algorithm 4, K and then the master
MASTER_FAULTS = {'4 (bytes)': {'keys': K + K1 + '00'}, '4 (algorithm)': {'a': 3},
                 '5 (first key)': {'keys': FIRST_KEY + K1}, '5 (second key)': {'keys': SECOND_KEY + K1}}


def master_pairs(good, faults):
    """Each two faults of which one is 4 or 5. Algorithm 3 has none of 1, 5 and 9."""
    def keep(first, then):
        numbers = {number_of(first), number_of(then)}
        none = {'1', '5', '9'} if 'algorithm' in first + then else set()
        return len(numbers) == 2 and numbers & {'4', '5'} and not numbers & none
    return in_pairs(good, faults, keep)


def masters():
    run = Masters('master', 'keys derived from a master: annex A.7 and appendix R8, sessions, key bytes, keys that are the same')
    run.say('the two keys that A.7 derives, as printed: the numbers 1 and 2 enciphered')
    for number, key in ((1, A7_KEYS[:32]), (2, A7_KEYS[32:])):
        run.line('make 1 1 128 %s %032X 128 16' % (K, number), 'made 1 calls ' + key)
    for i, (a, p, keys, data, message, bits, g, count) in enumerate(annex_rows()):
        run.say('algorithm %d, padding %d, data %d: in one call, in sessions of three pieces, at every cut' % (a, p, data))
        call, tag = '%d %d %%s %s %s %d' % (a, p, keys, message, bits), g[:16]
        if (a, p, data) == (4, 1, 1):
            tag = 'DD64873EEB7C9605'  # appendix R8
        wrong, made_it = turned(tag, 11 * i % 64), 'made %d calls ' % count
        run.line('make ' + call % '64*' + ' 8', made_it + tag)
        run.line('make ' + call % '128*' + ' 17', made_it + g + 'EE')
        run.line('check ' + call % '64*' + ' ' + tag, 'yes %d calls' % count)
        run.line('check ' + call % '64*' + ' ' + wrong, 'no %d calls' % count)
        one, lines = '%d %d 64* %s %d' % (a, p, keys, bits), list(pieces(message, bits, [i % 16, 16 + i % 8]))
        run.session('start ' + one, lines, 'finish 8', made_it + tag)
        run.session('start_check %s %s' % (one, tag), lines, 'finish_check', 'yes %d calls' % count)
        run.session('start_check %s %s' % (one, wrong), lines, 'finish_check', 'no %d calls' % count)
        cuts = size(bits) + 1
        halves = 'halves %d %d 128* %s %s ' % (a, p, keys, message)
        run.line(halves + '%d %s' % (count, g), '%d of %d cuts' % (cuts, cuts))
        run.line(halves + '%d %s' % (count - 2, g), '0 of %d cuts' % cuts)
        if a == 6 or (a, p) == (4, 1):
            run.line('bytewise ' + call % '64*' + ' ' + tag,
                     'yes %d calls, 64 of 64 turned: no, message turned: no %d calls' % (count, count))

    run.say('key bytes: under a master 16 with algorithms 2 and 6, 32 with 4, and with the others no number')
    for a in range(1, 9):
        p = 4 if a in FOUR else 2
        for number in (0, 15, 16, 17, 31, 32, 33, 48):
            one = '%d %d 64* %s' % (a, p, (K + K1 + K)[:2 * number] or '-')
            if number == {2: 16, 4: 32, 6: 16}.get(a):
                run.line('make %s %s 136 8' % (one, SHORT), two_more(made(a, p, 136, g_under(a, p, SHORT)[:16])))
                run.line('start %s 0' % one, 'accepted, edge')
                continue
            one = one.replace('64*', '63*')  # which each algorithm allows
            run.both('%s %s 136' % (one, SHORT), 'refused 4')
            if number % 16 == 0:
                run.line('start %s 0' % one, 'refused 4, closed')
                run.line('start_check %s 0 %s' % (one, '00' * 8), 'refused 4, closed')
    run.say('the derived keys are refused as a master, and the master is no two keys')
    for a in (2, 6):
        run.both('%d 2 64* %s %s 136' % (a, A7_KEYS, SHORT), 'refused 4')
        run.both('%d 2 64 %s %s 136' % (a, K, SHORT), 'refused 4')

    run.say('5 compares the keys in use: in algorithm 4 K may be the master or a complement, and no derived key')
    for k in (K1, second(K1), second(FIRST_KEY), second(SECOND_KEY), turned(FIRST_KEY, 127), turned(SECOND_KEY, 0)):
        run.line('make 4 1 64* %s %s 136 8' % (k + K1, SHORT), 'made 6 calls ' + g_under(4, 1, SHORT, k + K1)[:16])
    for k in (FIRST_KEY, SECOND_KEY):
        run.both('4 1 64* %s %s 136' % (k + K1, SHORT), 'refused 5')
        run.line('start 4 1 64* %s 0' % (k + K1), 'refused 5, closed')
    run.say("the same without a master: derived keys are keys like others, and K may not be K' or K''")
    for k in (FIRST_KEY, SECOND_KEY):
        g = fourth(k, K1, second(K1), *padded(1, SHORT))
        run.line('make 4 1 64 %s %s 136 8' % (k + K1, SHORT), 'made 4 calls ' + g[:16])
    for k in (K1, second(K1)):
        run.both('4 1 64 %s %s 136' % (k + K1, SHORT), 'refused 5')
    run.say('under 2 and 6 any sixteen bytes are a master')
    for a, p in ((2, 1), (6, 3)):
        for master in (ZERO, 'FF' * 16, K1, FIRST_KEY, '00' * 15 + '01'):
            run.line('make %d %d 64* %s 616263 24 8' % (a, p, master), two_more(made(a, p, 24, g_under(a, p, '616263', master)[:16])))
    run.store()


def random_masters():
    run = Masters('master_4', 'pseudo-random calls, sessions and lost blocks, with and without a master')
    for kind, count in (('master_call', '120'), ('master_restore', '50')):
        for line in reference('commands', kind, '1', count).splitlines():
            run.line(line)
    below, some_bytes = drawing(3)

    run.say('sessions: the tag, the answers and the calls of one call')
    for turn in range(48):
        a, p, m, bits = (2, 4, 6)[turn % 3], 1 + below(3), 1 + below(128), 130 + below(270)
        master = below(3) > 0
        keys, message = some_bytes(16 if master and a != 4 else 32), some_bytes(size(bits))
        one = '%d %d %d%s %s' % (a, p, m, '*' * master, keys)
        whole = asked('make %s %s %d %d' % (one, message, bits, size(m)))
        tag, phase = whole.split(' ')[3], 'part %d' % (bits % 8) if bits % 8 else 'edge'
        lines = list(pieces(message, bits, sorted(below(size(bits)) for _ in range(below(4)))))
        word, offered = ('no', turned(tag, below(m))) if turn % 2 else ('yes', tag)
        for start, end, answer in (
                ('start %s %d' % (one, bits), 'finish %d' % size(m), whole),
                ('start_check %s %d %s' % (one, bits, offered), 'finish_check', '%s %s calls' % (word, whole.split(' ')[1]))):
            run.line(start, 'accepted, edge')
            for line in lines:
                run.line(line, 'accepted, ' + (phase if line is lines[-1] else 'edge'))
            run.line(end, answer + ', closed')
    run.store()
