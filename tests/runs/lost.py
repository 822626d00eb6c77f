# Writes the texts lost, lost_2, lost_3 and lost_4: a lost block of a message, worked out of its tag.
from .common import (
    ALL, K, K1, MOST, Run, ZERO, asked, blocks, calls, in_pairs, keys_of, number_of, reference, second, size, sizes, tag_in, turned,
    vectors)

PAIRS = [(a, p) for a, p in ALL if a != 7]  # all that can have a full tag
NO_BLOCKS = (65536, 2**32, 2**57 - 1, 2**57, 2**57 + 1, 2**58, 2**60, 2**60 + 1, 2**61, 2**63, 2**64 - 2, 2**64 - 1)


def own(message, block):
    return message[32 * block:32 * block + 32]


class Lost(Run):
    def ask(self, a, p, m, keys, message, bits, block, tag, answer=None):
        words = (a, p, m, keys or '-', message or '-', bits, block, tag or '-')
        self.line('restore %d %d %d %s %s %d %d %s' % words, answer)

    def no(self, number, a=1, p=1, m=128, keys=K, message='5A' * 32, bits=256, block=0, tag='A5' * 16):
        self.ask(a, p, m, keys, message, bits, block, tag, 'refused %d untouched' % number)

    def back(self, a, p, keys, message, bits, block, tag, *others):
        """The message comes back, whatever stands in place of the block, and the check says yes."""
        answer = 'filled %s yes %d calls' % (message, calls(a, p, bits))
        for other in others or ('2E' * 16,):
            wet = message[:32 * block] + other + message[32 * block + 32:]
            self.ask(a, p, 128, keys, wet, bits, block, tag, answer)


def annex_lost():
    run = Lost('lost', "each whole block of annex A's data lost and worked out of the printed G")
    data = {e['data_string']: e for e in vectors if (e['alg'], e['pad']) == (1, 1)}
    run.say('data 1 with padding 1: blocks 0 and 1 come back, 2 is none; of 200 bits block 1 is none')
    one, two = data[1], data[2]
    for block in (0, 1):
        run.back(1, 1, K, one['msg'], 256, block, one['g'])
    run.no(41, message=one['msg'], block=2, tag=one['g'])
    run.no(41, message=two['msg'], bits=200, block=1, tag=two['g'])
    for i, e in enumerate(vectors):
        a, p, keys, message, bits, g = e['alg'], e['pad'], e['keys'], e['msg'], e['bits'], e['g']
        run.say('%s, padding %d, data %d: zeros, ones, another bit or nothing wrong in the block; then the next number'
                % (e['section'], p, e['data_string']))
        for block in range(bits // 128):
            if a == 7:
                m, tag = sizes(e)
                run.no(3, a, p, 128, keys, message, bits, block, g)
                run.no(3, a, p, m, keys, message, bits, block, tag)
            else:
                right = own(message, block)
                run.back(a, p, keys, message, bits, block, g, ZERO, 'FF' * 16, turned(right, (37 * i + block) % 128), right)
        run.no(3 if a == 7 else 41, a, p, 128, keys, message, bits, bits // 128, g)
    run.store()


def lost_borders():
    run = Lost('lost_2', 'lost blocks of longer messages and at the borders')
    text = ''.join('%02X' % (7 + 37 * i & 255) for i in range(82))

    def tag(a, p, message, bits):
        return tag_in('make %d %d 128 %s %s %d 16' % (a, p, keys_of(a), message, bits))

    run.say('653 bits, three spare ones set: the first block, one in the middle, the last whole one; the part block is none')
    long = text[:-2] + 'DF'
    for a, p in PAIRS:
        right = tag(a, p, long, 653)
        for block in (0, 2, 4):
            run.back(a, p, keys_of(a), long, 653, block, right)
        run.no(41, a, p, 128, keys_of(a), long, 653, 5, right)
    run.say('one block, with nothing, a bit or all but a bit of a second after it; and two')
    for bits in (128, 129, 255, 256):
        for a, p in PAIRS:
            message = text[:2 * size(bits)]
            if blocks(p, bits) < 2 and a == 4:
                run.no(9, a, p, 128, keys_of(a), message, bits)
                continue
            for block in range(bits // 128):
                run.back(a, p, keys_of(a), message, bits, block, tag(a, p, message, bits))
            run.no(41, a, p, 128, keys_of(a), message, bits, bits // 128)
    run.say('spare bits of the last byte have no influence, and stay as they are')
    for a, p in PAIRS:
        right = tag(a, p, text[:64] + 'A0', 259)
        for byte in ('A0', 'BF', 'A1'):
            run.back(a, p, keys_of(a), text[:64] + byte, 259, 1, right)
    run.say('any 16 bytes are a tag that one filling fits, whatever stood there before')
    for a, p in PAIRS:
        line = 'restore %d %d 128 %s %s%s%s 264 0 %s' % (a, p, keys_of(a), '%s', own(text, 1), 'E7', 'FF' * 16)
        for block in (ZERO, own(text, 0)):
            run.line(line % block, asked(line % ZERO))
    run.store()


def lost_refusals():
    run = Lost('lost_3', 'no block restored: refusals and their order')
    no = run.no
    run.say('numbers of no block: times 128 or 16, or one added, many of them wrap to small numbers')
    for number in (2, 3, *NO_BLOCKS):
        for a, p in ((1, 1), (1, 2), (1, 3), (4, 3), (5, 4), (8, 4)):
            no(41, a, p, keys=keys_of(a), block=number)
    run.say('a part block is none, nor the block that the padding ends or puts before; nor any where there are no bits')
    for bits, number in ((0, 0), (1, 0), (127, 0), (128, 1), (129, 1), (200, 1), (248, 1), (249, 1), (255, 1), (256, 2), (257, 2),
                         (383, 2)):
        for a, p in ((1, 1), (2, 2), (6, 3), (4, 3), (5, 4)):
            no(41, a, p, keys=keys_of(a), message='5A' * size(bits), bits=bits, block=number)
    run.say('only a full tag: every other m gets 3, with a tag of its size and of 16 bytes')
    for m in (0, 1, 8, 63, 64, 120, 121, 127, 129, 136, 255, 256, 2**8 + 128, 2**32 + 128, 2**63 + 128, 2**64 - 1):
        for tag in sorted({'A5' * 16, 'A5' * min(size(m), 17)}):
            for a, p in ((1, 1), (5, 4)):
                no(3, a, p, m, tag=tag)
    run.say('algorithm 7 always gets 3, after 1 and 2')
    for m in (0, 1, 62, 63, 64, 127, 128, 129):
        no(3, 7, 4, m, tag='A5' * min(max(size(m), 1), 16))
        no(3, 7, 4, m, keys='', block=2)
        no(2, 7, 3, m)
    no(1, 9, 4, 63)
    run.say('a tag of just 16 bytes')
    for count in (0, 1, 8, 15, 17, 32):
        no(10, tag='A5' * count)
        no(10, 8, 4, block=2, tag='A5' * count)
    run.say('numbers that no narrowing may let pass')
    for wide in (2**8, 2**32, 2**63):
        no(1, 1 + wide)
        no(2, p=1 + wide)
        no(7, bits=256 + wide)

    run.say('more than 8,388,608 bits get 8, and 7 where they are not the bytes lent: after 1 to 5, before 10 and 41')
    for number, bits, fault in (
            (8, MOST + 1, {}), (8, MOST + 8, {}), (7, MOST, {}), (7, MOST + 9, {}), (7, 2**64 - 1, {}),
            (8, MOST + 1, {'tag': 'A5' * 15}), (8, MOST + 1, {'block': 65536}), (8, MOST + 8, {'block': 2**64 - 1, 'tag': ''}), (7, MOST, {'block': 65536}),
            (1, MOST + 1, {'a': 9}), (2, MOST + 1, {'p': 4}), (3, MOST + 1, {'m': 64}), (3, MOST + 8, {'m': 127, 'block': 65536}),
            (4, MOST + 1, {'keys': K}), (5, MOST + 1, {'keys': K + K})):
        it = {'a': 4, 'p': 1, 'm': 128, 'keys': K + K1, 'block': 0, 'tag': 'A5' * 16, **fault}
        run.line('over %d %d %d %s %d %d %s' % (it['a'], it['p'], it['m'], it['keys'], bits, it['block'], it['tag'] or '-'),
                 'refused %d untouched' % number)

    run.say('two faults at once, in the order 1 to 5, 7, 9, 10, 41: the earlier one answers (8 with a short message is 7 as well)')
    good = {'a': 4, 'p': 1, 'm': 128, 'keys': K + K1, 'message': '5A' * 16 + '80', 'bits': 129, 'block': 0, 'tag': 'A5' * 16}
    run.ask(**good)
    faults = {
        '1': {'a': 9}, '2': {'p': 4}, '3 (64 bits)': {'m': 64}, '3 (127 bits)': {'m': 127}, '3 (129 bits)': {'m': 129},
        '4': {'keys': K + K1 + '00'}, "5 (K = K')": {'keys': K + K}, "5 (K = K'')": {'keys': K + second(K)},
        '7': {'message': '5A' * 16}, '8': {'bits': MOST + 1}, '9': {'message': '5A' * 16, 'bits': 128}, '10': {'tag': 'A5' * 15},
        '41': {'block': 1}}

    def keep(first, then):
        return first != '8' and number_of(first) != number_of(then)

    for number, why, both in in_pairs(good, faults, keep, {('7', '9'): {'message': '5A' * 15, 'bits': 128}}):
        run.say('restore: ' + why)
        no(int(number), **both)
    run.say('restore: a tag of the size that another m has, and a message of no bits')
    no(3, 4, 1, 64, K + K1, good['message'], 129, 0, 'A5' * 8)
    no(10, 4, 1, 128, K + K1, good['message'], 129, 1, 'A5' * 8)
    no(9, 4, 1, 128, K + K1, '', 0, 0, '')
    no(10, 4, 3, 128, K + K1, '', 0, 2**64 - 1, '')
    run.say('restore: all at once')
    everything = dict(good)
    for fault in faults.values():
        everything.update(fault)
    no(1, **everything)
    run.store()


def random_lost():
    run = Lost('lost_4', 'pseudo-random lost blocks')
    for line in reference('commands', 'restore', '1', '160').splitlines():
        run.line(line)
    run.store()
