# Writes the texts annex, onecall, cases and cases_2: calls to make and to check, each message in one call.
from .common import FOUR, K, K1, Run, TWO, asked, calls, cut, in_pairs, keys_of, made, reference, second, size, turned, vectors


# ---- annex A of the standard

def annex():
    run = Run('annex', 'the 36 tags of annex A in one call: made, made at 128 bits, checked, checked with one bit turned')
    for e in vectors:
        a, p, bits, tag = e['alg'], e['pad'], e['bits'], e['tag']
        call = '{} {} %d {} {} {}'.format(a, p, e['keys'], e['msg'], bits)
        run.say('%s, padding %d, data %d' % (e['section'], p, e['data_string']))
        if a == 7:
            # printed with 64 bits, of which the algorithm allows 63: the first ones, of an incomplete message the last ones
            tag = cut(tag, 63, bits % 128 != 0)
            run.line('make ' + call % 63 + ' 8', made(a, p, bits, tag))
            run.line('make ' + call % 64 + ' 8', 'refused 3 untouched')
            run.line('make ' + call % 128 + ' 16', 'refused 3 untouched')
            run.line('check ' + call % 64 + ' ' + e['tag'], 'refused 3')
        else:
            run.line('make ' + call % e['m'] + ' 8', made(a, p, bits, tag))
            run.line('make ' + call % 128 + ' 16', made(a, p, bits, e['g']))
        m = min(e['m'], 63) if a == 7 else e['m']
        run.line('check ' + call % m + ' ' + tag, 'yes %d calls' % calls(a, p, bits))
        run.line('check ' + call % m + ' ' + turned(tag, (7 * vectors.index(e)) % m), 'no %d calls' % calls(a, p, bits))
    run.store()


# ---- borders, refusals and their order

def onecall():
    run = Run('onecall', 'borders and refusals in one call, each fault alone and in pairs')
    data = {(e['alg'], e['pad'], e['data_string']): e for e in vectors}
    ones, abc = 'FF' * 16, '616263'
    short = '5A' * 16 + '80'  # 129 bits

    def call(a, p, m, keys, message, bits):
        return '%d %d %d %s %s %d' % (a, p, m, keys or '-', message or '-', bits)

    run.say('algorithm 7 (A.8): 63 bits of the tag, and not 64')
    for d, tag in ((1, '16E02904EFB765B6'), (2, '08DF454BB0688B52')):
        e = data[7, 4, d]
        run.line('make ' + call(7, 4, 63, K, e['msg'], e['bits']) + ' 8', 'made 2 calls ' + tag)
        run.line('make ' + call(7, 4, 64, K, e['msg'], e['bits']) + ' 8', 'refused 3 untouched')

    run.say('one block: only the last step runs')
    for a, p, message, bits, m, answer in (
            (1, 1, '', 0, 128, '1 calls 2677F46B09C122CC975533105BD4A22A'),
            (2, 1, '', 0, 128, '2 calls FD3953C695FCC2D3ED8176F328B8F33E'),
            (3, 1, '', 0, 128, '3 calls 065F25BDB348C4E48A27C67D1D3A85A6'),
            (6, 1, '', 0, 128, '1 calls 7D7DD196206F4C9717D8DAF065E4784B'),
            (5, 4, '', 0, 128, '2 calls 29E154322E5C7BD8EE6A25BA549B24BC'),
            (8, 4, '', 0, 128, '2 calls C3362C82CE0474032E8A086D256C6062'),
            (6, 1, 'FF', 1, 128, '1 calls 32A9B595071FB6A555C318906399D419'),
            (7, 4, ones, 128, 63, '1 calls 6811AF7E097364E6')):
        run.line('make ' + call(a, p, m, keys_of(a), message, bits) + ' %d' % size(m), 'made ' + answer)
    run.say('two blocks in algorithm 4')
    run.line('make ' + call(4, 3, 128, K + K1, '', 0) + ' 16', 'made 4 calls E43F42910128F6D7EA83ACFE2F6B3362')
    run.line('make ' + call(4, 2, 128, K + K1, ones, 128) + ' 16', 'made 4 calls 6EFA155411596610AB488508185BB691')
    run.say("algorithm 3 with K = K' gives algorithm 1's tag, and counts two calls more")
    run.line('make ' + call(3, 1, 128, K + K, abc, 24) + ' 16', 'made 3 calls 9054FCCFF72871FDAD5202C821DBEA05')
    run.line('make ' + call(1, 1, 128, K, abc, 24) + ' 16', 'made 1 calls 9054FCCFF72871FDAD5202C821DBEA05')

    run.say('algorithm 4 wants two blocks: 9')
    for p, bits, answer in ((1, 0, 9), (1, 1, 9), (1, 127, 9), (1, 128, 9), (1, 129, 0), (2, 0, 9), (2, 127, 9), (2, 128, 0),
                            (2, 129, 0), (3, 0, 0), (3, 1, 0), (3, 128, 0)):
        one = call(4, p, 64, K + K1, (ones + 'FF')[:2 * size(bits)], bits)
        run.line('make ' + one + ' 8', 'refused 9 untouched' if answer else None)
        if answer:
            run.line('check ' + one + ' ' + '00' * 8, 'refused 9')

    run.say('which padding goes with which algorithm')
    for a in range(1, 9):
        for p in range(6):
            good = p == 4 if a in FOUR else 1 <= p <= 3
            one = call(a, p, 32, keys_of(a), short, 129)
            run.line('make ' + one + ' 4', None if good else 'refused 2 untouched')

    run.say('how many bits each algorithm gives: every number at the borders')
    for a in range(1, 9):
        limit = 63 if a == 7 else 128
        p = 4 if a in FOUR else 2
        for m in (0, 1, limit, limit + 1, 4294967360):
            one = call(a, p, m, keys_of(a), short, 129)
            run.line('make ' + one + ' 17', None if 1 <= m <= limit else 'refused 3 untouched')
            if not 1 <= m <= limit:
                run.line('check ' + one + ' ' + '00' * 16, 'refused 3')

    run.say('numbers that no narrowing may let pass')
    for a in (0, 9, 257, 4294967297, 18446744073709551615):
        run.line('make ' + call(a, 1, 64, K, abc, 24) + ' 8', 'refused 1 untouched')
        run.line('check ' + call(a, 1, 64, K, abc, 24) + ' ' + '00' * 8, 'refused 1')
    for p in (257, 4294967297, 18446744073709551615):
        run.line('make ' + call(1, p, 64, K, abc, 24) + ' 8', 'refused 2 untouched')
    for m in (0, 129, 320, 4294967360, 18446744073709551615):
        run.line('make ' + call(1, 1, m, K, abc, 24) + ' 8', 'refused 3 untouched')
    for bits in (18446744073709551615, 18446744073709551609, 18446744073709551608, 9223372036854775808, 4294967296, 8388609, 1):
        run.line('make ' + call(1, 1, 64, K, '', bits) + ' 8', 'refused 7 untouched')
        run.line('check ' + call(1, 1, 64, K, '', bits) + ' ' + '00' * 8, 'refused 7')

    run.say('key bytes: 16 for one key and 32 for two')
    for count in (0, 15, 16, 17, 31, 32, 33, 64):
        keys = (K + K1 + K1 + K)[:2 * count]
        for a, p in ((1, 1), (2, 1), (3, 2), (4, 3), (5, 4), (6, 3), (7, 4), (8, 4)):
            if count != (32 if a in TWO else 16):
                run.line('make ' + call(a, p, 32, keys, abc, 24) + ' 4', 'refused 4 untouched')
    run.line('check ' + call(1, 1, 32, K + K1, abc, 24) + ' 00000000', 'refused 4')
    run.line('check ' + call(2, 1, 32, K, abc, 24) + ' 00000000', 'refused 4')

    run.say("keys that are the same: K = K' in 2, 4 and 6, and K = K'' in 4")
    for a in TWO:
        run.line('make ' + call(a, 2, 32, K + K, short, 129) + ' 4', None if a == 3 else 'refused 5 untouched')
        run.line('make ' + call(a, 2, 32, K + second(K), short, 129) + ' 4', 'refused 5 untouched' if a == 4 else None)
        run.line('make ' + call(a, 2, 32, K + turned(K, 127), short, 129) + ' 4')
        run.line('make ' + call(a, 2, 32, K + turned(second(K), 0), short, 129) + ' 4')
    run.line('check ' + call(4, 2, 32, K + second(K), short, 129) + ' 00000000', 'refused 5')

    run.say('the slice must have just the bytes of the bits: 7')
    for bits, count in ((0, 1), (1, 2), (7, 0), (8, 0), (8, 2), (9, 1), (9, 3), (128, 15), (128, 17), (129, 16)):
        run.line('make ' + call(1, 1, 32, K, 'A5' * count, bits) + ' 4', 'refused 7 untouched')

    e = data[1, 1, 2]
    run.say('the room: one byte too few gets 10; what lies past the tag stays EE')
    for m in (1, 8, 9, 12, 64, 127, 128):
        one = call(1, 1, m, K, e['msg'], 200)
        for room in (size(m) - 1, size(m), size(m) + 1, 32):
            tag = cut(e['g'], m)
            answer = made(1, 1, 200, tag + 'EE' * (room - size(m))) if size(m) <= room else 'refused 10 untouched'
            run.line('make ' + one + ' %d' % room, answer)
    run.say('a tag offered: just its bytes, else 10; a spare bit that is set, or any other bit turned, gets no')
    for m in (1, 8, 9, 12, 63, 64, 127, 128):
        one, tag = call(1, 1, m, K, e['msg'], 200), cut(e['g'], m)
        run.line('check ' + one + ' ' + tag, 'yes 2 calls')
        run.line('check ' + one + ' ' + (tag[:-2] or '-'), 'refused 10')
        run.line('check ' + one + ' ' + tag + '00', 'refused 10')
        for bit in sorted({0, m - 1, m, 8 * size(m) - 1}):
            if bit < 8 * size(m):
                run.line('check ' + one + ' ' + turned(tag, bit), 'no 2 calls')

    run.say('spare bits of the last message byte have no influence')
    for a, p in ((1, 1), (1, 2), (1, 3), (2, 1), (3, 1), (4, 1), (4, 2), (4, 3), (5, 4), (6, 2), (7, 4), (8, 4)):
        front, bits = (ones, 129) if a == 4 else ('', 1)
        one = ['make ' + call(a, p, 60, keys_of(a), front + byte, bits) + ' 8' for byte in ('80', 'FF', '81')]
        for line in one:
            run.line(line, asked(one[0]))

    run.say('tag lengths of algorithm 1, and every one of algorithm 7 on an incomplete message')
    for m in (*range(1, 18), *range(62, 67), *range(110, 129)):
        run.line('make ' + call(1, 1, m, K, e['msg'], 200) + ' %d' % size(m), made(1, 1, 200, cut(e['g'], m)))
    for m in range(1, 64):
        g = data[7, 4, 2]['g']
        run.line('make ' + call(7, 4, m, K, e['msg'], 200) + ' %d' % size(m), made(7, 4, 200, cut(g, m, True)))

    run.say('two faults at once: the earlier one answers (8 with a short message is 7 as well)')
    faults = {
        '1': {'a': 9}, '2': {'p': 4}, '3': {'m': 129}, '4': {'keys': K + K1 + '00'}, '5': {'keys': K + K},
        '7': {'message': '5A' * 16}, '8': {'bits': 8388609}, '9': {'message': '', 'bits': 0}, '10': {'room': 7}}
    good = {'a': 4, 'p': 1, 'm': 64, 'keys': K + K1, 'message': short, 'bits': 129, 'room': 8}

    def offer(it, answer):
        one = call(it['a'], it['p'], it['m'], it['keys'], it['message'], it['bits'])
        run.line('make ' + one + ' %d' % it['room'], answer and answer + ' untouched')
        run.line('check ' + one + ' ' + '00' * it['room'], answer)

    offer(good, None)
    for number, why, it in in_pairs(good, faults, lambda first, then: first != '8', {('7', '9'): {'message': '5A', 'bits': 0}}):
        run.say(why)
        offer(it, 'refused ' + number)
    run.say('all at once')
    everything = dict(good)
    for number in faults:
        everything.update(faults[number])
    offer(everything, 'refused 1')

    run.say('digits of either case, and numbers with zeros before them')
    one = 'make 1 1 64 %s %s' % (K, abc)
    same = made(1, 1, 24, '9054FCCFF72871FD')
    for line in (one + ' 24 8', one + ' 0000000000000000000000024 008', 'make 01 1 64 %s %s 24 8' % (K.lower(), abc)):
        run.line(line, same)
    run.store()


# ---- pseudo-random cases

def cases():
    for name, seed in (('cases', '1'), ('cases_2', '2')):
        run = Run(name, 'pseudo-random calls to make and to check')
        for line in reference('commands', 'call', seed, '225').splitlines():
            run.line(line)
        run.store()
