# Writes the texts pieces, two_pieces, sessions, cuts and longest: sessions that make a tag.
from .common import ALL, K, K1, MOST, Run, TWO, ZERO, asked, calls, drawing, keys_of, made, second, size, sizes, turned, vectors
from .records import CLOSED, forged, record


def pieces(message, bits, cuts):
    """The pieces of a message cut at these bytes."""
    ends = [*cuts, size(bits)]
    begin = 0
    for end in ends:
        yield 'piece %s %d' % (message[2 * begin:2 * end] or '-', min(8 * end, bits) - min(8 * begin, bits))
        begin = end


def annex_pieces():
    run = Run('pieces', 'the 36 tags of annex A as sessions fed byte by byte')
    for e in vectors:
        a, p, bits, message = e['alg'], e['pad'], e['bits'], e['msg']
        m, tag = (63, sizes(e)[1]) if a == 7 else (64, e['tag'])
        declared = bits if p == 3 else 0
        run.say('%s, padding %d, data %d, byte by byte; the record before the end has the printed chain value'
                % (e['section'], p, e['data_string']))
        run.line('start %d %d %d %s %d' % (a, p, m, e['keys'], declared), 'accepted, edge')
        for line in pieces(message, bits, range(1, size(bits))):
            run.line(line, 'accepted, edge')
        # algorithms 2 and 3 have algorithm 1's chain, and the standard prints it there alone
        printed = next(f for f in vectors if (f['alg'], f['pad'], f['bits']) == (1 if a in (2, 3) else a, p, bits))
        chain = printed['chain']['H_%d' % ((bits - 1) // 128 + (p == 3))]
        held = (message[32:] + ZERO)[:32]
        run.line(record(1, 0, a, p, m, declared, bits, e['keys'][:32], e['keys'][32:] or ZERO, chain, held), 'forged, edge')
        run.line('same', 'same, edge')
        run.line('finish 8', made(a, p, bits, tag) + ', closed')
    run.say('after a good finish nothing is left in the record')
    run.line(CLOSED, 'forged, closed')
    run.line('same', 'same, closed')
    run.store()

    run = Run('two_pieces', 'annex A as sessions of two pieces, cut at every byte')
    for a in range(1, 9):
        run.say('algorithm %d, data 2 in two pieces, cut at every byte' % a)
        mine = [e for e in vectors if e['alg'] == a and e['data_string'] == 2]
        for at in range(26):
            e = mine[at % len(mine)]
            m, tag = sizes(e)
            run.line('start %d %d %d %s %d' % (a, e['pad'], m, e['keys'], 200), 'accepted, edge')
            for line in pieces(e['msg'], 200, [at]):
                run.line(line, 'accepted, edge')
            run.line('finish %d' % size(m), made(a, e['pad'], 200, tag) + ', closed')
    for e in vectors:
        if e['data_string'] == 1:
            m, tag = sizes(e)
            run.say('algorithm %d, padding %d, data 1 in two pieces, cut at the ends and at the block' % (e['alg'], e['pad']))
            for at in (0, 16, 32):
                run.line('start %d %d %d %s %d' % (e['alg'], e['pad'], m, e['keys'], 256), 'accepted, edge')
                for line in pieces(e['msg'], 256, [at]):
                    run.line(line, 'accepted, edge')
                run.line('finish %d' % size(m), made(e['alg'], e['pad'], 256, tag) + ', closed')
    run.say('every entry cut at every byte: how many of these sessions end with the printed tag and its calls')
    for e in vectors:
        m, tag = sizes(e)
        count = calls(e['alg'], e['pad'], e['bits'])
        line = 'halves %d %d %d %s %s ' % (e['alg'], e['pad'], m, e['keys'], e['msg'])
        cuts = size(e['bits']) + 1
        run.line(line + '%d %s' % (count, tag), '%d of %d cuts' % (cuts, cuts))
        if e['data_string'] == 2:
            run.line(line + '%d %s' % (count, turned(tag, 0)), '0 of %d cuts' % cuts)
            run.line(line + '%d %s' % (count + 1, tag), '0 of %d cuts' % cuts)
    run.store()


def sessions():
    run = Run('sessions', 'the rules of sessions, and records of any content')
    ones, a_byte = 'FF' * 16, '61' + '00' * 15
    steps = run.steps

    run.say('at first, and after a refused start, the session is closed and zero')
    steps(('same', 'same, closed'), ('piece - 0', 'refused 11, closed'), ('same', 'same, closed'),
          ('finish 16', 'refused 11 untouched, closed'), ('same', 'same, closed'), (CLOSED, 'forged, closed'),
          ('same', 'same, closed'))
    start = 'start 1 1 64 %s 0' % K
    steps((start, 'accepted, edge'), ('same', 'changed, edge'), ('piece 61 8', 'accepted, edge'), ('same', 'changed, edge'),
          ('start 9 1 64 %s 0' % K, 'refused 1, closed'), ('same', 'changed, closed'), (CLOSED, 'forged, closed'),
          ('same', 'same, closed'))

    run.say('what a start refuses, in this order: 1 to 5, then 8 for a declared length under padding 3')
    for a, p, m, keys, declared, no in (
            (0, 3, 64, K, MOST + 1, 1), (9, 3, 0, K, MOST + 1, 1), (257, 3, 64, K, 0, 1), (1, 4, 0, '', MOST + 1, 2), (5, 3, 64, K, MOST + 1, 2),
            (1, 3, 0, '', MOST + 1, 3), (7, 4, 64, K, 0, 3), (1, 3, 129, K, MOST + 1, 3), (1, 1, 4294967360, K, 0, 3),
            (1, 3, 64, K[:30], MOST + 1, 4), (2, 3, 64, K + K + '00', MOST + 1, 4), (1, 3, 64, K + K1, 8, 4), (2, 3, 64, K, 8, 4),
            (2, 3, 64, K + K, MOST + 1, 5), (4, 3, 64, K + second(K), MOST + 1, 5), (6, 1, 64, K + K, 0, 5), (1, 3, 64, K, MOST + 1, 8),
            (4, 3, 64, K + K1, 18446744073709551615, 8), (1, 3, 64, K, 18446744073709551615, 8)):
        run.line('start %d %d %d %s %d' % (a, p, m, keys or '-', declared), 'refused %d, closed' % no)
    for a, p, keys, declared in ((1, 3, K, MOST), (1, 1, K, MOST + 1), (2, 2, K + K1, 18446744073709551615),
                                 (5, 4, K, 18446744073709551615), (3, 1, K + K, 0), (2, 1, K + second(K), 0)):
        run.line('start %d %d 32 %s %d' % (a, p, keys, declared), 'accepted, edge')

    run.say('what a start leaves: no second key where there is none, no declared length but under padding 3; the printed values')
    h = {(e['alg'], e['pad']): e['chain'] for e in vectors if e['data_string'] == 1}
    for a, p, declared, kept, chain in (
            (1, 1, 77, 0, ZERO), (2, 2, 77, 0, ZERO), (1, 3, 256, 256, h[1, 3]['H_1']), (4, 3, 256, 256, h[4, 3]['H_1']),
            (5, 4, 77, 0, ZERO), (8, 4, 77, 0, h[8, 4]['H_0']), (7, 4, MOST + 1, 0, ZERO)):
        k1 = K1 if a in TWO else ZERO
        steps(('start %d %d 60 %s %d' % (a, p, keys_of(a), declared), 'accepted, edge'),
              (record(1, 0, a, p, 60, kept, 0, K, k1, chain, ZERO), 'forged, edge'), ('same', 'same, edge'))

    run.say('a part byte: no bits may follow (11), a byte with no bits gets 7, an empty piece is accepted; its spare bits are cut off')
    for byte in ('FF', 'E0', 'E1'):
        steps((start, 'accepted, edge'), ('piece - 0', 'accepted, edge'), ('piece %s 3' % byte, 'accepted, part 3'),
              (record(2, 3, 1, 1, 64, 0, 3, K, ZERO, ZERO, 'E0' + '00' * 15), 'forged, part 3'), ('same', 'same, part 3'),
              ('piece 80 1', 'refused 11, part 3'), ('same', 'same, part 3'), ('piece - 1', 'refused 11, part 3'),
              ('piece - 18446744073709551615', 'refused 11, part 3'), ('same', 'same, part 3'), ('piece 80 0', 'refused 7, part 3'),
              ('same', 'same, part 3'), ('piece - 0', 'accepted, part 3'), ('same', 'same, part 3'),
              ('finish 7', 'refused 10 untouched, part 3'), ('same', 'same, part 3'),
              ('finish 9', asked('make 1 1 64 %s E0 3 9' % K) + ', closed'))
    run.say('every part byte, in a first, a full and a second block')
    for n in range(1, 8):
        for count in (0, 15, 16):
            whole = 'make 8 4 40 %s %s %d 5' % (K, 'A5' * count + '5B', 8 * count + n)
            steps(('start 8 4 40 %s 0' % K, 'accepted, edge'), ('piece %s %d' % ('A5' * count or '-', 8 * count), 'accepted, edge'),
                  ('piece 5B %d' % n, 'accepted, part %d' % n), ('finish 5', asked(whole) + ', closed'))

    run.say('the slice must have just the bytes of the bits: 7, before 8 and 12')
    steps((start, 'accepted, edge'))
    for piece in ('61 0', '- 1', '61 9', '6162 8', '- 18446744073709551615', '- 18446744073709551608', '61 8388609', '- 4294967296'):
        steps(('piece ' + piece, 'refused 7, edge'), ('same', 'same, edge'))
    steps(('start 1 3 64 %s 8' % K, 'accepted, edge'), ('piece 61 16', 'refused 7, edge'), ('same', 'same, edge'))

    run.say('too many bits: 8, before 12; the last bit that fits is taken')
    near = record(1, 0, 1, 1, 128, 0, MOST - 8, K, ZERO, a_byte, 'AB' * 15 + '00')
    steps((near, 'forged, edge'), ('piece 0102 16', 'refused 8, edge'), ('same', 'same, edge'), ('piece 0102 9', 'refused 8, edge'),
          ('piece CD 8', 'accepted, edge'), ('piece 80 1', 'refused 8, edge'), ('same', 'same, edge'), ('piece - 0', 'accepted, edge'),
          ('finish 16', None), (near, 'forged, edge'), ('piece CD 7', 'accepted, part 7'), ('finish 16', None))
    near = record(1, 0, 1, 3, 128, MOST, MOST - 8, K, ZERO, a_byte, 'AB' * 15 + '00')
    steps((near, 'forged, edge'), ('piece 0102 16', 'refused 8, edge'), ('same', 'same, edge'), ('finish 16', 'refused 12 untouched, edge'),
          ('piece CD 7', 'accepted, part 7'), ('finish 16', 'refused 12 untouched, part 7'), (near, 'forged, edge'),
          ('piece CD 8', 'accepted, edge'), ('finish 16', None))
    near = record(1, 0, 1, 3, 128, MOST - 8, MOST - 8, K, ZERO, a_byte, 'AB' * 15 + '00')
    steps((near, 'forged, edge'), ('piece 0102 16', 'refused 8, edge'), ('piece CD 8', 'refused 12, edge'), ('same', 'same, edge'))

    run.say('a declared length: pieces past it and an end before it get 12, and the session goes on')
    for a in (1, 4):
        steps(('start %d 3 64 %s 20' % (a, keys_of(a)), 'accepted, edge'), ('finish 8', 'refused 12 untouched, edge'), ('same', 'same, edge'),
              ('piece 616263 24', 'refused 12, edge'), ('same', 'same, edge'), ('piece 616263 21', 'refused 12, edge'),
              ('piece 61 8', 'accepted, edge'), ('finish 0', 'refused 12 untouched, edge'), ('same', 'same, edge'),
              ('piece 6263 16', 'refused 12, edge'), ('same', 'same, edge'), ('piece 62 8', 'accepted, edge'),
              ('piece 6F 4', 'accepted, part 4'), ('finish 7', 'refused 10 untouched, part 4'),
              ('finish 8', asked('make %d 3 64 %s 616260 20 8' % (a, keys_of(a))) + ', closed'))
    run.say('declared 0: any bits get 12, and the end works over two zero blocks')
    for a in (1, 2, 3, 4, 6):
        tag = 'made 4 calls E43F42910128F6D7EA83ACFE2F6B3362' if a == 4 else asked('make %d 3 128 %s - 0 16' % (a, keys_of(a)))
        steps(('start %d 3 128 %s 0' % (a, keys_of(a)), 'accepted, edge'), ('piece 80 1', 'refused 12, edge'), ('same', 'same, edge'),
              ('piece - 0', 'accepted, edge'), ('finish 16', tag + ', closed'))

    run.say('algorithm 4: too few blocks at the end get 9, before 10; one bit more, or one byte, and it passes')
    for p, message, more in ((1, ones, '80 1'), (2, ones[:-2], 'FF 8')):
        bits = 4 * len(message)
        steps(('start 4 %d 128 %s 0' % (p, K + K1), 'accepted, edge'), ('finish 16', 'refused 9 untouched, edge'), ('same', 'same, edge'),
              ('piece %s %d' % (message, bits), 'accepted, edge'), ('finish 16', 'refused 9 untouched, edge'), ('same', 'same, edge'),
              ('finish 0', 'refused 9 untouched, edge'), ('piece ' + more, 'accepted, part 1' if p == 1 else 'accepted, edge'),
              ('finish 15', 'refused 10 untouched, part 1' if p == 1 else 'refused 10 untouched, edge'),
              ('finish 16', 'made 4 calls 6EFA155411596610AB488508185BB691, closed' if p == 2
               else asked('make 4 1 128 %s %s 129 16' % (K + K1, ones + '80')) + ', closed'))
    steps(('start 4 2 64 %s 0' % (K + K1), 'accepted, edge'), ('piece %s 127' % ones, 'accepted, part 7'),
          ('finish 8', 'refused 9 untouched, part 7'), ('same', 'same, part 7'))

    run.say('after a good finish the session is closed and zero')
    steps((start, 'accepted, edge'), ('piece 616263 24', 'accepted, edge'), ('finish 8', 'made 1 calls 9054FCCFF72871FD, closed'),
          (CLOSED, 'forged, closed'), ('same', 'same, closed'), ('piece 61 8', 'refused 11, closed'), ('same', 'same, closed'),
          ('piece - 0', 'refused 11, closed'), ('piece 61 0', 'refused 11, closed'), ('finish 8', 'refused 11 untouched, closed'),
          ('same', 'same, closed'))

    run.say('two faults at a start, neighbours in the order 1 to 5, 8: the earlier one answers')
    for pair, words in (
            ((1, 2), '9 5 64 %s 0' % K), ((2, 3), '1 4 129 %s 0' % K), ((3, 4), '1 1 129 %s 0' % K[:30]), ((4, 5), '2 1 64 %s 0' % (K + K + '00')),
            ((5, 8), '2 3 64 %s %d' % (K + K, MOST + 1))):
        run.say('start: %d and %d' % pair)
        run.line('start ' + words, 'refused %d, closed' % pair[0])
    run.say('two faults at a piece, neighbours in the order 11, 7, 8, 12: the earlier one answers')
    near = record(1, 0, 1, 3, 64, MOST, MOST - 8, K, ZERO, a_byte, 'AB' * 15 + '00')
    for pair, before, piece, phase in (
            ((11, 7), CLOSED, '61 0', 'closed'), ((11, 7), record(2, 3, 1, 1, 64, 0, 3, K, ZERO, ZERO, 'E0' + ZERO[2:]), '61 9', 'part 3'),
            ((7, 8), record(1, 0, 1, 1, 64, 0, MOST, K, ZERO, a_byte, a_byte), '6162 8', 'edge'), ((8, 12), near, '6162 9', 'edge')):
        run.say('piece: %d and %d' % pair)
        steps((before, 'forged, ' + phase), ('piece ' + piece, 'refused %d, %s' % (pair[0], phase)), ('same', 'same, ' + phase))
    run.say('two faults at a finish, neighbours in the order 11, 12, 9, 10: the earlier one answers (12 is padding 3 alone, and 9 none of it)')
    for pair, before, phase in (
            ((11, 12), record(0, 0, 1, 3, 64, 9, 8, K, ZERO, ZERO, a_byte), 'closed'),
            ((12, 10), record(1, 0, 1, 3, 64, 9, 8, K, ZERO, ZERO, a_byte), 'edge'),
            ((9, 10), record(1, 0, 4, 1, 64, 0, 8, K, K1, ZERO, a_byte), 'edge')):
        run.say('finish: %d and %d' % pair)
        steps((before, 'forged, ' + phase), ('finish 7' if 10 in pair else 'finish 8', 'refused %d untouched, %s' % (pair[0], phase)),
              ('same', 'same, ' + phase))

    run.say('refused calls strewn in change nothing: each entry of annex A with data 2')
    for e in vectors:
        if e['data_string'] == 2:
            m, tag = sizes(e)
            lines = list(pieces(e['msg'], 200, [7, 16, 16, 21]))
            run.line('start %d %d %d %s 200' % (e['alg'], e['pad'], m, e['keys']), 'accepted, edge')
            for i, line in enumerate(lines):
                run.line(line, 'accepted, edge')
                run.line(('piece 6162 8', 'piece - 9', 'piece 61 0', 'piece - 8388609', 'finish %d' % (size(m) - 1))[i],
                         'refused 10 untouched, edge' if i == 4 else 'refused 7, edge')
                run.line('same', 'same, edge')
            run.line('finish %d' % size(m), made(e['alg'], e['pad'], 200, tag) + ', closed')
    forged(run)
    run.store()


def random_cuts():
    """A message of 300 bits, cut at pseudo-random bytes, under every algorithm and padding in turn: one tag for all cuts."""
    run = Run('cuts', 'a message of 300 bits in pseudo-random pieces: one tag, however it is cut')
    below, some_bytes = drawing(1)
    message = some_bytes(38)
    tags = {}
    run.say('the whole message in one call')
    for a, p in ALL:
        m = 63 if a == 7 else 128
        line = 'make %d %d %d %s %s 300 %d' % (a, p, m, keys_of(a), message, size(m))
        tags[a, p] = asked(line)
        run.line(line)
    for turn in range(220):
        a, p = ALL[turn % len(ALL)]
        m = 63 if a == 7 else 128
        cuts = sorted(below(39) for _ in range(1 + below(8)))
        run.say('cut at %s' % ', '.join(map(str, cuts)))
        run.line('start %d %d %d %s 300' % (a, p, m, keys_of(a)), 'accepted, edge')
        ended = False
        for line in pieces(message, 300, cuts):
            ended = ended or int(line.split()[2]) % 8 != 0
            run.line(line, 'accepted, part 4' if ended else 'accepted, edge')
        run.line('finish %d' % size(m), tags[a, p] + ', closed')
    run.store()


def longest():
    run = Run('longest', 'the longest message in pieces, and one bit more')
    run.say('appendix R7: 8,388,608 zero bits in pieces of 64 KiB, and one bit more')
    for line, answer in (
            ('start 1 1 128 %s 0' % K, 'accepted, edge'), ('zeros 65536 15', 'accepted, edge'), ('zeros 65536 1', 'accepted, edge'),
            ('same', 'changed, edge'), ('piece 00 1', 'refused 8, edge'), ('same', 'same, edge'), ('piece - 0', 'accepted, edge'),
            ('same', 'same, edge'), ('finish 16', 'made 65536 calls 52E7B8DB5C984966E56E4943745D6392, closed')):
        run.line(line, answer)
    run.store()
