# Writes the texts checks, checking and checking_2: sessions that check a tag.
from .common import K, K1, MOST, Run, TWO, ZERO, calls, cut, in_pairs, keys_of, made, size, sizes, tag_in, turned, vectors
from .records import CLOSED, forged, record
from .sessions import pieces


class Checks(Run):
    def kept(self, phase, *lines):
        """Calls that are refused or change nothing: after each of them the record is the same."""
        for line, answer in lines:
            self.steps((line, answer + ', ' + phase), ('same', 'same, ' + phase))

    def begin(self, a, p, m, keys, declared, tag, answer='accepted, edge'):
        self.line('start_check %d %d %d %s %d %s' % (a, p, m, keys or '-', declared, tag or '-'), answer)

    def end(self, word, a, p, bits):
        self.line('finish_check', '%s %d calls, closed' % (word, calls(a, p, bits)))

    def bytewise(self, word, good, a, p, m, keys, message, bits, tag):
        """So many of the turned tags get no; the message with its first bit turned gets it too, where it has one."""
        count = calls(a, p, bits)
        answer = '%s %d calls, %d of %d turned: no, message turned: %s %d calls' % (
            word, count, good, 8 * size(m), 'no' if bits else word, count)
        self.line('bytewise %d %d %d %s %s %d %s' % (a, p, m, keys, message or '-', bits, tag), answer)


def annex_checks():
    run = Checks('checks', 'the tags of annex A checked in sessions byte by byte, each as printed and with one bit turned')
    for i, e in enumerate(vectors):
        a, p, bits = e['alg'], e['pad'], e['bits']
        m, tag = (63, sizes(e)[1]) if a == 7 else (64, e['tag'])
        run.say('%s, padding %d, data %d, byte by byte: the printed tag, and one bit of it turned'
                % (e['section'], p, e['data_string']))
        for offered, word in ((tag, 'yes'), (turned(tag, (7 * i) % m), 'no')):
            run.begin(a, p, m, e['keys'], bits, offered)
            for line in pieces(e['msg'], bits, range(1, size(bits))):
                run.line(line, 'accepted, edge')
            run.end(word, a, p, bits)
    run.say('every entry byte by byte: the printed tag and block, each bit of them turned, and the first bit of the message turned')
    for e in vectors:
        a, p, bits = e['alg'], e['pad'], e['bits']
        for m, tag in (sizes(e),) if a == 7 else ((64, e['tag']), sizes(e)):
            run.bytewise('yes', 8 * size(m), a, p, m, e['keys'], e['msg'], bits, tag)
    run.say('the same with a wrong tag: one of its bits turned makes it right')
    for e in vectors[::3]:
        m, tag = sizes(e)
        run.bytewise('no', 8 * size(m) - 1, e['alg'], e['pad'], m, e['keys'], e['msg'], e['bits'], turned(tag, m // 2))
    run.say('appendix R4 and R5: no bits, and one bit')
    for a, p, message, bits, tag in (
            (1, 1, '', 0, '2677F46B09C122CC975533105BD4A22A'), (5, 4, '', 0, '29E154322E5C7BD8EE6A25BA549B24BC'),
            (4, 3, '', 0, 'E43F42910128F6D7EA83ACFE2F6B3362'), (6, 1, 'FF', 1, '32A9B595071FB6A555C318906399D419')):
        run.bytewise('yes', 128, a, p, 128, keys_of(a), message, bits, tag)
    run.store()


def checking():
    run = Checks('checking', 'the rules of sessions that check a tag')
    e = vectors[0]
    printed = [(f, *sizes(f)) for f in vectors if f['data_string'] == 2]
    run.say('at first there is nothing to finish')
    run.kept('closed', ('finish_check', 'refused 11'))
    check_starts(run)

    run.say('what a start leaves: the purpose, the tag as it was given, spare bits too, then zeros; all else as after a making start')
    h = {(f['alg'], f['pad']): f['chain'] for f in vectors if f['data_string'] == 1}
    for a, p, declared, kept, chain in (
            (1, 1, 77, 0, ZERO), (2, 2, 77, 0, ZERO), (1, 3, 256, 256, h[1, 3]['H_1']), (4, 3, 256, 256, h[4, 3]['H_1']),
            (5, 4, 77, 0, ZERO), (8, 4, 77, 0, h[8, 4]['H_0']), (7, 4, MOST + 1, 0, ZERO)):
        for m, tag in ((60, 'FF' * 8), (3, 'A7')):
            run.begin(a, p, m, keys_of(a), declared, tag)
            run.kept('edge', ('aim 1 ' + tag, 'aimed'))
            run.steps(('aim 0 -', 'aimed, edge'), ('same', 'changed, edge'))
            run.kept('edge', (record(1, 0, a, p, m, kept, 0, K, K1 if a in TWO else ZERO, chain, ZERO), 'forged'))
        run.line('start %d %d 60 %s %d' % (a, p, keys_of(a), declared), 'accepted, edge')
        run.kept('edge', ('aim 0 -', 'aimed'))

    run.say('a finish of the other purpose gets 11, before 12, 9 and 10, and leaves the session, which then ends as it should')
    for f, m, tag in printed:
        a, p = f['alg'], f['pad']
        other, wrong = ('finish_check', 'refused 11'), ('finish %d' % size(m), 'refused 11 untouched')
        run.line('start %d %d %d %s 200' % (a, p, m, f['keys']), 'accepted, edge')
        run.kept('edge', other)
        run.line('piece %s 200' % f['msg'], 'accepted, edge')
        run.kept('edge', other)
        run.line('finish %d' % size(m), made(a, p, 200, tag) + ', closed')
        for offered, word in ((tag, 'yes'), (turned(tag, a), 'no')):
            run.begin(a, p, m, f['keys'], 200, offered)
            run.kept('edge', wrong)
            for line in pieces(f['msg'], 200, [16]):
                run.line(line, 'accepted, edge')
                run.kept('edge', wrong, ('finish %d' % (size(m) - 1), 'refused 11 untouched'), ('aim 1 ' + offered, 'aimed'))
            run.end(word, a, p, 200)
    run.say('yes and no both close the session, and nothing is left in the record')
    for tag, word in ((e['tag'], 'yes'), (turned(e['tag'], 63), 'no'), (ZERO[:16], 'no')):
        run.begin(1, 1, 64, K, 0, tag)
        run.line('piece %s 256' % e['msg'], 'accepted, edge')
        run.end(word, 1, 1, 256)
        run.kept('closed', (CLOSED, 'forged'), ('finish_check', 'refused 11'), ('finish 8', 'refused 11 untouched'),
                 ('piece - 0', 'refused 11'))

    run.say('two faults at the finish of a check, in the order 11, 12, 9: the earlier one answers; the same at the other finish')
    short = record(1, 0, 1, 3, 64, 9, 8, K, ZERO, ZERO, '61' + ZERO[2:])
    few = record(1, 0, 4, 1, 64, 0, 8, K, K1, ZERO, '61' + ZERO[2:])
    run.steps((short.replace('forge 1', 'forge 0'), 'forged, closed'), ('aim 1 -', 'aimed, closed'))
    run.kept('closed', ('finish_check', 'refused 11'))
    for before, number in ((short, 12), (few, 9)):
        run.line(before, 'forged, edge')
        run.kept('edge', ('finish_check', 'refused 11'), ('finish 8', 'refused %d untouched' % number))
        run.line('aim 1 -', 'aimed, edge')
        run.kept('edge', ('finish_check', 'refused %d' % number), ('finish 7', 'refused 11 untouched'))
    check_ends(run, printed)
    check_bits(run, e)

    run.say('the longest message, appendix R7, and one bit more')
    run.begin(1, 1, 128, K, 0, '52E7B8DB5C984966E56E4943745D6392')
    run.line('zeros 65536 16', 'accepted, edge')
    run.kept('edge', ('piece 00 1', 'refused 8'), ('finish 16', 'refused 11 untouched'))
    run.line('finish_check', 'yes 65536 calls, closed')
    run.store()

    run = Checks('checking_2', 'records of any content, for checking')
    forged(run, 'aim 1 ' + '5A' * 16)
    run.store()


def check_starts(run):
    """What a start refuses, each fault alone and any two at once."""
    run.say('what a start refuses, in the order 1 to 5, 8 for a declared length under padding 3, 10 for a tag of another length')
    faults = {
        '1': {'a': 9}, '2': {'p': 4}, '3': {'m': 129}, '4': {'keys': K + K1 + '00'}, '5': {'keys': K + K},
        '8': {'declared': MOST + 1}, '10': {'tag': '00' * 7}}
    good = {'a': 2, 'p': 3, 'm': 64, 'keys': K + K1, 'declared': 24, 'tag': '00' * 8}
    for number, fault in faults.items():
        run.begin(**good)
        run.begin(**{**good, **fault}, answer='refused %s, closed' % number)
        run.line('same', 'changed, closed')
        run.kept('closed', (CLOSED, 'forged'))
    for number, why, both in in_pairs(good, faults):
        run.say('start_check: ' + why)
        run.begin(**both, answer='refused %s, closed' % number)
    run.say('a tag must have just the bytes of its bits; a declared length is read under padding 3 alone')
    for a, p, m in ((1, 1, 1), (1, 2, 8), (5, 4, 9), (8, 4, 64), (7, 4, 63), (1, 1, 120), (6, 3, 128)):
        for count in sorted({0, 1, size(m) - 1, size(m), size(m) + 1, 16, 17, 32}):
            run.begin(a, p, m, keys_of(a), 0 if p == 3 else MOST + 1, 'FF' * count,
                      'accepted, edge' if count == size(m) else 'refused 10, closed')


def check_ends(run, printed):
    """Refused calls in between, and sessions turned to the other purpose."""
    run.say('too few blocks get 9; one bit more, or one byte, and it is yes')
    ones = 'FF' * 16
    for p, message, more, phase, tag in (
            (1, ones, '80 1', 'part 1', tag_in('make 4 1 128 %s %s 129 16' % (K + K1, ones + '80'))),
            (2, ones[:-2], 'FF 8', 'edge', '6EFA155411596610AB488508185BB691')):
        run.begin(4, p, 128, K + K1, 0, tag)
        run.kept('edge', ('finish_check', 'refused 9'))
        run.line('piece %s %d' % (message, 4 * len(message)), 'accepted, edge')
        run.kept('edge', ('finish_check', 'refused 9'), ('finish 16', 'refused 11 untouched'))
        run.steps(('piece ' + more, 'accepted, ' + phase), ('finish_check', 'yes 4 calls, closed'))

    run.say('a declared length: pieces past it and an end before it get 12; a part byte ends the message; then it is yes')
    for a in (1, 4):
        run.begin(a, 3, 64, keys_of(a), 20, tag_in('make %d 3 64 %s 616260 20 8' % (a, keys_of(a))))
        run.kept('edge', ('finish_check', 'refused 12'), ('piece 616263 24', 'refused 12'))
        run.line('piece 6162 16', 'accepted, edge')
        run.kept('edge', ('finish_check', 'refused 12'), ('piece 63 5', 'refused 12'), ('piece 63 16', 'refused 7'))
        run.line('piece 6F 4', 'accepted, part 4')
        run.kept('part 4', ('piece 80 1', 'refused 11'), ('piece 80 0', 'refused 7'), ('piece - 0', 'accepted'),
                 ('finish 8', 'refused 11 untouched'))
        run.end('yes', a, 3, 20)

    run.say('refused calls strewn in change nothing: each entry of annex A with data 2')
    strewn = (('piece 6162 8', 'refused 7'), ('piece - 9', 'refused 7'), ('finish 16', 'refused 11 untouched'),
              ('finish 0', 'refused 11 untouched'))
    for f, m, tag in printed:
        run.begin(f['alg'], f['pad'], m, f['keys'], 200, tag)
        for call, line in zip(strewn, pieces(f['msg'], 200, [7, 16, 21])):
            run.kept('edge', call, *([('finish_check', 'refused 12')] if f['pad'] == 3 else []))
            run.line(line, 'accepted, edge')
        run.end('yes', f['alg'], f['pad'], 200)

    run.say('sessions turned to the other purpose on their way: a making one then checks a tag, and a checking one makes it')
    for f, m, tag in printed:
        one, two = pieces(f['msg'], 200, [13])
        call = '%d %d %d %s 200' % (f['alg'], f['pad'], m, f['keys'])
        run.steps(('start ' + call, 'accepted, edge'), (one, 'accepted, edge'), ('aim 1 ' + tag, 'aimed, edge'),
                  ('same', 'changed, edge'), (two, 'accepted, edge'))
        run.kept('edge', ('finish %d' % size(m), 'refused 11 untouched'))
        run.end('yes', f['alg'], f['pad'], 200)
        wrong = turned(tag, 0)
        run.steps(('start_check %s %s' % (call, wrong), 'accepted, edge'), (one, 'accepted, edge'), ('aim 0 ' + wrong, 'aimed, edge'),
                  ('same', 'changed, edge'), (two, 'accepted, edge'))
        run.kept('edge', ('finish_check', 'refused 11'))
        run.line('finish %d' % size(m), made(f['alg'], f['pad'], 200, tag) + ', closed')


def check_bits(run, e):
    """Which bits of the expected bytes are looked at."""
    run.say('spare bits of the tag that are set stay so, and the answer is no; bytes past the tag are not looked at')
    seven = next(f for f in vectors if f['alg'] == 7 and f['data_string'] == 2)
    rows = [(e, m, cut(e['g'], m)) for m in (1, 7, 8, 9, 60, 63, 64, 120, 121, 127, 128)]
    for f, m, tag in rows + [(seven, m, cut(seven['g'], m, True)) for m in (1, 12, 56, 63)]:
        a, p, bits = f['alg'], f['pad'], f['bits']
        spare, after = 8 * size(m) - m, 16 - size(m)
        wrong = [turned(tag, m - 1)] + [turned(tag, 8 * size(m) - 1)] * (spare > 0)
        wrong += ['%0*X' % (len(tag), int(tag, 16) + 2 ** spare - 1)] * (spare > 1)
        for offered, word in ((tag, 'yes'), *((other, 'no') for other in wrong)):
            run.begin(a, p, m, f['keys'], bits, offered)
            run.line('piece %s %d' % (f['msg'], bits), 'accepted, edge')
            run.kept('edge', ('aim 1 ' + offered, 'aimed'))
            if after:
                run.steps(('aim 1 ' + offered + 'FF' * after, 'aimed, edge'), ('same', 'changed, edge'))
                run.kept('edge', ('piece - 0', 'accepted'))
            run.end(word, a, p, bits)
