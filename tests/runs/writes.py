# Writes the texts writes and writes_2: lot slips written.
from .common import ALL, K, K1, Run, TWO, calls, in_pairs, keys_of, reference, second, size
from .slip_parts import A7, LONG_LOT, PART, R6, Slips, accepted, command, covered, digits, sealed


class Writes(Run):
    def ask(self, a, p, m, keys, date, lot, amount, room, answer):
        self.line('write %d %d %d %s %d %d %d %s %d %d' % (a, p, m, keys or '-', *date, lot or '-', amount, room), answer)

    def no(self, number, a=5, p=4, m=64, keys=K, date=(2026, 11, 4), lot=digits('A7'), amount=500, room=96):
        self.ask(a, p, m, keys, date, lot, amount, room, 'refused %d untouched' % number)

    def gives(self, slip, a=5, p=4, m=64, keys=K, date=(2026, 11, 4), lot=digits('A7'), amount=500, more=0):
        """A slip known beforehand, written into a room with so many bytes more than it has."""
        length = 27 + len(lot) // 2 + size(m)
        answer = 'written %d bytes %d calls %s' % (length, calls(a, p, 8 * (21 + len(lot) // 2)), slip + 'EE' * more)
        self.ask(a, p, m, keys, date, lot, amount, length + more, answer)

    def yes(self, a=5, p=4, m=64, keys=K, date=(2026, 11, 4), lot=digits('A7'), amount=500, more=0):
        """A slip that is written, and read back under the same agreement."""
        day = '%04d%02d%02d' % date
        slip = sealed(covered(day, lot, amount), a, p, m, keys)
        self.gives(slip, a, p, m, keys, date, lot, amount, more)
        self.line(command('slip', slip, keys, (a, p, m)), accepted(a, p, day, lot, amount))


def writes():
    run = Writes('writes', 'lot slips written, every answer known beforehand')
    yes, no = run.yes, run.no
    run.say('appendix R6: the bytes as they stand there, and what is read from them; then rooms of 0 bytes, one short, five more')
    for a, p, m, keys, rest, count in R6:
        run.gives(PART + rest, a, p, m, keys)
        run.line(command('slip', PART + rest, keys, (a, p, m)), A7 % count)
        for room in (0, 26 + 2 + size(m)):
            no(10, a, p, m, keys, room=room)
        run.gives(PART + rest, a, p, m, keys, more=5)

    run.say('each refusal by a write of its own: 22 (lot), 22 (amount), 23, 1, 2, 3, 4, 5, 10')
    no(22, lot=digits('A 7'))
    no(22, amount=0)
    no(23, date=(2026, 11, 31))
    no(1, a=9)
    no(2, p=1)
    no(3, m=0)
    no(4, keys=K + K1)
    no(5, 2, 1, keys=K + K)
    no(10, room=36)

    run.say('every algorithm and padding with its longest tag: an incomplete last block, a complete one, the longest lot')
    for lot in (digits('A7'), digits('lot-of-week'), LONG_LOT):
        for a, p in ALL:
            yes(a, p, 63 if a == 7 else 128, keys_of(a), lot=lot)
    run.say('the longest slip has 75 bytes; one byte short, and all the room there is')
    no(10, 4, 3, 128, K + K1, lot=LONG_LOT, room=74)
    yes(4, 3, 128, K + K1, lot=LONG_LOT, more=21)

    write_values(run)
    write_settings(run)
    write_order(run)

    run.say('slips of the text slips that were accepted there, written again from their fields and settings')
    for a, p, m, keys, fields, slip in Slips.whole[::9]:
        day = fields.get('day', '20261104')
        lot, amount = fields.get('lot', digits('A7')), fields.get('amount', 500)
        run.line(command('slip', slip, keys, (a, p, m)), accepted(a, p, day, lot, amount))
        run.gives(slip, a, p, m, keys, (int(day[:4]), int(day[4:6]), int(day[6:])), lot, amount)
    run.store()


def write_values(run):
    """What a slip may say, at the borders, and numbers that are right in their lowest byte or bytes alone."""
    yes, no = run.yes, run.no
    run.say('lot: 1 and 32 bytes; 0, 33, 64 and 258')
    yes(lot='41')
    yes(lot=LONG_LOT)
    no(22, lot='')
    for count in (33, 64, 258):
        no(22, lot='41' * count)
    run.say('lot: bytes 21 and 7E; 20 and 7F, alone and beside others')
    yes(lot='21')
    yes(lot='7E')
    yes(lot='217E217E')
    for byte in ('00', '20', '7F', '80', 'A1', 'FF'):
        for lot in (byte, byte + '4142', '41' + byte + '42', '4142' + byte, LONG_LOT[:-2] + byte):
            no(22, lot=lot)
    run.say('amount: 1 to 1,000,000')
    for amount in (1, 255, 256, 65536, 999999, 1000000):
        yes(amount=amount)
    for amount in (0, 1000001, 1000002, 2**24, 2**32 - 1, 2**32, 2**32 + 1, 2**32 + 500, 2**63 + 500, 2**64 - 1):
        no(22, amount=amount)
    run.say('date: years 2000 to 2099')
    for date in ((2000, 1, 1), (2099, 12, 31), (2009, 9, 9)):
        yes(date=date)
    for year in (0, 26, 1999, 2100, 2026 + 2**8, 2026 + 2**16, 4294969322, 2026 + 2**63, 2**64 - 1):
        no(23, date=(year, 11, 4))
    run.say('date: 29 February')
    for year in (2000, 2024, 2096):
        yes(date=(year, 2, 29))
        no(23, date=(year, 2, 30))
    for year in (2001, 2023, 2026, 2099):
        yes(date=(year, 2, 28))
        no(23, date=(year, 2, 29))
    run.say('date: the last day of every month, and the day after it')
    for month, days in enumerate((31, 28, 31, 30, 31, 30, 31, 31, 30, 31, 30, 31)):
        yes(date=(2026, month + 1, days))
        no(23, date=(2026, month + 1, days + 1))
    run.say('date: months and days that are none, and the parts in another order')
    for month in (0, 13, 11 + 2**8, 11 + 2**32, 11 + 2**63, 2**64 - 1):
        no(23, date=(2026, month, 4))
    for day in (0, 32, 4 + 2**8, 4 + 2**32, 4 + 2**63, 2**64 - 1):
        no(23, date=(2026, 11, day))
    for date in ((4, 11, 2026), (2026, 31, 10), (0, 0, 0)):
        no(23, date=date)


def write_settings(run):
    """What was agreed and the keys, at the borders."""
    yes, no = run.yes, run.no
    run.say('algorithms, paddings and m that no seal may name, and numbers that are right in their lowest byte or bytes alone')
    for a in (0, 9, 255, 5 + 2**8, 5 + 2**32, 5 + 2**63):
        no(1, a=a)
    for p in (0, 1, 3, 5, 4 + 2**8, 4 + 2**32):
        no(2, p=p)
    for a in (1, 2, 3, 4, 6):
        no(2, a, 4, keys=keys_of(a))
    for m in (0, 129, 255, 64 + 2**8, 64 + 2**32, 2**64 - 8):
        no(3, m=m)
    run.say('m: 1 to 128, in algorithm 7 to 63')
    for m in (1, 7, 8, 9, 127, 128):
        yes(m=m)
    for m in (1, 62, 63):
        yes(7, 4, m)
    for m in (64, 128):
        no(3, 7, 4, m)
    run.say('keys: 16 bytes for one and 32 for two, and none that are the same')
    for count in (0, 1, 15, 17, 32):
        no(4, keys=(K + K1)[:2 * count])
    for a in TWO:
        for count in (0, 16, 31, 33):
            no(4, a, 1, keys=(K + K1 + K)[:2 * count])
        for other in (K, second(K)):
            if a == 4 or (a, other) in ((2, K), (6, K)):
                no(5, a, 2, keys=K + other)
            else:
                yes(a, 2, 64, K + other)


def write_order(run):
    """Two faults at once: the earlier one answers."""
    run.say('two faults at once, in the order 22, 23, 1, 2, 3, 4, 5, 10: the earlier one answers')
    good = {'a': 2, 'p': 1, 'm': 64, 'keys': K + K1, 'date': (2026, 11, 4), 'lot': digits('A7'), 'amount': 500}
    run.yes(**good)
    good['room'] = 37
    faults = {
        '22 (lot)': {'lot': digits('A ')}, '22 (amount)': {'amount': 0}, '23': {'date': (2023, 2, 29)},
        '1': {'a': 9}, '2': {'p': 7}, '3': {'m': 129}, '4': {'keys': K + K1 + '00'}, '5': {'keys': K + K}, '10': {'room': 36}}
    for number, why, both in in_pairs(good, faults):
        run.say('write: ' + why)
        run.no(int(number), **both)
    run.say('write: all at once')
    everything = dict(good)
    for fault in faults.values():
        everything.update(fault)
    run.no(22, **everything)


def random_writes():
    run = Writes('writes_2', 'pseudo-random lot slips written; what is written is read back')
    lines = reference('commands', 'write', '1', '200')
    for line, answer in zip(lines.splitlines(), reference('answer', text=lines).splitlines()):
        words = line.split(' ')
        if ' -> written ' in answer:
            a, p, m, year, month, day, amount, room = (int(words[i]) for i in (1, 2, 3, 5, 6, 7, 9, 10))
            keys, lot = words[4], words[8]
            run.yes(a, p, m, keys, (year, month, day), lot, amount, room - (27 + len(lot) // 2 + size(m)))
        else:
            run.line(line)
    run.store()
