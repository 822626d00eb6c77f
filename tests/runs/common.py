# What the files beside this one share: annex A's printed values, the reference, a text and how it is stored, what document 01 says
# of counts, keys and truncation, numbers drawn, and each two faults at once. By itself it writes nothing.
import os, subprocess, sys

TESTS = os.path.dirname(os.path.dirname(os.path.abspath(__file__)))
BINS = os.path.join(TESTS, 'reference', 'target', 'release')
CRATES = os.path.join(TESTS, '..', 'crates')

K = '0123456789ABCDEFFEDCBA9876543210'
K1 = '4149D2ADED9456681EC8B511D9E7EE04'  # K' of annex A
TWO = (2, 3, 4, 6)  # the algorithms that take K and K'
FOUR = (5, 7, 8)    # the algorithms that take padding 4
ALL = [(a, p) for a in range(1, 9) for p in ((4,) if a in FOUR else (1, 2, 3))]  # each algorithm with each padding that it takes
ZERO = '00' * 16
MOST = 8388608      # bits of the longest message


def annex_a():
    """The entries of annex A in its order: settings, keys, message, the printed tag, G and chain values."""
    texts = {1: b'This is the test message for mac', 2: b'This is the test message '}
    keys = {6: '4E595BF03F23BD10329BAF5698E898ECB3136C044E95482D4F652E694F2741CD'}  # K and K' of A.7, as printed there
    entries = {}
    for row in open(os.path.join(TESTS, 'reference', 'src', 'annex_a.txt')):
        kind, *words = row.split()
        if kind in ('tag', 'chain'):
            a, p, d = map(int, words[:3])
        if kind == 'tag':
            entries[a, p, d] = {
                'section': 'A.%d' % (a + 1), 'alg': a, 'pad': p, 'data_string': d, 'm': 64, 'tag': words[3], 'g': words[4], 'chain': {},
                'keys': keys.get(a, K + K1 if a in TWO else K), 'msg': texts[d].hex().upper(), 'bits': 8 * len(texts[d])}
        if kind == 'chain':
            entries[a, p, d]['chain'] = dict(zip(words[3::2], words[4::2]))
    return list(entries.values())


vectors = annex_a()


def reference(name, *words, text=''):
    run = subprocess.run([os.path.join(BINS, name), *words], input=text, capture_output=True, text=True, check=True)
    return run.stdout


def write(crate, name, text):
    with open(os.path.join(CRATES, crate, name), 'w') as f:
        f.write(text)


def asked(line):
    """The reference's answer to one command."""
    return reference('answer', text=line + '\n').rstrip('\n').split(' -> ')[1]


def tag_in(line):
    """The tag that the reference makes, in a room that it fills."""
    return asked(line).split(' ')[3]


class Run:
    stored = []  # the names of the texts, and all answers, in the order of the run
    answers = ''

    def __init__(self, name, what):
        self.name, self.lines, self.wanted = name, [], []
        self.line('# == %s: %s' % (name, what), '')

    def say(self, text):
        """A remark."""
        self.line('# ' + text, '')

    def line(self, line, answer=None):
        """A command, with its answer where the standard or the documents give it."""
        self.lines.append(line)
        self.wanted.append(answer)

    def steps(self, *lines):
        for line, answer in lines:
            self.line(line, answer)

    def store(self):
        text = ''.join(line + '\n' for line in self.lines)
        given = reference('answer', text=text).split('\n')
        out = []
        for line, want, got in zip(self.lines, self.wanted, given):
            if want:
                want = line + ' -> ' + want
            elif want == '':
                want = line
            else:
                want = got
            if want != got:
                sys.exit('%s: the reference differs:\n%s\n%s' % (self.name, want, got))
            if got.endswith(' -> error'):
                sys.exit('%s: no command: %s' % (self.name, line))
            out.append(want + '\n')
        if len(text) > 64 * 1024:
            sys.exit('%s: %d bytes of input' % (self.name, len(text)))
        write('test_cases', 'data/' + self.name, text)
        Run.stored.append(self.name)
        Run.answers += ''.join(out)
        known = sum(1 for want in self.wanted if want)
        commands = sum(1 for want in self.wanted if want != '')
        print('%-12s %5d commands, %5d answers known beforehand, %6d bytes of input' % (self.name, commands, known, len(text)))


# ---- what document 01 says of counts, keys and truncation

def blocks(padding, bits):
    whole = max(1, -(-bits // 128))
    return {1: whole, 2: bits // 128 + 1, 3: whole + 1, 4: whole}[padding]


def calls(algorithm, padding, bits):
    more = {1: 0, 2: 1, 3: 2, 4: 2, 5: 1, 6: 0, 7: 0, 8: 1}[algorithm]
    return blocks(padding, bits) + more


def made(algorithm, padding, bits, tag):
    return 'made %d calls %s' % (calls(algorithm, padding, bits), tag)


def cut(g, m, right=False):
    """The leftmost or rightmost m bits of printed digits, filled with zeros to whole bytes."""
    text = ''.join('{:04b}'.format(int(d, 16)) for d in g)
    text = text[len(text) - m:] if right else text[:m]
    text += '0' * (-m % 8)
    return ''.join('%02X' % int(text[i:i + 8], 2) for i in range(0, len(text), 8))


def turned(tag, bit):
    return '%0*X' % (len(tag), int(tag, 16) ^ (1 << (4 * len(tag) - 1 - bit)))


def keys_of(algorithm):
    return K + K1 if algorithm in TWO else K


def second(key):
    """K'' of K', and K' of K'': every second digit complemented, the first one first."""
    return ''.join('%X' % (int(d, 16) ^ (0 if i % 2 else 15)) for i, d in enumerate(key))


def size(m):
    return -(-m // 8)


def sizes(e):
    """The tag length at which an entry of annex A is run, and its digits: the printed block, of algorithm 7 63 bits of the tag."""
    if e['alg'] == 7:
        return 63, cut(e['tag'], 63, e['bits'] % 128 != 0)
    return 128, e['g']


# ---- numbers drawn

def drawing(state):
    """A function that draws a number below another, and one that draws so many bytes."""
    def below(n):
        nonlocal state
        state = (state * 6364136223846793005 + 1442695040888963407) % 2 ** 64
        return (state >> 33) % n

    def some_bytes(count):
        return ''.join('%02X' % below(256) for _ in range(count))
    return below, some_bytes


# ---- two faults at once

def number_of(fault):
    """The number that a fault gets, with which its name begins."""
    return fault.split(' ')[0]


def in_pairs(good, faults, keep=lambda first, then: True, special={}):
    """Each two faults, in their order, that are kept: the earlier number, both names, and the call that has both. 4 and 5 are
    there at once in the keys of 5 with a byte more; others may need special words."""
    names = list(faults)
    for place, first in enumerate(names):
        for then in names[place + 1:]:
            if not keep(first, then):
                continue
            both = {**good, **faults[then], **faults[first], **special.get((first, then), {})}
            if (number_of(first), number_of(then)) == ('4', '5'):
                both['keys'] = faults[then]['keys'] + '00'
            yield number_of(first), '%s and %s' % (first, then), both
