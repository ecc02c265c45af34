"""Random documents of options, and damage. A seed gives the same texts on every machine."""
from lexemes import OPTIONS, options_of
SOUP = ['{', '}', '[', ']', ',', ':', '"', "'", '\\', '/', '//', '/*', '*/', '-', '+', '.', '0', '1', '9', 'e', 'x', '0x', 'Infinity', 'NaN', 'true', 'null', 'a', '_', '$', '\\u', '\\uD834', 'é', '中', '😀', '\ufeff', '\x00', '\x0b', '\x0c', '\x85', '\xa0', '\u2028', '\n', '\r', '\r\n', ' ', '\t', '#', '@', '`', ';', '=', '=>', '\x7f', '\\"', "\\'", '\\\\', '""', '{"b":', '"c": ', '[1,', '}]', ']}', ', ,']


class Writer:

    def __init__(self, r, flags):
        self.r = r
        self.o = options_of(flags)
        self.nl = r.choice(['\n', '\n', '\n', '\r\n', '\r'])
        self.step = r.choice(['  ', '  ', '    ', '\t'])
        self.lines = r.random() < 0.6
        self.notes = r.choice([0, 0, 0.1, 0.3]) if 'comments' in self.o else 0
        self.rich = r.random() < 0.5
        self.k = 0
        self.missing = 'missing' in self.o and r.random() < 0.15
        self.raw = r.random() < 0.1

    def note(self):
        self.k += 1
        return ' // c%d, "x": [' % self.k + self.nl if self.r.random() < 0.5 else ' /* c%d {"y":*/ ' % self.k

    def gap(self, plain=''):
        return plain + self.note() if self.r.random() < self.notes else plain

    def text(self):
        r = self.r
        q = "'" if 'single' in self.o and r.random() < 0.2 else '"'
        out = ''
        for _ in range(r.choice([0, 1, 1, 2, 3, 6])):
            x = r.random()
            if x < 0.75 or not self.rich:
                out += r.choice(['a', 'b', 'name', 'x y', 'value', '/usr/lib', 'http://a.b/c', 'one, two', 'k: v', 'é', '😀', '[x]', '{y}'])
            else:
                out += r.choice(['\\n', '\\\\', '\\u0041', '\\' + q, '\\uD834\\uDD1E', '\x01'] + (['\n', '\r\n z'] if self.raw else []) + (['\\x41', '\\v', '\\0', '\\' + self.nl, '\\q'] if 'escapes' in self.o else []))
        return q + out + q

    def number(self):
        c = ['0', '1', '12', '-1', '3.5', '1e5', '-0.5E+3']
        if self.rich:
            for n, m in (('hex', ['0x1F', '-0xa']), ('plus', ['+1']), ('bare', ['.5', '5.']), ('nonfinite', ['Infinity', '-NaN'])):
                if n in self.o:
                    c += m
        return self.r.choice(c)

    def name(self):
        if 'loose' in self.o and self.r.random() < 0.25:
            return self.r.choice(['a', 'b1', 'true', 'x-y', '$z', 'é', '7'])
        return self.r.choice(['"a"', '"b"', '"editor.fontSize"', '"name"', '"files"', self.text()])

    def value(self, d):
        r = self.r
        x = r.random()
        if d and x < (0.9 if d >= 3 else 0.5):
            return self.box(d, r.random() < 0.6)
        return r.choice([self.number, self.text, self.text, lambda: r.choice(['true', 'false', 'null'])])()

    def box(self, d, obj):
        r = self.r
        n = r.choice([0, 1, 2, 2, 3, 4])
        lines = self.lines and r.random() < 0.85
        out = '{' if obj else '['
        depth = self.depth
        self.depth += 1
        pad = self.nl + self.step * self.depth if lines else ''
        for i in range(n):
            out += self.gap(pad or (' ' if i else ''))
            if obj:
                k = self.name()
                g = self.gap()
                out += k + (' ' + g if g else '') + ':' + self.gap(' ') + self.value(d - 1)
            else:
                out += self.value(d - 1)
            if i + 1 < n:
                out += ' ' if self.missing and r.random() < 0.5 else self.gap() + ','
            elif 'trailing' in self.o and r.random() < 0.2:
                out += ','
        self.depth = depth
        return out + self.gap(self.nl + self.step * depth if lines and n else '') + ('}' if obj else ']')

    def document(self):
        self.depth = 0
        return self.gap() + self.value(self.r.choice([1, 2, 3, 4])) + self.gap(self.r.choice(['', self.nl]))


def flags(r):
    x = r.random()
    if x < 0.2:
        return '1' * 10
    if x < 0.4:
        return '0' * 10
    if x < 0.7:
        return '1010000000'
    return ''.join((r.choice('01') for _ in OPTIONS))


def edit(r, t):
    """One random edit."""
    i = r.randint(0, len(t))
    j = min(len(t), i + r.choice([1, 1, 1, 2, 5]))
    x = r.random()
    if x < 0.4:
        return t[:i] + t[j:]
    if x < 0.75:
        return t[:i] + r.choice(SOUP) + t[i:]
    if x < 0.95:
        return t[:i] + r.choice(SOUP) + t[j:]
    return t[:i]


def slip(r, t):
    """One slip of the keyboard: a punctuation mark, a quote or a line left out, doubled or put for another."""
    marks = [i for i, c in enumerate(t) if c in '{}[],:"']
    if not marks:
        return t
    i = r.choice(marks)
    x = r.random()
    if x < 0.6:
        return t[:i] + t[i + 1:]
    if x < 0.75:
        return t[:i] + t[i] + t[i:]
    return t[:i] + r.choice('{}[],:;"\'') + t[i + 1:]


def garbage(r):
    return ''.join((r.choice(SOUP) for _ in range(r.choice([1, 2, 3, 5, 8, 20]))))
