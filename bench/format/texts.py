"""Random documents under random options, of a seeded generator of random numbers."""
from lexemes import OPTIONS

PIECES_OF_STRINGS = ['a', 'b', '/', ' ', 'é', '\U0001f600', '\\n', '\\\\', '\\u0041', '//', '/*', ',', ']', '}', ':', '\\uD834\\uDD1E'] * 3 + ['\n', '\r\n', '\x01']
EXTENDED = ['\\x41', '\\v', '\\0', '\\\n', '\\q', '\\\r\n', '\\é']


class Texts:
    def __init__(self, random):
        self.random = random
        chance = random.random()
        if chance < .4:
            self.options = set(OPTIONS)
        elif chance < .6:
            self.options = {'comments', 'trailing_commas'}
        else:
            self.options = {name for name in OPTIONS if random.random() < .6}
        self.line_ends = [random.choice(['\n', '\n', '\n', '\r\n', '\r'])] if random.random() < .9 else ['\n', '\r\n', '\r']
        self.level = random.choice(['  ', '  ', '    ', '\t', ' ', '', '\u3000'])
        self.comments = random.choice([0, .1, .3, .5]) if 'comments' in self.options else 0
        self.breaks = random.choice([0, .1, .4, .8])
        self.has_odd_blanks = random.random() < .15
        self.count = 0

    def chance(self, odds):
        return self.random.random() < odds

    def line_end(self):
        return self.random.choice(self.line_ends)

    def blank(self):
        if self.has_odd_blanks and self.chance(.3):
            return self.random.choice(['\v', '\f', '\xa0', '\u2028', '\u3000', '\t\t', '\x85'])
        return self.random.choice([' ', ' ', '  ', '\t'])

    def comment(self):
        self.count += 1
        name = str(self.count)
        if self.chance(.45):
            return '//' + self.random.choice([name, f' {name}', f'{name} ', '', f' /*{name}', f'{name}\t \u3000']) + self.line_end()
        inside = [name, '', f'*{name}', f' {name} ', f'{name}{self.line_end()} * x{self.line_end()}', f'//{name}', ' {[,:]}"']
        return '/*' + self.random.choice(inside) + '*/'

    def gap(self, depth, breaks=None):
        breaks = self.breaks if breaks is None else breaks
        if self.chance(.7) and not self.chance(self.comments):
            if self.chance(breaks):
                return self.line_end() * self.random.choice([1, 1, 1, 1, 2, 3]) + self.level * depth
            return self.blank() if self.chance(.5) else ''
        gap = ''
        for _ in range(self.random.randint(0, 4)):
            chance = self.random.random()
            if chance < self.comments:
                gap += self.comment()
            elif chance < self.comments + .3 * (breaks + (.1 if breaks else 0)):
                gap += self.line_end() + (self.level * depth if self.chance(.8) else '')
            else:
                gap += self.blank()
        return gap

    def string(self):
        quote = "'" if 'single_quoted_strings' in self.options and self.chance(.3) else '"'
        parts = PIECES_OF_STRINGS + ['\\' + quote] + (EXTENDED if 'extended_escapes' in self.options else [])
        return quote + ''.join(self.random.choice(parts) for _ in range(self.random.randint(0, 4))) + quote

    def number(self):
        numbers = ['0', '1', '10', '-1', '3.5', '1e5', '-0.5E+3']
        for option, more in (('hexadecimal_numbers', ['0x1F', '-0Xa']), ('unary_plus_numbers', ['+1']), ('bare_decimal_points', ['.5', '5.', '-.5e1']),
                             ('non_finite_numbers', ['Infinity', '-Infinity', 'NaN', '-NaN'])):
            numbers += more if option in self.options else []
        return self.random.choice(numbers)

    def name(self):
        if 'loose_names' in self.options and self.chance(.4):
            return self.random.choice(['a', 'true', 'null', '1', 'a-b', '$x', 'é', '_', 'falsex', '-1', '2.5', self.number()])
        return self.random.choice(['"a"', '"b"', '"c"', self.string()])

    def value(self, depth, most):
        if depth < most and self.chance(.8 if depth == 0 else .45):
            return self.container(depth, most, self.random.choice(['[]', '{}']))
        return self.random.choice([self.number(), self.string(), self.random.choice(['true', 'false', 'null'])])

    def entry(self, depth, most, brackets):
        if brackets == '[]':
            return self.value(depth, most)
        before = self.gap(depth, .2) if self.chance(.2) else ''
        after = self.gap(depth, .2) if self.chance(.5) else ' '
        return self.name() + before + ':' + after + self.value(depth, most)

    def between(self, depth, breaks, is_last):
        """What is between an entry and what follows."""
        if is_last and not ('trailing_commas' in self.options and self.chance(.35)):
            return ''
        if not is_last and 'missing_commas' in self.options and self.chance(.3):
            return self.random.choice([' ', '', self.line_end() if breaks != 0 else ' ', self.gap(depth, breaks)])
        return (self.gap(depth, breaks) if self.chance(.3) else '') + ','

    def container(self, depth, most, brackets):
        breaks = self.random.choice([None, None, 0, 0, 1])
        count = self.random.choice([0, 0, 1, 1, 2, 2, 3, 4])
        text = brackets[0]
        for index in range(count):
            text += self.gap(depth + 1, breaks) + self.entry(depth + 1, most, brackets) + self.between(depth + 1, breaks, index + 1 == count)
        return text + self.gap(depth, breaks) + brackets[1]

    def text(self):
        if self.chance(.05):
            return self.gap(0) + self.gap(0)
        last = '//' + self.random.choice(['x', ' x ', '']) if self.comments and self.chance(.15) else ''
        return self.gap(0) + self.value(0, 3) + self.gap(0) + last
