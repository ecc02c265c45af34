"""The lexemes and comments of a text under a set of options, and its value, by the rules of docs/GRAMMAR.md.

A piece is the blanks before a lexeme or comment, its kind and its characters. The kind is a character of punctuation, `literal`, `line` or
`block`."""
import unicodedata
from collections import namedtuple

OPTIONS = ('single_quoted_strings', 'hexadecimal_numbers', 'unary_plus_numbers', 'bare_decimal_points', 'non_finite_numbers', 'extended_escapes',
           'comments', 'loose_names', 'trailing_commas', 'missing_commas')
BLANKS = frozenset('\t\n\v\f\r \x85\xa0\u1680\u2028\u2029\u202f\u205f\u3000' + ''.join(map(chr, range(0x2000, 0x200b))))
DIGITS = frozenset('0123456789')
HEX = frozenset('0123456789abcdefABCDEF')
CIRCLED = frozenset('\u0345' + ''.join(map(chr, range(0x24b6, 0x24ea))))   # alphabetic, and of no category of letters
ESCAPED = {'b': '\b', 'f': '\f', 'n': '\n', 'r': '\r', 't': '\t'}

Piece = namedtuple('Piece', 'gap kind text')


class Refused(Exception):
    """The text is no document."""


def is_blank(c):
    return c in BLANKS


def is_line_end(c):
    return c in '\n\r'


def is_wide_letter(c):
    category = unicodedata.category(c)
    return ord(c) > 127 and (category[0] == 'L' or category in ('Nd', 'Nl', 'No') or c in CIRCLED)


def begins_word(c):
    return c.isascii() and (c.isalpha() or c in '_$') or is_wide_letter(c)


def is_in_word(c):
    return begins_word(c) or c in DIGITS or c == '-'


def joins(c):
    """Whether a keyword goes on with the character."""
    return c.isascii() and (c.isalnum() or c == '$') or is_wide_letter(c)


class Reader:
    def __init__(self, options, text):
        self.options, self.text, self.place = options, text, 0

    def peek(self, ahead=0):
        place = self.place + ahead
        return self.text[place] if place < len(self.text) else ''

    def demand(self, holds):
        if not holds:
            raise Refused(self.place)

    def passes(self, test):
        begin = self.place
        while self.peek() and test(self.peek()):
            self.place += 1
        return self.place - begin

    def ends_word(self, ahead, also=''):
        c = self.peek(ahead)
        return not c or not (joins(c) or c in also)

    def lexeme(self):
        """The next piece and what it says, or None and the blanks at the end."""
        begin = self.place
        self.passes(is_blank)
        gap, begin, c = self.text[begin:self.place], self.place, self.peek()
        if not c:
            return None, gap
        kind, says = self.read(c)
        return Piece(gap, kind, self.text[begin:self.place]), says

    def read(self, c):
        if c in '{}[],:':
            self.place += 1
            return c, None
        if c == '/':
            return self.comment(), None
        if c in '"\'':
            self.demand(c == '"' or 'single_quoted_strings' in self.options)
            return 'literal', ('string', self.string(c))
        begin = self.place
        if c in '+-.' or c in DIGITS:
            self.number()
            return 'literal', ('number', self.text[begin:self.place])
        return 'literal', self.word(c)

    def comment(self):
        self.demand('comments' in self.options)
        if self.peek(1) == '/':
            self.passes(lambda c: not is_line_end(c))
            return 'line'
        end = self.text.find('*/', self.place + 2)
        self.demand(self.peek(1) == '*' and end >= 0)
        self.place = end + 2
        return 'block'

    def word(self, c):
        if 'non_finite_numbers' in self.options:
            for name in ('Infinity', 'NaN'):
                if self.text.startswith(name, self.place) and self.ends_word(len(name), '-_'):
                    self.place += len(name)
                    return 'number', name
        for name in ('true', 'false', 'null'):
            if self.text.startswith(name, self.place) and self.ends_word(len(name)):
                self.place += len(name)
                return 'keyword', name
        begin = self.place
        self.demand(begins_word(c))
        self.passes(is_in_word)
        c = self.peek()
        self.demand(c == '' or c == ':' or c in ' \t\n\f\r' or not c.isascii() and is_blank(c))
        return 'word', self.text[begin:self.place]

    def number(self):
        if self.peek() == '+':
            self.demand('unary_plus_numbers' in self.options)
        if self.peek() in '+-':
            self.place += 1
        for name in ('Infinity', 'NaN'):
            if self.text.startswith(name, self.place):
                self.demand('non_finite_numbers' in self.options and self.ends_word(len(name)))
                self.place += len(name)
                return
        if self.peek() == '0' and self.peek(1) and self.peek(1) in 'xX':
            self.demand('hexadecimal_numbers' in self.options)
            self.place += 2
            self.demand(self.passes(HEX.__contains__))
            return
        if self.peek() == '0':
            self.place += 1
        elif self.peek() == '.' and self.peek(1) in DIGITS:
            self.demand('bare_decimal_points' in self.options)
        else:
            self.demand(self.passes(DIGITS.__contains__))
        if self.peek() == '.':
            self.place += 1
            self.demand(self.passes(DIGITS.__contains__) or 'bare_decimal_points' in self.options)
        if self.peek() and self.peek() in 'eE':
            self.place += 1
            if self.peek() and self.peek() in '+-':
                self.place += 1
            self.demand(self.passes(DIGITS.__contains__))

    def digits(self, count):
        digits = self.text[self.place:self.place + count]
        self.demand(len(digits) == count and HEX.issuperset(digits))
        self.place += count
        return int(digits, 16)

    def string(self, quote):
        self.place += 1
        said = []
        while True:
            c = self.peek()
            self.demand(c)
            self.place += 1
            if c == quote:
                return ''.join(said)
            said.append(self.escape(quote) if c == '\\' else c)

    def escape(self, quote):
        c = self.peek()
        self.demand(c)
        self.place += 1
        if c in ESCAPED:
            return ESCAPED[c]
        if c in '\\/' or c == quote:
            return c
        if c == 'u':
            return self.unit()
        self.demand('extended_escapes' in self.options)
        if c == 'v':
            return '\v'
        if c == 'x':
            return chr(self.digits(2))
        if c == '0':
            self.demand(self.peek() not in DIGITS)
            return '\0'
        if c == '\r' and self.peek() == '\n':
            self.place += 1
        self.demand(c not in DIGITS)
        return '' if c in '\n\r\u2028\u2029' else c

    def unit(self):
        unit = self.digits(4)
        self.demand(not 0xdc00 <= unit < 0xe000)
        if not 0xd800 <= unit < 0xdc00:
            return chr(unit)
        self.demand(self.text.startswith('\\u', self.place))
        self.place += 2
        low = self.digits(4)
        self.demand(0xdc00 <= low < 0xe000)
        return chr(0x10000 + ((unit - 0xd800) << 10) + (low - 0xdc00))

    # values

    def next(self):
        """The next lexeme, past comments: its kind and what it says; the kind is '' at the end."""
        piece, says = self.lexeme()
        while piece is not None and piece.kind in ('line', 'block'):
            piece, says = self.lexeme()
        return (piece.kind, says) if piece is not None else ('', None)

    def value(self, lexeme):
        kind, says = lexeme
        if kind in ('[', '{'):
            return kind, self.entries(kind)
        self.demand(kind == 'literal' and says[0] != 'word')
        return says

    def entry(self, bracket, lexeme):
        if bracket == '[':
            return self.value(lexeme)
        kind, says = lexeme
        self.demand(kind == 'literal' and (says[0] == 'string' or 'loose_names' in self.options))
        self.demand(self.next()[0] == ':')
        return says[1], self.value(self.next())

    def entries(self, bracket):
        last = {'[': ']', '{': '}'}[bracket]
        entries, lexeme = [], self.next()
        while lexeme[0] != last:
            entries.append(self.entry(bracket, lexeme))
            lexeme = self.next()
            if lexeme[0] == ',':
                lexeme = self.next()
                self.demand(lexeme[0] not in (']', '}') or 'trailing_commas' in self.options)
            elif lexeme[0] not in (']', '}'):
                self.demand('missing_commas' in self.options)
        return entries


def pieces(options, text):
    """The pieces of a text, and the blanks after the last one."""
    reader, found = Reader(options, text), []
    piece, tail = reader.lexeme()
    while piece is not None:
        found.append(piece)
        piece, tail = reader.lexeme()
    return found, tail


def value(options, text):
    """The value of a document, or None where it has none; a text that is no document is refused."""
    reader = Reader(options, text)
    lexeme = reader.next()
    if not lexeme[0]:
        return None
    found = reader.value(lexeme)
    reader.demand(not reader.next()[0])
    return found


def marks(options, text):
    """The literals and comments of a text in order, line comments without the blanks that end them."""
    trimmed = ((p.kind, p.text.rstrip(''.join(BLANKS)) if p.kind == 'line' else p.text) for p in pieces(options, text)[0])
    return [(kind == 'literal', text) for kind, text in trimmed if kind in ('literal', 'line', 'block')]
