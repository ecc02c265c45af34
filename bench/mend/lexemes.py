"""The scanner of docs/GRAMMAR.md with the faults of docs/FAULTS.md, over the characters of a text. Options are a set of names."""
import unicodedata
OPTIONS = ['comments', 'loose', 'trailing', 'missing', 'single', 'hex', 'plus', 'bare', 'nonfinite', 'escapes']
BLANKS = frozenset('\t\n\x0b\x0c\r \x85\xa0\u1680\u2000\u2001\u2002\u2003\u2004\u2005\u2006\u2007\u2008\u2009\u200a\u2028\u2029\u202f\u205f\u3000')
OTHER = frozenset('ͅ') | frozenset((chr(c) for c in range(9398, 9450)))
DIGITS = frozenset('0123456789')
HEX = frozenset('0123456789abcdefABCDEF')
PUNCT = frozenset('{}[],:')


def options_of(flags):
    return frozenset((n for n, f in zip(OPTIONS, flags) if f == '1'))


def is_wide(c):
    return c > '\x7f' and (unicodedata.category(c)[0] == 'L' or unicodedata.category(c) in ('Nd', 'Nl', 'No') or c in OTHER)


def is_alnum(c):
    return c.isalnum() if c < '\x80' else is_wide(c)


def escape(t, p, q, ext):
    """The escape whose backslash is at p, in a string in q: (end, None) or (None, (kind, start, end)); (None, None) where the text ends in it."""
    n = len(t)
    if p + 1 >= n:
        return (None, None)
    c = t[p + 1]

    def stop(kind, j):
        return (None, ('String/' + kind, p, min(j + 1, n)))

    def four(j):
        for k in range(4):
            if j + k >= n or t[j + k] not in HEX:
                return j + k
        return None
    if ext:
        if c == 'v':
            return (p + 2, None)
        if c == '0':
            return stop('InvalidEscape', p + 1) if t[p + 2:p + 3] in DIGITS else (p + 2, None)
        if c == 'x':
            for k in (2, 3):
                if p + k >= n or t[p + k] not in HEX:
                    return stop('ExpectedTwoHexDigits', p + k)
            return (p + 4, None)
        if c in '\n\u2028\u2029':
            return (p + 2, None)
        if c == '\r':
            return (p + 3 if t[p + 2:p + 3] == '\n' else p + 2, None)
        if c in '123456789':
            return stop('InvalidEscape', p + 1)
        if c not in '\\/bfurnt':
            return (p + 2, None)
    if c not in '"\'\\/bfurnt':
        return stop('InvalidEscape', p + 1)
    if c == '"' and q != '"':
        return stop('InvalidEscapeInSingleQuoteString', p + 1)
    if c == "'" and q == '"':
        return stop('InvalidEscapeInDoubleQuoteString', p + 1)
    if c != 'u':
        return (p + 2, None)
    j = four(p + 2)
    if j is not None:
        return stop('ExpectedFourHexDigits', j)
    h = int(t[p + 2:p + 6], 16)
    if 56320 <= h < 57344:
        return stop('InvalidUnicodeEscapeSequence', p + 5)
    if not 55296 <= h < 56320:
        return (p + 6, None)
    if t[p + 6:p + 7] != '\\':
        return stop('InvalidUnicodeEscapeSequence', p + 6)
    if t[p + 7:p + 8] != 'u':
        return stop('InvalidUnicodeEscapeSequence', p + 7)
    j = four(p + 8)
    if j is not None:
        return stop('ExpectedFourHexDigits', j)
    if not 56320 <= int(t[p + 8:p + 12], 16) < 57344:
        return stop('InvalidUnicodeEscapeSequence', p + 11)
    return (p + 12, None)


def word_ends(t, k):
    return k >= len(t) or not (t[k] < '\x80' and (t[k].isalnum() or t[k] == '$') or is_wide(t[k]))


def number(t, s, o):
    """(end, None) or (None, fault)"""
    n = len(t)
    j = s

    def at(k):
        return t[k] if k < n else ''

    def here(kind):
        return (None, (kind, j, min(j + 1, n)))

    def token(kind):
        return (None, (kind, s, j if j > s else j + 1))
    if at(j) == '+':
        if 'plus' not in o:
            return token('UnaryPlusNumbersNotAllowed')
        j += 1
    elif at(j) == '-':
        j += 1
    c = at(j)
    if c == '0':
        j += 1
        if at(j) in ('x', 'X'):
            if 'hex' not in o:
                return token('HexadecimalNumbersNotAllowed')
            j += 1
            if at(j) not in HEX:
                return here('ExpectedDigit')
            while at(j) in HEX:
                j += 1
            return (j, None)
    elif c in DIGITS:
        while at(j) in DIGITS:
            j += 1
    elif c == '.' and at(j + 1) in DIGITS:
        if 'bare' not in o:
            return token('BareDecimalPointNumbersNotAllowed')
    elif c in ('I', 'N'):
        w = 'Infinity' if c == 'I' else 'NaN'
        if not t.startswith(w, j) or not word_ends(t, j + len(w)):
            return here('ExpectedDigitFollowingNegativeSign')
        j += len(w)
        if 'nonfinite' not in o:
            return token('NonFiniteNumbersNotAllowed')
        return (j, None)
    else:
        return here('ExpectedDigitFollowingNegativeSign')
    if at(j) == '.':
        j += 1
        if 'bare' not in o and at(j) not in DIGITS:
            return token('BareDecimalPointNumbersNotAllowed')
        while at(j) in DIGITS:
            j += 1
    if at(j) in ('e', 'E'):
        j += 1
        if at(j) in ('-', '+'):
            j += 1
            if at(j) not in DIGITS:
                return here('ExpectedDigit')
        elif at(j) not in DIGITS:
            return here('ExpectedPlusMinusOrDigitInNumberLiteral')
        while at(j) in DIGITS:
            j += 1
    return (j, None)


def bare(t, s, o):
    """The lexeme at s that is no punctuation, string or comment: (kind, end, fault); the kind is number, kw, word or bad."""
    n = len(t)
    c = t[s]
    if c in '+-' or c in DIGITS or (c == '.' and t[s + 1:s + 2] in DIGITS and (s + 1 < n)):
        e, f = number(t, s, o)
        return ('number', e, None) if f is None else ('bad', None, f)
    if 'nonfinite' in o and c in 'IN':
        w = 'Infinity' if c == 'I' else 'NaN'
        if t.startswith(w, s) and word_ends(t, s + len(w)) and (t[s + len(w):s + len(w) + 1] not in ('-', '_')):
            return ('number', s + len(w), None)
    if c in 'tfn':
        for w in ('true', 'false', 'null'):
            if t.startswith(w, s) and word_ends(t, s + len(w)):
                return ('kw', s + len(w), None)
    j = s
    while j < n:
        c = t[j]
        if c < '\x80':
            if c in ' \t\n\x0c\r:':
                break
            if not (c.isalnum() or c in '-_$'):
                return ('bad', None, ('UnexpectedToken', s, j if j > s else j + 1))
        elif c in BLANKS:
            break
        elif not is_wide(c):
            return ('bad', None, ('UnexpectedToken', s, j if j > s else j + 1))
        j += 1
    if j == s:
        return ('bad', None, ('UnexpectedToken', s, s + 1))
    return ('word', j, None)
