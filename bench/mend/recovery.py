"""Every fault of a text, each with its mend: a model of the recovery. Places are characters of the text.

mend(text, options) is a list of Mend(kind, start, end, at, to, new): the fault, of the characters start to end, and one change:
`new` in the place of the characters at to to. Each byte is passed a bounded number of times."""
import re
from collections import namedtuple
from lexemes import *
Mend = namedtuple('Mend', 'kind start end at to new')
DEPTH = 512
CLOSE = {False: ']', True: '}'}
UNEXPECTED = {']': 'UnexpectedCloseBracket', '}': 'UnexpectedCloseBrace', ',': 'UnexpectedComma', ':': 'UnexpectedColon', 'word': 'UnexpectedWord'}
DEC = re.compile('([0-9]*)(?:(\\.)([0-9]*))?(?:([eE])([+-]?)([0-9]*))?')


class Box:
    """An open container, or the document (obj None)."""
    __slots__ = ('obj', 'at', 'level', 'full', 'state', 'n', 'first', 'comma', 'val', 'prev_end', 'name', 'colon')

    def __init__(self, obj, at, level):
        self.obj, self.at, self.level = (obj, at, level)
        # nothing may stand in it
        self.full = obj is not None and level + (1 if obj else 0) > DEPTH
        # item: an entry may begin; name: a colon must come; colon: a value must come; after: behind an entry; done
        self.state = 'item'
        # entries begun
        self.n = 0
        # where its first token begins
        self.first = None
        # the comma before, if it is the text's own and nothing stands behind it
        self.comma = None
        # the last value: (kind, start, end)
        self.val = None
        # the end of the value before the last comma
        self.prev_end = None
        # the last name: (kind, start, end)
        self.name = None
        # the end of the last colon
        self.colon = None

    def copy(self):
        c = Box(self.obj, self.at, self.level)
        for s in Box.__slots__:
            setattr(c, s, getattr(self, s))
        return c


class Mender:

    def __init__(self, t, o):
        self.t, self.o, self.n = (t, o, len(t))
        # how far the text is read
        self.i = 0
        self.mends = []
        # the end of the last change
        self.last = 0
        # the character of the new text before the last change
        self.before = ''
        self.stack = [Box(None, 0, 0)]
        # which of the stack are arrays, which objects
        self.index = {False: [], True: []}
        # a string just read that may lack its closing quote
        self.sus = None
        # the start of the run of bare lexemes that ends at run_end
        self.run = None
        self.run_end = None
        # the end of the last token
        self.end_of_last = 0
        # the container closed last
        self.closed = None
        # no */ begins at this place or later
        self.no_end = len(t) + 9
        # a line comment reaches the end of the text
        self.line_at_end = False
        # one entry: what stands behind the last bracket looked behind
        self.looks = {}
        # the comments passed: (start, end)
        self.comments = []
        # up to here the words before the value were looked at
        self.looked = 0
        self.steps = 0

    def emit(self, fault, a, b, new):
        assert self.last <= a <= b <= self.n, (fault, a, b, new, self.last)
        if a > self.last or not self.mends:
            prev = self.t[a - 1] if a else ''
        else:
            prev = self.mends[-1].new[-1] if self.mends[-1].new else self.before
        self.before = prev
        self.mends.append(Mend(fault[0], fault[1], fault[2], a, b, new))
        self.last = b

    def delete(self, fault, a, b):
        """Deletes, and leaves a space where two literals would meet, or a slash would make a comment."""
        prev = self.t[a - 1] if a > self.last or (not self.mends and a) else self.mends[-1].new[-1] if self.mends and self.mends[-1].new else self.before
        nxt = self.t[b] if b < self.n else ''
        apart = not prev or not nxt or prev in BLANKS or (nxt in BLANKS) or (prev in PUNCT) or (nxt in PUNCT)
        self.emit(fault, a, b, '' if apart else ' ')

    def free(self, p):
        """Whether a change may still be made at p, before what stands there."""
        return self.last < p or (self.last == p and (not (self.mends and self.mends[-1].at == self.mends[-1].to == p)))

    def top(self):
        return self.stack[-1]

    def run_to(self, i):
        """The end of what a person takes for one word from i on."""
        t, n, j = (self.t, self.n, i)
        if t[j] == ';':
            return j + 1
        if t[j] == '=':
            while j < n and t[j] == '=':
                j += 1
            return j + 1 if j < n and t[j] == '>' else j
        while j < n:
            c = t[j]
            if c == '\\':
                j += 2 if j + 1 < n and t[j + 1] not in BLANKS else 1
                continue
            if c in BLANKS or c in PUNCT or c == '"' or (c == ';') or (c == '=') or (c == "'" and 'single' in self.o) or (c == '/' and t[j + 1:j + 2] in ('/', '*') and (j + 1 < n)):
                break
            j += 1
        return min(j, n)

    def skip_blanks(self, i):
        t, n = (self.t, self.n)
        while i < n and t[i] in BLANKS:
            i += 1
        return i

    def comment_end(self, i):
        """The end of the comment at i, or None where it is not closed."""
        t = self.t
        if t[i + 1] == '/':
            j = i + 2
            while j < self.n and t[j] not in '\r\n':
                j += 1
            return j
        if i + 2 >= self.no_end:
            return None
        j = t.find('*/', i + 2, self.no_end + 1)
        if j < 0:
            self.no_end = i + 2
            return None
        return j + 2

    def comment_cut(self, i):
        """Where a block comment that is not closed is to end: with its line, and the lines behind it that begin with a star."""
        t, n = (self.t, self.n)
        j = i + 2
        while True:
            while j < n and t[j] not in '\r\n':
                j += 1
            k = self.skip_blanks(j)
            if k < n and t[k] == '*':
                j = k + 1
                continue
            break
        while j > i + 2 and t[j - 1] in BLANKS:
            j -= 1
        return j

    def peek(self, i):
        """The next lexeme from i on, loosely: (kind, start, end); comments are passed."""
        t = self.t
        while True:
            i = self.skip_blanks(i)
            if i >= self.n:
                return ('end', self.n, self.n)
            c = t[i]
            if c == '/' and t[i + 1:i + 2] in ('/', '*') and (i + 1 < self.n):
                e = self.comment_end(i)
                i = self.comment_cut(i) if e is None else e
                continue
            if c in PUNCT:
                return (c, i, i + 1)
            if c == '"' or (c == "'" and 'single' in self.o):
                return ('string', i, self.string_end(i))
            e = max(self.run_to(i), i + 1)
            k, f, fault = bare(t, i, self.o)
            return ('junk' if fault or f != e else k, i, e)

    def string_end(self, i):
        """The end of a string, loosely: at its quote or with its line."""
        t, n, q, j = (self.t, self.n, self.t[i], i + 1)
        while j < n:
            c = t[j]
            if c == q:
                return j + 1
            if c in '\r\n':
                return j
            j += 2 if c == '\\' and j + 1 < n and (t[j + 1] not in '\r\n') else 1
        return n

    def follows(self, i):
        """The character that stands next from i on, blanks passed."""
        i = self.skip_blanks(i)
        return self.t[i] if i < self.n else ''

    def named(self, i):
        """Whether a name and a colon stand next from i on."""
        k, a, e = self.peek(i)
        return k in ('string', 'word', 'number', 'kw', 'junk') and self.follows(e) == ':'

    def next(self):
        """The next token that is no comment: (kind, start, end, fault); None where a change was made on the way."""
        t = self.t
        while True:
            self.i = self.skip_blanks(self.i)
            i = self.i
            if i >= self.n:
                return ('end', self.n, self.n, None)
            c = t[i]
            self.line_at_end = False
            if c == '/' and i + 1 < self.n and (t[i + 1] in '/*'):
                e = self.comment_end(i)
                if self.top().full and (e is None or 'comments' not in self.o) and (self.top().first is not None):
                    return ('bad', i, self.comment_cut(i) if e is None else e, ('CommentsNotAllowed', i, e) if e is not None else ('UnterminatedCommentBlock', i, self.n))
                if e is None:
                    e = self.comment_cut(i)
                    if 'comments' in self.o:
                        self.emit(('UnterminatedCommentBlock', i, self.n), e, e, '*/')
                    else:
                        self.delete(('UnterminatedCommentBlock', i, self.n), i, e)
                elif 'comments' not in self.o:
                    e = self.forbidden_comment(i, e)
                else:
                    self.comments.append((i, e))
                self.i = e
                if e >= self.n and t[i + 1] == '/' and ('comments' in self.o):
                    self.line_at_end = True
                    return ('end', self.n, self.n, None)
                continue
            if c in PUNCT:
                return (c, i, i + 1, None)
            if c == '"' or (c == "'" and 'single' in self.o):
                return self.string(i)
            if c == "'":
                return ('single', i, i + 1, ('SingleQuotedStringsNotAllowed', i, i + 1))
            k, e, f = bare(t, i, self.o)
            if f is None:
                return (k, i, e, ('UnexpectedWord', i, e) if k == 'word' else None)
            return ('junk', i, max(self.run_to(i), i + 1), f)

    def forbidden_comment(self, i, e):
        """A comment leaves; and the comma before it, where a bracket follows and no comma may stand before one."""
        b = self.top()
        f = ('CommentsNotAllowed', i, e)
        if b.obj is not None and b.state == 'item' and (b.comma is not None) and ('trailing' not in self.o) and (self.last <= b.comma):
            j = e
            while True:
                k = self.skip_blanks(j)
                if k + 1 < self.n and self.t[k] == '/' and (self.t[k + 1] in '/*'):
                    x = self.comment_end(k)
                    if x is None:
                        break
                    j = x
                    continue
                if k >= self.n or self.t[k] == CLOSE[b.obj]:
                    self.delete(f, b.comma, j)
                    b.comma = None
                    return j
                break
        self.delete(f, i, e)
        return e

    def string(self, i, resume=None):
        """The string at i. Bad escapes on its first line are mended. One that does not end is cut."""
        t, n, q, ext = (self.t, self.n, self.t[i], 'escapes' in self.o)
        j = i + 1
        line = None
        while True:
            if j >= n:
                f = ('String/UnterminatedStringLiteral', i, n)
                break
            c = t[j]
            if c == q:
                return ('string', i, j + 1, (line,))
            if c != '\\':
                if c in '\r\n' and line is None:
                    line = j
                j += 1
                continue
            e, f = escape(t, j, q, ext)
            if e is not None:
                j = e
                continue
            if f is None:
                f = ('String/UnterminatedStringLiteral', i, n)
                break
            if self.top().full or self.top().state == 'done' or line is not None:
                break
            x = self.before_string(i, f)
            if x is not None:
                return x
            kind, p = (f[0], j)
            if 'InvalidEscapeIn' in kind:
                self.emit(f, p, p + 1, '')
                j = p + 2
            elif 'Unicode' in kind:
                self.emit(f, p, p + 6, '\\ufffd')
                j = p + 6
            else:
                self.emit(f, p, p, '\\')
                j = p + 1
        if self.top().state == 'done' and self.extra_quote(f, i):
            return ()
        if self.top().full or self.top().state == 'done':
            return ('bad', i, self.string_end(i), f)
        x = self.before_string(i, f)
        if x is not None:
            return x
        cut = self.cut_at(i, n if line is None else line, True)
        self.cut(f, i, cut)
        return ('string', i, cut, (None,))

    def extra_quote(self, f, i):
        """A quote right behind a string, which begins another one that does not end on its line, leaves."""
        if self.sus is None or self.sus[1] != i or (not self.free(i)):
            return False
        self.emit(f, i, i + 1, '')
        self.i = i + 1
        self.sus = None
        return True

    def before_string(self, i, f):
        """What lacks before a string with a fault within comes first, so that changes stand in order. It is told as the string's fault."""
        b = self.top()
        if self.extra_quote(f, i):
            return ()
        if b.obj is None or self.last > i or (not (b.state == 'name' or (b.state == 'after' and 'missing' not in self.o))):
            return None
        tk = ('string', i, self.string_end(i), None)
        if self.try_cut(f, tk):
            return ()
        if b.state == 'after':
            self.lacks_comma(f)
            return ()
        at = max(b.name[2], self.last)
        if self.follows(tk[2]) == ':':
            self.emit(f, at, at, ': null,')
            b.val = ('kw', at, at)
            b.state = 'item'
        else:
            self.emit(f, at, at, ':')
            b.state = 'colon'
            b.colon = at
        self.sus = None
        return ()

    def lacks_comma(self, fault):
        b = self.top()
        end = b.val[2]
        at = max(end, self.last)
        self.emit(fault, at, at, ',')
        b.prev_end = end
        b.comma = None
        b.state = 'item'
        self.sus = None
        if not b.obj:
            self.note(b, False)

    def wants_name(self):
        return self.top().obj is True and self.top().state in ('item', 'after')

    def cut_at(self, i, end, unclosed, name=None):
        """Where the string at i, whose line ends at `end`, is to be closed: a name before its colon, a value before the commas and brackets that end the line."""
        t, low = (self.t, max(i + 1, self.last))
        if self.wants_name() if name is None else name:
            j = t.find(':', low, end)
            if j >= 0:
                while j > low and t[j - 1] in ' \t':
                    j -= 1
                return j
        j = end
        while j > low and (t[j - 1] in BLANKS or t[j - 1] in ',]};'):
            j -= 1
        return j

    def cut(self, fault, i, cut):
        k = cut
        while k > i + 1 and self.t[k - 1] == '\\':
            k -= 1
        if self.mends and self.mends[-1].at == self.mends[-1].to and (self.mends[-1].new == '\\') and (k <= self.mends[-1].at < cut):
            k -= 1
        self.emit(fault, cut, cut, ('\\' if (cut - k) % 2 else '') + self.t[i])

    def back_to(self, box):
        self.stack[-1] = box

    def try_cut(self, fault, tk):
        """The string before a fault may lack its closing quote: then it is read anew with one."""
        if self.sus is None:
            return False
        a, b, line, box, name = self.sus
        t = self.t
        if tk[1] < b or (self.skip_blanks(b) != tk[1] and tk[0] != 'end'):
            return False
        if tk[0] == 'end' and self.skip_blanks(b) < self.n:
            return False
        if b - a == 2 and tk[1] == b and self.free(a) and (tk[0] in ('word', 'junk', 'number', 'kw')) and (self.opening(tk, ',]}:') is not None):
            self.back_to(box)
            self.emit(fault, a, a + 1, '')
            self.i = a + 1
            self.sus = None
            return True
        if tk[0] == 'string' and tk[1] == b and (tk[3] is not None) and (tk[3][0] is not None or self.follows(b + 1) in ((':',) if name else (',', ']', '}'))) and self.extra_quote(fault, b):
            return True
        if b - 2 <= a or not (t[b - 2] in BLANKS or t[b - 2] in '{[,:'):
            return False
        if line is None:
            if tk[1] != b or tk[0] == 'end':
                return False
            j = t.find(':' if name else ',', max(a + 1, self.last), b - 1)
            if j < 0:
                return False
            cut = j
            while cut > max(a + 1, self.last) and t[cut - 1] in ' \t':
                cut -= 1
        else:
            cut = self.cut_at(a, line, False, name)
        if self.last > cut:
            return False
        self.back_to(box)
        self.cut(fault, a, cut)
        self.sus = None
        self.i = cut
        self.take_string(('string', a, cut, (None,)))
        return True

    def walk(self):
        while True:
            tk = self.next()
            self.steps += 1
            if self.steps > 8 * self.n + 100:
                raise RuntimeError('endless')
            if tk == ():
                continue
            if self.top().first is None:
                self.top().first = tk[1]
            if tk[0] == 'end' and self.at_end(tk):
                return self.mends
            if tk[0] == 'end':
                continue
            if self.step(tk) is False:
                return self.mends

    def took(self, tk):
        """A token is read: what it leaves for the next one."""
        if tk[0] in ('number', 'kw', 'word', 'junk'):
            if self.run_end != tk[1] or self.run is None:
                self.run = tk[1]
            self.run_end = tk[2]
        else:
            self.run = self.run_end = None
        self.sus = None
        self.i = self.end_of_last = tk[2]

    def around(self):
        b = self.top()
        return b.level + (1 if b.state == 'colon' else 0)

    def push(self, obj, at):
        b = Box(obj, at, self.around() + 1)
        self.stack.append(b)
        self.index[obj].append(len(self.stack) - 1)

    def pop(self):
        b = self.stack.pop()
        self.index[b.obj].pop()
        self.closed = b
        return b

    def value(self, tk):
        """A value is read whose first token this is."""
        b = self.top()
        if tk[0] in '[{':
            self.took(tk)
            self.push(tk[0] == '{', tk[1])
            b.n += 1
            b.val = ('box', tk[1], None)
            b.comma = None
            return
        if tk[0] == 'string':
            self.take_string(tk)
            return
        self.took(tk)
        self.valued(tk)

    def valued(self, tk):
        b = self.top()
        b.n += b.state != 'colon'
        b.val = (tk[0], tk[1], tk[2])
        b.comma = None
        b.state = 'after' if b.obj is not None else 'done'

    def named_by(self, tk):
        b = self.top()
        b.n += 1
        b.name = (tk[0], tk[1], tk[2])
        b.comma = None
        b.state = 'name'

    def take_string(self, tk):
        b = self.top()
        name = self.wants_name()
        line = tk[3][0]
        keep = b.copy()
        self.took(tk)
        if name:
            self.named_by(tk)
        else:
            self.valued(tk)
        self.sus = (tk[1], tk[2], line, keep, name)

    def close(self, tk):
        self.pop()
        self.took(tk)
        b = self.top()
        b.val = ('box', b.val[1], tk[2])
        b.state = 'after' if b.obj is not None else 'done'

    def comma(self, tk):
        b = self.top()
        self.took(tk)
        b.prev_end = b.val[2]
        b.comma = tk[1]
        b.state = 'item'

    def full_fault(self, fault):
        """Nothing may stand in the container: all up to its bracket leaves."""
        b = self.top()
        depth = 0
        i = a = max(b.first, self.last)
        while True:
            k, x, e = self.peek(i)
            if k == 'end':
                break
            if k in '[{':
                depth += 1
            elif k in ']}':
                if depth == 0 and k == CLOSE[b.obj]:
                    break
                depth = max(0, depth - 1)
            i = e
        b.state = 'item'
        b.comma = None
        b.n = 0
        self.sus = None
        self.run = self.run_end = None
        if k == 'end':
            new = ''.join((CLOSE[c.obj] for c in reversed(self.stack[1:])))
            self.emit(fault, a, self.n, new)
            del self.stack[1:]
            self.top().state = 'done'
            self.i = self.n
            return
        if i == a or 'comments' not in self.o:
            i = x
            while i > a and self.t[i - 1] in BLANKS:
                i -= 1
        self.emit(fault, a, i, '')
        self.i = self.end_of_last = i

    def glued(self, fault, tk):
        """Bare lexemes that touch are one word: it is respelled, or put in quotes, whole."""
        if self.run is None or self.run_end != tk[1] or tk[0] not in ('number', 'kw', 'word', 'junk') or (self.t[tk[1]] in ';=') or (self.run < self.last):
            return False
        a = self.run
        e = max(tk[2], self.run_to(tk[1]))
        b = self.top()
        r = self.t[a:e]
        if b.state == 'name' and b.name[1] == a:
            new = self.quote(r)
            kind = 'name'
        elif b.state == 'name' and b.val is not None and (b.val[1] >= a):
            kind = 'value'
            new = self.respell(r) or self.quote(r)
        elif b.state in ('after', 'done') and b.val[0] != 'box' and (b.val[1] >= a):
            kind = 'value'
            new = self.respell(r) or self.quote(r)
        else:
            return False
        self.emit(fault, a, e, new)
        self.took(('string', a, e))
        if kind == 'name':
            b.name = ('string', a, e)
            b.state = 'name'
        else:
            b.val = ('literal', a, e)
            b.state = 'after' if b.obj is not None else 'done'
        return True

    def quote(self, r):
        return '"' + r.replace('\\', '\\\\').replace('"', '\\"') + '"'

    def respell(self, r):
        """The literal that a word is taken for, or None."""
        if r.lower() in ('true', 'false', 'null'):
            return r.lower()
        if r in ('None', 'undefined', 'nil'):
            return 'null'
        sign, b = (r[0], r[1:]) if r[:1] in ('+', '-') and r else ('', r)
        if b in ('Infinity', 'NaN'):
            if 'nonfinite' not in self.o:
                return 'null'
            return (sign if sign == '-' or 'plus' in self.o else '') + b
        if sign == '+' and 'plus' not in self.o:
            sign = ''
        if b[:2] in ('0x', '0X') and all((c in HEX for c in b[2:])):
            if 'hex' in self.o:
                return sign + b + ('' if len(b) > 2 else '0')
            return sign + str(int(b[2:] or '0', 16)) if len(b) <= 18 else None
        m = DEC.fullmatch(b)
        if not m or not (sign or b):
            return None
        whole, point, frac, exp, es, digits = m.groups()
        if not whole and (not frac):
            if point or exp or (not r):
                return None
            return sign + '0'
        if whole:
            whole = whole.lstrip('0') or '0'
        if point and (not frac) and ('bare' not in self.o):
            point = ''
        if point and (not whole) and ('bare' not in self.o):
            whole = '0'
        return sign + whole + (point or '') + (frac or '') + (exp + es + (digits or '0') if exp else '')

    def symbols(self, r):
        return not any((is_alnum(c) or c in '_$' for c in r))

    def opening(self, tk, marks):
        """Whether only the opening quote of a string is missing: the place of its closing one. It is looked for on the line, and not far."""
        t, j = (self.t, tk[1])
        end = min(self.n, j + 200)
        prev = t[j]
        if prev in ';=':
            return None
        while j < end:
            c = t[j]
            if c in '\r\n\\':
                return None
            if c == '"' or (c == "'" and 'single' in self.o):
                break
            if c == '/' and prev != ':' and (t[j + 1:j + 2] in ('/', '*')) and (j + 1 < end):
                return None
            if c not in BLANKS:
                prev = c
            j += 1
        else:
            return None
        if j == tk[1] or prev in '[{,:' or (prev == '/' and t[j - 1] in '/*'):
            return None
        c = self.follows(j + 1)
        return j if c in marks or c == '' else None

    def single_end(self, i):
        """The end of a string in single quotes where these are forbidden, on its line; or None."""
        j = i + 1
        while j < self.n and self.t[j] not in '\r\n':
            if self.t[j] == "'":
                return j + 1
            j += 2 if self.t[j] == '\\' else 1
        return None

    def respell_single(self, i, e):
        """The same string in double quotes; bad escapes become backslashes."""
        t, out, j, ext = (self.t, '"', i + 1, 'escapes' in self.o)
        while j < e - 1:
            c = t[j]
            if c == '"':
                out += '\\"'
                j += 1
            elif c == '\\':
                x, f = escape(t, j, "'", ext)
                if t[j + 1] == "'":
                    out += "'"
                    j += 2
                elif x is not None and x <= e - 1:
                    out += t[j:x]
                    j = x
                elif t[j + 1] == '"':
                    out += '\\"'
                    j += 2
                else:
                    out += '\\\\'
                    j += 1
            else:
                out += c
                j += 1
        return out + '"'

    def single(self, tk):
        """A string in single quotes, which are forbidden, becomes a token of its own by a change; or the quote is junk."""
        f = tk[3]
        e = self.single_end(tk[1])
        if e is None:
            return ('junk', tk[1], max(self.run_to(tk[1]), tk[1] + 1), f)
        return ('single', tk[1], e, f)

    def misplaced_literal(self, fault, tk, comma=False):
        """A word or junk where a value must stand."""
        a, e = (tk[1], tk[2])
        b = self.top()
        pre = ', ' if comma else ''
        if tk[0] == 'single':
            self.emit(fault, a, e, pre + self.respell_single(a, e))
            self.took(('string', a, e))
            self.valued(('string', a, e))
            return
        e = max(e, self.run_to(a))
        r = self.t[a:e]
        q = self.opening(tk, ',]}' if b.state != 'item' or b.obj is not None else ',]}:')
        if q is not None:
            self.emit(fault, a, a, pre + self.t[q])
            self.took(('string', a, q + 1))
            self.valued(('string', a, q + 1))
            return
        if self.t[a] in ';=' or (self.symbols(r) and self.respell(r) is None):
            if b.state == 'colon' and self.follows(e) in ('', ',', '}', ']'):
                self.emit(fault, a, e, 'null')
                self.took(('kw', a, e))
                self.valued(('kw', a, e))
            else:
                self.delete(fault, a, e)
                self.i = self.end_of_last = e
                self.run = self.run_end = None
                self.sus = None
            return
        # a path or an address without quotes
        if self.t[e:e + 1] == ':' and self.t[e + 1:e + 2] in ('/', '\\') and (e + 1 < self.n) and (b.obj is not None):
            while e < self.n and self.t[e] not in BLANKS and (self.t[e] == ':' or self.t[e] not in PUNCT) and (self.t[e] not in '"\''):
                e += 1
            self.emit(fault, a, e, pre + self.quote(self.t[a:e]))
            self.took(('string', a, e))
            self.valued(('literal', a, e))
            return
        # the value is missing, and this is the next name
        if b.state == 'colon' and self.follows(e) == ':':
            x = max(b.colon, self.last)
            self.emit(fault, x, x, ' null,')
            self.sus = None
            b.val = ('kw', x, x)
            b.state = 'item'
            b.comma = None
            return
        new = self.respell(r)
        if new is None:
            while True:
                j = e
                while j < self.n and self.t[j] in ' \t':
                    j += 1
                if j == e or j >= self.n or self.t[j] in PUNCT or (self.t[j] in '"\r\n;=') or (self.t[j] == "'" and 'single' in self.o):
                    break
                if self.t[j] == '/' and self.t[j + 1:j + 2] in ('/', '*'):
                    break
                x = self.run_to(j)
                w = self.t[j:x]
                if x == j or bare(self.t, j, self.o)[0] in ('number', 'kw') or self.symbols(w) or (self.follows(x) == ':') or (x < self.n and self.t[x] in '"\''):
                    break
                e = x
            new = self.quote(self.t[a:e])
        self.emit(fault, a, e, pre + new)
        self.took(('string', a, e))
        self.valued(('literal', a, e))

    def misplaced_name(self, fault, tk, comma=False):
        """A word or junk where a name must stand."""
        a, e = (tk[1], tk[2])
        pre = ', ' if comma else ''
        if tk[0] == 'single':
            self.emit(fault, a, e, pre + self.respell_single(a, e))
            self.took(('string', a, e))
            self.named_by(('string', a, e))
            return
        e = max(e, self.run_to(a))
        r = self.t[a:e]
        q = self.opening(tk, ':,}')
        if q is not None:
            self.emit(fault, a, a, pre + self.t[q])
            self.took(('string', a, q + 1))
            self.named_by(('string', a, q + 1))
            return
        if self.t[a] in ';=' or (self.symbols(r) and self.follows(e) != ':'):
            self.delete(fault, a, e)
            self.i = self.end_of_last = e
            self.run = self.run_end = None
            self.sus = None
            return
        if 'loose' in self.o and (not comma) and (fault[0] == 'UnexpectedToken') and (fault[1:] == (a, e)) and (e < self.n) and (self.t[a] in '_$' or is_alnum(self.t[a])):
            c = self.t[e]
            w = ('word', a, e)
            if c in '/\x0b':
                self.emit(fault, e, e, ' ')
                self.took(w)
                self.named_by(w)
                return
            if c == '=':
                x = self.run_to(e)
                self.emit(fault, e, x, ':')
                self.named_by(w)
                self.took((':', e, x))
                self.top().state = 'colon'
                self.top().colon = x
                return
            if c in '"\'{[':
                self.emit(fault, e, e, ': ')
                self.named_by(w)
                self.took((':', e, e))
                self.top().state = 'colon'
                self.top().colon = e
                return
            if c in ',}];':
                self.emit(fault, e, e, ': null')
                self.took(w)
                self.named_by(w)
                self.top().state = 'colon'
                self.valued(('kw', e, e))
                return
        self.emit(fault, a, e, pre + self.quote(r))
        self.took(('string', a, e))
        self.named_by(('string', a, e))

    def colon_in_array(self, fault, tk):
        """A colon behind an element: the array was not closed before the name, or its bracket is of the wrong kind."""
        b = self.top()
        p = self.stack[-2]
        k = b.val[0]
        name = k == 'string' or (k in ('number', 'kw') and 'loose' in self.o)
        if name and b.n > 1 and (p.obj is True) and (b.prev_end is not None) and self.free(b.prev_end):
            at = b.prev_end
            has_comma = b.colon
            self.emit(fault, at, at, ']' if has_comma or 'missing' in self.o else '],')
            v = b.val
            self.pop()
            p.val = ('box', p.val[1], at)
            p.state = 'item'
            self.named_by(v)
            self.sus = None
            return
        if name and b.n == 1 and self.free(b.at) and (b.level + 1 <= DEPTH):
            self.emit(fault, b.at, b.at + 1, '{')
            self.index[False].pop()
            self.index[True].append(len(self.stack) - 1)
            b.obj = True
            b.full = False
            b.n = 0
            b.state = 'item'
            self.named_by(b.val)
            self.sus = None
            return
        k, x, e = self.peek(tk[2])
        if k in ('string', 'number', 'kw', '[', '{') and 'missing' not in self.o:
            self.emit(fault, tk[1], tk[2], ',')
            self.comma(tk)
            b.comma = None
            return
        self.delete(fault, tk[1], tk[2])
        self.i = self.end_of_last = tk[2]
        self.sus = None
        self.run = self.run_end = None

    def behind(self, i):
        """What stands behind a bracket that ends at i: end, a bracket, a comma before a name and colon (named), a comma before another thing (comma), or other."""
        if i not in self.looks:
            k, a, e = self.peek(i)
            if k == ',':
                k = 'named' if self.named(e) else 'comma'
            self.looks = {i: k}
        return self.looks[i]

    def wrong_close(self, fault, tk):
        """A closing bracket of the other kind: those that are missing are put before it, or it is respelled, or it leaves."""
        b = self.top()
        kind = tk[0] == '}'
        at = self.index[kind][-1] if self.index[kind] else None
        look = self.behind(tk[2])

        def goes(box):
            if box.obj is None:
                return look == 'end'
            if box.obj:
                return look in ('}', 'named', 'end')
            return look in (']', 'comma', 'end')
        deep = b.obj is True and b.state == 'item' and (b.comma is not None)
        if at is not None and (goes(self.stack[at - 1]) or (not goes(self.stack[-2]) and (not goes(b)))):
            new = ''.join((CLOSE[c.obj] for c in reversed(self.stack[at + 1:])))
            if b.state == 'item' and b.comma is not None and ('trailing' not in self.o):
                if self.last <= b.comma:
                    self.emit(fault, b.comma, b.comma + 1, new)
                else:
                    self.emit(fault, tk[1], tk[1], ('null' if not b.obj else '"": null') + new)
            else:
                p = max(self.end_of_last, self.last)
                self.emit(fault, p, p, new)
            while len(self.stack) > at + 1:
                self.pop()
                x = self.top()
                x.val = ('box', x.val[1], self.last)
                x.state = 'after'
            self.sus = None
            self.run = self.run_end = None
            return
        if goes(self.stack[-2]) and (not (b.state == 'item' and b.comma is not None and ('trailing' not in self.o))):
            self.emit(fault, tk[1], tk[2], CLOSE[b.obj])
            self.close(tk)
            return
        self.delete(fault, tk[1], tk[2])
        self.i = self.end_of_last = tk[2]
        self.sus = None
        self.run = self.run_end = None

    def trailing(self, tk):
        b = self.top()
        if b.state == 'item' and b.comma is not None and ('trailing' not in self.o):
            f = ('TrailingCommasNotAllowed', b.comma, b.comma + 1)
            if self.last <= b.comma:
                self.emit(f, b.comma, b.comma + 1, '')
            else:
                self.emit(f, tk[1], tk[1], '"": null' if b.obj else 'null')
            b.comma = None

    def second_comma(self, fault, tk):
        """A comma where an entry must stand: the comma before it leaves, or else this one."""
        b = self.top()
        if b.comma is not None and self.last <= b.comma:
            self.delete(fault, b.comma, b.comma + 1)
            self.took(tk)
            b.comma = tk[1]
        else:
            self.delete(fault, tk[1], tk[2])
            self.i = self.end_of_last = tk[2]
            self.sus = None

    def step(self, tk):
        b = self.top()
        k = tk[0]
        if k == 'single' and (not b.full):
            tk = self.single(tk)
            k = tk[0]
        lexical = tk[3] if k in ('junk', 'bad', 'single') else None
        if b.full and k != CLOSE[b.obj]:
            start = b.at if not b.obj or b.state != 'colon' else b.name[1]
            deep = ('NestingDepthExceeded', start, tk[2])
            if lexical is not None:
                self.full_fault(lexical)
                return
            if not b.obj or b.state == 'colon':
                self.full_fault(deep)
                return
            if b.state == 'name' and k != ':':
                self.full_fault(('ExpectedColonAfterObjectKey', tk[1], tk[2]))
                return
            if b.state == 'item' and k in '{[],:':
                self.full_fault(('UnexpectedTokenInObject', tk[1], tk[2]))
                return
            if b.state == 'item' and k != 'string' and ('loose' not in self.o):
                self.full_fault(('ExpectedStringObjectProperty', tk[1], tk[2]))
                return
            if b.state == 'item' and k != 'string':
                self.took(tk)
                self.named_by(tk)
                return
        if b.full and k == CLOSE[b.obj] and (b.state != 'item'):
            self.full_fault(('NestingDepthExceeded', b.name[1], tk[2]) if b.state == 'colon' else ('ExpectedColonAfterObjectKey', tk[1], tk[2]))
            return
        if b.obj is None:
            return self.step_root(b, k, tk, lexical)
        if b.state == 'item':
            return self.step_item(b, k, tk, lexical)
        if b.state == 'name':
            return self.step_name(b, k, tk, lexical)
        if b.state == 'colon':
            return self.step_colon(b, k, tk, lexical)
        return self.step_after(b, k, tk, lexical)

    def step_root(self, b, k, tk, lexical):
        if b.state == 'item':
            if k in ('string', 'number', 'kw', '[', '{'):
                self.value(tk)
                return
            fault = lexical or (UNEXPECTED[k], tk[1], tk[2])
            if k in ']},:':
                self.delete(fault, tk[1], tk[2])
                self.i = self.end_of_last = tk[2]
                return
            if k != 'single' and tk[1] >= self.looked and (self.opening(tk, ':,') is None):
                e, x = (tk[2], None)
                while True:
                    e = max(e, self.run_to(e) if e < self.n and self.t[e] not in BLANKS and (self.t[e] not in PUNCT) and (self.t[e] != '"') and (not (self.t[e] == '/' and self.t[e + 1:e + 2] in ('/', '*'))) and (not (self.t[e] == "'" and 'single' in self.o)) else e)
                    x = self.peek(e)
                    if x[0] in ('word', 'junk') and self.skip_blanks(e) == x[1]:
                        e = x[2]
                        continue
                    break
                self.looked = e
                if x[0] in ('[', '{') or self.symbols(self.t[tk[1]:e]):
                    self.delete(fault, tk[1], e)
                    self.i = self.end_of_last = e
                    self.run = self.run_end = None
                    return
            self.misplaced_literal(fault, tk)
            return
        fault = lexical or ('MultipleRootJsonValues', tk[1], tk[2])
        if self.glued(fault, tk):
            return
        if self.try_cut(fault, tk):
            return
        v = b.val
        if k == ':' and v[0] != 'box' and (v[0] != 'literal') and (v[0] == 'string' or 'loose' in self.o) and self.free(v[1]):
            self.emit(fault, v[1], v[1], '{')
            b.state = 'item'
            self.push(True, v[1])
            x = self.top()
            b.val = ('box', v[1], None)
            x.first = v[1]
            self.named_by(v)
            self.sus = None
            return
        c = self.closed
        if k == ',' and v[0] == 'box' and (c is not None) and (self.last <= v[2] - 1) and (self.end_of_last == v[2]):
            x = self.peek(tk[2])
            if c.obj and x[0] in ('string', 'word') and (self.follows(x[2]) == ':') or (not c.obj and x[0] in ('string', 'number', 'kw', '[', '{') and (self.follows(x[2]) != ':')):
                if c.state == 'after' and (not c.full):
                    self.delete(fault, v[2] - 1, v[2])
                    b.state = 'item'
                    self.stack.append(c)
                    self.index[c.obj].append(len(self.stack) - 1)
                    b.state = 'done'
                    self.sus = None
                    return
        e = i = tk[2]
        while True:
            x = self.peek(i)
            if x[0] == 'end':
                break
            e = i = x[2]
        self.delete(fault, tk[1], e)
        self.i = self.end_of_last = e
        self.sus = None
        self.run = self.run_end = None

    def step_item(self, b, k, tk, lexical):
        if k == CLOSE[b.obj]:
            self.trailing(tk)
            self.close(tk)
            return
        if k == 'string' or (not b.obj and k in ('number', 'kw', '[', '{')):
            own = b.comma is not None
            if b.obj:
                self.value(tk)
            else:
                self.note(b, own)
                self.value(tk)
            return
        if b.obj and k in ('number', 'kw', 'word'):
            if 'loose' in self.o:
                self.took(tk)
                self.named_by(tk)
                return
            self.misplaced_name(('ExpectedStringObjectProperty', tk[1], tk[2]), tk)
            return
        fault = lexical or ('UnexpectedTokenInObject' if b.obj else UNEXPECTED[k], tk[1], tk[2])
        if self.try_cut(fault, tk):
            return
        if k == ',':
            self.second_comma(fault, tk)
            return
        if k in ']}':
            self.wrong_close(fault, tk)
            return
        if k == ':':
            if b.obj:
                self.emit(fault, tk[1], tk[1], '""')
                self.named_by(('string', tk[1], tk[1]))
                return
            self.delete(fault, tk[1], tk[2])
            self.i = self.end_of_last = tk[2]
            return
        if k in '[{':
            p = self.stack[-2]
            if k == '{' and b.n and (b.comma is not None) and (p.obj is False) and (b.prev_end is not None) and self.free(b.prev_end):
                self.emit(fault, b.prev_end, b.prev_end, '}')
                c = b.comma
                self.pop()
                p.val = ('box', p.val[1], b.prev_end)
                p.state = 'item'
                p.comma = c
                p.prev_end = b.prev_end
                return
            # a brace twice
            if k == '{' and b.n == 0 and (self.end_of_last == tk[1]):
                self.delete(fault, tk[1], tk[2])
                self.i = self.end_of_last = tk[2]
                return
            self.emit(fault, tk[1], tk[1], '"": ')
            self.named_by(('string', tk[1], tk[1]))
            b.state = 'colon'
            b.colon = tk[1]
            return
        if b.obj:
            self.misplaced_name(fault, tk)
        else:
            self.note(b, b.comma is not None)
            self.misplaced_literal(fault, tk)

    def note(self, b, own):
        """Whether the text's own comma stands before the element that begins."""
        b.colon = own

    def step_name(self, b, k, tk, lexical):
        if k == ':':
            self.took(tk)
            b.state = 'colon'
            b.colon = tk[2]
            return
        fault = lexical or ('ExpectedColonAfterObjectKey', tk[1], tk[2])
        if self.glued(fault, tk):
            return
        if self.try_cut(fault, tk):
            return
        at = max(b.name[2], self.last)
        if k in ('string', 'number', 'kw', 'word') and self.follows(tk[2]) == ':':
            self.emit(fault, at, at, ': null,')
            b.val = ('kw', at, at)
            b.state = 'item'
            self.sus = None
            return
        if k in ('string', 'number', 'kw', '[', '{'):
            self.emit(fault, at, at, ':')
            b.state = 'colon'
            b.colon = at
            self.sus = None
            self.value(tk)
            return
        # a mark in the place of the colon
        if k in ',]}' or (k == 'junk' and self.t[tk[1]] == ';'):
            x = self.peek(tk[2])
            if x[0] in ('number', 'kw', '[', '{') or (x[0] == 'string' and k != ','):
                if self.follows(x[2]) != ':':
                    self.emit(fault, tk[1], tk[2], ':')
                    self.took((':', tk[1], tk[2]))
                    b.state = 'colon'
                    b.colon = tk[2]
                    return
        if k in ('junk', 'word', 'single'):
            a, e = (tk[1], tk[2])
            if self.t[a] == '=':
                self.emit(fault, a, e, ':')
                self.took((':', a, e))
                b.state = 'colon'
                b.colon = e
                return
            if k != 'single' and (self.t[a] == ';' or (self.symbols(self.t[a:e]) and self.respell(self.t[a:e]) is None)):
                self.delete(fault, a, e)
                self.i = self.end_of_last = e
                self.sus = None
                self.run = self.run_end = None
                return
            if k == 'single':
                new = self.respell_single(a, e)
            else:
                e = max(e, self.run_to(a))
                new = self.respell(self.t[a:e]) or self.quote(self.t[a:e])
            self.emit(fault, a, e, ': ' + new)
            b.state = 'colon'
            self.took(('string', a, e))
            self.valued(('literal', a, e))
            return
        self.emit(fault, at, at, ': null')
        b.state = 'colon'
        self.valued(('kw', at, at))
        self.sus = None

    def step_colon(self, b, k, tk, lexical):
        if k in ('string', 'number', 'kw', '[', '{'):
            self.value(tk)
            return
        fault = lexical or (UNEXPECTED[k], tk[1], tk[2])
        if k == ':':
            self.delete(fault, tk[1], tk[2])
            self.i = self.end_of_last = tk[2]
            return
        # the wrong one of a pair of brackets
        if k in '}]' and self.behind(tk[2]) in ('string', 'number', 'kw', '[', '{', 'word'):
            self.emit(fault, tk[1], tk[2], '{' if k == '}' else '[')
            self.value(('{' if k == '}' else '[', tk[1], tk[2]))
            return
        if k in ',}]':
            at = max(b.colon, self.last)
            self.emit(fault, at, at, ' null')
            self.valued(('kw', at, at))
            return
        self.misplaced_literal(fault, tk)

    def step_after(self, b, k, tk, lexical):
        if k == ',':
            self.comma(tk)
            return
        if k == CLOSE[b.obj]:
            self.close(tk)
            return
        missing = 'missing' in self.o
        begins = k in ('string', 'number', 'kw', 'word') if b.obj else k in ('string', 'number', 'kw', '[', '{')
        if begins and missing:
            b.prev_end = b.val[2]
            b.comma = None
            b.state = 'item'
            if b.obj and k != 'string' and ('loose' not in self.o):
                f = ('ExpectedStringObjectProperty', tk[1], tk[2])
                if self.glued(f, tk):
                    return
                if self.try_cut(f, tk):
                    return
            elif not b.obj:
                self.note(b, False)
            self.step_item(b, k, tk, lexical)
            return
        end = b.val[2]
        if begins:
            fault = ('ExpectedComma', end, end)
        else:
            fault = lexical or ('UnexpectedTokenInObject' if b.obj else UNEXPECTED[k], tk[1], tk[2])
        if self.glued(fault, tk):
            return
        if self.try_cut(fault, tk):
            return
        if begins:
            p = self.stack[-2]
            # the array was not closed before the name
            if not b.obj and k == 'string' and (p.obj is True) and (self.follows(tk[2]) == ':'):
                at = max(end, self.last)
                self.emit(fault, at, at, '],')
                self.pop()
                p.val = ('box', p.val[1], at)
                p.prev_end = at
                p.comma = None
                p.state = 'item'
                self.sus = None
                return
            self.lacks_comma(fault)
            return
        if k in ']}':
            self.wrong_close(fault, tk)
            return
        if k == ':':
            if not b.obj:
                self.colon_in_array(fault, tk)
                return
            v = b.val
            if (v[0] == 'string' or (v[0] in ('number', 'kw') and 'loose' in self.o)) and b.colon is not None and (self.last <= v[1]) and (v[1] >= b.colon):
                x = max(b.colon, self.last)
                self.emit(fault, x, x, ' null,')
                self.named_by(v)
                self.sus = None
                return
            self.delete(fault, tk[1], tk[2])
            self.i = self.end_of_last = tk[2]
            self.sus = None
            self.run = self.run_end = None
            return
        if k in '[{':
            p = self.stack[-2]
            at = max(end, self.last)
            if k == '{' and p.obj is False:
                self.emit(fault, at, at, '},')
                self.pop()
                p.val = ('box', p.val[1], at)
                p.state = 'item'
                p.comma = None
                p.prev_end = at
                self.note(p, True)
                self.sus = None
                return
            self.emit(fault, tk[1], tk[1], ', "": ')
            self.named_by(('string', tk[1], tk[1]))
            b.state = 'colon'
            b.colon = tk[1]
            self.sus = None
            return
        a, e = (tk[1], tk[2])
        if k != 'single' and (self.t[a] in ';=' or (self.symbols(self.t[a:e]) and self.respell(self.t[a:e]) is None)):
            x = self.peek(e)
            if x[0] in ('string', 'number', 'kw', 'word', '[', '{') or (x[0] == 'junk' and (not self.symbols(self.t[x[1]:x[2]]))):
                self.emit(fault, a, e, ',')
                self.took((',', a, e))
                b.prev_end = end
                b.comma = None
                b.state = 'item'
                if not b.obj:
                    self.note(b, True)
            else:
                self.delete(fault, a, e)
                self.i = self.end_of_last = e
                self.sus = None
                self.run = self.run_end = None
            return
        b.prev_end = end
        if b.obj:
            if k == 'single' or self.follows(max(e, self.run_to(a))) == ':' or self.opening(tk, ':') is not None:
                b.state = 'item'
                self.misplaced_name(fault, tk, True)
            else:
                e = max(e, self.run_to(a))
                self.delete(fault, a, e)
                self.i = self.end_of_last = e
                self.sus = None
                self.run = self.run_end = None
        else:
            b.state = 'item'
            self.note(b, True)
            self.misplaced_literal(fault, tk, not missing)

    def at_end(self, tk):
        """The text ends: what is open is closed. Whether nothing is left to do."""
        b = self.top()
        n = self.n
        if b.obj is None:
            return True
        deep = b.full and b.state == 'colon'
        fault = ('NestingDepthExceeded', b.name[1], n) if deep else ('ExpectedColonAfterObjectKey', n, n) if b.state == 'name' else ('ExpectedObjectValue', n, n) if b.state == 'colon' else ('UnterminatedObject' if b.obj else 'UnterminatedArray', b.at, n)
        if b.full and b.state != 'item':
            self.full_fault(fault)
            return True
        if self.try_cut(fault, tk):
            return False
        closers = ('\n' if self.line_at_end else '') + ''.join((CLOSE[c.obj] for c in reversed(self.stack[1:])))
        if b.state in ('name', 'colon'):
            at = max(b.name[2] if b.state == 'name' else b.colon, self.last)
            new = ': null' if b.state == 'name' else ' null'
            if self.skip_blanks(at) >= n:
                self.emit(fault, at, at, new + closers)
                return True
            self.emit(fault, at, at, new)
            b.state = 'colon'
            self.valued(('kw', at, at))
            return False
        if b.state == 'item' and b.comma is not None and ('trailing' not in self.o):
            if self.last <= b.comma:
                if self.skip_blanks(b.comma + 1) >= n:
                    self.emit(fault, b.comma, b.comma + 1, closers)
                    return True
                self.emit(fault, b.comma, b.comma + 1, '')
                b.comma = None
                return False
            closers = ('\n' if self.line_at_end else '') + ('"": null' if b.obj else 'null') + closers.lstrip('\n')
        self.emit(fault, n, n, closers)
        return True


def apply(t, mends, count=None):
    out, i = ([], 0)
    for m in mends[:count]:
        out += [t[i:m.at], m.new]
        i = m.to
    return ''.join(out) + t[i:]


def recover(t, o):
    return Mender(t, o).walk()
