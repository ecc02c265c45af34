"""check.py SEED COUNT: what the formatter promises, of the model, on so many random documents."""
import collections
import random
import sys
from layout import format, lines
from lexemes import BLANKS, Refused, marks, pieces, value
from texts import Texts

STYLES = [{}, {'expands': True}, {'level': '    ', 'line_end': '\n'}, {'level': '\t', 'expands': True, 'line_end': '\r\n'}, {'level': '', 'line_end': '\r'}]


def bare_pieces(options, text):
    return [(piece.kind, piece.text.rstrip(''.join(BLANKS)) if piece.kind == 'line' else piece.text) for piece in pieces(options, text)[0]]


def shifted_lines(options, formatted, level):
    """Whether each line that begins in a property has one level more than the line of its name, where no other bracket opens between."""
    found, last, name_indent, named = pieces(options, formatted)[0], '', None, False
    brackets = []
    for index, piece in enumerate(found):
        if lines(piece.gap):
            last = piece.gap.lstrip('\r\n')
            if name_indent is not None and last != name_indent + level:
                return False
        if piece.kind in '[{':
            brackets.append((piece.kind, lines(found[index + 1].gap) > 0 if index + 1 < len(found) else False))
            name_indent, named = None, False
        elif piece.kind in ']}':
            brackets.pop()
            name_indent, named = None, False
        elif piece.kind == ',':
            name_indent, named = None, False
        elif piece.kind == 'literal' and brackets and brackets[-1][0] == '{':
            name_indent, named = (last, True) if not named else (None, False)
    return True


def failures(options, text, style):
    """The names of the promises that a document breaks, and what it becomes."""
    formatted = format(options, text, **style)
    try:
        says = value(options, formatted)
    except Refused:
        return ['accepted'], formatted
    found, tail = pieces(options, formatted)
    holds = {
        'value': says == value(options, text),
        'marks': marks(options, formatted) == marks(options, text),
        'blanks': bare_pieces(options, formatted) == bare_pieces(options, text),
        'idempotent': format(options, formatted, **style) == formatted,
        'ends': tail in ('\n', '\r', '\r\n') if found else formatted == '',
        'blank lines': all(lines(piece.gap) <= 2 for piece in found) and (not found or found[0].gap == ''),
        'shifted': 'level' not in style or shifted_lines(options, formatted, style['level']),
    }
    return [name for name, kept in holds.items() if not kept], formatted


def main():
    source, seen = random.Random(int(sys.argv[1])), collections.Counter()
    while seen['documents'] < int(sys.argv[2]):
        texts = Texts(source)
        text = texts.text()
        try:
            value(texts.options, text)
        except Refused:
            seen['refused'] += 1
            continue
        seen['documents'] += 1
        style = source.choice(STYLES)
        broken, formatted = failures(texts.options, text, style)
        seen['changed'] += formatted != text
        for name in broken:
            seen[f'NOT {name}'] += 1
        if broken and sum(n for name, n in seen.items() if name.startswith('NOT')) < 8:
            print(broken, style, sorted(texts.options), repr(text), repr(formatted), sep='\n  ')
    print(dict(seen))
    return any(name.startswith('NOT') for name in seen)


if __name__ == '__main__':
    sys.exit(main())
