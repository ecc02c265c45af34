"""pieces.py SEED COUNT: that formatting twice is formatting once, of the model, on lists of pieces that are in no grammar."""
import collections
import random
import sys
from layout import Style, layout, respaced
from lexemes import Piece, is_line_end

TEXTS = {'literal': ['1', '1', '"\n"'], 'line': ['//c'], 'block': ['/**/', '/**/', '/*\n*/']}


def draw(source, is_balanced, is_ended):
    """Some pieces. Their brackets are balanced, of any kind, or are not; and after each line comment a line ends, or may not."""
    gaps, depth, found = source.choice([['', ' '], ['', ' ', '\n'], ['', '\n', '\n\n', '\r\n\r\n ', '  ']]), 0, []

    def add(kind):
        gap = source.choice(gaps)
        if is_ended and found and found[-1].kind == 'line' and not any(map(is_line_end, gap)):
            gap = '\n' + gap
        found.append(Piece(gap, kind, source.choice(TEXTS.get(kind, [kind]))))

    for _ in range(source.randint(0, 14)):
        kind = source.choice(['[', '{', ']', '}', ',', ':', 'literal', 'literal', 'line', 'block'])
        if kind in ']}' and is_balanced and depth == 0:
            continue
        depth += (kind in '[{') - (kind in ']}')
        add(kind)
    while is_balanced and depth > 0:
        add(']')
        depth -= 1
    return found


def main():
    source, seen = random.Random(int(sys.argv[1])), collections.Counter()
    for is_balanced, is_ended in ((True, True), (True, False), (False, True), (False, False)):
        for _ in range(int(sys.argv[2])):
            found = draw(source, is_balanced, is_ended)
            style = Style(source.choice(['\n', '\r\n', '\r']), source.choice(['', ' ', '\t']), source.random() < .3)
            seen['lists'] += 1
            if layout(style, respaced(style, found)) != layout(style, found):
                seen['NOT the same'] += 1
                if seen['NOT the same'] < 4:
                    print(style, found)
    print(dict(seen))
    return seen['NOT the same'] > 0


if __name__ == '__main__':
    sys.exit(main())
