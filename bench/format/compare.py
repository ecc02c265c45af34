#!/usr/bin/env python3
"""Puts what the program's `format` writes beside a model of formatted texts (`layout.py`), which makes them without it.

usage: bench/format/compare.py PROGRAM SEED COUNT
       bench/format/compare.py PROGRAM - < NAMES

PROGRAM is the built `jsonc`. Of each text the two must write the same bytes, or refuse it both. COUNT random documents come from the seed, under random options and
styles, some of them damaged. With - the files that standard input names are read instead, each in its own style; one that is not UTF-8 or is longer than two million
characters is passed over.
"""
import collections
import random
import subprocess
import sys
from layout import format
from lexemes import OPTIONS, Refused, value
from texts import Texts

STYLES = [([], {}), (['--expand'], {'expands': True}), (['--indent', '4'], {'level': '    '}), (['--indent', 'tab', '--expand'], {'level': '\t', 'expands': True}),
          (['--indent', '0', '--line-end', 'crlf'], {'level': '', 'line_end': '\r\n'}), (['--line-end', 'lf'], {'line_end': '\n'})]
LONGEST = 2_000_000


def wanted(text, style):
    try:
        value(set(OPTIONS), text)
    except Refused:
        return None
    return format(set(OPTIONS), text, **style)


def compare(program, text, words, style, seen, name):
    made = subprocess.run([program, 'format', *words], input=text.encode(), capture_output=True)
    want = wanted(text, style)
    seen['refused' if want is None else 'formatted'] += 1
    same = made.returncode == 1 if want is None else made.returncode == 0 and made.stdout == want.encode()
    if not same:
        seen['DIFFER'] += 1
        if seen['DIFFER'] < 6:
            print(name, words, repr(text[:300]), repr(made.stdout[:300]), made.stderr[:200], repr(want and want[:300]), sep='\n  ')


def damaged(source, text):
    place = source.randrange(len(text))
    return text[:place] + source.choice(['', ',', '"', ']', '/', '\n', ' ']) + text[place + 1:]


def read(name):
    try:
        with open(name, encoding='utf-8', newline='') as file:
            return file.read()
    except (OSError, UnicodeDecodeError):
        return None


def main():
    program, seed = sys.argv[1:3]
    sys.setrecursionlimit(20000)
    seen = collections.Counter()
    if seed == '-':
        for name in sys.stdin.read().splitlines():
            text = read(name)
            if text is None or len(text) > LONGEST:
                seen['passed over'] += 1
            else:
                compare(program, text, *STYLES[0], seen, name)
    else:
        source = random.Random(int(seed))
        for _ in range(int(sys.argv[3])):
            text = Texts(source).text()
            if text and source.random() < .1:
                text = damaged(source, text)
            compare(program, text, *source.choice(STYLES), seen, '')
    print('formatted texts: %d formatted, %d refused, %d passed over, %d differ' % tuple(seen[it] for it in ('formatted', 'refused', 'passed over', 'DIFFER')))
    return seen['DIFFER'] > 0


if __name__ == '__main__':
    sys.exit(main())
