#!/usr/bin/env python3
"""Times what a linter does, of our program alone, and writes the section "A linter" of docs/proofs/SPEED.md.

usage: lint.py OURS FOLDER [ROUNDS]

`lint` parses a text, walks all nodes with their ranges, finds the line and column of each property, and asks each object for
names that stand twice. Wanted: at most twice the time of `document`, which only parses, and on 10 MB at most 13 times that of
1 MB, where the C library keeps the pages that it has. Of an object of properties that all have names of their own, `repeated`
compares the names, and `last` gets the last property, on 100,000 and on half as many: at most 2.5 times the time.
"""
import datetime
import os
import random
import sys

import documents
import measure

SIZES = ['100 KB', '1 MB', '10 MB']
TWICE, GROWTH, LINEAR = 2, 13, 2.5
COUNT = 100_000


def an_object(count):
    """An object of so many properties, one a line."""
    return '{\n' + ',\n'.join('  "name%d": %d' % (number, number) for number in range(count)) + '\n}\n'


def written_to(folder, name, text):
    path = os.path.join(folder, name)
    with open(path, 'wb') as file:
        file.write(text.encode())
    return path


def rows(ours, folder, rounds):
    found = {}
    for size in SIZES:
        path = written_to(folder, 'lint-' + size.replace(' ', ''), documents.settings(random.Random(7), documents.SIZES[size]))
        found[size] = measure.taken([(ours, call, path) for call in ('lint', 'document')], rounds, measure.KEEPS_PAGES)
    for size, (lint, document) in found.items():
        before = found.get({'10 MB': '1 MB'}.get(size))
        grown = measure.marked(lint.seconds / before[0].seconds, GROWTH, most=True) if before else '–'
        yield ['settings, ' + size, *map(measure.milliseconds, (lint.seconds, document.seconds)),
               measure.marked(lint.seconds / document.seconds, TWICE, most=True), grown]


def of_object(ours, folder, rounds, call):
    """What a call takes on an object, and how many times as long as on half of it."""
    paths = [written_to(folder, 'object-%d' % count, an_object(count)) for count in (COUNT, COUNT // 2)]
    whole, half = measure.taken([(ours, call, path) for path in paths], rounds, measure.KEEPS_PAGES)
    return measure.milliseconds(whole.seconds), measure.marked(whole.seconds / half.seconds, LINEAR, most=True)


def main(ours, folder, rounds='5'):
    os.makedirs(folder, exist_ok=True)
    repeated, last = [of_object(ours, folder, int(rounds), call) for call in ('repeated', 'last')]
    written = '\n'.join([
        '## A linter',
        '',
        'On %s, %s, by `bench/speed/lint.py`, pages kept. Milliseconds of `lint` and of `document`; the one in times of the other (wanted: at most 2),'
        ' and of 1 MB (at most 13).' % (measure.machine(), datetime.date.today()),
        '',
        measure.table(['Document', '`lint`', '`document`', 'times', 'of 1 MB'], list(rows(ours, folder, int(rounds)))),
        '',
        'The names of an object of 100,000 properties are compared (`repeated_names`) in %s ms, %s times the time of half as many,'
        ' and the last property is found (`get`) in %s ms, %s times.' % (*repeated, *last),
        '',
    ])
    print(written)
    measure.put('A linter', written)


if __name__ == '__main__':
    main(*sys.argv[1:]) if len(sys.argv) in (3, 4) else sys.exit(__doc__)
