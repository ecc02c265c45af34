#!/usr/bin/env python3
"""Times edits of large arrays and objects, turn by turn with the Rust crate, and writes the section "Edits" of docs/proofs/SPEED.md.

usage: edits.py OURS THEIRS FOLDER [ROUNDS]

The array of numbers, or the object, has 10,000 entries or 100,000, on one line or on lines of their own. A process makes one edit again and
again on one document: as often as takes a tenth of a second, but where entries come or go no more than half as often as there are
entries. The time of a call is that of the process, less that of one that makes no call, divided by the calls; of each the least of the rounds.
"""
import datetime
import os
import sys

import measure

SIZES = [10_000, 100_000]
# What stands behind the first bracket, between two entries and before the last bracket.
SHAPES = {'one line': ('', ', ', ''), 'lines': ('\n  ', ',\n  ', '\n')}
# The calls, with what they are made of, and whether entries come or go.
CALLS = {'replaced': ('array', False), 'set': ('object', False), 'appended': ('array', True), 'inserted': ('array', True), 'removed': ('array', True)}
# No more calls than this are made in one process.
MOST = 1_000_000


def text(kind, count, shape):
    first, between, last = SHAPES[shape]
    entry, brackets = {'array': ('%d', '[]'), 'object': ('"name%d": 0', '{}')}[kind]
    return brackets[0] + first + between.join(entry % number for number in range(count)) + last + brackets[1] + '\n'


def written_to(folder, kind, count, shape):
    path = os.path.join(folder, 'edits-%s-%d-%s' % (kind, count, shape.replace(' ', '-')))
    with open(path, 'w') as file:
        file.write(text(kind, count, shape))
    return path


def calls(program, call, path, most):
    """How many calls are long enough to be timed, and no more than may be made."""
    def seconds(count):
        return measure.least(measure.run(program, call, count, path)[0] for _ in range(3)).seconds

    count, none = 1, seconds(0)
    while count < most and seconds(count) - none < measure.LONG_ENOUGH:
        count = min(most, 4 * count)
    return count


def took(programs, call, path, most, rounds):
    """Seconds of one call of each program, which are timed in turn."""
    if len({measure.run(program, call, 3, path)[1] for program in programs}) > 1:
        sys.exit('the answers of %s differ on %s' % (call, path))
    counts = [calls(program, call, path, most) for program in programs]
    found = [([], []) for _ in programs]
    for _ in range(rounds):
        for program, count, (many, none) in zip(programs, counts, found):
            many.append(measure.run(program, call, count, path)[0])
            none.append(measure.run(program, call, 0, path)[0])
    return [measure.least(many).each(measure.least(none), count).seconds for count, (many, none) in zip(counts, found)]


def short(number):
    """Three figures of a number, or all before the point."""
    return '%.3g' % number if number < 1000 else '{:,.0f}'.format(number)


def cell(ours, theirs):
    """Our microseconds, and how many times as long the other takes."""
    if ours <= 0:
        return '–'
    return '%s µs, %s' % (short(ours * 1e6), short(theirs / ours))


def rows(programs, folder, rounds):
    for call, (kind, grows) in CALLS.items():
        row = ['`%s`' % call]
        for count in SIZES:
            for shape in SHAPES:
                path = written_to(folder, kind, count, shape)
                row.append(cell(*took(programs, call, path, count // 2 if grows else MOST, rounds)))
                print('%-9s %7d on %-9s %s' % (call, count, shape, row[-1]), flush=True)
        yield row


def main(ours, theirs, folder, rounds='5'):
    os.makedirs(folder, exist_ok=True)
    head = ['Edit'] + ['{:,} on {}'.format(count, shape) for count in SIZES for shape in SHAPES]
    written = '\n'.join([
        '## Edits',
        '',
        'On %s, %s, by `bench/speed/edits.py`.' % (measure.machine(), datetime.date.today()),
        '',
        'On an array of so many numbers the last is replaced, a number is appended or inserted at the front, or elements are removed from the'
        ' last on; `set` sets the value of the last of so many properties. Microseconds of one of our calls, and how many times as long the Rust'
        ' crate takes.',
        '',
        measure.table(head, list(rows([ours, theirs], folder, int(rounds)))),
        '',
    ])
    print(written)
    measure.put('Edits', written)


if __name__ == '__main__':
    main(*sys.argv[1:]) if len(sys.argv) in (4, 5) else sys.exit(__doc__)
