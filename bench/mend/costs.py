#!/usr/bin/env python3
"""Asks whether mends cost time in proportion to the text, of texts with many faults.

usage: bench/mend/costs.py PROGRAM [SIZE [NAME ..]]
       bench/mend/costs.py PROGRAM --faults COUNT

PROGRAM is the built `jsonc_bench`. Each shape of `shapes.py` is put to it under three sets of options, at SIZE characters (20,000 if left out) and at four times
as many. The processor time of a run, less that of a run on no text, may be ten times as much at the larger size; what is too short to be measured there may be
anything. It is the least of three runs, and made again up to three times. A document without a fault may take twice what the check of it takes, which is asked by
the case `value`. With --faults each shape is made so large that it has COUNT faults, where it can have them, and the time of each is written.
"""
import resource
import subprocess
import sys

from compare import escaped
from shapes import SHAPES

SETS = {'JSON': '0' * 10, 'JSONC': '1010000000', 'all options': '1' * 10}
FACTOR = 10
LEAST = 0.1
RUNS = 3
TURNS = 3


def run(program, kind, options, text):
    """The processor time that a run of the program takes, and its answer."""
    case = '\t'.join(['case', kind, options, text]) + '\n'
    before = resource.getrusage(resource.RUSAGE_CHILDREN)
    said = subprocess.run([program], input=case.encode(), capture_output=True, check=True).stdout
    after = resource.getrusage(resource.RUSAGE_CHILDREN)
    return after.ru_utime - before.ru_utime + after.ru_stime - before.ru_stime, said


def seconds(program, kind, options, text, less=0.0):
    return max(0.0, min(run(program, kind, options, text)[0] for _ in range(RUNS)) - less)


def is_linear(program, options, shape, size, less, name):
    once, more = escaped(shape(size)), escaped(shape(4 * size))
    for _ in range(TURNS):
        if run(program, 'mends', options, more)[0] < LEAST:
            return True
        at_more = seconds(program, 'mends', options, more, less)
        at_once = seconds(program, 'mends', options, once, less)
        if at_more <= FACTOR * at_once:
            return True
    print('%s: %.0f ms at %d characters, %.0f ms at %d' % (name, at_once * 1000, size, at_more * 1000, 4 * size))
    return False


def costs_a_check(program, size, less):
    """Whether a document costs no more than twice what it takes to read its value."""
    text = escaped('{"a": [' + ', '.join(['1, "text", {"b": null}'] * (size // 6)) + ']}')
    for _ in range(TURNS):
        mends, value = seconds(program, 'mends', SETS['JSON'], text, less), seconds(program, 'value', SETS['JSON'], text, less)
        if mends < LEAST or mends <= 2 * value:
            return True
    print('a document: its mends %.0f ms, its value %.0f ms' % (mends * 1000, value * 1000))
    return False


def tell_faults(program, count, less):
    """The time that each shape takes at so many faults."""
    worst = 0
    for name, shape in SHAPES.items():
        for which, options in SETS.items():
            size = count
            for _ in range(3):
                taken, said = run(program, 'mends', options, escaped(shape(size)))
                faults = said.count(b'\t') - 2
                if faults >= count or faults * 20 < count:
                    break
                size = size * count // faults + count // 10
            if faults >= count:
                taken = min(taken, seconds(program, 'mends', options, escaped(shape(size)))) - less
                worst = max(worst, taken)
                print('%.3f s for %d faults: %s, %s' % (taken, faults, name, which))
    print('%.3f s at most' % worst)
    return 0


def main(program, *words):
    less = seconds(program, 'mends', SETS['JSON'], '')
    if words[:1] == ('--faults',):
        return tell_faults(program, int(words[1]), less)
    size = int(words[0]) if words else 20000
    names = words[1:] or SHAPES
    wrong = 0
    for name in names:
        for which, options in SETS.items():
            wrong += not is_linear(program, options, SHAPES[name], size, less, '%s, %s' % (name, which))
    if not words[1:]:
        wrong += not costs_a_check(program, size, less)
    print('costs of mends: %d of %d shapes are not linear' % (wrong, len(names) * len(SETS)))
    return 1 if wrong else 0


if __name__ == '__main__':
    sys.exit(main(*sys.argv[1:]) if len(sys.argv) > 1 else __doc__)
