#!/usr/bin/env python3
"""Puts the mends of the program's library beside a model of the rules of docs/FAULTS.md (`recovery.py`), which makes them without it.

usage: bench/mend/compare.py PROGRAM SEED COUNT [--each] [--cuts DOCUMENTS] [--deep COUNT] [--short]

PROGRAM is the built `jsonc_bench`. Of each text the two must answer the same: each fault with its kind, range, line and column, each change with what it writes,
and the mended text. The mended text must be a document to the program, and the first fault the one that its parser tells.

COUNT random documents come from the seed, under random options, most of them damaged: slips of the keyboard, edits, cuts; and garbage. With --each the program is
asked of each later fault whether it is the first one of the text with the changes before it made. --cuts adds all beginnings of so many documents, --deep
documents about the greatest depth, and --short all texts of up to four pieces under three sets of options, of five as JSON.
"""
import collections
import itertools
import random
import subprocess
import sys

from lexemes import OPTIONS, options_of
from recovery import apply, recover
from texts import SOUP, Writer, edit, flags, garbage, slip

SHOWN = 5
BATCH = 4000
PIECES = ['{', '}', '[', ']', ',', ':', '"a"', '1 ', 'a', '"', ';', '/**/', '\n']
SETS = ('0' * 10, '1010000000', '1' * 10)
ESCAPED = ['\\x%02X' % byte if byte == 0x5c or not 0x20 <= byte < 0x7f else chr(byte) for byte in range(256)]


def escaped(text):
    return ''.join([ESCAPED[byte] for byte in text.encode()])


def asked(program, kind, cases):
    """What the program answers to cases of this kind: the fields behind the name."""
    lines = ''.join('\t'.join(['case', kind, *case]) + '\n' for case in cases)
    run = subprocess.run([program], input=lines, capture_output=True, text=True, encoding='ascii')
    answers = [line.split('\t')[1:] for line in run.stdout.splitlines()]
    if len(answers) != len(cases):
        sys.exit('%d answers to %d cases: %s' % (len(answers), len(cases), run.stderr[:300]))
    return answers


def faults(program, cases):
    """Of each options and text None, or the kind, the start and the end of the parser's fault."""
    told = []
    for answer in asked(program, 'edit', [(options, escaped(text), '') for options, text in cases]):
        words = answer[0].split(' ')
        told.append(None if words[0] == 'ok' else (words[1], int(words[2]), int(words[3])))
    return told


class Places:
    """The bytes before each character of a text, and its line and column."""

    def __init__(self, text):
        self.bytes, self.lines, self.columns = [0], [1], [1]
        for at, c in enumerate(text):
            ends = c == '\n' or c == '\r' and text[at + 1:at + 2] != '\n'
            self.bytes.append(self.bytes[-1] + len(c.encode()))
            self.lines.append(self.lines[-1] + ends)
            self.columns.append(1 if ends else self.columns[-1] + 1)


def wanted(text, mends):
    """What the program is to answer."""
    at = Places(text)
    fields = ['ok', escaped(apply(text, mends))]
    for mend in mends:
        numbers = at.bytes[mend.start], at.bytes[mend.end], at.lines[mend.start], at.columns[mend.start], at.bytes[mend.at], at.bytes[mend.to]
        fields.append('%s %s %s' % (mend.kind, ' '.join(map(str, numbers)), escaped(mend.new)))
    return fields


def moved(text, mends, count):
    """Between which places of the text with the first changes made the fault of the next one begins."""
    at = Places(text).bytes
    start = mends[count].start
    low = high = at[start]
    for mend in mends[:count]:
        more = len(mend.new.encode()) - (at[mend.to] - at[mend.at])
        if mend.to < start or mend.to == start and mend.at < mend.to:
            low, high = low + more, high + more
        elif mend.to == start:
            high += more
        elif mend.at <= start < mend.to:
            low, high = min(low, at[mend.at]), max(high, low + len(mend.new.encode()))
    return min(low, high), max(low, high)


def deep(source):
    """A document with a little of another one about the greatest depth, damaged there."""
    options = flags(source)
    inner = source.choice([Writer(source, options).document(), '', ' /* c */ ', garbage(source)])
    depth = source.randint(505, 513)
    objects = min(source.choice([0, 0, depth // 2, depth, 30]), depth // 2)
    arrays = depth - 2 * objects
    front, back = '[' * arrays + '{"a":' * objects, '}' * objects + ']' * arrays
    if source.random() < .5:
        front, back = '{"a":' * objects + '[' * arrays, ']' * arrays + '}' * objects
    text = front + inner + back
    place = source.choice([len(front), source.randint(0, len(text))])
    for _ in range(source.choice([0, 1, 1, 2])):
        text = text[:place] + edit(source, text[place:place + 60]) + text[place + 60:]
    return options, text


def damaged(source):
    """A random document, most often damaged, and its options."""
    options, kind = flags(source), source.random()
    if kind < .05:
        return options, garbage(source)
    text = Writer(source, options).document()
    if kind < .12:
        return options, text
    if kind < .17:
        return options, text[:source.randint(0, len(text))]
    if kind < .22:
        return flags(source), text
    if kind < .45:
        return options, slip(source, text)
    for _ in range(source.choice([1, 1, 1, 2, 3, 4, 5, 6])):
        text = edit(source, text)
    return options, text


def texts_of(words):
    source = random.Random(int(words.pop(0)))
    count = int(words.pop(0))
    more = dict(zip(words, words[1:] + ['']))
    for _ in range(count):
        yield damaged(source)
    for _ in range(int(more.get('--cuts', 0))):
        options = flags(source)
        text = Writer(source, options).document()
        for place in range(len(text)):
            yield options, text[:place]
    for _ in range(int(more.get('--deep', 0))):
        yield deep(source)
    if '--short' in words:
        for options in SETS:
            for pieces in range(6 if options == SETS[0] else 5):
                for text in itertools.product(PIECES, repeat=pieces):
                    yield options, ''.join(text)


def compared(program, batch, seen, each):
    def tell(what, *of):
        seen['DIFFER: ' + what] += 1
        if seen['DIFFER: ' + what] <= SHOWN:
            print(what, *[repr(it) for it in of], sep='\n  ')

    models = [recover(text, options_of(options)) for options, text in batch]
    answers = asked(program, 'mends', [(options, escaped(text)) for options, text in batch])
    firsts = faults(program, batch)
    lasts = faults(program, [(options, apply(text, mends)) for (options, text), mends in zip(batch, models)])
    later = []
    for (options, text), mends, answer, first, last in zip(batch, models, answers, firsts, lasts):
        seen['texts'] += 1
        seen['refused by the parser'] += first is not None
        seen['mends'] += len(mends)
        want = wanted(text, mends)
        if answer != want:
            tell('mends', options, text, want, answer)
        if last is not None:
            tell('a mended text is no document', options, text, want, last)
        told = answer[2].split(' ')[:3] if answer[2:] else None
        if told != (None if first is None else [str(it) for it in first]):
            tell('the first fault', options, text, told, first)
        later += [(options, text, mends, count) for count in range(1, len(mends))] if each else []
    for (options, text, mends, count), fault in zip(later, faults(program, [(options, apply(text, mends[:count])) for options, text, mends, count in later])):
        seen['later faults asked'] += 1
        low, high = moved(text, mends, count)
        if fault is None or fault[0] != mends[count].kind or not low <= fault[1] <= high:
            tell('a later fault', options, text, [tuple(it) for it in mends], count, fault)


def main(program, *words):
    seen, batch = collections.Counter(), []
    for case in texts_of(list(words)):
        batch.append(case)
        if len(batch) == BATCH:
            compared(program, batch, seen, '--each' in words)
            batch = []
    compared(program, batch, seen, '--each' in words)
    print('mends: ' + ', '.join('%d %s' % (count, what) for what, count in seen.items()))
    return 1 if any(what.startswith('DIFFER') for what in seen) else 0


if __name__ == '__main__':
    sys.exit(main(*sys.argv[1:]) if len(sys.argv) > 3 else __doc__)
