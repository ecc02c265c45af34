#!/usr/bin/env python3
"""Writes crates/jsonc_bench/stdin and stdout: the cases of bench/crate, bench/rows, bench/settings, bench/cuts,
bench/pairs and bench/one_line, and a sample of a folder of vectors.

usage: bench/sample.py FOLDER

Of a folder it takes, shortest first, each case that shows something no case before it shows: see `shown`.
What is wanted is the stored answer; no answer is made here.
"""
import os
import re
import sys

import vectors
from edits import EDITS

HERE = vectors.HERE
CRATE = os.path.join(HERE, '..', 'crates', 'jsonc_bench')
# Longer cases are left out, but for those that show a depth.
LONGEST = 1500
LOOKUP = 'a look-up is get or take, with a kind or none, and a word'
EDIT = 'an edit is its kind, and the path, name, value, number or words that it takes'
NO_CASES = [
    ('', None),
    ('% a line that begins so is passed over', None),
    ('no-kind', 'it has no kind'),
    ('bad-kind\tparse\t1111111111\t1', 'there is no such kind'),
    ('bad-fields\tscan\t1111111111', 'its kind has another number of fields'),
    ('bad-options\tscan\t111111111\t1', 'options are ten characters 0 or 1'),
    ('bad-flag\tscan\t111111111x\t1', 'options are ten characters 0 or 1'),
    ('bad-collection\tast\t1111111111\tX-\t1', 'a collection is O, S or T, and then t or -'),
    ('bad-escape\tscan\t1111111111\t\\x0', 'an escape is \\x and two upper-case hex digits'),
    ('bad-digit\tscan\t1111111111\t\\x0g', 'an escape is \\x and two upper-case hex digits'),
    ('bad-backslash\tscan\t1111111111\t\\n', 'an escape is \\x and two upper-case hex digits'),
    ('bad-text\tscan\t1111111111\t\\xFF', 'its text is not UTF-8'),
    ('bad-word\tjsonc\tprint\t1', "a word begins with '"),
    ("bad-look-up\tjobj\t1111111111\t{}\tget_null 'a", LOOKUP),
    ('bad-name\tjobj\t1111111111\t{}\ttake a', LOOKUP),
    ('bad-edit\tedit\t1111111111\t1\tMove / /0', EDIT),
    ('bad-leaf\tedit\t1111111111\t1\tRawRemove x', EDIT),
    ('bad-text\tedit\t1111111111\t1\tRawSet 0 1', EDIT),
    ('bad-names\tedit\t1111111111\t1\tSetLast keep a N', EDIT),
    ('bad-rule\tedit\t1111111111\t[]\tSortX / text header 0', EDIT),
    ("bad-call\tjobj\t1111111111\t{}\thas 'a", LOOKUP),
]
# What the Rust crate's test of deep objects states (bench/crate has it with 600 of them, and here they are all), and arrays.
ALL = '1111111111'
DEEP = [
    (('value-deep-objects-30000', 'value', ALL, '{"q":' * 30000),
     ('fault NestingDepthExceeded 2560 2561 1 2561 Maximum nesting depth exceeded on line 1 column 2561',)),
    (('row-arrays-30000-ast', 'ast', ALL, 'O-', '[' * 30000),
     ('fault NestingDepthExceeded 512 514 1 513 Maximum nesting depth exceeded on line 1 column 513',)),
    (('row-arrays-30000-value', 'value', ALL, '[' * 30000),
     ('fault NestingDepthExceeded 512 513 1 513 Maximum nesting depth exceeded on line 1 column 513',)),
]
PROGRAM = [
    (("print-escaped-word", 'jsonc', "'prin\\x74", ' [1] '), ('0', ' [1] ', '')),
    (('print-blanks', 'jsonc', "'print", '\\x0D\\x0A'), ('0', '\\x0D\\x0A', '')),
    (('print-empty', 'jsonc', "'print", ''), ('0', '', '')),
    (('check-object', 'jsonc', "'check", '{"a": [1, "b", null]}'), ('0', '', '')),
    (('check-not-utf8', 'jsonc', "'check", '"\\xFF"'), ('1', '', 'jsonc: input is not UTF-8\\x0A')),
    (('check-refused', 'jsonc', "'check", '[][]'),
     ('1', '', 'jsonc: Text cannot contain more than one JSON value on line 1 column 3\\x0A')),
    (('check-comment', 'jsonc', "'check", '[1,] // 2'), ('0', '', '')),
    (('print-comment', 'jsonc', "'print", '/* 1 */ [2,]'), ('0', '/* 1 */ [2,]', '')),
    (('print-escape', 'jsonc', "'print", '"\\x5Cn"'), ('0', '"\\x5Cn"', '')),
    (('sort-array', 'jsonc', "'sort", '[]'), ('1', '', 'jsonc: root value is not an object\\x0A')),
]


def shape(kind, text):
    """A token's text with each run of digits and of letters as one, which in a word are alike."""
    if kind == 'Word':
        return re.sub(r'[A-Za-z0-9$_]+', 'a', text)[:8]
    return re.sub(r'[A-Za-z$_]{2,}', 'aa', re.sub(r'[0-9]+', '0', text))[:8]


def ends_of(options):
    return [(number, flag) for number, flag in enumerate(options)]


def escapes_shown(case, fault):
    """The byte after each backslash, and of surrogates one digit more, unless what is refused is no string."""
    is_extended = case[1] == 'decode' or case[2][9] == '1'
    if case[1] == 'decode' or not fault or fault.startswith('String/'):
        for escape in re.findall(rb'\\(u[dD][89a-fA-F]|.|$)', vectors.unescaped(case[-1]), re.DOTALL):
            yield 'escape', escape.lower(), is_extended, fault


def comments_shown(tokens):
    """What stands before and after each comment."""
    names = [''] + [token.split(' ')[0] for token in tokens] + ['']
    for before, name, after in zip(names, names[1:], names[2:]):
        if name.startswith('Comment'):
            yield 'after', before, name
            yield name, 'before', after


def gaps_shown(places):
    """How many places have comments, how many are among those of each, and of what kinds."""
    yield 'places', min(len(places), 8)
    for place in places:
        key, *comments = place.split(' ')
        yield 'comments', key == '0:', [comment[0] for comment in comments][:3]


def edits_shown(case, answer):
    """Of each edit its kind, its path and what it writes; how the edits end; and what is in the text."""
    text, edits = case[3], vectors.edits_of(case)
    signs = [sign for sign in ('\\x0A', '\\x0D', '\\x09', '//', '/*', ',]', ',}') if sign in text]
    for name, *words in edits:
        first = EDITS[name].words.split()[:1] if name in EDITS else ['path']
        place, value = (words[0], words[1:]) if first in (['path'], ['comment']) else ('', words)
        yield name, int(place) > 1 if first == ['comment'] else place, len(edits) > 1
        yield name, signs, [word[:1] for word in value][:2]
        for word in value:
            yield name, word if word[0] in '[{' else word[0]
        for end in ends_of(case[2]):
            yield name, end
    yield 'edits', len(edits), answer[1].split(' ')[0:3:2]


def readings_shown(answer):
    """What a document tells of itself and, of each kind of node, which readings it answers."""
    if answer[1].startswith('fault'):
        return
    line_end, indent, value = answer[2].split(' ')
    yield 'line end', line_end, 'indent', indent[:4], 'value', value == 'value=-'
    yield 'value', [word[:1] for word in answer[3].split(' ')][:3]
    for node in answer[4:]:
        kind, *readings = node.split(' ')
        yield 'node', kind, 'depth', readings[0]
        for reading in readings[2:]:
            name, told = reading.split('=', 1)
            yield 'node', kind, name, told[:1] in '-0', name in ('lc', 'tr') and ',' in told


def shown(case, answer):
    """What a case and its answer show; of look-ups in syntax trees, which are few, each shows itself."""
    kind, fields = case[1], case[2:]
    if kind in ('jsonc', 'settings'):
        yield 'jsonc', fields[0], answer[1:4]
        return
    if kind == 'read':
        yield from readings_shown(answer)
        return
    fault = answer[1].split(' ')[1] if answer[1].startswith('fault') else None
    yield from escapes_shown(case, fault)
    if kind == 'decode':
        yield kind, fault or answer[1]
        return
    if kind == 'aobj':
        yield kind, case[0]
        return
    if kind == 'edit':
        yield from edits_shown(case, answer)
        return
    if kind == 'jobj':
        for lookup, found in zip(fields[2].split(' ; '), answer[2:]):
            yield kind, lookup.split(' ')[0], found[:1]
        return
    options = fields[0]
    yield kind, 'options', options
    if kind == 'ast':
        yield kind, 'collection', fields[1], answer[1][:5]
    if fault:
        for end in ends_of(options):
            yield kind, fault, end
        yield kind, fault, answer[1].split(' ')[4] != '1'
        return
    if kind == 'value':
        for word in answer[2].split(' '):
            yield kind, 'node', word if word[0] in '[{' else word[0]
        return
    places = int(answer[3].split(' ')[1]) if kind == 'ast' and answer[3] != 'no-map' else 0
    if places:
        yield from gaps_shown(answer[4:4 + places])
    tokens = answer[2:] if kind == 'scan' else answer[5 + places:]
    for token in tokens:
        name, _, _, text = token.split(' ', 3)
        yield kind, name, shape(name, text)
        for end in ends_of(options[4:]):
            yield kind, name, end
    if kind == 'ast':
        yield from comments_shown(tokens)
        yield kind, 'depth', min(len(answer[2].split(' ')), 600) // 100
        for node in answer[2].split(' '):
            yield kind, 'node', node[:1], node[-2:] in ('*0', '*1')


def depth_shown(case, answer):
    """Of the cases at the limit of depth: whether they are taken, and how deep the text is."""
    if case[0].startswith(('dep', 'row-objects-25')):
        text = case[-1]
        yield case[1], 'limit', answer[1][:5], text.count('['), text.count('{')


def sample(folder, found):
    cases = sorted(vectors.vectors(folder), key=lambda c: (len('\t'.join(c[0])) + len('\t'.join(c[1])), c[0][1:]))
    for case, answer in cases:
        news = set(map(str, depth_shown(case, answer)))
        if len('\t'.join(case)) <= LONGEST:
            news |= set(map(str, shown(case, answer)))
        if not news <= found and len('\t'.join(case)) < 4000:
            found |= news
            yield case, answer


def main(folder):
    lines, answers, found = [], [], set()

    def put(case, answer):
        lines.append('\t'.join(case))
        answers.append('\t'.join(answer))
        found.update(map(str, shown(case, answer)), map(str, depth_shown(case, answer)))

    lines.append('% Cases of the Rust crate\'s own tests')
    for case, answer in vectors.read(os.path.join(HERE, 'crate')):
        put(case, answer)
    lines.append('% Worked rows')
    for case, answer in vectors.read(os.path.join(HERE, 'rows')):
        put(case, answer)
    for case, answer in DEEP:
        put(case, case[:1] + answer)
    lines.append('% Settings')
    for case, answer in vectors.read(os.path.join(HERE, 'settings')):
        put(case, answer)
    lines.append('% Every beginning of the texts of worked rows, read by three calls')
    for case, answer in vectors.cuts(os.path.join(HERE, 'cuts')):
        put(case, answer)
    lines.append('% Every pair of options turned off, and a text for each option')
    for case, answer in vectors.pairs(os.path.join(HERE, 'pairs')):
        put(case, answer)
    lines.append('% Runs of the program')
    for case, answer in PROGRAM:
        put(case, (case[0],) + answer)
    lines.append('% A sample of the vectors')
    for case, answer in list(sample(folder, found)):
        put(case, answer)
    lines.append('% Every kind of edit, many times, on documents of 2,000 entries on one line')
    for case, answer in vectors.one_line(os.path.join(HERE, 'one_line')):
        put(case, answer)
    lines.append('% Lines that are passed over, and lines that are no case')
    no_edits = [('bad-%s-%d\tedit\t%s\t1\t%s' % (name, number, ALL, (name + ' ' + words).rstrip()), EDIT) for name, row in EDITS.items() for number, words in enumerate(row.no_case)]
    for line, message in NO_CASES + no_edits:
        lines.append(line)
        if message:
            answers.append('line %d is no case: %s' % (len(lines), message))
    for name, rows in ('stdin', lines), ('stdout', answers):
        with open(os.path.join(CRATE, name), 'w', encoding='ascii', newline='\n') as out:
            out.write('\n'.join(rows) + '\n')
    print(len(answers), 'answers wanted')


if __name__ == '__main__':
    if len(sys.argv) != 2:
        sys.exit(__doc__)
    main(sys.argv[1])
