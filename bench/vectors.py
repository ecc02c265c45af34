"""Vectors: cases and stored answers."""
import glob
import itertools
import os
import re
import sys

HERE = os.path.dirname(os.path.abspath(__file__))
USAGE = 'usage: jsonc check|print|set NAME JSON|append JSON|remove NAME|sort|get PLACE|put PATH JSON|drop PATH|patch [--max-bytes N] PATCH|merge PATCH|json\\x0A'
# How many words the commands of settings have, with their own.
SETTINGS = {"'get": 2, "'put": 3, "'drop": 2}


def unescaped(field):
    return re.sub(rb'\\x([0-9A-F]{2})', lambda m: bytes([int(m[1], 16)]), field.encode())


def escaped(text):
    return ''.join(chr(byte) if 0x20 <= byte <= 0x7E and byte != 0x5C else '\\x%02X' % byte for byte in text.encode())


def edits_of(case):
    """The words of each edit of a case of edits."""
    return [edit.split(' ') for edit in case[4].split(' ; ')] if case[4] else []


def is_settings(case):
    """Whether a run of the program is one of a command of settings."""
    words = case[2].split()
    return bool(words) and len(words) == SETTINGS.get(words[0])


def read(folder):
    """Every case of a folder with its stored answer, both as lists of fields, file by file."""
    for path in sorted(glob.glob(os.path.join(folder, '*.cases'))):
        with open(path, encoding='ascii', newline='\n') as cases:
            cases = cases.read().split('\n')
        with open(path.removesuffix('cases') + 'answers', encoding='ascii', newline='\n') as answers:
            answers = answers.read().split('\n')
        for case, answer in zip(cases, answers, strict=True):
            if case and not case.startswith('%'):
                yield case.split('\t'), answer.split('\t')


def vectors(folder):
    """Every case of a folder of vectors with its answer.

    Of kind `jsonc` the usage line there is that of a program without the commands of settings. It stands for the whole one; of
    these commands themselves the answers are those of bench/settings, which has the same words and inputs as kind `settings`.
    """
    settings = {tuple(case[2:]): answer[1:] for case, answer in read(os.path.join(HERE, 'settings'))}
    for case, answer in read(folder):
        if case[1] == 'jsonc' and answer[1] == '2':
            if is_settings(case) and tuple(case[2:]) not in settings:
                sys.exit('%s: bench/settings has no answer of %s' % (case[0], case[2]))
            answer = case[:1] + (settings[tuple(case[2:])] if is_settings(case) else ['2', '', USAGE])
        yield case, answer


def lines(folder, name):
    """The lines of a file, each as its fields."""
    with open(os.path.join(folder, name), encoding='ascii', newline='\n') as file:
        return [line.split('\t') for line in file.read().split('\n')[:-1]]


def three_calls(name, options, collection, text):
    """The cases of the three calls that read a text: as a syntax tree (`a`), as a value (`v`), and as a document (`d`)."""
    text = escaped(text)
    yield [name + 'a', 'ast', options, collection, text]
    yield [name + 'v', 'value', options, text]
    yield [name + 'd', 'edit', options, text, '']


def answers(folder):
    """The fields of each answer of a file, in which `=` stands for the same answer as the one before."""
    answer = None
    for fields in lines(folder, 'answers'):
        answer = answer if fields == ['='] else fields
        yield answer


def cuts(folder):
    """The beginnings of the texts in a folder, up to each boundary of characters and each once, with their answers."""
    cases, seen = [], set()
    for number, (options, text) in enumerate(lines(folder, 'texts')):
        text = unescaped(text).decode()
        for end in range(len(text) + 1):
            if (options, text[:end]) not in seen:
                seen.add((options, text[:end]))
                cases.extend(three_calls('cut%d-%d' % (number, end), options, 'Tt', text[:end]))
    for case, answer in zip(cases, answers(folder), strict=True):
        yield case, case[:1] + answer


def pairs(folder):
    """Each pair of options turned off, put to a text for each option, which no other option has a say in.

    Of a text six answers are stored: those of the three calls where its own option is on, and where it is off.
    """
    texts, stored = [unescaped(text).decode() for text, in lines(folder, 'texts')], list(answers(folder))
    for off in itertools.combinations(range(10), 2):
        options = ''.join('0' if option in off else '1' for option in range(10))
        for option, text in enumerate(texts):
            first = 6 * option + (3 if option in off else 0)
            calls = three_calls('off%d-%d-%d' % (*off, option), options, 'O-', text)
            for case, answer in zip(calls, stored[first:first + 3]):
                yield case, case[:1] + answer


def one_line(folder):
    """Every kind of edit of entries, fifty times and more, on documents of 2,000 entries that stand on one line."""
    everywhere = range(0, 2000, 40)

    def row(entry, brackets):
        return brackets[0] + ', '.join(entry(number) for number in range(2000)) + brackets[1]

    def each(edit, places=everywhere):
        return [edit % place for place in places]

    names = row('"k{0}": true'.format, '{}')
    documents = {
        'array': (row(lambda number: 'true', '[]'), each('Replace /%d #7') + each('SetBoolean /%d F', range(1, 2000, 40))
                  + each("InsertElement / %d 'in") + ["AppendElement / 'end"] * 50 + each('Remove /%d')
                  + ['SetTrailingCommas / never'] * 50 + ['Sort / 0 0'] * 3),
        'comments': (row('{0} /* c */'.format, '[]'), each('RemoveComment %d', reversed(everywhere)) + each('Replace /%d N') + each('Remove /%d', reversed(everywhere))),
        'object': (names, each('SetValue /%d #7') + each('EnsureValue /%d arr', range(1, 2000, 40)) + each('Replace /%d N')
                   + each("ReplaceProperty /%d 'new #1") + each("EnsureProperty / 'k%d obj replace", range(2, 2000, 40))
                   + ['EnsureRoot obj keep'] * 50 + each('Remove /%d', reversed(everywhere)) + ['Sort / 0 0'] * 3),
        'appended': (names, ["AppendProperty / 'end #1"] * 50),
        'inserted': (names, each("InsertProperty / %d 'in #1")),
        'ensured': (names, each("EnsureProperty / 'n%d obj keep")),
        'lines': (names, ['EnsureMultiline /'] * 50),
        'root': (names, ['SetRoot [0'] + ['EnsureRoot obj replace'] * 2 + ['ClearRoot', 'EnsureRoot arr keep']),
        'objects': (row(lambda number: '{"a": 1}', '[]'), each("AppendProperty /%d 'end #1", reversed(everywhere))
                    + each("InsertProperty /%d 0 'in #1", range(1, 2000, 40)) + each("EnsureProperty /%d 'b arr keep", range(2, 2000, 40))),
        'arrays': (row(lambda number: '[1]', '[]'), each("AppendElement /%d 'end", reversed(everywhere)) + each("InsertElement /%d 0 'in", range(1, 2000, 40))
                   + each('EnsureMultiline /%d', range(2, 2000, 40)) + each('SetTrailingCommas /%d ifmultiline', range(2, 2000, 40))),
    }
    cases = [['one-line-' + name, 'edit', '1' * 10, text, ' ; '.join(edits)] for name, (text, edits) in documents.items()]
    for case, answer in zip(cases, lines(folder, 'answers'), strict=True):
        yield case, case[:1] + answer
