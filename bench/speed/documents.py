"""The documents that are measured, the same on every machine."""
import random
import re

SIZES = {'1 KB': 1_000, '100 KB': 100_000, '1 MB': 1_000_000, '10 MB': 10_000_000}
# An array of so many numbers, beside those of a size.
COUNT = 100_000
# What is an array of numbers.
ARRAYS = ('numbers', 'array')
STRING = r'"(?:\\.|[^"\\])*"'
COMMENT = r'//[^\n]*|/\*(?:(?!\*/).)*\*/'


def settings(pick, size):
    """Nested settings, indented, with comments and trailing commas."""
    parts, length = ['// settings of a server\n{\n'], 26
    while length < size:
        rules = ''.join('        { "path": "/srv/data/%d", "mode": %d, "open": %s }, // rule %d\n'
                        % (pick.randrange(10**6), pick.randrange(512), pick.choice(['true', 'false']), i)
                        for i in range(pick.randrange(5)))
        part = ('  /* group %d:\n     limits, then rules */\n'
                '  "group%d": {\n'
                '    "title": "The group of number %d", // shown to users\n'
                '    "limits": { "soft": %d, "hard": %d.5, "burst": null },\n'
                '    "rules": {\n      "allowed": [\n%s      ],\n      "default": { "keep": [true, false, 1e3] },\n    },\n  },\n'
                % (len(parts), len(parts), pick.randrange(10**4), pick.randrange(10**3), pick.randrange(10**5), rules))
        parts.append(part)
        length += len(part)
    return ''.join(parts) + '}\n'


def numbers(pick, size):
    """One long array of numbers, ten a line."""
    parts, length = [], 0
    while length < size:
        line = ', '.join(str(pick.choice([pick.randrange(10), -pick.randrange(10**9), pick.randrange(10**5) / 128, 10.0**-pick.randrange(5, 40)]))
                         for _ in range(10))
        parts.append('  ' + line)
        length += len(line) + 4
    return '[\n' + ',\n'.join(parts) + '\n]\n'


def strings(pick, size):
    """One long array of strings, every other one with escapes, all with letters past ASCII."""
    plain = 'abcdefghijklmnopqrstuvwxyz   éßпри世界'
    escapes = ['\\n', '\\t', '\\"', '\\\\', '\\u00e9', '\\uD83D\\uDE00']
    parts, length = [], 0
    while length < size:
        letters = [pick.choice(plain) for _ in range(pick.randrange(4, 60))]
        if len(parts) % 2:
            for _ in range(1 + len(letters) // 8):
                letters[pick.randrange(len(letters))] = pick.choice(escapes)
        string = '  "%s"' % ''.join(letters)
        parts.append(string)
        length += len(string.encode()) + 2
    return '[\n' + ',\n'.join(parts) + '\n]\n'


def array(pick, count):
    """An array of so many numbers, ten a line."""
    lines = ['  ' + ', '.join(str(pick.randrange(10**6)) for _ in range(10)) for _ in range(count // 10)]
    return '[\n' + ',\n'.join(lines) + '\n]\n'


def make(sizes=tuple(SIZES)):
    """Each document by its kind and the name of its size."""
    texts = {(make.__name__, name): make(random.Random(7), SIZES[name]).encode()
             for make in (settings, numbers, strings) for name in sizes}
    texts['array', '100,000 numbers'] = array(random.Random(7), COUNT).encode()
    return texts


def without_trailing_commas(text):
    """The same text, with comments alone."""
    return re.sub(r'(%s|%s)|,(?=(?:\s|%s)*[\]}])' % (STRING, COMMENT, COMMENT), lambda it: it.group(1) or '', text, flags=re.S)


def strict(text):
    """The same text as JSON, with neither comments nor trailing commas."""
    return re.sub(r'(%s)|\s*(?:%s)' % (STRING, COMMENT), lambda it: it.group(1) or '', without_trailing_commas(text), flags=re.S)
