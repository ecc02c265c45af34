#!/usr/bin/env python3
"""Times what the program `jsonc` takes of 1 to 100 MB of settings, with its memory, beside jq and Python, and writes the section
"Growth" of docs/proofs/SPEED.md.

usage: grow.py JSONC FOLDER [ROUNDS]

The settings have neither comments nor trailing commas, which jq and Python do not read. Of each process the time is the processor
time of the one that took least, and the memory is the most that was resident at once. Standard output is a pipe that is read. It
needs jq and GNU time, and takes some minutes.
"""
import datetime
import os
import random
import shutil
import subprocess
import sys
import tempfile

import documents
import measure

SIZES = {'1 MB': 1_000_000, '10 MB': 10_000_000, '100 MB': 100_000_000}
PYTHON = 'import json, sys; value = json.load(sys.stdin); '
COPY = 'json.dump(value, sys.stdout, indent=2, ensure_ascii=False)'
# What the program does, and what does the like with jq and Python, of the group of this name.
CALLS = {
    'check': (['check'], ['empty'], ''),
    'print': (['print'], ['.'], COPY),
    'get': (['get', '/%s/limits/soft'], ['.%s.limits.soft'], 'print(value["%s"]["limits"]["soft"])'),
    'put': (['put', '/%s/limits/soft', '1'], ['.%s.limits.soft = 1'], 'value["%s"]["limits"]["soft"] = 1; ' + COPY),
    'drop': (['drop', '/%s/limits/soft'], ['del(.%s.limits.soft)'], 'del value["%s"]["limits"]["soft"]; ' + COPY),
}


def text_of(size):
    """An object of settings as JSON: those of 1 MB, as often as they fit, each time by other names."""
    inner = documents.strict(documents.settings(random.Random(7), 1_000_000)).strip()[1:-1].rstrip()
    count = max(1, size // len(inner))
    return '{' + ','.join(inner.replace('"group', '"part%d_group' % number) for number in range(count)) + '\n}\n'


def used(words, path, settings=None):
    """The seconds and the most memory of a process. GNU time starts it, since a process counts the memory of the one that it comes from."""
    with open(path, 'rb') as text, tempfile.NamedTemporaryFile('r') as memory:
        process = subprocess.Popen(['/usr/bin/time', '-f', '%M', '-o', memory.name, *words], stdin=text, stdout=subprocess.PIPE,
                                   env={**os.environ, **(settings or {})})
        while process.stdout.read(1 << 20):
            pass
        _, status, usage = os.wait4(process.pid, 0)
        process.returncode = status
        if status:
            sys.exit('%s < %s: status %d' % (' '.join(words), path, status))
        return usage.ru_utime + usage.ru_stime, int(memory.read()) * 1024


def least(words, path, rounds, settings=None):
    return min(used(words, path, settings) for _ in range(rounds))


def words_of(jsonc, call, group):
    ours, jq, python = ([word.replace('%s', group) for word in words] for words in (*CALLS[call][:2], [CALLS[call][2]]))
    return [[jsonc, *ours], ['jq', *jq], [sys.executable, '-c', PYTHON + python[0]]]


def cell(seconds, memory):
    return '%s, %s' % ('%.2f s' % seconds if seconds >= 0.1 else '%.0f ms' % (1e3 * seconds), '%.0f MB' % (memory / 1e6))


def rows(jsonc, folder, rounds):
    for size, count in SIZES.items():
        path = os.path.join(folder, 'grow-' + size.replace(' ', ''))
        if not os.path.exists(path):
            with open(path, 'w', encoding='utf-8') as file:
                file.write(text_of(count))
        middle = 'part%d_group1000' % (count // 2_000_000)
        for call in CALLS:
            found = [least(words, path, rounds) for words in words_of(jsonc, call, middle)]
            row = ['`%s`, %s' % (call, size), *(cell(*one) for one in found), *('%.3g' % (found[0][0] / other[0]) for other in found[1:])]
            print(row, flush=True)
            yield row


def main(jsonc, folder, rounds='3'):
    if not shutil.which('jq'):
        sys.exit('grow.py: jq is not there')
    os.makedirs(folder, exist_ok=True)
    table = measure.table(['Command', '`jsonc`', 'jq', 'Python', 'of jq', 'of Python'], list(rows(jsonc, folder, int(rounds))))
    written = '\n'.join([
        '## Growth',
        '',
        'On %s, %s, by `bench/speed/grow.py`, of settings without comments and trailing commas, the place in the middle. Processor time and the most '
        'resident memory of a process, and our time in times of that of jq and of Python.' % (measure.machine(), datetime.date.today()),
        '',
        table,
        '',
    ])
    print(written)
    measure.put('Growth', written)


if __name__ == '__main__':
    main(*sys.argv[1:]) if len(sys.argv) in (3, 4) else sys.exit(__doc__)
