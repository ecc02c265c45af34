#!/usr/bin/env python3
"""Puts every case of a folder of vectors to the built program and counts the answers.

usage: bench/run-vectors.py FOLDER [PROGRAM]

An answer is the same as the stored one, or it differs: then the wanted line and the answer are printed, of the
first twenty such cases. The status is 1 if any differs.
"""
import collections
import os
import subprocess
import sys

import vectors

PROGRAM = os.path.join(os.path.dirname(os.path.abspath(__file__)), '..', 'crates', 'jsonc_bench', 'out', 'jsonc_bench')


def main(folder, program=PROGRAM):
    vector_list = list(vectors.vectors(folder))
    text = ''.join('\t'.join(case) + '\n' for case, _ in vector_list)
    run = subprocess.run([program], input=text.encode(), capture_output=True)
    answers = run.stdout.decode().split('\n')[:-1]
    if len(answers) != len(vector_list):
        sys.exit('%d cases, but %d answers, status %d: %s' % (len(vector_list), len(answers), run.returncode, run.stderr.decode()))
    counts, differing = collections.Counter(), 0
    for (case, stored), answer in zip(vector_list, answers):
        wanted = '\t'.join(stored)
        outcome = 'same' if answer == wanted else 'differing'
        counts[case[1], outcome] += 1
        counts['all', outcome] += 1
        if outcome == 'differing':
            differing += 1
            if differing <= 20:
                print('wanted  %s\nanswer  %s' % (wanted, answer))
    for kind in sorted({kind for kind, _ in counts} - {'all'}) + ['all']:
        print('%-9s' % kind, *('%6d %s' % (counts[kind, outcome], outcome) for outcome in ('same', 'differing')), sep='  ')
    sys.exit(1 if differing else 0)


if __name__ == '__main__':
    if len(sys.argv) not in (2, 3):
        sys.exit(__doc__)
    main(*sys.argv[1:])
