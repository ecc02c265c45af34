#!/usr/bin/env python3
"""Times a patch of ten operations on settings of 1 MB, of our program alone, and writes the section "A patch" of docs/proofs/SPEED.md.

usage: patch.py OURS FOLDER [ROUNDS]

`patched` parses a text, reads the patch, makes it and prints the document; `program` parses and prints. Wanted: at most 1.3 times the time, where the
C library keeps the pages that it has.
"""
import datetime
import os
import random
import sys

import documents
import measure
from lint import written_to

MOST = 1.3


def main(ours, folder, rounds='5'):
    os.makedirs(folder, exist_ok=True)
    path = written_to(folder, 'patch-1MB', documents.settings(random.Random(7), documents.SIZES['1 MB']))
    patched, program = measure.taken([(ours, call, path) for call in ('patched', 'program')], int(rounds), measure.KEEPS_PAGES)
    written = '\n'.join([
        '## A patch',
        '',
        'On %s, %s, by `bench/speed/patch.py`, pages kept: settings of 1 MB are parsed and printed in %s ms, and with a patch of ten operations'
        ' read and made between in %s ms, %s times the time (wanted: at most 1.3).'
        % (measure.machine(), datetime.date.today(), measure.milliseconds(program.seconds), measure.milliseconds(patched.seconds),
           measure.marked(patched.seconds / program.seconds, MOST, most=True)),
        '',
    ])
    print(written)
    measure.put('A patch', written)


if __name__ == '__main__':
    main(*sys.argv[1:]) if len(sys.argv) in (3, 4) else sys.exit(__doc__)
