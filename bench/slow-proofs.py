#!/usr/bin/env python3
"""Lists the modules that the last check of a crate took longest for, in seconds.

usage: bench/slow-proofs.py CRATE [COUNT]

A check keeps each module in crates/CRATE/out/incremental as it is done with it, so the time between two files is that of
the later one. Delete that folder, or the files of one function in it, and check with --jobs 1 before you measure: what
was kept before has its old time, and what has not changed since is taken over piece by piece.

`Lts` and `Tie` of a function come from its code alone. `Proof` is what the checker looks for by itself; where it is long,
answer the goals that are hard to find in proofs/FUNCTION/Answers.antt.
"""
import collections
import os
import re
import sys

# A longer time between two files is one between two checks.
ONE_CHECK = 200


def kept(folder):
    """The modules that a check kept, with the time when each was written."""
    for at, _, names in os.walk(folder):
        for name in names:
            if name.endswith('.oantt'):
                yield os.stat(os.path.join(at, name)).st_mtime_ns / 1e9, name


def module(name):
    """The module of a file: `specs` or `proofs` of the crate, and the path below."""
    return re.sub(r'^Rattle-\w+-(specs|proofs)\.', r'\1 ', re.sub(r'(\.decls)?\.oantt$', '', name))


def taken(files):
    """The seconds of each module."""
    seconds = collections.Counter()
    for (before, _), (after, name) in zip(files, files[1:]):
        if after - before < ONE_CHECK:
            seconds[module(name)] += after - before
    return seconds


def main(crate, count='30'):
    top = os.path.join(os.path.dirname(os.path.abspath(__file__)), '..')
    seconds = taken(sorted(kept(os.path.join(top, 'crates', crate, 'out', 'incremental'))))
    print('%8.1f in all' % sum(seconds.values()))
    for name, time in seconds.most_common(int(count)):
        print('%8.1f %s' % (time, name))


if __name__ == '__main__':
    if len(sys.argv) not in (2, 3):
        sys.exit(__doc__)
    main(*sys.argv[1:])
