#!/usr/bin/env python3
"""Times both programs on the same documents, turn by turn, and writes the table of docs/proofs/SPEED.md.

usage: measure.py OURS THEIRS PEAK FOLDER [ROUNDS]

The time of a call is the processor time of a process that makes it N times, less that of one that makes it
0 times, divided by N; of each the least of the rounds. Where a call falls short of its target it is timed again,
and what those processes took is printed besides: their own time, the system's, their page faults, where valgrind is at
hand the instructions and the misses of two caches, and the ratio where the C library keeps the pages that
it has, in both programs. So is how our time grows from 1 MB to 10 MB.
"""
import collections
import datetime
import os
import re
import shutil
import subprocess
import sys

import documents

HERE = os.path.dirname(os.path.abspath(__file__))
REPORT = os.path.join(HERE, "..", "..", "docs", "proofs", "SPEED.md")
CALLS = ['scan', 'check', 'ast', 'tokens', 'value', 'document', 'print', 'program', 'siblings']
# Those that are made of an array of numbers, with the kinds of document that they are made of.
OF_ARRAYS = {'siblings': documents.ARRAYS}
TARGETS = {'scan': 1, 'ast': 1, 'tokens': 1, 'value': 1, 'document': 4, 'print': 2}
# What is counted of a call.
COUNTS = ['instructions', 'misses of 1 MB', 'misses of 32 MB', 'own time', "the system's", 'page faults']
# Seconds that the N calls of one process take at least.
LONG_ENOUGH = 0.1
# How often as many rounds are made of a call that falls short.
TURNS = 3
# How many times the time of 1 MB that of 10 MB may be.
GROWTH = 12
# The two caches whose misses are counted: as large as one processor's own, and as what all of them share.
CACHES = ['--D%d=%d,16,64' % (1, 1 << 20), '--LL=%d,16,64' % (1 << 25)]
# With these settings the C library gives no page back before the process ends.
KEEPS_PAGES = {'GLIBC_TUNABLES': 'glibc.malloc.trim_threshold=4000000000:glibc.malloc.mmap_threshold=4000000000'}


class Used(collections.namedtuple('Used', 'own system faults')):
    """Seconds of a process's own and of the system's for it, and page faults."""

    @property
    def seconds(self):
        return self.own + self.system

    def each(self, none, count):
        """What one of so many calls took, where a process without a call took none."""
        return Used(*((many - few) / count for many, few in zip(self, none)))


def run(program, call, count, path, settings=None):
    """What one process took, and what it wrote."""
    with open(path, 'rb') as text:
        process = subprocess.Popen([program, call, str(count)], stdin=text, stdout=subprocess.PIPE, stderr=subprocess.PIPE,
                                   env={**os.environ, **(settings or {})})
        written, fault = process.stdout.read(), process.stderr.read()
        _, status, used = os.wait4(process.pid, 0)
        process.returncode = status
    if status:
        sys.exit('%s %s %d < %s: %s' % (program, call, count, path, fault.decode()))
    return Used(used.ru_utime, used.ru_stime, used.ru_minflt), written


def least(used):
    """The least of what some processes took: others on the machine only make one longer."""
    return min(used, key=lambda one: one.seconds)


def calls(program, call, path, settings):
    """How many calls are long enough to be timed, and no shorter than what the process does besides."""
    def seconds(count):
        return least(run(program, call, count, path, settings)[0] for _ in range(3)).seconds

    count, besides = 1, seconds(0)
    wanted = max(LONG_ENOUGH, besides)
    while (taken := seconds(count) - besides) < wanted:
        count = max(2 * count, min(100 * count, int(1.2 * count * wanted / max(taken, 1e-4))))
    return count


def taken(runs, rounds, settings=None, falls_short=lambda found: False):
    """What one call took of each run, a program, its call and a text, made in turn, so that all meet what others do on the
    machine. Where they fall short they are made again as often, and once more; of all of them the least counts."""
    counts = [calls(program, call, path, settings) for program, call, path in runs]
    found = [([], []) for _ in runs]
    for _ in range(TURNS):
        for _ in range(rounds):
            for (program, call, path), count, (many, none) in zip(runs, counts, found):
                many.append(run(program, call, count, path, settings)[0])
                none.append(run(program, call, 0, path, settings)[0])
        each = [least(many).each(least(none), count) for (many, none), count in zip(found, counts)]
        if not falls_short(each):
            break
    return each


def timed(programs, call, path, rounds, settings=None):
    """What one call of each program took."""
    if len({run(program, call, 1, path)[1] for program in programs}) > 1:
        sys.exit('the answers of %s differ on %s' % (call, path))
    falls_short = lambda pair: ratio(pair) < TARGETS.get(call, 0)
    return taken([(program, call, path) for program in programs], rounds, settings, falls_short)


class Counted(collections.namedtuple('Counted', 'instructions small large')):
    """Instructions, and misses of data in a small cache and in a large one."""

    def per(self, length):
        """Instructions a byte, and misses a kilobyte."""
        return ['%.1f' % (self.instructions / length), *('%.1f' % (1e3 * missed / length) for missed in self[1:])]


def counted(program, call, path, size):
    """What one call takes, or none without valgrind: on 10 MB the first, else the mean of the four after it, which meet its memory again."""
    if not shutil.which('valgrind'):
        return None
    few, many = (0, 1) if size == '10 MB' else (1, 5)
    found = []
    for calls in (many, few):
        with open(path, 'rb') as text:
            process = subprocess.run(['valgrind', '--tool=cachegrind', '--cache-sim=yes', '--cachegrind-out-file=/dev/null',
                                      *CACHES, program, call, str(calls)], stdin=text, capture_output=True)
        found.append([int(re.search(line + rb':\s+([\d,]+)', process.stderr).group(1).replace(b',', b''))
                      for line in (rb'I\s+refs', rb'D\d\s+misses', rb'LLd\s+misses')])
    return Counted(*((all - besides) / (many - few) for all, besides in zip(*found)))


def peak(program, path, preload):
    """The most memory that one document wants while it is parsed, the text aside."""
    with open(path, 'rb') as text:
        run = subprocess.run([program, 'document', '1'], stdin=text, capture_output=True, env={'LD_PRELOAD': preload})
    return int(run.stderr) - os.path.getsize(path)


def has_value(program, path):
    """Whether the program has the call `value`."""
    with open(path, 'rb') as text:
        return not subprocess.run([program, 'value', '0'], stdin=text, capture_output=True).returncode


def table(head, rows):
    lines = ['| ' + ' | '.join(row) + ' |' for row in [head] + rows]
    return '\n'.join([lines[0], '|---' + '|---:' * (len(head) - 1) + '|'] + lines[1:])


def marked(ratio, target, most=False):
    """A ratio, bold where it falls short of its target."""
    short = target and (ratio > target if most else ratio < target)
    return ('**%.2f**' if short else '%.2f') % ratio


def ratio(pair):
    """Our throughput to theirs."""
    ours, theirs = pair
    return theirs.seconds / ours.seconds


def path_of(folder, kind, size):
    return os.path.join(folder, '%s-%s' % (kind, size.replace(' ', '')))


def measured(programs, preload, folder, rounds):
    """What both took by kind, size and call, and the bytes of memory of both by kind and size."""
    times, memory, lengths = {}, {}, {}
    for (kind, size), text in documents.make().items():
        path = path_of(folder, kind, size)
        with open(path, 'wb') as file:
            file.write(text)
        lengths[kind, size] = len(text)
        for call in CALLS:
            if call == 'value' and not all(has_value(program, path) for program in programs):
                continue
            if kind not in OF_ARRAYS.get(call, (kind,)):
                continue
            times[kind, size, call] = timed(programs, call, path, rounds)
            print('%-9s %-7s %-9s %6.2f' % (kind, size, call, ratio(times[kind, size, call])), flush=True)
        memory[kind, size] = [peak(program, path, preload) for program in programs]
    return times, memory, lengths


def ratio_rows(times, memory):
    rows = []
    for kind, size in memory:
        row = ['%s, %s' % (kind, size)]
        for call in CALLS:
            pair = times.get((kind, size, call))
            row.append(marked(ratio(pair), TARGETS.get(call)) if pair else '–')
        ours, theirs = memory[kind, size]
        rows.append(row + [marked(ours / theirs, 0.5, most=True)])
    return rows


def growth(pair):
    """How many times as long as the small text the large one takes."""
    large, small = pair
    return large.seconds / small.seconds


def growths(ours, folder, rounds, times):
    """What our calls took on 10 MB and on 1 MB, those that grew too much timed again, both in turn."""
    found = {}
    for (kind, size, call), pair in times.items():
        large = times.get((kind, '10 MB', call))
        if size != '1 MB' or not large:
            continue
        found[kind, call] = large[0], pair[0]
        if growth(found[kind, call]) > GROWTH:
            runs = [(ours, call, path_of(folder, kind, it)) for it in ('10 MB', '1 MB')]
            found[kind, call] = taken(runs, rounds, falls_short=lambda pair: growth(pair) > GROWTH)
    return found


def growth_rows(grown, memory):
    rows = []
    for kind in dict.fromkeys(kind for kind, _ in memory):
        row = [kind]
        for call in CALLS:
            pair = grown.get((kind, call))
            row.append(marked(growth(pair), GROWTH, most=True) if pair else '–')
        if any(cell != '–' for cell in row[1:]):
            rows.append(row)
    return rows


def milliseconds(seconds):
    return '%.3g' % (seconds * 1e3) if seconds < 1 else '%.0f' % (seconds * 1e3)


def short_rows(programs, folder, rounds, times, lengths):
    """What the calls took that fall short of their targets."""
    rows = []
    for (kind, size, call), pair in times.items():
        if ratio(pair) >= TARGETS.get(call, 0):
            continue
        path = path_of(folder, kind, size)
        # Counting a document on 10 MB takes minutes.
        counts = [None if size == '10 MB' and call in ('document', 'print') else counted(program, call, path, size) for program in programs]
        columns = zip(*(['-'] * 3 if one is None else one.per(lengths[kind, size]) for one in counts))
        rows.append([
            '`%s`, %s, %s' % (call, kind, size),
            '%.2f' % ratio(pair),
            '%.2f' % ratio(timed(programs, call, path, rounds, KEEPS_PAGES)),
            *(' / '.join(column) for column in columns),
            ' / '.join(milliseconds(one.own) for one in pair),
            ' / '.join(milliseconds(one.system) for one in pair),
            ' / '.join('%.0f' % one.faults for one in pair),
        ])
    return rows


def grown_rows(ours, folder, grown):
    """What grew of our calls that take too many times as long on 10 MB as on 1 MB."""
    rows = []
    for (kind, call), (large, small) in grown.items():
        if growth((large, small)) <= GROWTH:
            continue
        counts = [counted(ours, call, path_of(folder, kind, it), it) for it in ('10 MB', '1 MB')]
        pairs = [*zip(*(one or [None] * 3 for one in counts)), (large.own, small.own), (large.system, small.system), (large.faults, small.faults)]
        row = ['`%s`, %s' % (call, kind), '%.2f' % growth((large, small))]
        rows.append(row + ['%.1f' % (many / few) if many and few else '-' for many, few in pairs])
    return rows


def machine():
    with open('/proc/cpuinfo') as info:
        model = re.search(r'model name\s*: (.*)', info.read()).group(1)
    return '%s, %d processors' % (model, os.cpu_count())


def figures(times, memory):
    """The section of docs/proofs/SPEED.md."""
    return '\n'.join([
        '## Figures',
        '',
        'On %s, %s, by `bench/speed.sh`.' % (machine(), datetime.date.today()),
        '',
        'Ours to theirs: of calls the throughput, of memory the peak. **Bold** falls short of the target.',
        '',
        table(['Document'] + CALLS + ['memory'], ratio_rows(times, memory)),
        '',
    ])


def reasons(memory, short, grown, grown_most):
    """What tells why a call falls short."""
    return '\n'.join([
        'How many times as long as 1 MB our call on 10 MB takes.',
        '',
        table(['Document'] + CALLS, growth_rows(grown, memory)),
        '',
        'Of the calls that fall short of their targets: the ratio again, and the one where the C library keeps the pages',
        'that it has, in both programs; and, ours / theirs, instructions a byte, misses a kilobyte of a cache of 1 MB and of',
        'one of 32 MB, milliseconds of a call of the process itself and of the system, and page faults of a call.',
        '',
        table(['Call', 'ratio', 'pages kept', *COUNTS], short),
        '',
        'Of our calls that take more than %d times as long on 10 MB as on 1 MB, how many times as much of each.' % GROWTH,
        '',
        table(['Call', 'time', *COUNTS], grown_most),
        '',
    ])


def put(section, written):
    """Writes a section of docs/proofs/SPEED.md in its place. A page without it stays as it is."""
    with open(REPORT) as report:
        text = report.read()
    with open(REPORT, 'w') as report:
        report.write(re.sub(r'## %s\n.*?(?=\n## |\Z)' % section, lambda _: written, text, flags=re.S))


def main(ours, theirs, preload, folder, rounds='5'):
    programs, rounds = [ours, theirs], int(rounds)
    times, memory, lengths = measured(programs, preload, folder, rounds)
    short, grown = short_rows(programs, folder, rounds, times, lengths), growths(ours, folder, rounds, times)
    written = figures(times, memory)
    print(written)
    print(reasons(memory, short, grown, grown_rows(ours, folder, grown)))
    put('Figures', written)


if __name__ == '__main__':
    if len(sys.argv) not in (5, 6):
        sys.exit(__doc__)
    main(*sys.argv[1:])
