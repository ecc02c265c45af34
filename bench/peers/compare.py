#!/usr/bin/env python3
"""Times our calls beside those of other libraries on the same documents, turn by turn, and prints the section Peers of
docs/proofs/SPEED.md. Where the page has that section, it is written there too.

usage: compare.py OURS PROGRAMS FOLDER [ROUNDS]

PROGRAMS is the folder of the peers' programs; a peer without one has no column. The times are those of `bench/speed/measure.py`.
"""
import collections
import datetime
import os
import platform
import sys

HERE = os.path.dirname(os.path.abspath(__file__))
sys.path.insert(0, os.path.join(HERE, '..', 'speed'))

import documents
import measure

SIZES = ('100 KB', '1 MB')
KINDS = ('settings', 'numbers', 'strings')
# What a peer reads, and how a document becomes such a text.
READS = {
    'comments, trailing commas': lambda text: text,
    'comments': documents.without_trailing_commas,
    'JSON': documents.strict,
}

# A call of ours; a peer's name, program and call; what it reads; what it keeps.
Peer = collections.namedtuple('Peer', 'ours name program call reads keeps')
PEERS = [
    Peer('scan', "RapidJSON's events", 'rapidjson', 'events', 'comments, trailing commas', 'number texts, order'),
    Peer('check', "RapidJSON's events", 'rapidjson', 'events', 'comments, trailing commas', 'number texts, order'),
    Peer('value', "RapidJSON's DOM", 'rapidjson', 'value', 'comments, trailing commas', 'number texts, order'),
    Peer('view', "RapidJSON's DOM", 'rapidjson', 'value', 'comments, trailing commas', 'number texts, order'),
    Peer('value', "serde_json's `Value`", 'serde_json', 'value', 'JSON', 'doubles'),
    Peer('value', "the kit's `json::Value`", 'json', 'value', 'JSON', 'number texts, order'),
    Peer('document', 'JsonCpp', 'jsoncpp', 'document', 'comments', 'doubles, comments, places'),
    Peer('value', "simdjson's DOM", 'simdjson', 'value', 'JSON', 'doubles, order'),
    Peer('view', "simdjson's DOM", 'simdjson', 'value', 'JSON', 'doubles, order'),
]


def present(programs):
    """The peers whose programs are there."""
    peers = [peer._replace(program=os.path.join(programs, peer.program)) for peer in PEERS]
    return [peer for peer in peers if os.path.exists(peer.program)]


def paths(folder, kind, size, text):
    """The files of one document, by what is read. Where two are alike they are one."""
    files = {}
    for reads, become in READS.items():
        files.setdefault(become(text), []).append(reads)
    found = {}
    for number, (text, alike) in enumerate(files.items()):
        path = measure.path_of(folder, kind, size) + '-%d' % number
        with open(path, 'w', encoding='utf-8') as file:
            file.write(text)
        found.update((reads, path) for reads in alike)
    return found


def ratios(ours, peers, files, rounds):
    """Our throughput to each peer's on one document."""
    pairs = [((ours, peer.ours, files[peer.reads]), (peer.program, peer.call, files[peer.reads])) for peer in peers]
    runs = list(dict.fromkeys(run for pair in pairs for run in pair))
    found = dict(zip(runs, measure.taken(runs, rounds)))
    for run in runs:
        rate = os.path.getsize(run[2]) / 1e6 / found[run].seconds
        print('%-11s %-9s %-18s %7.1f MB/s' % (*map(os.path.basename, run), rate), flush=True)
    return [measure.ratio([found[run] for run in pair]) for pair in pairs]


def section(peers, rows):
    """The section of docs/proofs/SPEED.md."""
    return '\n'.join([
        '## Peers',
        '',
        'On %s, %s, by `bench/peers.sh`, with the packages of %s.' % (
            measure.machine(), datetime.date.today(), platform.freedesktop_os_release()['PRETTY_NAME']),
        '',
        'Ours to theirs, of throughput. Both read the settings without what the peer does not read. Ours keeps number texts '
        'and the order of names; `scan` also places and comments, `document` every byte, and `check` nothing; `view` keeps places of the text.',
        '',
        measure.table(['Document'] + ['`%s`, %s' % (peer.ours, peer.name) for peer in peers], [
            ['*reads*'] + [peer.reads for peer in peers],
            ['*keeps*'] + [peer.keeps for peer in peers],
            *rows,
        ]),
        '',
    ])


def main(ours, programs, folder, rounds='5'):
    peers, rows = present(programs), []
    texts = documents.make(SIZES)
    for kind in KINDS:
        for size in SIZES:
            files = paths(folder, kind, size, texts[kind, size].decode())
            rows.append(['%s, %s' % (kind, size)] + ['%.2f' % it for it in ratios(ours, peers, files, int(rounds))])
    written = section(peers, rows)
    print(written)
    measure.put('Peers', written)


if __name__ == '__main__':
    if len(sys.argv) not in (4, 5):
        sys.exit(__doc__)
    main(*sys.argv[1:])
