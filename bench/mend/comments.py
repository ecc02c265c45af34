#!/usr/bin/env python3
"""Asks of the model whether comments stay: each comment outside of what a change removes is one in the mended text, at its new place, and the mended text has no
others but those that a change closed. The library's mends are the model's (`compare.py`).

usage: bench/mend/comments.py SEED COUNT
"""
import random
import sys

from lexemes import options_of
from recovery import Mender, apply
from texts import Writer, edit, flags, slip

SHOWN = 5


def moved(mends, place):
    """A place of the text in the mended text, where no change is at it."""
    return place + sum(len(mend.new) - (mend.to - mend.at) for mend in mends if mend.to <= place)


def is_removed(mends, start, end):
    return any(mend.at <= start and end <= mend.to and mend.at < mend.to for mend in mends)


def main(seed, count):
    source = random.Random(int(seed))
    texts = stay = removed = wrong = 0
    for _ in range(int(count)):
        options = '1' + flags(source)[1:]
        text = Writer(source, options).document()
        for _ in range(source.choice([1, 1, 1, 2, 4])):
            text = (slip if source.random() < .5 else edit)(source, text)
        reader = Mender(text, options_of(options))
        mends = reader.walk()
        if not mends:
            continue
        texts += 1
        new = apply(text, mends)
        again = Mender(new, options_of(options))
        if again.walk():
            sys.exit('%r is no document' % new)
        before = set(reader.comments)
        kept = {it for it in before if not is_removed(mends, *it)}
        wanted = {(moved(mends, start), moved(mends, start) + end - start) for start, end in kept}
        there = set(again.comments)
        closed = {mend.start + sum(len(it.new) - (it.to - it.at) for it in mends if it.to <= mend.start) for mend in mends if mend.kind == 'UnterminatedCommentBlock'}
        stay += len(kept)
        removed += len(before) - len(kept)
        if wanted - there or any(start not in closed for start, _ in there - wanted):
            wrong += 1
            if wrong <= SHOWN:
                print(options, repr(text), repr(new), wanted - there, there - wanted, sep='\n  ')
    print('comments: %d texts mended, %d comments stay, %d are removed, %d texts are wrong' % (texts, stay, removed, wrong))
    return 1 if wrong else 0


if __name__ == '__main__':
    sys.exit(main(*sys.argv[1:]) if len(sys.argv) == 3 else __doc__)
