"""By which edits a patch is made, and a merge patch: `MadeBy` and `Merging` of `jsonc_parser/specs/patch`, to be run.

An operation is a dict, as random-patches has it: `op`, and with tokens for pointers `path` and `from`, and `value`. Values of documents and edits are
those of definitions.py and edits.py. Each operation has its own edits, one at most, but that what is moved leaves by one and comes by another; so
what a patch makes of a document is a chain of documents, each led to by one edit.
"""
import functools
import os
import sys

sys.path.insert(0, os.path.join(os.path.dirname(os.path.abspath(__file__)), '..'))
from definitions import document_of
from edits import makes


class Unmade(Exception):
    """The operation is not made in the document."""


# Where tokens lead (References).

def index_of(token):
    return int(token) if token.isascii() and token.isdigit() and (token == '0' or token[0] != '0') else None


def path_of(document, tokens):
    """The positions that the tokens lead over to a value of the document; or None."""
    path = ()
    for token in tokens:
        kind, entries = document.at(path) if document.value is not None else ('nothing', ())
        if kind == 'object':
            places = [place for place, (name, _) in enumerate(entries) if name == token]
            if len(places) > 1:
                raise Unmade
        elif kind == 'array' and index_of(token) is not None:
            places = [index_of(token)][:index_of(token) < len(entries)]
        else:
            places = []
        if not places:
            return None
        path += (places[0],)
    return path if document.value is not None else None


def target(document, tokens):
    path = path_of(document, tokens)
    if path is None:
        raise Unmade
    return path


# The edits of an operation (MadeBy).

def addition(document, tokens, value):
    """The one edit that adds the value."""
    if not tokens:
        return 'SetRoot', value
    holder, last = target(document, tokens[:-1]), tokens[-1]
    kind, entries = document.at(holder)
    if kind == 'array' and last == '-':
        return 'AppendElement', holder, value
    if kind == 'array' and index_of(last) is not None and index_of(last) <= len(entries):
        return 'InsertElement', holder, index_of(last), value
    if kind != 'object':
        raise Unmade
    path = path_of(document, tokens)
    return ('AppendProperty', holder, last, value) if path is None else ('Replace', path, value)


def is_renaming(document, origin, tokens):
    """Whether both lead to names in one object, and the second to nothing (`IsWithinObject`)."""
    holder = path_of(document, tokens[:-1]) if origin and tokens and origin[:-1] == tokens[:-1] else None
    return holder is not None and document.is_a(holder, 'object') and path_of(document, tokens) is None


def steps(document, operation):
    """The first edit of the operation in the document, or None; and the operations by which it goes on behind that."""
    what, tokens, origin = operation['op'], operation['path'], operation.get('from')
    if what == 'test':
        target(document, tokens)
        return None, []
    if what == 'remove':
        return ('Remove', target(document, tokens)), []
    if what == 'replace':
        return ('Replace', target(document, tokens), operation['value']), []
    if what == 'add':
        return addition(document, tokens, operation['value']), []
    path = target(document, origin)
    moved = {'op': 'add', 'path': tokens, 'value': document.at(path)}
    if what == 'copy':
        return addition(document, tokens, moved['value']), []
    if origin == tokens:
        return None, []
    if tokens[:len(origin)] == origin:
        raise Unmade
    if is_renaming(document, origin, tokens):
        return ('RenameProperty', path, tokens[-1]), []
    return ('Remove', path), [moved]


# The operations of a merge patch (Merging).

def made_of(patch):
    return ('object', tuple((name, made_of(value)) for name, value in patch[1] if value != ('keyword', 'null'))) if patch[0] == 'object' else patch


def collapsed(value):
    """Of equal names the last value at the first place."""
    if value[0] == 'object':
        return 'object', tuple({name: collapsed(held) for name, held in value[1]}.items())
    return ('array', tuple((None, collapsed(held)) for _, held in value[1])) if value[0] == 'array' else value


def are_equal(one, other):
    if one[0] != other[0] or one[0] in ('string', 'number', 'keyword'):
        return one == other
    if one[0] == 'object':
        one, other = dict(one[1]), dict(other[1])
        return one.keys() == other.keys() and all(are_equal(value, other[name]) for name, value in one.items())
    return len(one[1]) == len(other[1]) and all(are_equal(value, held) for (_, value), (_, held) in zip(one[1], other[1]))


def merging(document, patch, tokens=()):
    """The operations by which the merge patch is merged at the tokens: what it goes into is not put anew, and what is there already is not touched."""
    path = path_of(document, tokens)
    if patch[0] == 'object' and path is not None and document.is_a(path, 'object'):
        for name, value in patch[1]:
            below = *tokens, name
            if value != ('keyword', 'null'):
                yield from merging(document, value, below)
            elif path_of(document, below) is not None:
                yield {'op': 'remove', 'path': below}
    elif path is None or not are_equal(made_of(patch), collapsed(document.at(path))):
        yield {'op': 'add', 'path': tokens, 'value': made_of(patch)}


# A chain of documents.

def leads(old, operations, new, middles):
    """Whether the operations lead from the one text to the other, each by its own edits: over the texts between them that are tried."""
    document = document_of(old)
    if not operations:
        return old == new
    try:
        edit, behind = steps(document, operations[0])
    except Unmade:
        return False
    rest = behind + operations[1:]
    if edit is None:
        return leads(old, rest, new, middles)
    tried = {new, *middles} if rest else {new}
    found = ((text, document_of(text)) for text in sorted(tried))
    return any(middle is not None and makes(document, edit, middle) and leads(text, rest, new, middles) for text, middle in found)
