"""The text that pieces become: the definition of jsonc_format/specs/Format.antt and Styles.antt, function by function, to be run."""
from collections import namedtuple
from lexemes import BLANKS, Piece, is_line_end, pieces

Style = namedtuple('Style', 'line_end level expands')
Frame = namedtuple('Frame', 'object spread shifted')
State = namedtuple('State', 'around bare in_property shifted comment line')


def opens(piece):
    return piece.kind in '[{'


def closes(piece):
    return piece.kind in ']}'


def separates(piece):
    return piece.kind in ',:'


def is_comment(piece):
    return piece.kind in ('line', 'block')


def lines(characters):
    return characters.count('\n') + characters.count('\r') - characters.count('\r\n')


def in_line(characters):
    return not any(map(is_line_end, characters))


def on_one_line(count, found, index):
    for piece in found[index:]:
        if not in_line(piece.gap + piece.text):
            return False
        if closes(piece) and count == 0:
            return True
        count += opens(piece) - closes(piece)
    return False


def is_flat(found, index):
    return index < len(found) and (closes(found[index]) or on_one_line(0, found, index))


def leads(found, index):
    while found[index].kind == 'block':
        index += 1
        if index == len(found) or not in_line(found[index].gap):
            return False
    return not (is_comment(found[index]) or closes(found[index]) or separates(found[index]))


def indent(level, around):
    return ''.join(level * (1 + frame.shifted) for frame in around)


def new_line(style, around, shifted, blank):
    return style.line_end * (1 + blank) + style.level * shifted + indent(style.level, around)


def gap_in_line(is_object, state, piece):
    return '' if separates(piece) or (state.bare or closes(piece)) and not is_object else ' '


def gap_on_lines(style, state, found, index):
    piece = found[index]
    blank = lines(piece.gap) > 1
    if state.line:
        return new_line(style, state.around, state.shifted, blank and not (separates(piece) or state.in_property))
    if separates(piece):
        return ''
    if state.in_property or in_line(piece.gap) and (state.comment or not leads(found, index)):
        return ' '
    return new_line(style, state.around, state.shifted, blank and not state.bare)


def gap_in(style, state, found, index):
    piece = found[index]
    if not state.around:
        return gap_on_lines(style, state, found, index)
    frame = state.around[0]
    if state.bare and closes(piece):
        return ''
    if not frame.spread:
        return gap_in_line(frame.object, state, piece)
    if closes(piece):
        return new_line(style, state.around[1:], frame.shifted, False)
    return gap_on_lines(style, state, found, index)


def past(around, bare=False, in_property=False, shifted=False):
    return State(around, bare, in_property, shifted, False, False)


def after(style, state, found, index):
    piece, around = found[index], state.around
    if opens(piece):
        return past([Frame(piece.kind == '{', style.expands or not is_flat(found, index + 1), state.shifted)] + around, bare=True)
    if closes(piece):
        return past(around[1:])
    if separates(piece):
        colon = piece.kind == ':'
        return past(around, in_property=colon, shifted=colon and state.shifted)
    if is_comment(piece):
        line = piece.kind == 'line'
        return state._replace(bare=False, shifted=line and state.in_property or state.shifted, comment=True, line=line)
    return past(around, in_property=bool(around) and around[0].object and not state.in_property)


def written(piece):
    return piece.text.rstrip(''.join(BLANKS)) if piece.kind == 'line' else piece.text


def layout(style, found):
    if not found:
        return ''
    out, state = [written(found[0])], after(style, past([]), found, 0)
    for index in range(1, len(found)):
        out += [gap_in(style, state, found, index), written(found[index])]
        state = after(style, state, found, index)
    return ''.join(out) + style.line_end


def respaced(style, found):
    """The pieces with the gaps that are written before them."""
    if not found:
        return []
    out, state = [found[0]._replace(gap='')], after(style, past([]), found, 0)
    for index in range(1, len(found)):
        out.append(found[index]._replace(gap=gap_in(style, state, found, index)))
        state = after(style, state, found, index)
    return out


# What a text tells of its style.

def line_end_of(found, tail):
    for gap in [piece.gap for piece in found] + [tail]:
        for index, c in enumerate(gap):
            if c == '\n':
                return '\n'
            if c == '\r':
                return '\r\n' if gap[index + 1:index + 2] == '\n' else '\r'
    return '\n'


def last_line(gap):
    begin = 1 + max(gap.rfind('\n'), gap.rfind('\r'))
    return gap[begin:] if begin else ''


def level_of(found):
    depth = 0
    for piece in found:
        if depth > 0 and last_line(piece.gap):
            return last_line(piece.gap)
        depth = max(depth + opens(piece) - closes(piece), 0)
    return '  '


def format(options, text, line_end=None, level=None, expands=False):
    found, tail = pieces(options, text)
    style = Style(line_end_of(found, tail) if line_end is None else line_end, level_of(found) if level is None else level, expands)
    return layout(style, found)
