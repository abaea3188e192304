"""The slacks of one card drawn: over substeps, with the wall at 0, in the terminal and as an SVG picture.

The slacks are those that the proved program `slacks` writes; here they are only placed.
"""
import re
from collections import namedtuple

from desk import answers, fields, programs, text
from desk.trouble import Trouble

# a line of the program slacks
LINE = re.compile('1 (?P<number>[0-9]+) (?P<count>[0-9]+)(?P<slacks>(?: [0-9a-f]{16})*)')
# the card and its answer; the slacks; how many of them are of committed rows, the others being of the brake
Course = namedtuple('Course', 'card answer slacks committed')


def course(card, record):
    """A card's slacks as the library gives them, held to the forecast's own line."""
    answer = answers.told(programs.lines('forecast', record, 1)[0])
    found = LINE.fullmatch(programs.lines('slacks', record, 1)[0])
    slacks = [answers.number(bits) for bits in found['slacks'].split()] if found else []
    agree = found and (int(found['number']), int(found['count']), len(slacks)) == (answer.number, answer.count, answer.count)
    if not agree or (answer.number == 0 and slacks and min(slacks) != answer.margin):
        raise Trouble('tools/card: the programs slacks and forecast differ about this card: run make cards')
    return Course(card, answer, slacks, min(len(slacks), fields.committed_substeps(card)))


def least(c):
    """The first substep with the least slack, counted from 1."""
    return 1 + c.slacks.index(min(c.slacks))


def part(c, substep):
    """Which part of the course a substep is in."""
    return 'committed' if substep <= c.committed else 'braking'


def least_words(c):
    at = least(c)
    return f'least {text.readable(c.slacks[at - 1])} m after substep {at:,} ({part(c, at)})'


def fractions(slacks):
    """Each slack in parts of the largest, so that no difference of two overflows; the highest and the lowest, or 0; and the largest."""
    most = max(abs(s) for s in slacks) or 1
    parts = [s / most for s in slacks]
    top, bottom = max(parts + [0]), min(parts + [0])
    return (parts, top, bottom, most) if top > bottom else (parts, 1, 0, most)


# ---- in the terminal

PLAIN = {'committed': 'o', 'braking': 'x', 'least': '@', 'wall': '-', 'below': ':', 'bar': '|'}
DRAWN = {'committed': '●', 'braking': '○', 'least': '◆', 'wall': '─', 'below': '░', 'bar': '│'}
WIDTH, HEIGHT, LABEL = 64, 14, 11


def columns(c):
    """The substeps of each column: one is drawn over several columns where there are few, and the least of several where there are many."""
    count = len(c.slacks)
    if count > WIDTH:
        share = -(-count // WIDTH)
        return 1, [range(first, min(first + share, count + 1)) for first in range(1, count + 1, share)]
    return min(16, WIDTH // count), [range(k, k + 1) for k in range(1, count + 1)]


def height(fraction, above, below, top, bottom):
    """The row of a slack: 0 is the wall, and only a slack of 0 stands there."""
    if fraction > 0:
        return max(1, round(fraction / top * above))
    return -max(1, round(fraction / bottom * below)) if fraction < 0 else 0


def split(top, bottom):
    """How many rows are above the wall and how many below."""
    above = round(HEIGHT * top / (top - bottom))
    if top > 0 > bottom:
        above = min(max(above, 2), HEIGHT - 2)
    return above, HEIGHT - above


def spans(c, wide, groups, bar):
    """The line under the picture that names the committed rows and the brake."""
    line = ''
    for name in ('committed', 'braking'):
        length = wide * sum(part(c, group[0]) == name for group in groups)
        label = name if length > len(name) else ''
        line += (bar + label.center(length - 1, ' '))[:length] if length else ''
    return line + bar


def picture(c, plain):
    """The lines of the picture."""
    sign = PLAIN if plain else DRAWN
    wide, groups = columns(c)
    drawn = [min(group, key=lambda k: c.slacks[k - 1]) for group in groups]
    parts, top, bottom, most = fractions([c.slacks[k - 1] for k in drawn])
    above, below = split(top, bottom)
    lowest = least(c)
    rows = {row: [' '] * (wide * len(groups)) for row in range(-below, above + 1)}
    for row in rows:
        if row <= 0:
            rows[row] = [sign['wall' if row == 0 else 'below']] * (wide * len(groups))
    for at, substep in enumerate(drawn):
        mark = sign['least' if substep == lowest else part(c, substep)]
        rows[height(parts[at], above, below, top, bottom)][at * wide + wide // 2] = mark
    labels = {above: text.readable(top * most), -below: text.readable(bottom * most), 0: '0 wall'}
    lines = ['slack (m)']
    for row in range(above, -below - 1, -1):
        lines.append(f'{labels.get(row, ""):>{LABEL - 1}} {sign["bar"]}{"".join(rows[row]).rstrip()}')
    pad = ' ' * LABEL
    lines.append(pad + spans(c, wide, groups, sign['bar']))
    lines.append(pad + ' ' * (wide // 2 + 1) + '1' + f'{len(c.slacks):,}'.rjust(wide * (len(groups) - 1)) * (len(groups) > 1))
    share = '' if len(c.slacks) <= WIDTH else f'; a column is the least of {len(groups[0]):,}'
    lines.append(f'{pad} substep, each {text.readable(c.card["dt"])} s{share}')
    lines.append(f'{pad} {sign["committed"]} committed  {sign["braking"]} braking')
    lines.append(f'{pad} {sign["least"]} {least_words(c)}')
    return lines
