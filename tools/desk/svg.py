"""A course as an SVG picture that also reads in black and white: shades, hatching and words, no colours."""
import math
import textwrap
from html import escape

from desk import answers, plot, text

WIDE, HIGH = 760, 480
LEFT, RIGHT, TOP, BOTTOM = 100, 52, 92, 66
ACROSS, DOWN = WIDE - LEFT - RIGHT, HIGH - TOP - BOTTOM
STYLE = 'text{font:14px sans-serif}.small{font-size:12px}.head{font-size:16px;font-weight:bold}.halo{paint-order:stroke;stroke:#fff;stroke-width:4px}'


def words(x, y, content, kind='', anchor='start'):
    return f'<text x="{x:.1f}" y="{y:.1f}" class="{kind}" text-anchor="{anchor}">{escape(content)}</text>'


def ticks(low, high, most=6):
    """Round numbers from low to high, 0 among them where it lies between; only 0 where a step between them would leave the format."""
    rough = (high - low) / most
    if not 1e-300 < rough < 1e300:
        return [0]
    step = 10.0 ** math.floor(math.log10(rough))
    step *= next(m for m in (1, 2, 5, 10) if m * step >= rough * 0.999)
    return [k * step for k in range(math.ceil(low / step - 1e-9), math.floor(high / step + 1e-9) + 1)]


def drawn(c):
    """The picture of the slacks: spans, walls, axes, a point for each substep, and the least one named."""
    parts, top, bottom, most = plot.fractions(c.slacks)
    room = (top - bottom) * 0.08
    high, low = top + room, bottom - max(room, (top - bottom) * 0.12)
    count = len(c.slacks)

    def x(substep):
        return LEFT + ACROSS * (substep - 0.5) / count

    def y(fraction):
        return TOP + DOWN * (high - fraction) / (high - low)

    out = []
    for name, first, last, shade in (('committed rows', 1, c.committed, '#dcdcdc'), ('braking', c.committed + 1, count, '#f6f6f6')):
        if first <= last:
            start, end = x(first - 0.5), x(last + 0.5)
            out.append(f'<rect class="span" x="{start:.1f}" y="{TOP}" width="{end - start:.1f}" height="{DOWN}" fill="{shade}" stroke="#999"/>')
            out.append(words(min(max((start + end) / 2, LEFT + 45), LEFT + ACROSS - 25), TOP - 8, name, 'small', 'middle'))
    out.append(f'<rect class="below" x="{LEFT}" y="{y(0):.1f}" width="{ACROSS}" height="{TOP + DOWN - y(0):.1f}" fill="url(#outside)"/>')
    out.append(f'<path class="wall" d="M{LEFT} {y(0):.1f}H{LEFT + ACROSS}" stroke="#000" stroke-width="2.5"/>')
    out.append(words(LEFT + ACROSS + 8, y(0) + 4, 'wall', 'small'))
    for tick in ticks(low * most, high * most):
        out.append(f'<path d="M{LEFT - 5} {y(tick / most):.1f}h5" stroke="#000"/>' + words(LEFT - 8, y(tick / most) + 4, text.readable(tick), 'small', 'end'))
    for tick in ticks(1, count, 10) if count > 1 else [1]:
        if tick == int(tick):
            out.append(f'<path d="M{x(tick):.1f} {TOP + DOWN}v5" stroke="#000"/>' + words(x(tick), TOP + DOWN + 19, f'{int(tick):,}', 'small', 'middle'))
    out.append(f'<path d="M{LEFT} {TOP}V{TOP + DOWN}H{LEFT + ACROSS}" fill="none" stroke="#000"/>')
    line = ' '.join(f'{x(k + 1):.2f},{y(s):.2f}' for k, s in enumerate(parts))
    out.append(f'<polyline points="{line}" fill="none" stroke="#000" stroke-width="1.2"/>')
    size = 4.5 if count <= 80 else 2.5 if count <= 400 else 1
    for k, (slack, fraction) in enumerate(zip(c.slacks, parts), 1):
        fill = '#000' if plot.part(c, k) == 'committed' else '#fff'
        out.append(f'<circle class="slack" cx="{x(k):.2f}" cy="{y(fraction):.2f}" r="{size}" fill="{fill}" stroke="#000">'
                   f'<title>substep {k}: {text.exact(slack)}</title></circle>')
    at = plot.least(c)
    mark_x, mark_y, label = x(at), y(parts[at - 1]), plot.least_words(c)
    out.append(f'<circle class="least" cx="{mark_x:.2f}" cy="{mark_y:.2f}" r="9" fill="none" stroke="#000" stroke-width="2"/>')
    # every other point is above the least one, so there is room below it
    half = 3.7 * len(label)
    out.append(words(min(max(mark_x, LEFT + half), LEFT + ACROSS - half), mark_y + 26, label, 'halo', 'middle'))
    return out


def legend(c):
    """What the signs mean, and the axes with their units."""
    y = HIGH - 10
    signs = [
        (0, '<circle cx="6" cy="-4" r="4.5" fill="#000" stroke="#000"/>', 'after a committed substep'),
        (200, '<circle cx="6" cy="-4" r="4.5" fill="#fff" stroke="#000"/>', 'after a braking substep'),
        (380, '<circle cx="5" cy="-4" r="6" fill="none" stroke="#000" stroke-width="2"/>', 'the least slack'),
        (510, '<rect x="-6" y="-10" width="18" height="12" fill="url(#outside)" stroke="#777"/>', 'outside the box'),
    ]
    return [
        words(LEFT + ACROSS / 2, TOP + DOWN + 38, f'substep, each {text.readable(c.card["dt"])} s', '', 'middle'),
        f'<text transform="translate(16 {TOP + DOWN / 2}) rotate(-90)" text-anchor="middle">slack (m): room to the nearer wall</text>',
        *(f'<g transform="translate({LEFT + across} {y})">{sign}{words(17, 0, meaning, "small")}</g>' for across, sign, meaning in signs),
    ]


def name_of(path):
    """A file's name as a line of the picture: its end where it is long, and only characters that can be shown."""
    shown = ''.join(sign if sign.isprintable() else '?' for sign in path)
    return shown if len(shown) <= 62 else '..' + shown[-60:]


def picture(path, c):
    """The whole file, for the card of this name."""
    said = textwrap.wrap(answers.verdict(c.answer), 96) + answers.notes(c.card, c.answer)
    said = said[:3] if c.slacks else said + ['there is no slack to draw']
    head = [
        f'<svg xmlns="http://www.w3.org/2000/svg" viewBox="0 0 {WIDE} {HIGH}" width="{WIDE}" height="{HIGH}">',
        f'<title>{escape(name_of(path))}: slack over substeps</title>',
        f'<style>{STYLE}</style>',
        '<defs><pattern id="outside" width="8" height="8" patternUnits="userSpaceOnUse" patternTransform="rotate(45)">'
        '<path d="M0 0V8" stroke="#777" stroke-width="1.5"/></pattern></defs>',
        f'<rect width="{WIDE}" height="{HIGH}" fill="#fff"/>',
        words(LEFT, 24, name_of(path), 'head'),
        *(words(LEFT, 41 + 14 * at, line, 'small') for at, line in enumerate(said)),
    ]
    body = drawn(c) + legend(c) if c.slacks else []
    return '\n'.join(head + body + ['</svg>', ''])
