"""The fields of a card, in the order of its record (R9.1): what each means, its unit, and what the guard accepts (R0.3, R0.4, R0.10)."""
import math
from collections import namedtuple

# whole: a count of 16 bits and not a number; fits: whether a value, with the other fields beside it, is in its range
Field = namedtuple('Field', 'name whole meaning unit range fits')


def finite(value, card):
    return math.isfinite(value)


def number(name, meaning, unit, range_words, fits=finite):
    return Field(name, False, meaning, unit, range_words, lambda value, card: math.isfinite(value) and fits(value, card))


def count(name, meaning, unit, range_words, fits):
    return Field(name, True, meaning, unit, range_words, fits)


def all_substeps(card):
    return (card['commit'] + card['brake_steps']) * card['substeps']


def committed_substeps(card):
    """The substeps of the committed rows that are left (R7.2)."""
    return max(0, card['commit'] - card['from']) * card['substeps']


def substeps_left(card):
    """N of R7.3: those and the brake's."""
    return committed_substeps(card) + card['brake_steps'] * card['substeps']


FIELDS = [
    number('k_p', 'how hard the brake pulls the arm to where it should stand', '1/s2', '0 or above', lambda x, card: x >= 0),
    number('k_v', 'how hard the brake works against the speed', '1/s', 'above 0', lambda x, card: x > 0),
    number('dt', 'length of a substep', 's', 'above 0', lambda x, card: x > 0),
    number('lo', 'low wall of the box', 'm', 'up to hi', lambda x, card: not x > card['hi']),
    number('hi', 'high wall of the box', 'm', 'lo or above', lambda x, card: not card['lo'] > x),
    number('p', 'where the arm stands now', 'm', 'any finite number'),
    number('v', 'its velocity now', 'm/s', 'any finite number'),
    number('row0', 'planned position of control step 0', 'm', 'any finite number'),
    number('row1', 'planned position of control step 1', 'm', 'any finite number'),
    number('row2', 'planned position of control step 2', 'm', 'any finite number'),
    number('row3', 'planned position of control step 3 and of all after it', 'm', 'any finite number'),
    count('substeps', 'substeps in a control step', 'substeps', '1 to 64', lambda n, card: 1 <= n <= 64),
    count('commit', 'control steps that are carried out before the brake', 'steps', '0 to 64', lambda n, card: n <= 64),
    count('brake_steps', 'control steps of braking after them', 'steps', '0 or above, and (commit + brake_steps) x substeps at most 4,096',
          lambda n, card: all_substeps(card) <= 4096),
    count('from', 'how many of the committed steps are over already', 'steps', '0 to 65,535; from commit on, none is left', lambda n, card: True),
]
NAMES = [field.name for field in FIELDS]
NUMBERS = [field.name for field in FIELDS if not field.whole]
COUNTS = [field.name for field in FIELDS if field.whole]
UNITS = 'Lengths are in metres and times in seconds, or in any units that agree: nothing is converted.'


def out_of_range(card):
    """The fields of a card that the guard does not accept, each with its value and its range."""
    return [(field, card[field.name]) for field in FIELDS if not field.fits(card[field.name], card)]


def table():
    """A line for each field, for the usage."""
    return '\n'.join(f'  {f.name:<12}{f.meaning}, {f.unit}: {f.range}' for f in FIELDS)
