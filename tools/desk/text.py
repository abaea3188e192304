"""Values and lines as a person types them, and what is wrong with one."""
import difflib
import math
import re

NUMBER = re.compile(r'[+-]?(?:(?:[0-9]+\.?[0-9]*|\.[0-9]+)(?:e[+-]?[0-9]+)?|inf|infinity|nan)', re.I | re.A)
COUNT = re.compile('[+-]?[0-9]{1,20}')
# digits in threes, with a comma that may stand for thousands as well as for a point
THREES = re.compile('[+-]?[0-9]{1,3}(?:,[0-9]{3})+')
UNIT = re.compile(r'\s*(?!x)[A-Za-z°%][A-Za-z0-9/^²]*')
LARGEST_COUNT = 65535


def shown(value):
    """What was typed, cut to a readable length."""
    return value if len(value) <= 40 else value[:40] + '..'


def joined(value):
    """What was typed without what people put between digits."""
    return re.sub("[_ ']", '', value)


def hint(value):
    """What to do about a value that is no number."""
    point = value.replace(',', '.', 1)
    start = NUMBER.match(value)
    if not value:
        return 'give a number after ='
    if THREES.fullmatch(value):
        return f'use a point, {point}, or no comma, {value.replace(",", "")}' if NUMBER.fullmatch(point) else f'use no commas: {value.replace(",", "")}'
    if NUMBER.fullmatch(point):
        return f'use a point: {point}'
    if NUMBER.fullmatch(value.replace('\N{MINUS SIGN}', '-')):
        return 'use the plain minus -'
    if NUMBER.fullmatch(joined(value)):
        return 'write the digits 0-9 together, with nothing between them'
    if start and UNIT.fullmatch(value[start.end():]):
        return f'give the number alone, without a unit: {start.group()}'
    return 'use the digits 0-9, a point and a minus, as in -0.5 or 1e-3'


def count_hint(value):
    """What to do about a value that is no whole number, as words to add."""
    if not value:
        return ' (give a number after =)'
    if NUMBER.fullmatch(value.replace(',', '.')) and not THREES.fullmatch(value):
        return ''
    if COUNT.fullmatch(joined(value).replace(',', '')):
        return ' (write the digits 0-9 together, with nothing between them)'
    return ' (use the digits 0-9)'


def number(name, value):
    """The float that is typed, or ValueError with what is wrong."""
    if not NUMBER.fullmatch(value):
        raise ValueError(f'{name} is no number: {shown(value)} ({hint(value)})')
    found = float(value)
    if math.isinf(found) and 'inf' not in value.lower():
        raise ValueError(f'{name} is too large for a number of 64 bits: {shown(value)} (1.7e308 is near the largest)')
    if found == 0 and re.search('[1-9]', re.split('[eE]', value)[0]):
        raise ValueError(f'{name} is too small to be told from 0: {shown(value)} (write 0 if that is meant)')
    return found


def count(name, value, largest=LARGEST_COUNT):
    """The whole number that is typed, or ValueError."""
    if COUNT.fullmatch(value) and 0 <= int(value) <= largest:
        return int(value)
    raise ValueError(f'{name} is not a whole number from 0 to {largest:,}: {shown(value)}{count_hint(value)}')


def did_you_mean(word, names):
    """The name that was probably meant, as words to add."""
    plain = {re.sub('[^a-z0-9]', '', name): name for name in names}
    close = difflib.get_close_matches(re.sub('[^a-z0-9]', '', word.lower()), plain, 1, 0.6)
    return f' (did you mean {plain[close[0]]}?)' if close else ''


def readable(x):
    """A number in six digits."""
    return '0' if x == 0 else f'{x:.6g}'


def exact(x):
    """The shortest digits that give the number back."""
    return '0' if x == 0 else re.sub(r'\.0$', '', repr(x))
