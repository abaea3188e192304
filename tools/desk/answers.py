"""The lines of the card program, and what they mean: to whoever has the line alone (explain), and with the card at hand (ask)."""
import math
import re
import struct
from collections import namedtuple

from desk import fields, text
from desk.trouble import Trouble

REFUSALS = {
    1: 'a size is out of range',
    2: 'a number of the configuration is not finite or out of range: k_p below 0, k_v or dt not above 0, or lo above hi',
    3: 'substeps is not 1 to 64, commit is over 64, or (commit + brake_steps) x substeps is over 4,096',
    4: 'the channels of a zone do not fit',
    15: 'a round table, and the action or the position has fewer than two coordinates',
    17: 'the calibration names Stall, which is not computed',
    5: 'the chunk is empty',
    6: 'the chunk is too long',
    7: 'the chunk is too wide',
    8: 'more rows are to be executed than there are',
    9: 'the rows are not as many as their sizes say',
    10: 'the rows are not as wide as the configuration says',
    11: 'a slice is too short',
    12: 'p, v or a row is not finite',
    13: 'a computed number is not finite',
    14: 'the input ends inside this record',
}
LINE = re.compile('[0-9]+ (?P<number>[0-9]+) (?P<count>[0-9]+) (?:- -|(?P<margin>[0-9a-f]{16}) (?P<stop>[0-9a-f]{16}))')
# what a line says: the refusal's number, 0 where accepted; the slacks; the least of them and the stop distance, None where refused
Answer = namedtuple('Answer', 'number count margin stop')


def number(digits):
    """The number whose bits a line shows."""
    return struct.unpack('>d', bytes.fromhex(digits))[0]


def digits(x):
    """The bits of a number, as a line shows them."""
    return struct.pack('>d', x).hex()


def answer_of(line):
    """The answer that a line shows (R9.3), or ValueError."""
    found = LINE.fullmatch(line.strip())
    if not found or (int(found['number']) == 0) != bool(found['margin']) or int(found['number']) not in (0, *REFUSALS):
        raise ValueError(line)
    if found['margin']:
        return Answer(0, int(found['count']), number(found['margin']), number(found['stop']))
    return Answer(int(found['number']), int(found['count']), None, None)


def told(line):
    """The answer of a line that the program gave, or Trouble."""
    try:
        return answer_of(line)
    except ValueError:
        raise Trouble(f'tools/card: the program forecast gave a line that is none: {text.shown(line)}')


def refused(answer):
    """The words of a refusal."""
    before = f'; {entries(answer.count)} before it' if answer.number == 13 else ''
    return f'refused ({answer.number}): {REFUSALS[answer.number]}{before}'


def entries(count):
    return 'no slack entry' if count == 0 else '1 slack entry' if count == 1 else f'{count} slack entries'


def feasible(answer):
    return answer.number == 0 and answer.margin >= 0


def meaning(line):
    """What a line of the program means, without its card."""
    answer = answer_of(line)
    if answer.number:
        return refused(answer)
    least = '' if math.isinf(answer.margin) else f', the least {answer.margin!r}'
    verdict = 'feasible' if feasible(answer) else 'NOT feasible, the arm leaves its box'
    return f'{verdict}: {entries(answer.count)}{least}; stop distance {answer.stop!r}'


def explained(line):
    """The meaning of a line that was piped in, or Trouble."""
    try:
        return meaning(line)
    except ValueError:
        if '=' in line or line.startswith('#'):
            raise Trouble('tools/card: standard input is a text card, not the lines of the program: use tools/card ask FILE')
        raise Trouble(f'tools/card: not a line of the program: {text.shown(line)}')


def shown(x, exactly):
    """A number of an answer: six digits, or all of them with its bits."""
    return f'{text.exact(x)} (bits {digits(x)})' if exactly else text.readable(x)


def verdict(answer, exactly=False):
    """The answer to a card, in a line."""
    if answer.number:
        return refused(answer)
    if answer.count == 0:
        return 'feasible, but nothing was left to run, so nothing was checked'
    head = 'feasible' if feasible(answer) else 'NOT feasible, the arm leaves its box'
    least = 'the one slack is' if answer.count == 1 else f'the least of {answer.count:,} slacks is'
    return f'{head}: {least} {shown(answer.margin, exactly)} m; stop distance {shown(answer.stop, exactly)} m'


def notes(card, answer):
    """What the line does not say: where a refused card is out of its ranges, and what the forecast does not look at."""
    if answer.number == 13:
        left = fields.substeps_left(card)
        where = f'substep {answer.count + 1:,} of {left:,}' if answer.count < left else 'the stop distance'
        return [f'{where} is the first to overflow: the numbers of the card are far too large or too small']
    if answer.number:
        return [f'{field.name} = {text.exact(value)}: accepted is {field.range}' for field, value in fields.out_of_range(card)]
    for wall, beyond in (('lo', card['p'] < card['lo']), ('hi', card['p'] > card['hi'])):
        if beyond:
            return [f'the arm stands outside its box now (p = {text.exact(card["p"])}, {wall} = {text.exact(card[wall])}): the forecast does not look at that']
    return []
