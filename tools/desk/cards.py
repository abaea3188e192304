"""Text cards: read from files, every mistake said, and packed into records of 96 bytes."""
import re
import struct

from desk import text
from desk.fields import COUNTS, NAMES, NUMBERS
from desk.trouble import Trouble

RECORD = struct.Struct('<11d4H')
# far more than a text card has
LONGEST = 1 << 20


def opened(path):
    """The bytes of a file, or Trouble."""
    try:
        with open(path, 'rb') as file:
            found = file.read(LONGEST + 1)
    except FileNotFoundError:
        raise Trouble(f'{path}: there is no such file')
    except IsADirectoryError:
        raise Trouble(f'{path}: this is a folder: name the card files in it, as {path.rstrip("/")}/*.card')
    except OSError as error:
        raise Trouble(f'{path}: cannot be read: {error.strerror}')
    if len(found) > LONGEST:
        raise Trouble(f'{path}: this is too long for a text card')
    return found


def lines_of(path):
    """The lines of a text file in UTF-8, with or without a byte-order mark."""
    found = opened(path)
    if found.startswith((b'\xff\xfe', b'\xfe\xff')):
        raise Trouble(f'{path}: the text is in UTF-16: save it as UTF-8')
    if b'\0' in found:
        raise Trouble(f'{path}: this is no text: a text card has lines `name = value`, and tools/forecast takes packed records')
    try:
        return re.split('\r\n|\r|\n', found.decode('utf-8-sig'))
    except UnicodeDecodeError as error:
        line = found.count(b'\n', 0, error.start) + 1
        raise Trouble(f'{path}:{line}: the text is not in UTF-8: save it as UTF-8')


def taken(line, found):
    """Adds what a line gives to what was found so far, or ValueError with what is wrong with it."""
    name, sign, value = (part.strip() for part in line.partition('='))
    if not sign:
        raise ValueError(f'not a line `name = value` of a card: {text.shown(line)}')
    if name not in NAMES:
        raise ValueError(f'a card has no field {text.shown(name)}{text.did_you_mean(name, NAMES)}')
    if name in found:
        raise ValueError(f'{name} is given twice: keep one of the lines')
    found[name] = None
    found[name] = (text.number if name in NUMBERS else text.count)(name, value)


def read(path):
    """The card of a text file, its fields by name, or Trouble with all that is wrong with it."""
    found, wrong = {}, []
    for at, line in enumerate(lines_of(path), 1):
        line = line.split('#')[0].strip()
        try:
            if line:
                taken(line, found)
        except ValueError as error:
            wrong.append(f'{path}:{at}: {error}')
    missing = [name for name in NAMES if name not in found]
    if missing:
        wrong.append(f'{path}: not given: {", ".join(missing)} (a line `name = value` for each)')
    if wrong:
        raise Trouble(*wrong)
    return found


def read_all(paths):
    """The cards of all files, or Trouble with the mistakes of all."""
    cards, wrong = [], []
    for path in paths:
        try:
            cards.append(read(path))
        except Trouble as trouble:
            wrong += trouble.lines
    if wrong:
        raise Trouble(*wrong)
    return cards


def packed(card):
    """The record of a card."""
    return RECORD.pack(*(card[name] for name in NUMBERS + COUNTS))
