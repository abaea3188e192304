"""The commands of tools/card: their words and options, what they print, and the exit status."""
import os
import signal
import sys

from desk import answers, cards, fields, plot, programs, svg, text, tries
from desk.trouble import Trouble

OPTIONS = {'ask': {'--exact': 0}, 'plot': {'--exact': 0, '--ascii': 0, '--svg': 1}, 'pack': {}, 'explain': {}, 'try': {}}


def taken(command, words):
    """The options among the words, and the other words."""
    options, rest = {}, []
    words = list(words)
    while words:
        word = words.pop(0)
        if word == '--':
            return options, rest + words
        if not word.startswith('--'):
            rest.append(word)
        elif word not in OPTIONS[command]:
            raise Trouble(f'tools/card: {command} has no option {word}{text.did_you_mean(word, OPTIONS[command])}: tools/card --help has them')
        elif not OPTIONS[command][word]:
            options[word] = True
        elif not words:
            raise Trouble(f'tools/card: {word} needs a file name after it')
        else:
            options[word] = words.pop(0)
    return options, rest


def status(all_answers):
    return 0 if all(answers.feasible(a) for a in all_answers) else 1


def say(path, card, answer, exactly):
    """The answer to a card under its file's name, and under it what the line does not say."""
    print(f'{path}: {answers.verdict(answer, exactly)}')
    for note in answers.notes(card, answer):
        print(f'    {note}')


def ask(paths, exactly):
    read = cards.read_all(paths)
    lines = programs.lines('forecast', b''.join(map(cards.packed, read)), len(read))
    found = [answers.told(line) for line in lines]
    for path, card, answer in zip(paths, read, found):
        say(path, card, answer, exactly)
    if len(found) > 1:
        refused = sum(1 for a in found if a.number)
        good = sum(1 for a in found if answers.feasible(a))
        print(f'{len(found):,} cards: {good:,} feasible, {len(found) - good - refused:,} not feasible, {refused:,} refused')
    return status(found)


def utf8():
    """Whether the locale takes more than ASCII."""
    name = os.environ.get('LC_ALL') or os.environ.get('LC_CTYPE') or os.environ.get('LANG') or ''
    return 'utf8' in name.lower().replace('-', '')


def draw(path, options):
    card = cards.read_all([path])[0]
    course = plot.course(card, cards.packed(card))
    say(path, card, course.answer, '--exact' in options)
    if course.slacks:
        print('\n'.join(plot.picture(course, '--ascii' in options or not utf8())))
    else:
        print('    there is no slack to draw')
    if '--svg' in options:
        if os.path.exists(options['--svg']) and os.path.samefile(options['--svg'], path):
            raise Trouble(f'{options["--svg"]}: this is the card itself: name another file for the picture')
        try:
            with open(options['--svg'], 'w', encoding='utf-8') as out:
                out.write(svg.picture(path, course))
        except OSError as error:
            raise Trouble(f'{options["--svg"]}: cannot be written: {error.strerror}')
        print(f'the picture is in {options["--svg"]}')
    return status([course.answer])


def given():
    """The lines of standard input."""
    if sys.stdin is None:
        raise Trouble('tools/card: standard input is closed: explain reads the lines of the program from it')
    while True:
        try:
            line = sys.stdin.buffer.readline()
        except OSError as error:
            raise Trouble(f'tools/card: standard input cannot be read: {error.strerror}')
        if not line:
            return
        yield line


def explain():
    number = 0
    for number, raw in enumerate(given(), 1):
        try:
            line = raw.decode('ascii').rstrip()
        except UnicodeDecodeError:
            raise Trouble('tools/card: standard input is no text: explain reads lines, and packed records go to tools/forecast first')
        meaning = answers.explained(line)
        print(f'{line}\n    {meaning}')
        if line.split()[1] == '14':
            complain('tools/card: the last record is cut off; if it was a text card that the program was given, use tools/card ask FILE')
    if not number:
        raise Trouble('tools/card: no line came: whatever stands before explain gave none')
    return 0


def pack(paths):
    sys.stdout.buffer.write(b''.join(map(cards.packed, cards.read_all(paths))))
    return 0


def attempt(words):
    if not words:
        print(tries.usage())
        return 0
    if words[0] not in tries.BELIEFS:
        raise Trouble(f'tools/card: there is no belief {text.shown(words[0])} to try{text.did_you_mean(words[0], tries.BELIEFS)}: '
                      f'they are {", ".join(tries.BELIEFS)}')
    lines, passed = tries.run(words[0], words[1:])
    print('\n'.join(lines))
    return 0 if passed else 1


def command(usage, words):
    """Runs the command of the words and gives the exit status."""
    if not words:
        raise Trouble(usage)
    name, *rest = words
    if name in ('--help', '-h', 'help'):
        print(usage)
        return 0
    if name not in OPTIONS:
        raise Trouble(f'tools/card: there is no command {text.shown(name)}{text.did_you_mean(name, OPTIONS)}: tools/card --help has them')
    options, rest = taken(name, rest)
    if name in ('ask', 'pack') and not rest:
        raise Trouble(f'tools/card: {name} needs the names of text cards after it')
    if name == 'plot' and len(rest) != 1:
        raise Trouble('tools/card: plot takes the name of one text card')
    if name == 'explain' and rest:
        raise Trouble('tools/card: explain takes no names: it reads the lines of the program from standard input')
    if name == 'ask':
        return ask(rest, '--exact' in options)
    if name == 'plot':
        return draw(rest[0], options)
    return pack(rest) if name == 'pack' else explain() if name == 'explain' else attempt(rest)


def complain(words):
    """Says something on standard error, where there is one."""
    if sys.stderr is not None:
        print(words, file=sys.stderr)


def answered(usage, words):
    """Runs the command, and says what ended it."""
    try:
        return command(usage, words)
    except Trouble as trouble:
        sys.stdout.flush()
        complain('\n'.join(trouble.lines))
        return 2


def let_go():
    """Writes nothing more to standard output, so that the end of the run does not try again."""
    os.dup2(os.open(os.devnull, os.O_WRONLY), 1)


def main(usage, words):
    usage = f'{usage.strip()}\n\n{fields.table()}\n\n{fields.UNITS}'
    if sys.stdout is None:
        complain('tools/card: standard output is closed: there is nowhere to write the answer')
        return 2
    sys.stdout.reconfigure(errors='backslashreplace')
    try:
        found = answered(usage, words)
        sys.stdout.flush()
        return found
    except BrokenPipeError:
        # whoever read the answer has seen enough: end as other tools do, by the signal
        let_go()
        signal.signal(signal.SIGPIPE, signal.SIG_DFL)
        os.kill(os.getpid(), signal.SIGPIPE)
    except KeyboardInterrupt:
        return 130
    except OSError as error:
        let_go()
        complain(f'tools/card: the answer cannot be written: {error.strerror}')
        return 2
