"""Beliefs to try: one action of an arm on a plane, checked by the guard (the proved program `tries`), with settings that can be changed."""
import re
import struct
import textwrap
from collections import namedtuple

from desk import answers, programs, text
from desk.trouble import Trouble

Setting = namedtuple('Setting', 'name kind meaning default')
SETTINGS = [
    Setting('zone', 'flag', 'whether a slow zone (contact box) is configured: yes or no', 'no'),
    Setting('radius', 'number', 'its radius, m: 0 or above', '1'),
    Setting('zone_speed', 'number', 'the greatest speed inside it, m/s: above 0', '0.5'),
    Setting('channel0', 'channel', 'which camera number is the first coordinate of its centre: 0 up, below channels', '0'),
    Setting('channel1', 'channel', 'which is the second: another one', '1'),
    Setting('zone1', 'zone', 'a further zone: its radius, speed and two channels, with commas, or none', 'none'),
    Setting('zone2', 'zone', 'another, likewise', 'none'),
    Setting('zone3', 'zone', 'another, likewise', 'none'),
    Setting('zone4', 'zone', 'another, likewise; with zone and zone1 to zone3 it is a fifth, and an arm may have four', 'none'),
    Setting('channels', 'count', 'how many numbers the camera is declared to send', '2'),
    Setting('camera', 'list', 'the numbers that it sends, at most 8, m', '0,0'),
    Setting('absent_camera', 'choice', 'what a zone counts as whose camera is silent: slow or no-zone', 'slow'),
    Setting('armed', 'trips', 'the checks that are armed: all, none, or names with commas', 'all'),
    Setting('v_max', 'number', 'the greatest speed, m/s: above 0', '1'),
    Setting('reach_max', 'number', 'how far from the arm a row may be, m: above 0', '4'),
    Setting('dt', 'number', 'length of a control step, s: above 0', '1'),
    Setting('lo', 'pair', 'low walls of the box, m', '-1,-1'),
    Setting('hi', 'pair', 'high walls, m', '1,1'),
    Setting('disc', 'disc', 'a round table instead of the box: the two coordinates of its centre and its radius, m, with commas, or none', 'none'),
    Setting('p', 'pair', 'where the arm stands, and the row before, m', '0,0'),
    Setting('row', 'pair', 'where it is told to go, m', '1,0'),
]
NAMES = [setting.name for setting in SETTINGS]
# the bits of R10.5
TRIPS = {'workspace': 1, 'speed': 2, 'accel': 4, 'jerk': 8, 'reach': 16, 'contact': 32}
# a refusal in the words of these settings
REFUSALS = answers.REFUSALS | {
    1: 'there are over four zones',
    2: 'a number is not finite or out of its range, a low wall is above its high wall, or the radius of a disc is not above 0 (tools/card try has the ranges)',
    4: "a zone's two channels are the same, one of them is not below channels, or two zones have the same channels in the same order",
    12: 'a number of p, row or camera is not finite',
}
# a line of the program: a refusal's number, or 0 with trips, moved coordinates, peak speed, eight numbers of the row,
# and the axes that a low and a high wall moved
LINE = re.compile('(?P<refusal>[1-9][0-9]*)|0 (?P<trips>[0-9]+) (?P<moved>[0-9]+)(?P<numbers>(?: [0-9a-f]{16}){9}) (?P<low>[0-9]+) (?P<high>[0-9]+)')
# a belief: what is set for it, what the answer shows, and what to change
Belief = namedtuple('Belief', 'said settings shows vary')
BELIEFS = {
    'contact': Belief('An empty contact box means slow everywhere.', {},
                      'no zone is configured, and a step as long as v_max allows passes, whatever the camera sees',
                      ['zone=yes', 'zone=yes camera=3,3', 'zone=yes camera=3', 'zone=yes camera=3 absent_camera=no-zone',
                       'zone=yes zone1=2,0.25,2,3 channels=4 camera=0,0,0,0']),
    'channels': Belief('Two arms may share camera channels.', {'zone': 'yes', 'channel0': '1', 'channel1': '1', 'armed': 'none'},
                       'one channel for both coordinates of a zone is refused, armed or not; another arm the guard does not see',
                       ['channel1=0', 'channel1=2', 'channel1=2 channels=3', 'zone=no', 'channel0=0 zone1=1,0.5,0,1', 'channel0=0 zone1=1,0.5,1,0']),
    'limit': Belief('Touching a limit trips it.', {},
                    'the step is as long as v_max allows and ends on the wall, and nothing trips',
                    ['row=1.001,0', 'p=-0.5,0 row=0.75,0', 'v_max=0.999', 'disc=0,0,1', 'disc=0,0,1 row=0.75,0.75 v_max=2']),
    'smooth': Belief('The guard smooths my rows.', {'zone': 'yes', 'zone_speed': '1', 'reach_max': '1'},
                     'everything is armed, and the row touches what speed, zone, wall and reach allow and comes out as it went in; what moves a row is a limit that it exceeds',
                     ['row=0.6,0.7', 'disc=0,0,1', 'zone_speed=0.5', 'row=1.001,0',
                      'armed=workspace,speed lo=0,0 hi=1,1 p=-3,0 row=0,0', 'armed=workspace,speed lo=0,0 hi=1,1 p=-3,0 row=-2.000000000014552,0']),
}


def usage():
    lines = ['usage: tools/card try BELIEF [name=value ..]', '']
    for name, belief in BELIEFS.items():
        begins = ', with ' + ' '.join(f'{setting}={value}' for setting, value in belief.settings.items()) if belief.settings else ''
        lines.append(f'  {name:<10}"{belief.said}"{begins}')
    lines += ['', 'The arm is a point on a plane. Settings, each with what it is where none is given here or above:', '']
    lines += [f'  {s.name + "=" + s.default:<20}{s.meaning}' for s in SETTINGS]
    lines += ['', f'The checks are {", ".join(TRIPS)}; accel and jerk need more than one row, so they never trip here.',
              'For "The stopping forecast inspects where the arm stands now.": tools/card ask cards/7-start-outside.card cards/3-F3.card']
    return '\n'.join(lines)


def numbers(name, value, least, most):
    """The numbers between commas, or ValueError."""
    items = [item.strip() for item in value.split(',')] if value else []
    if not least <= len(items) <= most:
        raise ValueError(f'{name} has {least} numbers with a comma between them' if least == most else f'{name} has at most {most} numbers')
    return [text.number(name, item) for item in items]


def bits(name, value):
    """The trip bits of names between commas, or ValueError."""
    if value in ('all', 'none'):
        return 63 if value == 'all' else 0
    items = [item.strip() for item in value.split(',')]
    for item in items:
        if item not in TRIPS:
            raise ValueError(f'there is no check {text.shown(item)}{text.did_you_mean(item, TRIPS)}: they are {", ".join(TRIPS)}')
    return sum({TRIPS[item] for item in items})


def flag(name, value):
    if value not in ('yes', 'no'):
        raise ValueError(f'{name} is yes or no: {text.shown(value)}')
    return int(value == 'yes')


def choice(name, value):
    """The code of include/lictor.h."""
    codes = {'slow': 0, 'no-zone': 1}
    if value not in codes:
        raise ValueError(f'{name} is {" or ".join(codes)}: {text.shown(value)}')
    return codes[value]


Zone = namedtuple('Zone', 'radius speed channel0 channel1')


def zone(name, value):
    """A further zone, None where there is none, or ValueError."""
    if value == 'none':
        return None
    items = [item.strip() for item in value.split(',')]
    if len(items) != 4:
        raise ValueError(f'{name} is none, or a radius, a speed and two channels with commas between them: {text.shown(value)}')
    return Zone(*(text.number(name, item) for item in items[:2]), *(text.count(name, item, 255) for item in items[2:]))


def disc(name, value):
    """A round table: its centre and its radius; None where the workspace is the box, or ValueError."""
    if value == 'none':
        return None
    if len(value.split(',')) != 3:
        raise ValueError(f'{name} is none, or two coordinates and a radius with commas between them: {text.shown(value)}')
    return numbers(name, value, 3, 3)


READ = {
    'number': text.number,
    'count': text.count,
    'channel': lambda name, value: text.count(name, value, 255),
    'flag': flag,
    'choice': choice,
    'zone': zone,
    'disc': disc,
    'trips': bits,
    'pair': lambda name, value: numbers(name, value, 2, 2),
    'list': lambda name, value: numbers(name, value, 0, 8),
}


def chosen(belief, words):
    """The settings of a belief after the words name=value, as typed and as read, or Trouble."""
    typed = {s.name: s.default for s in SETTINGS} | belief.settings
    wrong, read = [], {}
    for word in words:
        name, sign, value = word.partition('=')
        if not sign and name in NAMES:
            default = next(s.default for s in SETTINGS if s.name == name)
            wrong.append(f'tools/card: {name} needs a value: {name}={default}')
        elif not sign or name not in NAMES:
            wrong.append(f'tools/card: there is no setting {text.shown(word)}{text.did_you_mean(name, NAMES)}: write name=value, and tools/card try lists them')
        else:
            typed[name] = value
    for setting in SETTINGS:
        try:
            read[setting.name] = READ[setting.kind](setting.name, typed[setting.name])
        except ValueError as error:
            wrong.append(f'tools/card: {error}')
    if wrong:
        raise Trouble(*wrong)
    return typed, read


def zones(s):
    """The zones that are configured, in order."""
    first = Zone(s['radius'], s['zone_speed'], s['channel0'], s['channel1']) if s['zone'] else None
    return [found for found in (first, s['zone1'], s['zone2'], s['zone3'], s['zone4']) if found]


def record(s):
    """The record of crates/tries: a configuration in the places of include/lictor.h, then the position, the camera, the row before and the row."""
    eight = [0.0] * 8
    count = len(zones(s))
    first, *further = (zones(s) + [Zone(0.0, 0.0, 0, 0)] * 4)[:4]
    config = [s['dt'], s['v_max'], 1.0, 1.0, s['reach_max'], 0.0] + [2.0, 1.0, 0.5] + [first.radius, first.speed]
    config += eight + [1.0] * 8 + (s['lo'] + eight)[:8] + (s['hi'] + eight)[:8] + [0.0]
    config += [number for found in further for number in (found.radius, found.speed)]
    config += s['disc'] or [0.0] * 3
    project, second_order = 1, 0
    counts = [2, 2, 0, project, second_order, count, first.channel0, first.channel1, 2, 1, 1, 1] + [0] * 8
    counts += [s['armed'], s['channels'], 0, 0, 0, 1, s['absent_camera']]
    counts += [channel for found in further for channel in (found.channel0, found.channel1)]
    box, round_table, gripper_to_zero = 0, 1, 0
    counts += [round_table if s['disc'] else box, gripper_to_zero]
    place, row = (s['p'] + eight)[:8], (s['row'] + eight)[:8]
    camera = (s['camera'] + eight)[:8]
    return struct.pack('<53d35QQ8dQ8d8d8d', *config, *counts, 2, *place, len(s['camera']), *camera, *place, *row)


def walls(low, high):
    """What the box did, in words; axes are counted from 0, as in the masks."""
    moves = (('raised', 'low', low), ('lowered', 'high', high))
    return [f'the box {moved} axis {j} to its {name} wall' for j in range(8) for moved, name, mask in moves if mask >> j & 1]


def told(line):
    """The answer in words, and whether nothing trips."""
    found = LINE.fullmatch(line)
    if not found or not found['numbers'] and int(found['refusal']) not in REFUSALS:
        raise Trouble(f'tools/card: the program tries gave a line that is none: {text.shown(line)}')
    if found['refusal']:
        return f'refused ({found["refusal"]}): {REFUSALS[int(found["refusal"])]}', False
    trips, moved = int(found['trips']), int(found['moved'])
    peak, *row = map(answers.number, found['numbers'].split())
    row = ', '.join(map(text.readable, row[:2]))
    names = ', '.join(name.upper() for name, bit in TRIPS.items() if trips & bit)
    out = f'the row is moved to {row}' if moved else f'the row comes out as it went in: {row}'
    parts = ['trips: ' + names if trips else 'nothing trips', *walls(int(found['low']), int(found['high'])), out, f'peak speed {text.readable(peak)} m/s']
    return '; '.join(parts), not trips


def silent(s):
    """What is to be said of each armed zone that is not seen: why, and what it counts as."""
    if not s['armed'] & TRIPS['contact']:
        return []
    lines = []
    for found in zones(s):
        missing = [channel for channel in (found.channel0, found.channel1) if channel >= len(s['camera'])]
        zone_named = f'the zone of channels {found.channel0} and {found.channel1}' if len(zones(s)) > 1 else 'the zone'
        counts_as = f'{zone_named} does not count (absent_camera=no-zone)' if s['absent_camera'] else f'the arm counts as inside {zone_named} (absent_camera=slow)'
        lines += [f'The camera sends no number for channel {" or ".join(map(str, missing))}: {counts_as}.'] if missing else []
    return lines


def run(name, words):
    """Tries a belief: the lines to print, and whether nothing trips."""
    belief = BELIEFS[name]
    typed, read = chosen(belief, words)
    answer, passed = told(programs.run('tries', record(read)).strip())
    settings = textwrap.wrap(' '.join(f'{s}={typed[s]}' for s in NAMES), 90, initial_indent='    ', subsequent_indent='    ')
    lines = [f'"{belief.said}"', *settings, answer]
    if not answer.startswith('refused'):
        lines += silent(read)
    if not words:
        lines += [f'So: {belief.shows}.', 'Change it:'] + [f'    tools/card try {name} {change}' for change in belief.vary]
    return lines, passed
