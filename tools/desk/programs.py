"""The proved programs, run on records: tools/program NAME."""
import os
import subprocess

from desk.trouble import Trouble

ROOT = os.path.dirname(os.path.dirname(os.path.dirname(os.path.realpath(__file__))))


def run(name, records):
    """What a program writes for records, as text; Trouble where it is not there or breaks off."""
    if not os.path.exists(os.path.join(ROOT, 'crates', name, 'out', name)):
        raise Trouble(f'tools/card: the program {name} is not built: run make cards')
    try:
        done = subprocess.run([os.path.join(ROOT, 'tools', 'program'), name], input=records, capture_output=True)
    except OSError as error:
        raise Trouble(f'tools/card: the program {name} cannot be started: {error.strerror}')
    if done.returncode:
        said = done.stderr.decode('utf-8', 'replace').strip().replace('\n', '; ') or 'it said nothing'
        raise Trouble(f'tools/card: the program {name} {"did not run" if done.returncode == 2 else "broke off"}: {said}')
    return done.stdout.decode('ascii', 'replace')


def lines(name, records, count):
    """Its lines, one for each of so many records, each begun by the record's number."""
    found = run(name, records).splitlines()
    for at in range(max(count, len(found))):
        if at >= count or at >= len(found) or found[at].split(' ')[0] != str(at + 1):
            raise Trouble(f'tools/card: the program {name} gave {len(found)} lines for {count} cards, and none for card {at + 1} in its place: run make cards')
    return found
