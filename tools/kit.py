#!/usr/bin/env python3
"""What `rt` has no command for: the kit's rattle on one crate of this repository, over the libraries below it as they stand proved.

usage: tools/kit.py made-of                 prints a sum of the kit, and of all files that proofs read
       tools/kit.py proved SUM              notes that rt ci has proved the crates of that sum
       tools/kit.py is-built PROGRAM        whether the program that rt ci built is there, and nothing has changed since
       tools/kit.py build CRATE [FLAG..]    proves and builds a crate: `rattle build`, which has the flags in its --help

Proved libraries stand in crates/*/out/rlib. Those that `rt ci` left there are taken as long as no file has changed since; else `rt lib` proves what changed.
"""
import functools
import hashlib
import os
import subprocess
import sys

ROOT = os.path.dirname(os.path.dirname(os.path.realpath(__file__)))
PARTS = ('src', 'specs', 'proofs')
NOTE = os.path.join(ROOT, 'target', 'proved.of')


@functools.cache
def home():
    """The kit's folder."""
    try:
        return os.path.dirname(subprocess.run(['rt', 'doc'], capture_output=True, text=True, check=True).stdout.strip())
    except (OSError, subprocess.CalledProcessError):
        sys.exit('no rt: it comes with the Rattle kit (README.md)')


@functools.cache
def listed():
    """Each crate of crates.txt with what stands behind its colon, and those that are static libraries."""
    deps, static = {}, set()
    with open(os.path.join(ROOT, 'crates.txt'), encoding='utf-8') as file:
        for line in file:
            kind, colon, behind = line.split('#')[0].partition(':')
            if colon:
                name, *more = kind.split()
                deps[name] = behind.split()
                static |= {name} if 'staticlib' in more else set()
    return deps, static


@functools.cache
def below(crate):
    """The crates of the repository that a crate stands on."""
    deps = [dep for dep in listed()[0][crate] if dep in listed()[0]]
    return sorted(set(deps).union(*(below(dep) for dep in deps)))


def made_of(crates=None):
    """A sum of the kit, and of the files that the proofs of some crates read, or of all."""
    with open(os.path.join(home(), 'KIT-ID'), 'rb') as file:
        total = hashlib.sha256(file.read())
    for crate in sorted(crates or listed()[0]):
        total.update(repr((crate, listed()[0][crate], crate in listed()[1])).encode())
        for part in PARTS:
            for at, folders, names in os.walk(os.path.join(ROOT, 'crates', crate, part)):
                folders.sort()
                for name in sorted(names):
                    with open(os.path.join(at, name), 'rb') as file:
                        total.update(repr((os.path.relpath(os.path.join(at, name), ROOT), file.read())).encode())
    return total.hexdigest()


def is_noted():
    """Whether no file has changed since rt ci proved all crates."""
    try:
        with open(NOTE, encoding='utf-8') as file:
            return file.read().strip() == made_of()
    except OSError:
        return False


def is_built(program):
    """`rt run` writes a stamp beside a program, and knows by that whether it is to be built again; rt ci writes none."""
    made = os.path.join(ROOT, 'crates', program, 'out', program)
    return os.path.exists(made) and not os.path.exists(made + '.stamp') and is_noted()


def rlib(crate):
    return os.path.join(ROOT, 'crates', crate, 'out', 'rlib', f'{crate}.rlib')


def libraries(crate):
    """Sees to it that the libraries below a crate stand proved. `rt lib` writes a stamp beside a library, and rt ci none."""
    stamped = lambda dep: os.path.exists(os.path.join(os.path.dirname(rlib(dep)), 'stamp'))
    if all(os.path.isdir(rlib(dep)) and not stamped(dep) for dep in below(crate)) and is_noted():
        return
    for dep in listed()[0][crate]:
        if dep in listed()[0]:
            made = subprocess.run(['rt', 'lib'], cwd=os.path.join(ROOT, 'crates', dep), stdin=subprocess.DEVNULL, stdout=sys.stderr)
            if made.returncode:
                sys.exit(f'the library {dep} is not proved')


def words(verb, crate):
    """The command for a crate, to be run in its folder or in a copy of that, but for the flags of the call."""
    deps, static = listed()
    root_file = 'src/main.rt' if os.path.exists(os.path.join(ROOT, 'crates', crate, 'src', 'main.rt')) else 'src/lib.rt'
    found = [os.path.join(home(), 'bin', 'rattle'), verb, '--crate-name', crate, root_file, '--links', f'{crate}=']
    for dep in ['std', *deps[crate]]:
        found += ['--extern', f'{dep}={rlib(dep) if dep in deps else os.path.join(home(), "rlibs", dep + ".rlib")}']
    for folder in [os.path.join(home(), 'rlibs'), *(os.path.dirname(rlib(dep)) for dep in below(crate))]:
        found += ['-L', f'dependency={folder}']
    found += ['--antt-project', os.path.join(home(), 'rattle/logic/antt-project.json'), '--logic-built', os.path.join(home(), 'logic_built')]
    return found + (['--crate-type', 'staticlib'] if crate in static else [])


def main(verb='', *given):
    if verb == 'made-of' and not given:
        print(made_of())
    elif verb == 'proved' and len(given) == 1:
        os.makedirs(os.path.dirname(NOTE), exist_ok=True)
        with open(NOTE, 'w', encoding='utf-8') as file:
            print(*given, file=file)
    elif verb == 'is-built' and len(given) == 1:
        return 0 if is_built(*given) else 1
    elif verb == 'build' and given and given[0] in listed()[0]:
        libraries(given[0])
        return subprocess.run([*words('build', given[0]), *given[1:]], cwd=os.path.join(ROOT, 'crates', given[0]), stdin=subprocess.DEVNULL).returncode
    else:
        sys.exit('\n'.join(line for line in __doc__.split('\n') if 'tools/kit.py' in line))
    return 0


if __name__ == '__main__':
    sys.exit(main(*sys.argv[1:]))
