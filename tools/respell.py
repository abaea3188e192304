#!/usr/bin/env python3
"""Brings the definitions, fields and lemmas of specs/ and proofs/ to the spelling of today's Rattle: words in snake case.

usage: tools/respell.py [DIR]     DIR is the repository, this one where none is named; after port.py, once

A name that specs/*.antt or proofs/*.antt declares, and that has a dash or a capital inside, gets underscores. It is turned wherever it is cited: in .antt files,
in the clauses and `ghost use` lines of .rt files, in .edit files, and between backticks in comments and pages. Where a lemma would have the name of a
definition it gets _lem, and where a definition would have the name of a field of src/ it gets _of. Names that still fall together are told.
"""
import collections
import glob
import os
import re
import sys

ROOT = os.path.abspath(sys.argv[1] if len(sys.argv) > 1 else os.path.join(os.path.dirname(os.path.abspath(__file__)), '..'))
HEAD = re.compile(r'^ {0,4}((?:abbrev |unfoldable |pub |record |data |ruleset )*)([^\s:({|]+)((?: [({][^:]*)?(?: [({].*)?) ?:(?= |$)')
TOKEN = re.compile(r"[^\s(){}\[\]⌜⌝«»,;.:`=→×≡∷λ+*/%<>≤&|!\"]+")


def read(path):
    with open(path, encoding='utf-8') as f:
        return f.read()


# definitions that would be named as a field or a parameter of src/
FIELDS = {'invDt': 'inv_dt_of', 'invDt2': 'inv_dt2_of', 'invDt3': 'inv_dt3_of', 'stepMax': 'step_max_of', 'reactTicks': 'react_ticks_of', 'withoutStall': 'without_stall_of', 'allAxes': 'all_axes_of', 'oneAxis': 'one_axis_of'}
# lemmas that port.py gave the name of a definition
LEMMAS = {'chunk_out': 'chunk_out_lem', 'row_within': 'row_within_lem', 'not_negative': 'not_negative_lem'}


def snake(name):
    if name in FIELDS:
        return FIELDS[name]
    name = re.sub(r'(?<=[a-z0-9\'])([A-Z])', r'_\1', name)
    name = re.sub(r'(?<=[A-Z])([A-Z][a-z])', r'_\1', name)
    return '-'.join(name.split('-')).replace('-', '_').lower()


# what stands in a line with others, or in a `where`
MORE = {
    'notFinite': 'not_finite',
    'tooLong': 'too_long',
    'tooWide': 'too_wide',
    'execExceedsHorizon': 'exec_exceeds_horizon',
    'lenMismatch': 'len_mismatch',
    'heldValid': 'held_valid_of',
    'chunkClearOf': 'chunk_clear_of',
    'legFor': 'leg_for',
    'motionOf': 'motion_of',
    'glyphOf': 'glyph_of',
}
# a name of the library
LIBRARY = {'le_of_suc-le-suc'}


def declared():
    """Each own name to be respelled, with the files that declare it; and all names."""
    found, every = collections.defaultdict(list), set()
    for path in sorted(glob.glob(f'{ROOT}/crates/*/specs/*.antt') + glob.glob(f'{ROOT}/crates/*/proofs/*.antt')):
        for line in read(path).split('\n'):
            head = HEAD.match(line)
            if head is None or head[2] in ('--', 'use', 'mod', 'where'):
                continue
            every.add(head[2])
            name = head[2].strip('«»')
            if name not in LIBRARY and re.match(r'[a-zμ]', name) and (re.search(r'[A-Z]', name) or '-' in name):
                found[name].append(path)
    return found, every


def clauses(text):
    """The stretches of a source file that contracts speak in: `ghost use` lines, clauses, ghost fields and invariants."""
    found = [m.span() for m in re.finditer(r'^\s*ghost use [^;]*;', text, re.M)]
    for m in re.finditer(r'^\s*(?:pub )?(?:requires\*?|ensures\*?|ghost)\b[^{};]*(\{)', text, re.M):
        depth, at = 0, m.start(1)
        while True:
            depth += {'{': 1, '}': -1}.get(text[at], 0)
            at += 1
            if depth == 0:
                break
        found.append((m.start(), at))
    return sorted(found)


def main():
    names, every = declared()
    new = {n: snake(n) for n in names}
    taken = collections.defaultdict(set)
    for n, s in new.items():
        taken[s].add(n)
    for n in every:
        if n in taken and n not in new and n not in LEMMAS:
            taken[n].add(n)
    for s, ns in list(taken.items()):
        lemmas = [n for n in ns if '-' in n]
        if len(ns) > 1 and len(lemmas) == 1:
            new[lemmas[0]] = s + '_lem'
            ns.remove(lemmas[0])
    new.update(LEMMAS)
    new.update(MORE)
    together = {s: ns for s, ns in taken.items() if len(ns) > 1}
    for s, ns in sorted(together.items()):
        print(f'fall together: {sorted(ns)} as {s}: {[os.path.relpath(p, ROOT) for n in ns for p in names.get(n, [])]}')
    turn = lambda text: TOKEN.sub(lambda m: new.get(m[0], m[0]), text)
    ticks = lambda text: re.sub(r'`[^`\n]+`', lambda m: turn(m[0]), text)
    if '--look' in sys.argv:
        return new, every
    changed = 0
    for path in sorted(glob.glob(f'{ROOT}/**/*', recursive=True)):
        if not os.path.isfile(path) or re.search(r'/(out|target|\.git)/', path):
            continue
        kind = os.path.splitext(path)[1]
        inside = os.path.relpath(path, ROOT).startswith('crates/')
        if inside and kind in ('.antt', '.edit'):
            text = read(path)
            lines = []
            for line in text.split('\n'):
                if kind == '.antt' and line.lstrip().startswith('--'):
                    lines.append(ticks(line))
                else:
                    lines.append(turn(line))
            out = '\n'.join(lines)
        elif inside and kind == '.rt':
            text = read(path)
            out, last = [], 0
            for start, end in clauses(text):
                if start < last:
                    continue
                out += [ticks(text[last:start]), turn(text[start:end])]
                last = end
            out = ''.join(out + [ticks(text[last:])])
        elif kind in ('.md', '.rs', '.h', '.c', '.html') or os.path.relpath(path, ROOT).startswith('tools/') and kind == '' :
            text = read(path)
            out = ticks(text)
        else:
            continue
        if out != text:
            with open(path, 'w', encoding='utf-8') as f:
                f.write(out)
            changed += 1
    print(f'{len(new)} names, {changed} files')
    sys.exit(1 if together else 0)


if __name__ == '__main__':
    main()
