#!/usr/bin/env python3
"""Turns the names of this repository's own definitions and lemmas to snake case: blockSize to block_size, outcome-ok to outcome_ok.

usage: tools/respell.py [--names]      at the top of the repository, once, behind /opt/rattle/port/port.py; --names only prints what becomes what

What is declared in specs/ and in the lemma files of proofs/ is turned wherever it stands: in definitions, proofs, clauses, must-fail edits, and between backticks in pages and comments. A dash stays where it joins two
names of definitions, as in Rattle's own library. Types, modules, functions of src/, goals of proofs, strings, inputs and outputs keep their names, and so does what the library declares under the same name."""
import re
import sys
from pathlib import Path

TOP = Path('.')
WORD = r"[^\s(){}\[\],;.\"`]+"
MODIFIERS = r'(?:(?:pub|abbrev|unfoldable|private|opaque|instance)\s+)*'
DECLARED = re.compile(rf'^\s*{MODIFIERS}({WORD}(?:\s+{WORD})*)\s+:\s')
PLAIN = re.compile(r"[a-z][A-Za-z0-9_'-]*")
OWN_USE = re.compile(r'use\s+Rattle\.(\w+)\.')


def crates():
    return {p.name for p in (TOP / 'crates').iterdir() if p.is_dir()}


def files(pattern):
    return [p for p in sorted(TOP.glob(pattern)) if 'out' not in p.parts]


# lemmas that would share a file with a definition of their name: the files, the name, and what it becomes first
BEFORE = [
    (['flat_fit/proofs/Flat.antt', 'engines/proofs/Engines.antt'], 'none_open', 'none_open_is'),
    (['productions/proofs/Numbers.antt'], 'is_digit', 'digit_so'),
    (['export/proofs/Cases.antt', 'export/proofs/export_path/Proof.antt'], 'not_finite', 'not_finite_is'),
    (['export/proofs/Cases.antt', 'export/proofs/export_path/Proof.antt'], 'too_large', 'too_large_is')]


def is_goal_file(path):
    """A function's own proof: below proofs/, in a folder."""
    parts = path.parts
    return 'proofs' in parts and len(parts) - parts.index('proofs') > 2


def definitions():
    return files('crates/*/specs/*.antt')


def lemmas():
    return [p for p in files('crates/*/proofs/**/*.antt') if not is_goal_file(p)]


def declared(path):
    for line in path.read_text().split('\n'):
        found = DECLARED.match(line.split(' -- ')[0])
        if found and not line.lstrip().startswith('--'):
            for name in found.group(1).split():
                if PLAIN.fullmatch(name):
                    yield name


def snake(segment):
    return re.sub(r'(?<=[a-z0-9])([A-Z])', r'_\1', segment).lower() if not segment[:1].isupper() else segment


def imported():
    """The names that are taken from the library, not from this repository."""
    own = crates()
    found = set()
    for path in files('crates/*/**/*.antt') + files('crates/*/src/**/*.rt'):
        for line in path.read_text().split('\n'):
            if re.match(r'\s*(?:ghost |pub )*use\s', line):
                crate = OWN_USE.search(line)
                if not (crate and crate.group(1) in own):
                    found |= set(re.findall(WORD, line.split('{')[-1]))
    return found


def aliases():
    """Names that are brought in with 'as'."""
    used = '\n'.join(line for path in files('crates/*/**/*.antt') + files('crates/*/src/**/*.rt') for line in path.read_text().split('\n') if re.match(r'\s*(?:ghost |pub )*use\s', line))
    return {name for name in re.findall(r' as ([a-z][A-Za-z0-9-]*)', used) if snake(name) != name}


def mapping():
    defined = {name for path in definitions() for name in declared(path)}
    known = defined | {name for path in lemmas() for name in declared(path)} | aliases()
    library = imported()
    functions = set(re.findall(r'\bfn (\w+)', '\n'.join(p.read_text() for p in files('crates/*/src/**/*.rt'))))
    parts = {snake(name) for name in defined | functions} | library
    turned = {}
    for name in sorted(known - library):
        segments = [snake(segment) for segment in name.split('-')]
        new = segments[0]
        for left, right in zip(segments, segments[1:]):
            new += ('-' if left in parts and right in parts and left not in COMMON and right not in COMMON else '_') + right
        if new != name:
            turned[name] = new
    return apart(turned, defined, known | library)


def apart(turned, defined, taken):
    """Where two names would become one, the definition has it, and the lemma says `is` behind it."""
    news = {}
    for name in sorted(turned, key=lambda name: (name not in defined, '-' in name, name)):
        new = turned[name]
        while new in news or name not in defined and new in taken:
            new += '_is'
        news[new] = name
        turned[name] = new
    return turned


# words that are names somewhere and plain words here
COMMON = {'of', 'in', 'at', 'is', 'no', 'to', 'by', 'one', 'two', 'first', 'last', 'next', 'same', 'all', 'ok', 'refl', 'number', 'left', 'right', 'start', 'end', 'within', 'none', 'some', 'here', 'from', 'up', 'down', 'only', 'it', 'so', 'not', 'and', 'or', 'after', 'before', 'new', 'old', 'is_', 'x', 'y', 'k', 'n', 'm', 'a', 'b', 'c'}


def in_code(text, turned, comment):
    """A line's code, by tokens; what stands behind the comment's sign by backticks alone; strings as they are."""
    out, at = [], 0
    for piece in re.finditer(r'"(?:[^"\\]|\\.)*"|' + re.escape(comment) + r'.*', text):
        out.append(tokens(text[at:piece.start()], turned))
        out.append(ticked(piece.group(), turned) if piece.group().startswith(comment) else piece.group())
        at = piece.end()
    return ''.join(out) + tokens(text[at:], turned)


def tokens(text, turned):
    return re.sub(WORD, lambda found: turned.get(found.group(), found.group()), text)


def ticked(text, turned):
    return re.sub(r'`[^`]*`', lambda found: tokens(found.group()[1:-1], turned).join('``'), text)


def turn(path, turned):
    text = path.read_text()
    if path.suffix == '.md':
        new = ticked(text, turned)
    elif path.suffix == '.edit':
        new = '\n'.join(tokens(line, turned) if line.startswith(('old:', 'new:')) else line for line in text.split('\n'))
    else:
        comment = '//' if path.suffix == '.rt' else '--'
        new = '\n'.join(in_code(line, turned, comment) for line in text.split('\n'))
    if new != text:
        path.write_text(new)


def falls_together(path, turned):
    """Names of one file that become one."""
    words = set(re.findall(rf'(?<![.]){WORD}(?![.]\w)', '\n'.join(line.split(' -- ')[0] for line in path.read_text().split('\n') if not line.lstrip().startswith(('--', '//')))))
    return [(word, turned[word]) for word in sorted(words) if word in turned and turned[word] in words]


def stop(words):
    print(f'respell: {words}', file=sys.stderr)
    sys.exit(2)


def main(words):
    if words not in ([], ['--names']):
        stop('usage: tools/respell.py [--names]')
    if not (TOP / 'crates').is_dir():
        stop('there is no folder crates here: run it at the top of the repository')
    if (TOP / 'docs' / 'PORT.md').exists():
        stop('docs/PORT.md is here: the names were turned already, and turned twice they would be others')
    turned = mapping()
    news = {}
    for name, new in turned.items():
        news.setdefault(new, []).append(name)
    if '--names' in words:
        print('\n'.join(f'{name} {new}' for name, new in turned.items()))
    paths = files('crates/*/**/*.antt') + files('crates/*/src/**/*.rt') + files('crates/*/must-fail/*.edit')
    for path in paths:
        for word, new in falls_together(path, turned):
            print(f'together: {path}: {word} and {new}', file=sys.stderr)
    for new, names in news.items():
        if len(names) > 1:
            print(f'one name: {names} become {new}', file=sys.stderr)
    if '--names' not in words:
        for names, old, new in BEFORE:
            for path in (TOP / 'crates' / name for name in names):
                path.write_text(tokens(path.read_text(), {old: new}))
        for path in paths + files('docs/*.md') + files('*.md'):
            turn(path, turned)


if __name__ == '__main__':
    main(sys.argv[1:])
