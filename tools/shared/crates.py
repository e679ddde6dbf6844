"""The crates of crates.txt, and what each stands on."""
import os
import re

from shared.command import Stop
from shared.kept import ROOT

CRATES = os.path.join(ROOT, 'crates.txt')
ROW = re.compile(r'\s*(\w+)((?:[ \t]+\w+(?:=\S+)?)*)\s*:(.*)')  # a name, for a static library `staticlib`, and the libraries


def rows():
    """The lines of crates.txt that are no blanks: (a heading, None, None), or a crate, the words behind its name, and the libraries that it uses."""
    headed = False
    with open(CRATES, encoding='utf-8') as file:
        lines = file.read().split('\n')
    for place, line in enumerate(lines, 1):
        if not line.strip():
            continue
        row = ROW.fullmatch(line)
        if line.startswith('#'):
            headed = True
            yield line[1:].strip(), None, None
        elif row is None or not headed:
            raise Stop(f'crates.txt: line {place} is no crate below a heading: {line[:60]!r}')
        else:
            yield row[1], row[2].split(), row[3].split()


def read_crates():
    """The storeys, each a heading and its crates, and for each crate those that it stands on. The comment above crates is their heading."""
    storeys, under = [], {}
    for name, _, libraries in rows():
        if libraries is None:
            storeys.append((name, []))
        else:
            storeys[-1][1].append(name)
            under[name] = libraries
    storeys = [(heading, names) for heading, names in storeys if names]
    if not storeys:
        raise Stop('crates.txt has no crates')
    return storeys, {name: [other for other in others if other in under] for name, others in under.items()}


def built():
    """The crates that something is built of, in the order of crates.txt: the programs, and the static libraries."""
    crates = [(name, words) for name, words, _ in rows() if words is not None]
    programs = [name for name, _ in crates if os.path.isfile(os.path.join(ROOT, 'crates', name, 'src', 'main.rt'))]
    return programs, [name for name, words in crates if 'staticlib' in words]


def reach(name, under, known):
    """All crates that one stands on, directly or not."""
    if name not in known:
        known[name] = set()  # a circle ends here
        for other in under[name]:
            known[name] |= {other} | reach(other, under, known)
    return known[name]
