#!/usr/bin/env python3
"""draw_map.py [--write]: draws the storeys of crates.txt, and holds the drawing in docs/MAP.md against it.

Every definition that the page's table names is looked for in its crate too. With --write the drawing is put into the page.
Exit status: 0 the page is right; 1 it is not; 2 it could not be read.
"""
import os
import re
import sys

sys.dont_write_bytecode = True
sys.path.insert(0, os.path.dirname(os.path.realpath(__file__)))

from shared.command import Stop, run
from shared.crates import reach, read_crates
from shared.kept import ROOT, replace

PAGE = os.path.join(ROOT, 'docs', 'MAP.md')
OPEN, CLOSE = '```mermaid\n', '```\n'


def nearest(name, under, known):
    """The crates that one stands on and that no other one of them stands on."""
    others = under[name]
    return [other for other in others if not any(other in reach(between, under, known) for between in others)]


def drawing():
    """A Mermaid graph: a box for each storey, and an arrow from a crate to each that stands right on it."""
    storeys, under = read_crates()
    known = {}
    lines = ['flowchart BT']
    for place, (heading, names) in enumerate(storeys):
        lines.append(f'    subgraph storey{place} ["{heading}"]')
        lines += [f'        {name}' for name in names]
        lines.append('    end')
    for _, names in storeys:
        for name in names:
            lines += [f'    {other} --> {name}' for other in nearest(name, under, known)]
    return '\n'.join(lines) + '\n'


def split_page(text):
    """The page before, in and after the drawing."""
    before, opened, rest = text.partition(OPEN)
    drawn, closed, after = rest.partition(CLOSE)
    if not opened or not closed:
        raise Stop('docs/MAP.md has no place for the drawing: a block that begins with ```mermaid')
    return before + opened, drawn, closed + after


def missing(text):
    """The definitions that a row of the table names and its crate has not. A row is: Rust function, crate, definitions as `Module.name`."""
    rows = re.findall(r'^\| `[^|]*\| `(\w+)` \| ([^|]*)\|', text, re.M)
    if not rows:
        raise Stop('docs/MAP.md has no table of functions')
    for crate, cell in rows:
        for module, name in re.findall(r'`(\w+)\.([\w-]+)`', cell):
            path = os.path.join(ROOT, 'crates', crate, 'specs', module + '.antt')
            if not os.path.isfile(path):
                yield f'{crate} has no specs/{module}.antt'
                continue
            with open(path, encoding='utf-8') as file:
                found = re.search(r'^[\w ]*\b%s(?= :|$)' % re.escape(name), file.read(), re.M)
            if not found:
                yield f'{crate}/specs/{module}.antt has no {name}'


def main(words):
    if words not in ([], ['--write']):
        raise Stop('usage: tools/draw_map.py [--write]')
    new = drawing()
    with open(PAGE, encoding='utf-8') as file:
        text = file.read()
    before, drawn, after = split_page(text)
    lacking = list(missing(text))
    for line in lacking:
        print(f'docs/MAP.md: {line}')
    if drawn != new and words:
        replace(PAGE, (before + new + after).encode('utf-8'))
        print('docs/MAP.md: the drawing is new')
    elif drawn != new:
        print('docs/MAP.md: the drawing is not that of crates.txt; tools/draw_map.py --write makes it anew')
        return 1
    return 1 if lacking else 0


if __name__ == '__main__':
    run('draw_map', main)
