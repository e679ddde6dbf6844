#!/usr/bin/env python3
"""make_vectors.py [FLO_CURVES] [PROGRAM..] [--write]: makes the kept input and output of the programs again, and holds them against those kept.

    tools/make_vectors.py ../flo_curves                 all of them
    tools/make_vectors.py ../flo_curves fit_cases       one
    tools/make_vectors.py sqrt_cases size_cases creators salvage
                                                        these ask no Rust

FLO_CURVES is a checkout of the crate, as for compare/run. Nothing is written but with --write, and then never fewer cases than there are.
    tools/make_vectors.py --published GO PYTHON         holds the published square roots against their tables (docs/VECTORS.md)
Exit status: 0 all are as they are kept, or were written; 1 some differ; 2 they could not be made.
"""
import os
import sys

sys.dont_write_bytecode = True
sys.path.insert(0, os.path.dirname(os.path.realpath(__file__)))

from shared import kept
from shared.command import Stop, run
from shared.rust import Rust
from vectors import creators, files, lines, lists, near, outlines, roots, salvage, single, sizes

MAKERS = {
    'sqrt_cases': roots.make, 'eval_cases': single.make, 'fit_cases': outlines.make, 'check_cases': lists.make, 'nearest_cases': near.make,
    'house_cases': files.make, 'listing': files.make_listing, 'save': files.make_save, 'judge': files.make_judge, 'path_out': files.make_path_out, 'path_in': files.make_path_in,
    'replay': lines.make, 'creators': creators.make, 'size_cases': sizes.make, 'salvage': salvage.make}
ASK_NOTHING = ('sqrt_cases', 'size_cases', 'creators', 'salvage')
USAGE = 'usage: tools/make_vectors.py [FLO_CURVES] [PROGRAM..] [--write], PROGRAM one of ' + ' '.join(MAKERS)


def settle(made, write):
    """Says how a program's files stand, and puts them in place if asked to; whether all is well."""
    different = made.different()
    about = f'{made.name}: {made.count} case{"s" * (made.count != 1)}' + (f' ({made.note})' if made.note else '')
    if not different:
        print(f'{about}: as kept')
        return True
    if write:
        made.write()
        print(f'{about}: written, {" and ".join(different)} changed')
        return True
    for part in different:
        print(f'{about}: {part} is not as kept, first at {kept.unlike(kept.read(made.name, part), made.parts[part])}')
    return False


def main(words):
    if words[:1] == ['--published']:
        if len(words) != 3:
            raise Stop('usage: tools/make_vectors.py --published GO PYTHON')
        print(f'{roots.published(*words[1:])} published roots: as kept')
        return 0
    write = '--write' in words
    words = [word for word in words if word != '--write']
    programs = [word for word in words if word in MAKERS] or list(MAKERS)
    others = [word for word in words if word not in MAKERS]
    if len(others) > 1 or any(word.startswith('-') for word in others):
        raise Stop(USAGE)
    asking = [name for name in programs if name not in ASK_NOTHING]
    if asking and not others:
        raise Stop(f'{asking[0]} asks the Rust: give a checkout of flo_curves ({USAGE})')
    rust = Rust(others[0]) if asking else None
    well = [settle(MAKERS[name](rust), write) for name in programs]
    return 0 if all(well) else 1


if __name__ == '__main__':
    run('make_vectors', main)
