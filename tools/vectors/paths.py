"""Lines of `export` and `import` for replay. The answers are by the document (shared/path_data.py), on the lists and texts of shared/path_cases.py and some random ones."""
import random

from shared.path_cases import ARCH, BACK, TEXTS, lists, random_list, random_soup, random_text
from shared.path_data import exported, imported
from shared.table import Refused
from shared.words import patterns_of, words

KINDS = ('export', 'import')
SEED = 7


# ---- a line and its answer

def export_line(ring, curves):
    numbers = [value for curve in curves for value in curve]
    return ' '.join(['export', 'RING' if ring else 'OPEN', str(len(curves)), *([words(patterns_of(*numbers))] if numbers else [])])


def export_answer(ring, curves):
    try:
        return f'0 {exported(curves, ring)}'
    except Refused as refused:
        return str(refused.refusal)


def import_line(text):
    return f'import {text}'


def import_answer(text):
    try:
        curves, closed = imported(text)
    except Refused as refused:
        return str(refused.refusal)
    numbers = [value for curve in curves for value in curve]
    return ' '.join(['0', str(len(curves)), 'CLOSED' if closed else 'OPEN', *([words(patterns_of(*numbers))] if numbers else [])])


def export_row(ring, curves):
    return export_line(ring, curves), export_answer(ring, curves)


def import_row(text):
    return import_line(text), import_answer(text)


# ---- the cases

def round_trips(made):
    """What was exported, to be imported; and what that gives, to be exported again, which is the same text."""
    for ring, curves in made:
        answer = export_answer(ring, curves)
        if answer.startswith('0 '):
            text = answer[2:]
            yield import_row(text)
            again, closed = imported(text)
            yield export_row(closed, again)


def random_rows(seed, count):
    """So many random lists, and as many random texts and pieces of the grammar."""
    hand = random.Random(seed)
    made = [random_list(hand) for _ in range(count)]
    yield from (export_row(*one) for one in made)
    yield from round_trips(made[:count // 4])
    yield from (import_row(random_text(hand)) for _ in range(count))
    yield from (import_row(random_soup(hand)) for _ in range(count // 2))


def rows():
    """The lines that are kept, each once."""
    made = list(lists())
    found = [*(export_row(*one) for one in made), *round_trips(made[:4]), *map(import_row, TEXTS), *random_rows(SEED, 6)]
    return list(dict.fromkeys(found))


# ---- lines that are no case

GOOD = export_line(False, [[0.5, *ARCH[1:]]])


def bad():
    """Lines that begin as these do and are none: another word, another count, fewer numbers or more."""
    curve = words(patterns_of(*ARCH))
    yield from ['export', 'export ', 'export OPEN', 'export RING', 'export OPEN ', f'export OPEN {curve}', f'export 1 {curve}', f'export 1 OPEN {curve}', f'export OPEN 1 {curve} {curve}',
                f'export OPEN 0 {curve}', 'export OPEN 0 ', f'export OPEN 1 {curve[:-17]}', f'export OPEN 1 {curve} {curve[:16]}', f'export OPEN 1 0 {curve}']
    for word in ('open', 'Ring', 'CLOSED', 'OPENRING', 'OPE', 'O', '0', ''):
        yield f'export {word} 1 {curve}'
    for count in ('', '-1', '+1', '01', '00', '1.0', '0x1', 'A', '2', '3', '0', '18446744073709551615', '18446744073709551616', '2305843009213693953', '1' * 40):  # 8 times the last but one is 8 in 64 bits
        yield f'export RING {count} {curve}'
    yield from ['import', 'IMPORT M 1 2', 'impor M 1 2', 'imports M 1 2', ' import M 1 2', 'import\tM 1 2', 'importM 1 2', 'Import M 1 2', 'import\xa0M 1 2']
    yield f'exports OPEN 1 {words(patterns_of(*BACK))}'
