"""size_cases: the size of a block for ranges of numbers of marks.

The program reads nothing. A line for each range: its first and its last number, the size at the last, and a digest of all its sizes. They are counted down as the document
says (shared/blocks.py), where the program divides up to 20,000 marks."""
from shared import kept
from shared.blocks import size_of
from shared.words import digest_of

NAME = 'size_cases'
WORKED = (199, 200, 201, 249, 250, 400)  # the document's cases
MOST = (1 << 64) - 1
RANGES = [*((count, count) for count in WORKED), (2, 20000), (20001, 30048), (30049, 30049), (30049, 100001), (MOST, MOST)]


def line(first, last):
    return f'{first} {last} {size_of(last)} {digest_of(map(size_of, range(first, last + 1))):016x}\n'


def make(rust):
    before = kept.read(NAME, 'stdout').count(b'\n')
    return kept.Made(NAME, b'', ''.join(line(first, last) for first, last in RANGES), len(RANGES), before)
