"""eval_cases: calls on a single curve.

A record is thirteen words: operation, t or dimension, points, query point, rounds; those that it has no use for are 0. The answers are the
Rust's, 6 where one of its operations was not finite, and 5 by the document's table. The first 1,500 calls are read from the kept input; at and
beyond the ends of the ranges come those of `borders`."""
import itertools
import math

from shared import kept
from shared.words import MINUS, pattern_of, patterns_of, word, word_of, words

NAME = 'eval_cases'
KEPT = 1500
KINDS = {'basis': 8, 'de_casteljau2': 4, 'de_casteljau3': 6, 'de_casteljau4': 8, 'coefficients': 8, 'subdivide4': 8, 'refine': 8}
CODES = list(KINDS)
RECORD = 13


def line_of(record):
    """The line of replay that a record stands for."""
    kind = CODES[record[0]]
    points = words(record[2:2 + KINDS[kind]])
    if kind == 'refine':
        return f'refine {points} {words(record[10:12])} {word(record[1])} {record[12]}'
    return f'{kind} {record[1] if kind == "coefficients" else word(record[1])} {points}'


def record_of(line):
    kind, *rest = line.split(' ')
    if kind == 'refine':
        patterns = [pattern_of(text) for text in rest[:11]]
        body = [patterns[10]] + patterns[:10] + [int(rest[11])]
    else:
        first = int(rest[0]) if kind == 'coefficients' else pattern_of(rest[0])
        body = [first] + [pattern_of(text) for text in rest[1:]]
    return [CODES.index(kind)] + body + [0] * (RECORD - 1 - len(body))


ARCH = patterns_of(0.0, 0.0, 0.0, 1.0, 1.0, 1.0, 1.0, 0.0)
QUERY = words(patterns_of(0.5, 2.0))
ABOVE = math.nextafter(1e6, math.inf)
BEYOND = patterns_of(ABOVE, -ABOVE, math.nan, math.inf, -math.inf)
ENDS = patterns_of(1e6, -1e6) + [MINUS]


def with_points(kind, points):
    if kind == 'refine':
        return f'refine {words(points)} {QUERY} {word_of(0.25)} 3'
    return f'{kind} {"1" if kind == "coefficients" else word_of(0.5)} {words(points)}'


def with_parameter(kind, t):
    if kind == 'refine':
        return f'refine {words(ARCH)} {QUERY} {word(t)} 3'
    return f'{kind} {word(t)} {words(ARCH[:KINDS[kind]])}'


def borders():
    """Each coordinate and each parameter at and beyond its ends, dimensions, rounds, and the query point."""
    for kind, count in KINDS.items():
        for place, pattern in itertools.product(range(count), ENDS + BEYOND):
            points = ARCH[:count]
            points[place] = pattern
            yield with_points(kind, points)
        if kind != 'coefficients':
            for t in patterns_of(0.0, -0.0, 1.0, 5e-324, 2.0, -1.0) + BEYOND[2:]:
                yield with_parameter(kind, t)
    for dimension in range(4):
        yield f'coefficients {dimension} {words(ARCH)}'
    near_end = word_of(0.9)
    for rounds in (0, 1, 63, 64, 65, 1000):
        yield f'refine {words(ARCH)} {QUERY} {near_end} {rounds}'
    for pattern in BEYOND:
        yield f'refine {words(ARCH)} {word(pattern)} {word_of(2.0)} {near_end} 3'
        yield f'refine {words(ARCH)} {word_of(0.5)} {word(pattern)} {near_end} 3'


def make(rust):
    source = kept.Words(NAME)
    before = []
    while source:
        before.append(line_of(source.take(RECORD)))
    cases = kept.at_least(before[:KEPT], KEPT, NAME) + list(borders())
    said = rust.answer_all(cases)
    stdin = b''.join(kept.packed(record_of(case)) for case in cases)
    stdout = ''.join(answer.lower() + '\n' for answer in said)
    return kept.Made(NAME, stdin, stdout, len(cases), len(before), kept.tally(said))
