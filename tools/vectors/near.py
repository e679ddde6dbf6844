"""nearest_cases: 640 curves and query points.

A record is eleven patterns: the curve, the point, and the Rust's parameter (all bits set where its search does not end). The answers are by
the document's formulas (shared/nearest.py). Below an answer stands `OTHER line T` where its parameter is neither the Rust's nor within 1e-9 of it,
relatively; the last line counts the three."""
from shared import kept
from shared.nearest import answer
from shared.words import pattern_of, value_of, words

NAME = 'nearest_cases'
ENDLESS = (1 << 64) - 1


def inputs():
    """The kept curves and points, ten patterns each."""
    source = kept.Words(NAME)
    rows = []
    while source:
        rows.append(source.take(11)[:10])
    return rows


def answers():
    """A line of replay and its answer for each kept curve and point."""
    return [('nearest ' + words(row), answer(row)) for row in inputs()]


def agreement(said, parameter):
    """SAME, NEAR or OTHER, of an answer and the Rust's parameter (a word, or None)."""
    if not said.startswith('0 ') or parameter is None:
        return 'OTHER'
    mine, other = value_of(said.split()[1]), value_of(parameter)
    if mine == other:
        return 'SAME'
    return 'NEAR' if abs(mine - other) <= 1e-9 * abs(other) else 'OTHER'


def make(rust):
    cases = answers()
    asked = [said.split() for said, _ in rust.ask([line for line, _ in cases])]
    stdin, stdout, verdicts = [], [], []
    for place, ((line, said), found) in enumerate(zip(cases, asked), 1):
        parameter = None if found[0] == 'ENDLESS' else found[1]
        stdin += [pattern_of(word) for word in line.split()[1:]]
        stdin.append(ENDLESS if parameter is None else pattern_of(parameter))
        stdout.append(said.lower())
        verdicts.append(agreement(said, parameter))
        if verdicts[-1] == 'OTHER':
            stdout.append(f'OTHER {place} {"ENDLESS" if parameter is None else parameter.lower()}')
    stdout.append(' '.join(f'{verdict} {verdicts.count(verdict)}' for verdict in ('SAME', 'NEAR', 'OTHER')))
    return kept.Made(NAME, kept.packed(stdin), ''.join(line + '\n' for line in stdout), len(cases), len(cases), stdout[-1])
