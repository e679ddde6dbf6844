"""The document's table of refusals, read from a case's own words (compare/README.md has the kinds of cases)."""
import math

from shared.words import value_of

LARGEST = 1e6           # a coordinate in magnitude
LARGEST_TANGENT = 2.0   # a tangent's component
MOST_ROUNDS = 64
MOST_MARKS = 100000     # of the fits by blocks, of the list checker and of a house file
BENCH_MARKS = 4096      # that the programs judge and save have room for
LINE_MARKS = 21000      # that a line of replay holds
LINE_BYTES = 4600000    # of such a line
LINE_FILE = 1512000     # of a house file that it packs, unpacks or cleans
LINE_REPORT = 100000    # of the list of the marks that are dropped there
MOST_DIRECT = 512       # marks of the direct fit and of the listing
FLAT = '_flat'          # behind a fit's name: by the second engine, which has the last three
FIRST_FITS = ('source', 'loop', 'direct', 'joined', 'ring')
FLAT_FITS = tuple(kind + FLAT for kind in FIRST_FITS[2:])
FITS = FIRST_FITS + FLAT_FITS


class Refused(Exception):
    """A list, a text or a file that is refused, by its number."""

    def __init__(self, refusal):
        super().__init__(refusal)
        self.refusal = refusal


def outside(words, limit):
    return any(not abs(value_of(word)) <= limit for word in words)


def good_tolerance(word):
    return 0.0 <= value_of(word) < math.inf


def fit_of(kind):
    """Which fit a kind is, by either engine."""
    return kind.removesuffix(FLAT)


def flat_line(line):
    """The line of a fit, for the second engine; None where that has no such fit."""
    kind, *rest = line.split(' ', 1)
    return ' '.join([kind + FLAT, *rest]) if kind + FLAT in FLAT_FITS else None


def by_both(cases, flat):
    """Each case, and behind it what `flat` makes of it for the second engine, if that is anything."""
    for case in cases:
        yield case
        other = flat(case)
        if other is not None:
            yield other


def fit_marks(words):
    """The words of the marks of a fit's case."""
    return words[6:] if fit_of(words[0]) == 'direct' else words[2:]


def marks_refusal(count, most, ring=False):
    """3, 1 or 2 for so many coordinates, or 0. A ring has three marks or more, and its first mark is counted once."""
    if count % 2:
        return 3
    if count // 2 < (3 if ring else 2):
        return 1
    return 2 if count // 2 > most else 0


def fit_range(words):
    """5 for a fit's numbers, or 0."""
    tangents = words[2:6] if fit_of(words[0]) == 'direct' else []
    bad = outside(fit_marks(words), LARGEST) or outside(tangents, LARGEST_TANGENT) or not good_tolerance(words[1])
    return 5 if bad else 0


def fit_refusal(words, room_is_short=False):
    fit = fit_of(words[0])
    most = MOST_DIRECT if fit == 'direct' else MOST_MARKS
    return marks_refusal(len(fit_marks(words)), most, fit == 'ring') or (4 if room_is_short else fit_range(words))


def refusal(words):
    """What the table says of a well-formed case by 1, 2, 3 or 5, and 0 if it says nothing."""
    kind, rest = words[0], words[1:]
    if kind in FITS:
        return fit_refusal(words)
    if kind == 'coefficients':
        bad = int(rest[0]) > 1 or outside(rest[1:], LARGEST)
    elif kind == 'refine':
        bad = outside(rest[:10], LARGEST) or not math.isfinite(value_of(rest[10])) or int(rest[11]) > MOST_ROUNDS
    elif kind == 'nearest':
        bad = outside(rest, LARGEST)
    elif kind in ('basis', 'de_casteljau4', 'de_casteljau3', 'de_casteljau2', 'subdivide4'):
        bad = not math.isfinite(value_of(rest[0])) or outside(rest[1:], LARGEST)
    else:
        bad = False  # a square root takes every number, and the list checker has an order of its own
    return 5 if bad else 0
