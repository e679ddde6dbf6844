"""replay: lines of cases, and lines that are none.

Square roots, nearest points and border cases are those of the other programs; single curves, outlines and lists that are read from the kept
input are asked of the Rust again, and so are distances; how many blocks there are, and their size, is counted by the document (shared/blocks.py); lists with one thing changed are judged by the document's rules (shared/checker.py), and
path data, packed files and cleaned ones are by modules of their own (shared/path_data.py, shared/house.py, shared/cleaning.py). A line that is no case is
BAD; the Rust side, which reads lines too, has to say so as well, but for what is only too long for the program. Behind each outline of a direct, a joined or a ring fit comes the
same for the second engine. The last line has no newline."""
import math

from shared import kept
from shared.blocks import blocks_of, size_of
from shared.checker import PASSED
from shared.command import Stop
from shared.table import FIRST_FITS, FITS, LINE_MARKS, by_both, flat_line
from shared.words import INFINITY, MINUS, NAN, bits, numbers, pattern_of, patterns_of, word, word_of, words
from vectors import cleaning, lists, near, outlines, packing, paths, roots, single

NAME = 'replay'
KEPT_CURVES = 230  # calls on single curves, 30 of them refused by 6
KEPT_OUTLINES = 186
KEPT_LISTS = 24    # sound lists, seven of them with changed copies
CHECKS = ('check', 'check_ring', 'check_worst', 'check_worst_ring')
COLLECTED = {'curves': single.KINDS, 'outlines': FIRST_FITS, 'lists': CHECKS[:2]}  # lists in the record of nine are made from those


def values(*floats):
    return ' '.join(word_of(value) for value in floats)


# ---- cases of the other programs

def root_lines():
    return [(f'sqrt {word(pattern)}', f'0 {word(root)}') for pattern, root in roots.roots()[::6]]


def curve_borders():
    """Every third of the border cases, kind by kind."""
    borders = list(single.borders())
    by_kind = [line for kind in single.KINDS for line in borders if line.startswith(kind + ' ')]
    return by_kind[::3]


def nearest_lines():
    """Every eighth, and then all that are refused."""
    found = near.answers()
    return found[::8] + [case for case in found if not case[1].startswith('0 ')]


def nearest_borders():
    base = [0.0, 0.0, 0.0, 1.0, 1.0, 1.0, 1.0, 0.0, 0.5, 2.0]
    for place in (0, 5, 7, 8, 9):
        for value in numbers(single.BEYOND):
            yield 'nearest ' + values(*base[:place], value, *base[place + 1:])


def outline_borders():
    """The room is always enough, so there is no 4; what only shows the room's part in the order is left out."""
    shown = [outline for outline in outlines.kept_borders() if outline.refusal() != 4 and outline.count < 64]
    return list(dict.fromkeys(outline.line() for outline in shown))


def long_lines():
    """More marks than a house file has with mark numbers of two bytes, as many as a line holds, and more than the direct fit takes. Marks that are all one pack well; lines that hold too many
    are tried by tests/tools_test.py."""
    mark, tolerance = values(1, 2), values(0.5)
    teeth = values(*(value for i in range(4097) for value in (i, i * i % 11)))
    return [
        (f'joined {values(16)} {teeth}', None),
        (' '.join(['ring', tolerance] + [mark] * LINE_MARKS), None),
        (' '.join(['direct', values(0.5, 1, 0, 0, 1)] + [mark] * 513), '2')]


# ---- what the bench's command asks for

def distance_lines():
    """Points on a curve and off it, parameters of 0..1 and others, and numbers that lead to infinity or NaN."""
    straight = patterns_of(0, 0, 1.32, 0, 2.64, 0, 4, 0)
    for eight in (single.ARCH, straight, patterns_of(*[1e6] * 4, *[-1e6] * 4), patterns_of(*[1e200] * 8)):
        for x, y in ((0.0, 0.0), (0.5, 0.75), (-3.0, 1e6), (math.inf, 1.0), (1.0, math.nan)):
            for t in (0.0, 0.25, 1 / 3, 1.0, -0.0, -2.0, 1e100, math.nan):
                yield f'distance {words(eight)} {values(x, y, t)}'


COUNTS = [*range(6), *range(195, 260), 399, 400, 401, 512, 1000, 4095, 4096, 4097, 20000, 20001, 30049, 100000, 100001, (1 << 63) - 1]  # of marks


def block_lines():
    for count in COUNTS:
        yield f'blocks {count}', f'0 {blocks_of(count)}'


def size_lines():
    """The size of a block, and beyond what a fit takes; up to 20,000 it is worked out by a division, and 30,049 is the first number for which that would not give it."""
    for count in [*COUNTS, 4098, 4250, 30048, (1 << 64) - 1]:
        yield f'size {count}', f'0 {size_of(count)}'


# ---- lists

def claim_of(line):
    """The list on a line of `check` or `check_ring`, which are collected."""
    kind, tolerance, count, *rest = line.split(' ')
    count = int(count)
    marks, rest = rest[:2 * count], rest[2 * count:]
    claimed, rest = int(rest[0]), rest[1:]
    nines = [rest[9 * k:9 * k + 9] for k in range(claimed)]

    def floats(texts):
        return numbers([pattern_of(text) for text in texts])
    curves = floats(text for nine in nines for text in nine[1:])
    return lists.Claim(floats([tolerance])[0], floats(marks), claimed, curves, [int(nine[0]) for nine in nines], floats(rest[9 * claimed:]), kind == 'check_ring')


def judged(claim):
    return claim.line(), lists.line_answer(claim.answer())


def spoilt(line):
    """A list that passes, and the same with one thing changed."""
    claim = claim_of(line)
    tolerance, marks, curves, params = claim.parts()
    put = lists.put
    count, last = claim.places(), len(curves) - 1

    def check_line(*parts):
        return lists.check_line(claim.ring, False, *parts)

    def with_curves(other):
        return check_line(tolerance, marks, other, params)

    def with_first(k, first):
        return with_curves(put(curves, k, ((first,), curves[k][1])))

    def with_number(k, place, pattern):
        first, eight = curves[k]
        return with_curves(put(curves, k, (first, put(eight, place, pattern))))
    yield with_curves(curves)
    yield with_curves([])
    yield with_curves(curves + curves * count)
    yield with_curves(curves[:-1])
    for first in (1, count - 1, lists.LARGEST_FIRST):
        yield with_first(0, first)
    for first in (0, claim.firsts[last] + 1, count - 2, count - 1, count):
        yield with_first(last, first)
    for k in sorted({0, last}):
        for place in range(8):
            here = curves[k][1][place]
            for pattern in (NAN, INFINITY, here ^ 1, here ^ MINUS):
                yield with_number(k, place, pattern)
    above_one = bits(math.nextafter(1.0, 2.0))
    for place in sorted({0, 1, claim.firsts[last], count - 2, count - 1}):
        for pattern in (MINUS, 0, bits(1.0), above_one, MINUS + 1, NAN, INFINITY, bits(0.75)):
            yield check_line(tolerance, marks, curves, put(params, place, pattern))
    for other in (0, MINUS, MINUS + 1, NAN, INFINITY):
        yield check_line(other, marks, curves, params)
    for pattern in (NAN, INFINITY, outlines.ABOVE, marks[3] ^ 1):
        yield check_line(tolerance, put(marks, 3, pattern), curves, params)
    for few in range(2 if claim.ring else 1, -1, -1):
        yield check_line(tolerance, marks[:2 * few], [], params[:few + claim.ring])


def spoilt_record(claim):
    """A list in the record of nine that passes, and the same with something changed in what it keeps."""
    put = lists.put
    yield claim
    for k in sorted({0, claim.claimed - 1}):
        at, worst = 9 * k + 8, claim.worsts[k]
        far = claim.curves[at]
        for other in dict.fromkeys((worst + 1, abs(worst - 1), claim.firsts[k], claim.places() - 1, lists.LARGEST_FIRST)):
            yield claim.but(worsts=put(claim.worsts, k, other))
        for other in (lists.above(far), -far, far * far, math.nan, math.inf):
            yield claim.but(curves=put(claim.curves, at, other))
        wrong = claim.but(curves=put(claim.curves, at, math.nan))
        yield wrong.but(tolerance=0.0)                                    # D comes first if a mark is off
        yield wrong.but(params=put(claim.params, claim.firsts[k], 0.5))   # and so does C
        yield wrong.but(curves=put(wrong.curves, 9 * k + 2, math.inf))    # and B
        yield wrong.but(firsts=put(claim.firsts, claim.claimed - 1, claim.places()))
    yield claim.but(claimed=0, curves=[], firsts=[], worsts=[])


# ---- lines that are no case

ARCH = words(single.ARCH)
QUERY = values(0.5, 2)
HALF = values(0.5)
TWO = values(0, 0, 4, 0)
THREE = values(0, 0, 4, 0, 4, 4)
GOOD = [
    f'sqrt {HALF}', f'basis {HALF} {ARCH}', f'de_casteljau4 {HALF} {ARCH}', f'coefficients 1 {ARCH}', f'subdivide4 {HALF} {ARCH}',
    f'de_casteljau3 {HALF} {values(0, 0, 1, 0, 2, 0)}', f'de_casteljau2 {HALF} {TWO}', f'refine {ARCH} {QUERY} {HALF} 3', f'nearest {ARCH} {QUERY}',
    f'direct {HALF} {values(1, 0, -1, 0)} {TWO}', f'source {HALF} {TWO}', f'loop {HALF} {TWO}', f'joined {HALF} {TWO}',
    f'check {HALF} 2 {TWO} 1 0 {values(0, 0, 1.32, 0, 2.64, 0, 4, 0)} {values(0, 1)}', f'ring {HALF} {THREE}',
    f'check_ring {HALF} 3 {THREE} 1 0 {values(0, 0, 8, 0, 4, 8, 0, 0)} {values(0, 0.25, 0.75, 1)}',
    f'check_worst {HALF} 2 {TWO} 1 0 0 {values(0, 0, 1.32, 0, 2.64, 0, 4, 0, 0)} {values(0, 1)}',
    f'check_worst_ring {HALF} 3 {THREE} 1 0 1 {values(0, 0, 8, 0, 4, 8, 0, 0, 0)} {values(0, 0.25, 0.75, 1)}', f'distance {ARCH} {QUERY} {HALF}', 'blocks 7', 'size 7',
    f'direct_flat {HALF} {values(1, 0, -1, 0)} {TWO}', f'joined_flat {HALF} {TWO}', f'ring_flat {HALF} {THREE}']


def misspelt(line):
    """A good line with a blank, a tab, a carriage return or a word too many, a word too few, or another spelling."""
    name, rest = line.split(' ', 1)
    head, last = line.rsplit(' ', 1)
    yield from [
        ' ' + line, line + ' ', line.replace(' ', '  ', 1), head + '  ' + last, line.replace(' ', '\t', 1), line + '\r', line + ' x',
        name.upper() + ' ' + rest, name[:-1] + ' ' + rest, name + 'x ' + rest, line[:-1], line + '+']
    for digit in 'G@/:':
        yield head + ' ' + digit * 16
    if name not in FITS:
        yield from [head, f'{line} {HALF}', line + ' 1']
    if HALF in line:
        for other in ('3fe0000000000000', '3FE000000000000', '3FE00000000000000', '0x3FE00000000000', '+3FE000000000000', '0.5'):
            yield line.replace(HALF, other, 1)


OPEN_LIST, RING_LIST = ('2', TWO, values(0, 1)), ('3', THREE, values(0, 0, 0, 1))  # marks and parameters of a well-formed line
COUNTED = {'check': (*OPEN_LIST, ARCH), 'check_ring': (*RING_LIST, ARCH)}
COUNTED.update({'check_worst': (*OPEN_LIST, f'0 {ARCH} {HALF}'), 'check_worst_ring': (*RING_LIST, f'0 {ARCH} {HALF}')})  # behind the first mark the worst one


def counted(kind, count=None, curves='1', first='0', params=None):
    right, marks, times, curve = COUNTED[kind]
    return f'{kind} {HALF} {right if count is None else count} {marks} {curves} {first} {curve} {times if params is None else params}'


def with_worst(kind, text):
    """A well-formed line but for its worst mark."""
    return counted(kind).replace(f' 0 {ARCH}', f' {text} {ARCH}')


def miscounted():
    """Whole numbers that are none, and counts that are others than the line has."""
    for text in ('', '-1', '+1', '01', '00', '1.0', '1e0', '0x1', 'A', '18446744073709551616', '99999999999999999999', '100000000000000000000', '1' * 40):
        yield from [f'coefficients {text} {ARCH}', f'refine {ARCH} {QUERY} {HALF} {text}', f'blocks {text}', f'size {text}']
        for kind in CHECKS:
            yield from [counted(kind, count=text), counted(kind, curves=text), counted(kind, first=text)]
        yield from [with_worst(kind, text) for kind in CHECKS[2:]]
    for kind in CHECKS:
        right, marks, *_ = COUNTED[kind]
        for text in ('0', '1', '2', '3', '4', str(LINE_MARKS), str(LINE_MARKS + 1), '18446744073709551615'):
            if text != right:
                yield counted(kind, count=text)
            if text != '1':
                yield counted(kind, curves=text)
        for text in ('4294967296', '18446744073709551615'):
            yield counted(kind, first=text)
            if kind in CHECKS[2:]:
                yield with_worst(kind, text)
        for params in (values(0), values(0, 1), values(0, 0, 1), values(0, 0, 0, 1), values(0, 0, 0, 0, 1)):
            if params != COUNTED[kind][2]:
                yield counted(kind, params=params)
        yield from [f'{kind} {HALF} {right} {marks}', f'{kind} {HALF} {right} {marks} 0', f'{kind} {HALF}', f'{kind} {HALF} 0']


def bad():
    yield from ['', ' ', '  ', 'BAD', 'x', '0', HALF]
    yield from ['sqrt', 'basis', 'coefficients', 'refine', 'nearest', 'distance', 'blocks', 'size', *FITS, *CHECKS]
    for line in [*GOOD, paths.GOOD, *packing.GOOD, cleaning.GOOD]:
        yield from misspelt(line)
    yield from paths.bad()
    yield from packing.bad()
    yield from cleaning.bad()
    yield from by_both([f'direct {HALF} {values(1, 0, -1)}', f'direct {HALF}'], flat_line)
    yield from [f'source_flat {HALF} {TWO}', f'loop_flat {HALF} {TWO}', '_flat']  # the second engine has no such fits
    yield from miscounted()
    yield from [f'sqrt {HALF}\0', '\0', 'sqrt\xa0' + HALF, '\x7f' * 200, f'sqrt {HALF} ', f'sqrt {HALF} ' + ' ' * 70000]


def whole():
    """Whole numbers that are well formed are handed on."""
    for text in ('2', '10', '18446744073709551615'):
        yield f'coefficients {text} {ARCH}'
    for text in ('65', '100', '18446744073709551615'):
        yield f'refine {ARCH} {QUERY} {HALF} {text}'


EVALUATIONS = ('basis', 'de_casteljau4')


def roundings():
    """Curves and parameters of no short fraction: both evaluations of a curve come to the same point there, by other roundings."""
    for t in (0.1, 0.3, 0.6, 0.8):
        for curve in ((0.1, 0.2, 1.3, 2.7, 3.1, 2.9, 4.7, 0.3), (-812.6, 77.1, 310.9, -455.3, 901.7, 630.2, 12.4, -333.8)):
            for kind in EVALUATIONS:
                yield f'{kind} {values(t)} {values(*curve)}'


def nans():
    """Every NaN pattern stands for NaN."""
    for text in ('7FF0000000000001', '7FFFFFFFFFFFFFFF', 'FFF0000000000001', 'FFF8000000000000', 'FFFFFFFFFFFFFFFF'):
        yield from [
            (f'sqrt {text}', f'0 {word(NAN)}'), (f'basis {text} {ARCH}', '5'), (f'nearest {ARCH} {text} {values(1)}', '5'), (f'source {text} {ARCH}', '5'),
            (f'joined {HALF} {ARCH} {text} {values(1)}', '5'), (f'ring {HALF} {ARCH} {text} {values(1)}', '5')]


# ---- the file

LAST = [(f'sqrt {values(4)}', f'0 {values(2)}')]


def mixed(rows, others):
    """The others are spread among the rows, one after each so many; what is over comes after them."""
    step = max(1, len(rows) // len(others))
    left = list(others)
    out = []
    for place, row in enumerate(rows):
        out.append(row)
        if place % step == 0 and left:
            out.append(left.pop(0))
    return out + left


def to_ask(lines):
    """Cases whose answers the Rust is to be asked for."""
    return [(line, None) for line in lines]


def flat_row(row):
    """A case of a fit for the second engine, with the same answer."""
    line = flat_line(row[0])
    return None if line is None else (line, row[1])


def made_rows():
    """The cases that are made here or by the other programs' modules, in their parts."""
    return {
        'roots': root_lines(), 'curve borders': to_ask(curve_borders()), 'nearest': nearest_lines() + [(line, '5') for line in nearest_borders()],
        'outline borders': to_ask(outline_borders()), 'whole': to_ask(whole()), 'roundings': to_ask(roundings()), 'nans': list(nans()), 'distances': to_ask(distance_lines()), 'blocks': list(block_lines()), 'sizes': list(size_lines()),
        'paths': paths.rows(), 'packing': packing.rows(), 'cleaning': cleaning.rows()}


def collected_lists(lines):
    """Each collected list, and whether its changed copies follow it."""
    found, left = [], lines
    while left:
        line, left = left[0], left[1:]
        copies = list(spoilt(line))[1:] if claim_of(line).claimed else []
        has_copies = bool(copies) and left[:1] == copies[:1]
        found.append((line, has_copies))
        if has_copies:
            left = kept.without(left[::-1], copies)[::-1]  # the first ones first: a later list may have a copy in common
    return found


def list_rows(lines):
    """The collected lists, and the same in the record of nine."""
    for line, has_copies in lines:
        yield from ((other, lists.line_answer(claim_of(other).answer())) for other in (spoilt(line) if has_copies else [line]))
    for line, has_copies in lines:
        claim = claim_of(line)
        if claim.answer()[0] == PASSED:
            yield from map(judged, spoilt_record(claim.kept()) if has_copies else [claim.kept()])
    yield from map(judged, lists.border_ties())


def cases(before):
    """Every case in the order of the file. What was collected is what is left of the file before without all that is made."""
    made = made_rows()
    left = kept.without(before, [line for rows in made.values() for line, _ in rows])
    by_kind = {name: [line for line in left if line.split(' ')[0] in kinds] for name, kinds in COLLECTED.items()}
    curves = kept.at_least(by_kind['curves'], KEPT_CURVES, NAME)
    fits = kept.at_least(by_kind['outlines'], KEPT_OUTLINES, NAME)
    claims = kept.at_least(collected_lists(by_kind['lists']), KEPT_LISTS, NAME)
    rows = made['roots'] + to_ask(curves) + made['curve borders'] + made['nearest']
    rows += [*by_both(to_ask(fits) + made['outline borders'], flat_row)] + made['whole'] + made['roundings'] + made['nans'] + made['distances'] + made['blocks'] + made['sizes']
    return rows + list(list_rows(claims)) + made['paths'] + made['packing'] + made['cleaning']


def answered(rows, rust):
    asked = iter(rust.answer_all([line for line, said in rows if said is None]))
    return [(line, next(asked) if said is None else said) for line, said in rows]


def hold(lines, rust):
    """The Rust side says BAD to these lines too."""
    for line, (said, _) in zip(lines, rust.ask(lines)):
        if said != 'BAD':
            raise Stop(f'the Rust side takes a line that is no case: {line[:200]!r}', 1)


def hold_alike(rows, kinds, name, rust):
    """The Rust side has a checker of its own, and so export, import, pack, unpack and salvage, which say the same of every line."""
    wanted = [row for row in rows if row[0].split(' ')[0] in kinds]
    for (line, want), (said, _) in zip(wanted, rust.ask([line for line, _ in wanted])):
        if said != want:
            raise Stop(f'the two {name} differ, {said[:200]} and {want[:200]}, on: {line[:200]!r}', 1)


def hold_roundings(rust):
    """The lines of `roundings` tell one evaluation from the other."""
    said = [answer for answer, _ in rust.ask(list(roundings()))]
    if any(one == other for one, other in zip(said[::2], said[1::2])):
        raise Stop('two evaluations of a curve are to differ by their roundings, and some do not', 1)


def make(rust):
    before = kept.read_stdin(NAME).decode('latin-1').split('\n')
    wrong = list(bad())
    end = [*by_both(long_lines(), flat_row)] + LAST
    rows = cases(kept.without(before, wrong + [line for line, _ in end]))
    hold(wrong, rust)
    hold_alike(rows, CHECKS, 'checkers', rust)
    hold_alike(rows, paths.KINDS, 'readers and writers of path data', rust)
    hold_alike(rows, packing.KINDS, 'packers', rust)
    hold_alike(rows, [cleaning.KIND], 'cleanings', rust)
    hold_roundings(rust)
    found = mixed(answered(rows, rust), [(line, 'BAD') for line in wrong]) + answered(end, rust)
    stdin = '\n'.join(line for line, _ in found).encode('latin-1')
    return kept.Made(NAME, stdin, ''.join(said + '\n' for _, said in found), len(found), len(before), kept.tally(said for _, said in found))
