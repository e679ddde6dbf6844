"""The list checker by the document's text. It shares nothing with the port: binary64 is Python's own, and its square root is correctly rounded."""
import math
import struct

from shared.basis import point_at
from shared.table import LARGEST, MOST_MARKS, marks_refusal

PASSED, FAULT_A, FAULT_B, FAULT_C, FAULT_D, FAULT_E, REFUSED = range(7)
LETTERS = 'ABCDE'    # of the faults, in their order
EIGHT, NINE = 8, 9   # numbers of a curve: its own, and those of the record that also keeps the largest distance under it


def square(x, y, curve, t):
    """As max_error_for_curve works it out: the curve's point by `basis`, the offset, its dot product with itself."""
    px, py = point_at(curve, t)
    dx, dy = x - px, y - py
    return dx * dx + dy * dy


def distance(x, y, curve, t):
    return math.sqrt(square(x, y, curve, t))


def farthest(marks, curve, first, stop, params):
    """The largest square of the marks from `first` to before `stop`, and the first mark that has it; `first` itself where none is above zero."""
    worst = 0.0, first
    for i in range(first, stop):
        far = square(marks[2 * i], marks[2 * i + 1], curve, params[i])
        if far > worst[0]:
            worst = far, i
    return worst


def closed(marks):
    """The marks of a ring, x and y in turn, with mark 0 once more behind them."""
    return marks + marks[:2]


def refusal(marks, tolerance, claimed, curves, firsts, params, ring=False, worsts=None):
    """3, 1, 2, 4 or 5, in this order, or 0. A ring has a parameter more than it has marks, and worst marks come with nine numbers a curve."""
    number = marks_refusal(len(marks), MOST_MARKS, ring)
    if number:
        return number
    if len(curves) < width(worsts) * claimed or len(firsts) < claimed or len(params) < len(marks) // 2 + ring:
        return 4
    if worsts is not None and len(worsts) < claimed:
        return 4
    if any(not abs(value) <= LARGEST for value in marks):
        return 5
    return 0 if math.isfinite(tolerance) and tolerance >= 0 else 5


def width(worsts):
    """How many numbers a curve has: eight where no worst marks are kept."""
    return EIGHT if worsts is None else NINE


def stop_of(count, claimed, firsts, k):
    """The mark behind those under curve k: a joint is under its later curve, and the last mark of all under the last one."""
    return firsts[k + 1] if k + 1 < claimed else count


def kept_for(marks, curves, firsts, params, ring=False):
    """What the record of each curve (eight numbers each) keeps beside it: its worst marks, and the largest distances."""
    marks = closed(marks) if ring else marks
    stops = [stop_of(len(marks) // 2, len(firsts), firsts, k) for k in range(len(firsts))]
    found = [farthest(marks, curve, first, stop, params) for curve, first, stop in zip(curves, firsts, stops)]
    return [mark for _, mark in found], [math.sqrt(far) for far, _ in found]


def first_marks_fault(count, claimed, firsts):
    """Fault A over the whole list, or None."""
    if not 1 <= claimed <= count - 1:
        return FAULT_A, 0, 0
    for k in range(claimed):
        rises = firsts[k] == 0 if k == 0 else firsts[k] > firsts[k - 1]
        if not rises or firsts[k] >= count - 1:
            return FAULT_A, k, 0
    return None


def same_bits(point, mark):
    return struct.pack('<2d', *point) == struct.pack('<2d', *mark)


def well_placed(t, is_first, is_last):
    if is_first:
        return t == 0
    return t == 1 if is_last else 0 <= t <= 1


def curve_fault(marks, tolerance, k, curve, first, end, params):
    """The first fault of curve k, from its first mark to the next curve's or to the last mark; or None."""
    last = len(marks) // 2 - 1
    fair = all(map(math.isfinite, curve))
    if not (fair and same_bits(curve[:2], marks[2 * first:2 * first + 2]) and same_bits(curve[6:], marks[2 * end:2 * end + 2])):
        return FAULT_B, k, first
    for i in range(first, end + 1 if end == last else end):
        if not well_placed(params[i], i == first, i == last):
            return FAULT_C, k, i
        far = distance(marks[2 * i], marks[2 * i + 1], curve, params[i])
        if not (math.isfinite(far) and far <= tolerance):
            return FAULT_D, k, i
    return None


def record_fault(marks, k, nine, first, stop, params, worst):
    """Fault E of curve k, whose marks are measured without a fault: the distance that it keeps, bit for bit, and the mark."""
    far, mark = farthest(marks, nine[:EIGHT], first, stop, params)
    kept = same_bits((nine[EIGHT], 0), (math.sqrt(far), 0)) and worst == mark
    return None if kept else (FAULT_E, k, first)


def check(marks, tolerance, claimed, curves, firsts, params, ring=False, worsts=None):
    """(kind, curve, mark), or (REFUSED, number, 0). All are floats but the claimed number of curves, the first and the worst marks; without worst marks a curve has
    eight numbers. The list of a ring is judged as any other, over the marks with mark 0 once more behind them."""
    number = refusal(marks, tolerance, claimed, curves, firsts, params, ring, worsts)
    if number:
        return REFUSED, number, 0
    marks = closed(marks) if ring else marks
    count, wide = len(marks) // 2, width(worsts)
    fault = first_marks_fault(count, claimed, firsts)
    for k in range(claimed):
        if fault:
            break
        end = firsts[k + 1] if k + 1 < claimed else count - 1
        numbers = curves[wide * k:wide * k + wide]
        fault = curve_fault(marks, tolerance, k, numbers[:EIGHT], firsts[k], end, params)
        if not fault and worsts is not None:
            fault = record_fault(marks, k, numbers, firsts[k], stop_of(count, claimed, firsts, k), params, worsts[k])
    return fault or (PASSED, 0, 0)
