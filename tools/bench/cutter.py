"""A file for the cutter's table: one path in millimetres, at true scale, and nothing else."""
from bench.curves import box_of, extent, grown
from bench.draw import title
from bench.svg import INK, escaped, look, num, path

MARGIN = 10.0  # mm about the outline


def wrapped(listed, data):
    """The path data of a fit as an SVG file. In path data as on the table y runs up, and in SVG down: the path is turned over, its numbers stay as they are."""
    corners = [corner for curve in listed.curves for box in [extent(curve)] for corner in (box[:2], box[2:])]
    left, low, right, high = grown(box_of(corners), MARGIN)
    wide, tall = num(right - left), num(high - low)
    bold = min(max(max(right - left, high - low) * 0.0007, 0.3), 2.0)
    return '\n'.join([
        f'<svg xmlns="http://www.w3.org/2000/svg" width="{wide}mm" height="{tall}mm" viewBox="{num(left)} {num(-high)} {wide} {tall}">',
        f'<title>{escaped(title(listed))}</title>',
        path(data, f'transform="scale(1 -1)" {look("none", INK, bold)}'),
        '</svg>'])
