"""The figures of bench/run: the lines of its Rust program as rows, their means, and what is printed and written of them."""
import collections
import math
import re

from shared.command import Stop

BOTH = ('fit_curve', 'fit_curve_loop', 'fit_curve_cubic')  # fits that flo_curves has too
ALONE = ('fit_joined', 'fit_ring', 'check_worst')          # timed by the mark as well, without a counterpart
SINGLE = ('nearest_point_on_curve', 'sqrt')                # timed by the call
FLAT = ('fit_curve_cubic', 'fit_joined', 'fit_ring')       # fits that the port's second engine has too
ALL = 'all fits'
FAMILIES = ('smooth', 'noisy', 'long')
EVEN = 'even'                                              # the family that is one outline, cut into stretches of so many marks
OPEN, CLOSE = '<!-- figures: from here on bench/run --out writes anew -->\n', '<!-- figures: up to here -->\n'


class Row(collections.namedtuple('Row', 'call family marks tolerance curves rust port flat')):
    """What one call took on one outline, in nanoseconds a mark, or of SINGLE a call: the Rust, the port, and the port's second engine, whose fits are flat.
    `rust` is None where flo_curves has no such call, and `flat` where the second engine has none."""

    @property
    def ratio(self):
        return None if self.rust is None else self.port / self.rust

    @property
    def flat_ratio(self):
        return None if self.flat is None else self.flat / self.port


def parse(line):
    """A line of the Rust program: call, family, marks, tolerance, curves, nanoseconds of the Rust, of the port and of its second engine."""
    number = r'\d+(?:\.\d+)?'
    found = re.fullmatch(rf'(\w+) (\w+) (\d+) ({number}|-) (\d+) ({number}|-) ({number}) ({number}|-)', line)
    if not found or found[1] not in BOTH + ALONE + SINGLE:
        raise Stop(f'this is no line of figures: {line[:100]}')
    times = [None if word == '-' else float(word) for word in found.groups()[5:]]
    if 0 in times:
        raise Stop(f'a call that takes no time: {line[:100]}')
    return Row(found[1], found[2], int(found[3]), found[4], int(found[5]), *times)


def geometric_mean(values):
    values = list(values)
    return math.exp(math.fsum(map(math.log, values)) / len(values))


def chosen(rows, **wanted):
    """The rows with these values."""
    return [row for row in rows if all(getattr(row, name) == value for name, value in wanted.items())]


def apart(rows):
    """The rows of outlines that differ in more than in how many marks they have."""
    return [row for row in rows if row.family != EVEN]


def sizes(rows):
    return sorted({row.marks for row in rows})


# ---- texts

def duration(value):
    """Nanoseconds for a reader: three figures will do."""
    return '-' if value is None else f'{value:.1f}' if value < 99.95 else f'{value:,.0f}'


def share(value):
    return '-' if value is None else f'{value:.2f}'


HEAD = (f'{"call":24}{"family":10}{"marks":>8}{"tolerance":>11}{"curves":>8}{"Rust, ns":>10}{"port, ns":>10}{"port/Rust":>11}'
        f'{"flat, ns":>10}{"flat/port":>11}')


def printed(row):
    return (f'{row.call:24}{row.family:10}{row.marks:>8,}{row.tolerance:>11}{row.curves:>8,}'
            f'{duration(row.rust):>10}{duration(row.port):>10}{share(row.ratio):>11}{duration(row.flat):>10}{share(row.flat_ratio):>11}')


Mean = collections.namedtuple('Mean', 'name count mean least most')


def means_of(groups, ratio):
    """For each group of rows that has any its name, how many ratios it has, their geometric mean, the least and the largest one."""
    ratios = [(name, [getattr(row, ratio) for row in group]) for name, group in groups if group]
    return [Mean(name, len(found), geometric_mean(found), min(found), max(found)) for name, found in ratios]


def by_call(rows, calls):
    """A group for each call."""
    return [(call, chosen(rows, call=call)) for call in calls]


def means(rows):
    """The port by the Rust: each call, and all fits."""
    rows = apart(rows)
    every = [(ALL, [row for row in rows if row.call in BOTH])]
    return means_of(by_call(rows, BOTH) + every + by_call(rows, SINGLE), 'ratio')


def flat_means(rows):
    """The port's second engine by its first: each fit that both have, and all of them."""
    rows = [row for row in apart(rows) if row.flat is not None]
    return means_of(by_call(rows, FLAT) + [(ALL, rows)], 'flat_ratio')


def printed_mean(mean, of):
    return f'{mean.name:24}{mean.count:>4}   {of} {mean.mean:.3f}   from {mean.least:.2f} to {mean.most:.2f}'


def outlines_of(rows):
    """How many different outlines the fits were timed on, but for the even one."""
    return len({row[1:4] for row in apart(rows) if row.call in BOTH})


def table(head, rows):
    """A Markdown table; the first column is words, the others numbers."""
    return '\n'.join('| ' + ' | '.join(cells) + ' |' for cells in [head, ['---'] + ['--:'] * (len(head) - 1), *rows]) + '\n'


def mean_of(rows):
    """Nanoseconds of the Rust and of the port and their ratio, each as the geometric mean over rows that differ in tolerance; as text."""
    if not rows:
        return ['', '', '']
    port = geometric_mean(row.port for row in rows)
    rust = None if rows[0].rust is None else geometric_mean(row.rust for row in rows)
    return [duration(rust), duration(port), share(None if rust is None else port / rust)]


def fit_table(rows, call):
    """A row for each size; for each family the Rust, the port and the ratio."""
    own = apart(chosen(rows, call=call))
    head = ['marks'] + [f'{family}: {side}' for family in FAMILIES for side in ('Rust', 'port', 'ratio')]
    cells = lambda marks: [cell for family in FAMILIES for cell in mean_of(chosen(own, marks=marks, family=family))]
    return table(head, [[f'{marks:,}', *cells(marks)] for marks in sizes(own)])


def size_table(rows, calls, cell):
    """A row for each size; for each call and family what `cell` says of the rows that differ in tolerance."""
    own = [row for row in apart(rows) if row.call in calls]
    head = ['marks'] + [f'`{call}`: {family}' for call in calls for family in FAMILIES]
    cells = lambda marks: [cell(chosen(own, call=call, marks=marks, family=family)) for call in calls for family in FAMILIES]
    return table(head, [[f'{marks:,}', *cells(marks)] for marks in sizes(own)])


def alone_table(rows):
    """The port's nanoseconds."""
    return size_table(rows, ALONE, lambda own: mean_of(own)[1])


def flat_table(rows):
    """The second engine's time by the first one's."""
    own = [row for row in rows if row.flat is not None]
    return size_table(own, FLAT, lambda found: share(geometric_mean(row.flat_ratio for row in found)) if found else '')


def even_costs(rows):
    """For each call that was timed on the even outline, and for each side, the call, the side and the cost of a mark by the marks of a stretch."""
    for call, side in [(call, side) for call in BOTH + ALONE for side in ('Rust', 'port', 'flat')]:
        costs = {row.marks: getattr(row, side.lower()) for row in chosen(rows, family=EVEN, call=call)}
        if costs and None not in costs.values():
            yield call, side, costs


def even_table(rows):
    """A row for each call and side, a column for each length of a stretch; and the last cost by the first."""
    columns = sizes(chosen(rows, family=EVEN))
    cells = lambda costs: [duration(costs.get(marks)) for marks in columns] + [share(costs[max(costs)] / costs[min(costs)])]
    head = ['call', *(f'{marks:,}' for marks in columns), 'last / first']
    return table(head, [[f'`{call}`, {side}', *cells(costs)] for call, side, costs in even_costs(rows)])


def mean_table(found, of):
    """Means of fits."""
    head = ['call', 'timed on', f'{of}, geometric mean', 'least', 'largest']
    name = lambda mean: mean.name if mean.name == ALL else f'`{mean.name}`'
    timed = lambda mean: f'{mean.count} fits' if mean.name == ALL else f'{mean.count} outlines'
    return table(head, [[name(mean), timed(mean), f'{mean.mean:.3f}', share(mean.least), share(mean.most)] for mean in found])


def single_table(rows):
    own = [row for row in rows if row.call in SINGLE]
    return table(['call', 'Rust, ns a call', 'port, ns a call', 'port / Rust'],
                 [[f'`{row.call}`, {row.family}', duration(row.rust), duration(row.port), share(row.ratio)] for row in own])


def markdown(rows, machine):
    """All that stands between the two comments of docs/SPEED.md."""
    parts = [
        f'Measured on {machine}\n',
        f'{outlines_of(rows)} outlines. A ratio is the port\'s time by the Rust\'s: below 1 the port is the quicker one.\n',
        mean_table([mean for mean in means(rows) if mean.name not in SINGLE], 'port / Rust'), single_table(rows),
        'The second engine of the port, whose fits are *flat*, beside the first on the same outlines:\n', mean_table(flat_means(rows), 'flat / first'),
        '![What a mark costs, against the number of marks: three fits by the Rust and by the port, and by the port alone '
        'the joined fit, the ring fit and the list checker; then the same on 100,000 marks in outlines of 1,000 to 100,000](speed.svg)\n',
        '### The same 100,000 marks, in outlines of so many\n', 'Nanoseconds a mark.\n', even_table(rows),
        '### All other outlines\n', 'Nanoseconds a mark; a figure is the geometric mean over the tolerances.\n']
    for call in BOTH:
        parts += [f'#### `{call}`\n', fit_table(rows, call)]
    parts += ['#### The port alone: what flo_curves has not\n', alone_table(rows)]
    return '\n'.join(parts + ['#### The second engine\'s time by the first one\'s\n', flat_table(rows)])


def renewed(page, new):
    """The page with other figures between its two comments."""
    before, opened, rest = page.partition(OPEN)
    _, closed, after = rest.partition(CLOSE)
    if not opened or not closed:
        raise Stop(f'SPEED.md has no place for the figures: the two lines {OPEN.strip()} and {CLOSE.strip()}')
    return f'{before}{opened}\n{new}\n{closed}{after}'
