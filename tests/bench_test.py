#!/usr/bin/env python3
"""bench_test.py: tests bench/run, on made-up lines of figures: nothing is timed, and neither cargo nor the archive is wanted.

It runs in a copy of the repository whose path has a blank in it, with a stand-in for cargo, and for the machine where that counts.
The last line is `N passed, M failed`.
"""
import contextlib
import importlib.machinery
import importlib.util
import io
import os
import re
import shutil
import sys
import unittest
import xml.etree.ElementTree as tree
from unittest import mock

sys.dont_write_bytecode = True

import support
from support import ROOT, in_copy, read, write

from shared.command import Stop

CARGO = '''#!/bin/sh
# stands in for cargo: what it builds prints kept lines
while [ "$1" != --target-dir ]; do shift; done
[ "${BUILT:-yes}" = yes ] || exit 101
mkdir -p "$2/release"
cp "$0.built" "$2/release/bench"
'''
BUILT = '#!/bin/sh\ncat "%s"\nexit "${ENDS:-0}"\n'
SVG = '{http://www.w3.org/2000/svg}'
LINES = [
    'fit_curve smooth 12 0.05 7 200.00 100.00 -',
    'fit_curve smooth 12 0.5 3 50.00 100.00 -',
    'fit_curve noisy 4096 0.5 803 1000.00 250.00 -',
    'fit_curve_loop long 200 0.5 9 400.00 400.00 -',
    'fit_curve_cubic smooth 512 0.5 9 100.00 1600.00 3200.00',
    'fit_curve even 1000 0.5 2100 400.00 200.00 -',
    'fit_curve even 100000 0.5 2000 440.00 250.00 -',
    'fit_joined even 1000 0.5 2100 - 300.00 3000.00',
    'fit_joined even 100000 0.5 2000 - 330.00 3600.00',
    'fit_joined smooth 12 0.05 7 - 24.00 12.00',
    'fit_joined smooth 12 0.5 3 - 96.00 96.00',
    'fit_ring smooth 12 0.5 3 - 2500.00 20000.00',
    'check_worst smooth 12 0.5 3 - 61.20 -',
    'nearest_point_on_curve beside 512 - 0 1500.000 750.000 -',
    'sqrt apart 512 - 0 2.000 28.000 -',
]
run = figures = plot = rows = None  # the copy's bench/run and its two modules, and the rows of LINES


def setUpModule():
    global run, figures, plot, rows
    support.make_copy([])
    shutil.copytree(os.path.join(ROOT, 'bench'), in_copy('bench'))
    loader = importlib.machinery.SourceFileLoader('bench_run', in_copy('bench/run'))
    run = importlib.util.module_from_spec(importlib.util.spec_from_loader('bench_run', loader))
    loader.exec_module(run)
    import figures, plot
    rows = [figures.parse(line) for line in LINES]
    write('bin/cargo', CARGO, runs=True)
    write('bin/cargo.built', BUILT % in_copy('lines.txt'), runs=True)
    write('lines.txt', ''.join(line + '\n' for line in LINES))
    write('flo curves/Cargo.toml', '[package]\nname = "flo_curves"\n')
    write('target/staticlib/libwesalondo.a', '')


tearDownModule = support.remove_copy


class Figures(unittest.TestCase):
    def test_lines(self):
        self.assertEqual(rows[0], ('fit_curve', 'smooth', 12, '0.05', 7, 200.0, 100.0, None))
        self.assertEqual([row.ratio for row in rows[:3]], [0.5, 2.0, 0.25])
        self.assertEqual([row.flat_ratio for row in rows[3:5]], [None, 2.0])
        self.assertEqual((rows[7].rust, rows[7].ratio, rows[7].flat_ratio), (None, None, 10.0))
        for line in (
                '', 'fit_curve smooth 12 0.5 7 1.0 1.0', 'fit_circle smooth 12 0.5 7 1.0 1.0 -', LINES[0] + ' 1', LINES[0].replace('100.00', '-'),
                LINES[0].replace('200.00', 'inf'), LINES[0].replace('200.00', '0.00'), LINES[4].replace('3200.00', '0.00')):
            self.assertRaises(Stop, figures.parse, line)

    def test_geometric_mean(self):
        self.assertAlmostEqual(figures.geometric_mean([1.0, 4.0, 16.0]), 4.0)
        self.assertAlmostEqual(figures.geometric_mean(iter([0.5])), 0.5)

    def test_means(self):
        found = {mean.name: mean for mean in figures.means(rows)}
        self.assertEqual(list(found), ['fit_curve', 'fit_curve_loop', 'fit_curve_cubic', 'all fits', 'nearest_point_on_curve', 'sqrt'])
        self.assertAlmostEqual(found['fit_curve'].mean, 0.25 ** (1 / 3))
        self.assertAlmostEqual(found['all fits'].mean, 4.0 ** (1 / 5))  # of 1/2, 2, 1/4, 1 and 16
        self.assertEqual(found['all fits'][1:2] + found['all fits'][3:], (5, 0.25, 16.0))
        self.assertEqual(figures.outlines_of(rows), 5)

    def test_flat_means(self):
        found = {mean.name: mean for mean in figures.flat_means(rows)}
        self.assertEqual(list(found), ['fit_curve_cubic', 'fit_joined', 'fit_ring', 'all fits'])
        self.assertAlmostEqual(found['fit_joined'].mean, 0.5 ** (1 / 2))  # of 1/2 and 1: the even outline is left out
        self.assertAlmostEqual(found['all fits'].mean, 8.0 ** (1 / 4))    # and of 2 and 8
        self.assertEqual(found['all fits'][1:2] + found['all fits'][3:], (4, 0.5, 8.0))
        self.assertEqual(figures.flat_means(rows[:4]), [])

    def test_printed(self):
        self.assertEqual(figures.printed(rows[2]).split(), 'fit_curve noisy 4,096 0.5 803 1,000 250 0.25 - -'.split())
        self.assertEqual(figures.printed(rows[6]).split(), 'fit_curve even 100,000 0.5 2,000 440 250 0.57 - -'.split())
        self.assertEqual(figures.printed(rows[8]).split(), 'fit_joined even 100,000 0.5 2,000 - 330 - 3,600 10.91'.split())
        self.assertEqual(figures.printed(rows[-3]).split(), 'check_worst smooth 12 0.5 3 - 61.2 - - -'.split())
        self.assertEqual({len(figures.printed(row)) for row in rows}, {len(figures.HEAD)})
        self.assertEqual(figures.printed_mean(figures.means(rows)[-1], 'port/Rust').split(), 'sqrt 1 port/Rust 14.000 from 14.00 to 14.00'.split())

    def test_tables(self):
        self.assertIn('| 12 | 100 | 100 | 1.00 |  |  |  |  |  |  |\n', figures.fit_table(rows, 'fit_curve'))  # over two tolerances
        self.assertIn('| 12 | 48.0 |  |  | 2,500 |  |  | 61.2 |  |  |\n', figures.alone_table(rows))
        self.assertEqual(figures.flat_table(rows).splitlines()[2:], ['| 12 |  |  |  | 0.71 |  |  | 8.00 |  |  |', '| 512 | 2.00 |  |  |  |  |  |  |  |  |'])
        self.assertIn('| `fit_ring` | 1 outlines | 8.000 | 8.00 | 8.00 |\n', figures.mean_table(figures.flat_means(rows), 'flat / first'))
        self.assertIn('| `sqrt`, apart | 2.0 | 28.0 | 14.00 |\n', figures.single_table(rows))
        for found in re.findall(r'(?:^\|.*\n)+', figures.markdown(rows, 'a machine.'), re.M):
            self.assertEqual(len({line.count('|') for line in found.splitlines()}), 1, found)

    def test_stretches(self):
        self.assertEqual(figures.even_table(rows).splitlines(), [
            '| call | 1,000 | 100,000 | last / first |', '| --- | --: | --: | --: |',
            '| `fit_curve`, Rust | 400 | 440 | 1.10 |', '| `fit_curve`, port | 200 | 250 | 1.25 |', '| `fit_joined`, port | 300 | 330 | 1.10 |',
            '| `fit_joined`, flat | 3,000 | 3,600 | 1.20 |'])
        others = figures.fit_table(rows, 'fit_curve') + figures.alone_table(rows) + figures.flat_table(rows)
        self.assertNotIn('even', others)
        self.assertNotIn('100,000', others)

    def test_page(self):
        page = f'before\n{figures.OPEN}old\n{figures.CLOSE}after\n'
        new = figures.renewed(page, 'new\n')
        self.assertTrue(new.startswith('before\n') and new.endswith('after\n') and 'new' in new and 'old' not in new, new)
        self.assertEqual(figures.renewed(new, 'new\n'), new)
        for wrong in ('', figures.OPEN, figures.CLOSE, figures.CLOSE + figures.OPEN):
            self.assertRaises(Stop, figures.renewed, wrong, 'new\n')


class Plot(unittest.TestCase):
    def test_series(self):
        drawn = tree.fromstring(plot.plot(rows))
        said = [''.join(piece.itertext()) for piece in drawn.iter(SVG + 'text')]
        for words, times in (
                ('Rust (flo_curves)', 4), ('port (Wesalondo)', 4), ('joined fit', 2), ('list checker', 2), ('nanoseconds a mark', 6),
                ('marks in the outline', 6), ('4,096', 4), ('100,000', 2)):
            self.assertEqual(said.count(words), times, words)
        dots = [(float(dot.get('cx')), float(dot.get('cy'))) for dot in drawn.iter(SVG + 'circle')]
        self.assertEqual(len(dots), 2 * 5 + 4 + 2 * 2 + 2)
        self.assertTrue(all(0 < x < plot.WIDE and 0 < y < plot.HIGH for x, y in dots), dots)

    def test_quicker_is_lower(self):
        x, y = plot.Axis(10, 1000, 0, 200), plot.Axis(10, 1000, 300, -200)
        self.assertEqual([round(axis.at(100), 6) for axis in (x, y)], [100, 200])

    def test_one_size_and_one_cost(self):
        lines = [f'{call} smooth 12 0.5 1 100 100 -' for call in figures.BOTH] + [f'{call} smooth 12 0.5 1 - 100 -' for call in figures.ALONE]
        tree.fromstring(plot.plot([figures.parse(line) for line in lines]))

    def test_steps(self):
        self.assertEqual(plot.steps(30, 900), [20, 50, 100, 200, 500, 1000])
        self.assertEqual(plot.steps(100, 200), [100, 200])


class Kept(unittest.TestCase):
    def test_page_and_plot(self):
        page = read('docs/SPEED.md').decode('utf-8')
        self.assertEqual((page.count(figures.OPEN), page.count(figures.CLOSE), page.count('(speed.svg)')), (1, 1, 1))
        tree.fromstring(read('docs/speed.svg').decode('utf-8'))


class Run(support.Case):
    """bench/run where its own machine is stood in for."""

    def run_main(self, *words, machine='x86_64', system='Linux', path=None, **environment):
        """The status and what is printed, or the Stop."""
        path = path if path is not None else in_copy('bin') + os.pathsep + os.environ['PATH']
        printed = io.StringIO()
        with mock.patch('platform.machine', return_value=machine), mock.patch('platform.system', return_value=system), \
                mock.patch.dict(os.environ, {'PATH': path, **environment}), contextlib.redirect_stdout(printed):
            return run.main(list(words)), printed.getvalue()

    def stops(self, status, piece, *words, **more):
        with self.assertRaises(Stop) as caught:
            self.run_main(*words, **more)
        self.assertEqual(caught.exception.status, status)
        self.assertIn(piece, str(caught.exception))

    def test_usage(self):
        flo = in_copy('flo curves')
        for words in ([], ['--help'], [flo, '--out'], [flo, flo], ['--out', flo], [flo, '--what', flo], [flo, flo, '--out'], [flo, '--out', flo, flo]):
            self.says(2, 'usage: bench/run', 'bench/run', *words)

    def test_other_machine(self):
        shutil.rmtree(in_copy('target/bench'), ignore_errors=True)
        self.stops(2, 'nothing can be timed on Linux aarch64', in_copy('flo curves'), machine='aarch64')
        self.stops(2, 'nothing can be timed on Darwin x86_64', in_copy('flo curves'), system='Darwin')
        self.assertFalse(os.path.exists(in_copy('target/bench')))

    def test_what_is_lacking(self):
        flo = in_copy('flo curves')
        self.stops(2, 'has no Cargo.toml', in_copy('nowhere'))
        self.stops(2, 'cargo is not on the path', flo, path=in_copy('docs'))
        os.rename(in_copy('target/staticlib'), in_copy('target/away'))
        try:
            self.stops(2, 'tools/build wesalondo', flo)
        finally:
            os.rename(in_copy('target/away'), in_copy('target/staticlib'))

    def test_program(self):
        flo = in_copy('flo curves')
        self.stops(2, 'was not built', flo, BUILT='no')
        self.stops(2, f'ended with status 3 after {len(LINES)} lines', flo, ENDS='3')
        self.stops(1, 'do not give the same', flo, ENDS='1')

    def test_figures(self):
        status, printed = self.run_main(in_copy('flo curves'))
        self.assertEqual(status, 0)
        self.assertIn('Geometric means, over 5 outlines:\n', printed)
        self.assertEqual(printed.splitlines()[-1].split(), 'all fits 4 flat/port 1.682 from 0.50 to 8.00'.split())
        self.assertEqual(len([line for line in printed.splitlines() if line.startswith('fit_curve ')]), 6)  # three outlines, two lengths of stretches, and their mean
        self.assertIn('package = "flo_curves"', read('target/bench/Cargo.toml').decode('utf-8'))

    def test_out(self):
        before = read('docs/SPEED.md').decode('utf-8')
        self.assertEqual(self.run_main(in_copy('flo curves'), '--out', in_copy('docs'))[0], 0)
        after = read('docs/SPEED.md').decode('utf-8')
        self.assertEqual(before.partition(figures.OPEN)[0], after.partition(figures.OPEN)[0])
        self.assertEqual(before.partition(figures.CLOSE)[2], after.partition(figures.CLOSE)[2])
        self.assertIn('| all fits | 5 fits | 1.320 | 0.25 | 16.00 |\n', after)
        self.assertIn('| all fits | 4 fits | 1.682 | 0.50 | 8.00 |\n', after)
        tree.fromstring(read('docs/speed.svg').decode('utf-8'))

    def test_new_folder(self):
        self.assertEqual(self.run_main('--out', in_copy('new'), in_copy('flo curves'))[0], 0)
        self.assertEqual(sorted(os.listdir(in_copy('new'))), ['SPEED.md', 'speed.svg'])

    def test_page_without_place(self):
        write('bare/SPEED.md', '# Speed\n')
        # before anything is built, which would stop it otherwise
        self.stops(2, 'has no place for the figures', in_copy('flo curves'), '--out', in_copy('bare'), BUILT='no')
        self.assertEqual(read('bare/SPEED.md'), b'# Speed\n')


if __name__ == '__main__':
    sys.exit(support.main())
