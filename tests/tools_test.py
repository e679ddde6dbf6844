#!/usr/bin/env python3
"""tools_test.py: tests compare and the tools, above all where something is wrong with their words or files.

They run on what `tools/build` has built (target/bin/listing and target/bin/replay), in a copy of the repository whose path has a blank in it, with a
stand-in for cargo whose Rust side is the port itself: so neither Rust nor a network is wanted. The last line is `N passed, M failed`.
"""
import filecmp
import importlib.machinery
import importlib.util
import itertools
import math
import os
import random
import re
import shutil
import subprocess
import sys
from fractions import Fraction

sys.dont_write_bytecode = True

import support
from support import ROOT, SIDES, TRIANGLE, in_copy, read, straight, write

from shared import cleaning, cleaning_cases, house, pack_cases, path_cases
from shared.blocks import size_of
from shared.checker import FAULT_A, FAULT_B, FAULT_C, FAULT_D, FAULT_E, PASSED, REFUSED, check, kept_for
from shared.path_data import exported, imported, written
from shared.table import FITS, FLAT_FITS, LINE_BYTES, LINE_FILE, LINE_MARKS, LINE_REPORT, MOST_MARKS, Refused, fit_refusal
from shared.ties import CURVE, PARAMS, TIES
from shared.words import INFINITY, MINUS, NAN, numbers, pattern_of, patterns_of, word_of, words

CARGO = '''#!/bin/sh
# stands in for cargo: its Rust side answers as $RUST_SIDE says
while [ "$1" != --target-dir ]; do shift; done
[ "${RUST_SIDE:-}" != unbuilt ] || exit 101
mkdir -p "$2/release"
cp "$0.side" "$2/release/compare"
'''
SIDE = '''#!/bin/sh
answer() { "%s/tools/run_program" replay; }
case "${RUST_SIDE:-alike}" in
    alike) answer ;;
    nan-signs) answer | sed 's/7FF8000000000000/FFF8000000000001/g' ;;
    other) answer | sed 's/^0 4/0 3/' ;;
    early) answer | head -n 1 ;;
    panic) answer | sed 's/.*/PANIC/' ;;
esac
'''
LINES = [f'sqrt {word_of(4.0)}', f'sqrt {word_of(-1.0)}']


def setUpModule():
    support.make_copy(['listing', 'replay'])
    write('bin/cargo', CARGO, runs=True)
    write('bin/cargo.side', SIDE % support.where, runs=True)
    write('flo curves/Cargo.toml', '[package]\nname = "flo_curves" # as it is called\nversion = "0.8.0"\n')
    write('cases.txt', ''.join(line + '\n' for line in LINES))


tearDownModule = support.remove_copy


class Case(support.Case):
    def call(self, *command, side='alike', path=None):
        """The stand-in for cargo comes first on the path."""
        found = path if path is not None else in_copy('bin') + os.pathsep + os.environ['PATH']
        return super().call(*command, PATH=found, RUST_SIDE=side)


class Compare(Case):
    def compare(self, status, piece, *rest, **more):
        self.says(status, piece, 'compare/run', *rest, **more)

    def counts(self, status, last, *rest, **more):
        got, out, _ = self.call('compare/run', in_copy('flo curves'), *rest, **more)
        self.assertEqual((got, out.split('\n')[-2]), (status, last), out)

    def test_usage(self):
        flo, cases = in_copy('flo curves'), in_copy('cases.txt')
        for rest in (
                [], ['--help'], [flo, '--answers'], [flo, cases, '--answers'], [flo, '--answers', cases], [flo, '--what', cases],
                [flo, cases, cases, '--answers', cases]):
            self.compare(2, 'usage: compare/run', *rest)

    def test_checkout(self):
        self.compare(2, 'has no Cargo.toml', in_copy('nowhere'))
        self.compare(2, 'has no Cargo.toml', in_copy('docs'))
        write('space/Cargo.toml', '[workspace]\nmembers = ["flo"]\n[workspace.package]\nname = "none"\n')
        self.compare(2, 'a workspace', in_copy('space'))
        write('empty/Cargo.toml', '')
        self.compare(2, 'names no package', in_copy('empty'))

    def test_workspace_that_is_a_package(self):
        write('both/Cargo.toml', '[workspace]\nmembers = ["demo"]\n\n[dependencies]\nname = "0.1"\n[ package ]\n[package]\n  name = \'flo_curves\'\n')
        got, out, _ = self.call('compare/run', in_copy('both'), in_copy('cases.txt'))
        self.assertEqual(got, 0, out)
        self.assertIn('package = "flo_curves"', read('target/compare/Cargo.toml').decode())

    def test_cargo(self):
        flo, cases = in_copy('flo curves'), in_copy('cases.txt')
        bare = write('bare/python3', f'#!/bin/sh\nexec "{sys.executable}" "$@"\n', runs=True)
        self.compare(2, 'cargo is not on the path', flo, cases, path=os.path.dirname(bare))
        self.compare(2, 'was not built', flo, cases, side='unbuilt')
        self.compare(2, 'the Rust ended with status 0 after 1 of 2 answers', flo, cases, side='early')

    def test_port_not_built(self):
        os.rename(in_copy('target/bin'), in_copy('target/away'))
        try:
            self.compare(2, 'tools/build replay', in_copy('flo curves'))
        finally:
            os.rename(in_copy('target/away'), in_copy('target/bin'))

    def test_cases(self):
        flo = in_copy('flo curves')
        self.compare(2, 'is empty', flo, write('none.txt', ''))
        self.compare(2, 'No such file', flo, in_copy('nowhere.txt'))
        self.compare(2, 'Is a directory', flo, in_copy('docs'))
        self.compare(2, 'line 2 is not plain text', flo, write('accent.txt', LINES[0] + '\nsqrt é\n'))
        self.compare(2, 'line 1 is not plain text', flo, write('bytes.txt', bytes(range(128, 256))))
        mark = words(patterns_of(1.0, 2.0))
        for kind in ('joined', 'ring', 'joined_flat', 'ring_flat'):
            long_fit = ' '.join([kind, word_of(0.5)] + [mark] * (LINE_MARKS + 1))
            self.compare(2, 'line 2 has more than the 21,000 marks', flo, write('long.txt', f'{LINES[0]}\n{long_fit}\n'))
        for kind in ('check', 'check_ring', 'check_worst', 'check_worst_ring'):
            self.compare(2, 'line 1 has more than the 21,000 marks', flo, write('long.txt', f'{kind} {word_of(0.5)} {LINE_MARKS + 1} {mark}\n'))
            self.compare(2, 'line 1 has more than the 21,000 marks or curves', flo, write('long.txt', f'{kind} {word_of(0.5)} 2 {mark} {mark} {LINE_MARKS + 1} 0\n'))

        for kind in ('pack', 'salvage', 'import'):
            self.compare(2, 'line 2 has more than the 4,600,000 bytes', flo, write('long.txt', f'{LINES[0]}\n{kind} {"0" * LINE_BYTES}\n'))

    def test_last_line_without_newline(self):
        self.counts(0, '2 cases, 0 different', write('open.txt', '\n'.join(LINES)))
        self.counts(0, '1 cases, 0 different', write('open.txt', LINES[0]))
        self.counts(0, '2 cases, 0 different', write('open.txt', '\r\n'.join(LINES) + '\r\n'))
        self.counts(0, '4 cases, 0 different', in_copy('cases.txt'), in_copy('cases.txt'))

    def test_nan_equals_nan(self):
        self.counts(0, '2 cases, 0 different', in_copy('cases.txt'), side='nan-signs')

    def test_different(self):
        self.counts(1, '2 cases, 1 different', in_copy('cases.txt'), side='other')

    def test_answers(self):
        flo, cases = in_copy('flo curves'), in_copy('cases.txt')
        good = [f'0 {word_of(2.0)}', f'0 {word_of(float("nan"))}']
        self.counts(0, '2 cases, 0 different', '--answers', write('answers.txt', '\n'.join(good)), cases)
        self.compare(2, '1 answers for 2 cases', flo, '--answers', write('answers.txt', good[0] + '\n'), cases)
        self.compare(2, 'is empty', flo, '--answers', write('answers.txt', ''), cases)
        self.compare(2, 'No such file', flo, '--answers', in_copy('nowhere.txt'), cases)

    def test_junk_answers_are_different(self):
        near = 'nearest ' + words(patterns_of(0, 0, 0, 1, 1, 1, 1, 0, 0.5, 2))
        wild = 'nearest ' + words(patterns_of(0, 0, 0, 1, 1, 1, 1, 0, 0.5) + [NAN])
        cases = write('near.txt', f'{near}\n{near}\n{near}\n{wild}\n{wild}\n')
        junk = ['0', '0 x y', f'0 {word_of(0.5)} {word_of(-1.0)}', '5 5', '']
        self.counts(1, '5 cases, 5 different', '--answers', write('junk.txt', '\n'.join(junk) + '\n'), cases)

    def test_generator(self):
        made = [subprocess.run([sys.executable, in_copy('compare/generate.py'), *seed], capture_output=True) for seed in ([], ['1'], ['x'], ['1', '2'])]
        self.assertEqual([done.returncode for done in made], [0, 0, 2, 2])
        self.assertEqual(made[0].stdout, made[1].stdout)
        lines = [line.split(' ') for line in made[0].stdout.decode('ascii').split('\n')[:-1]]
        self.assertGreater(len(lines), 5000)
        sizes = {len(line[2:]) / 2 for line in lines if line[0] == 'ring'}
        self.assertLessEqual({0, 0.5, 1, 2, 3, 4, 199, 200, 201, 4095, 4096, 4097, 20000, 20001, LINE_MARKS}, sizes)
        self.assertEqual(max(sizes), LINE_MARKS)
        self.assertGreater(sum(line[0] == 'check_ring' for line in lines), 1000)
        twins = [(line, after) for line, after in zip(lines, lines[1:]) if f'{line[0]}_flat' in FLAT_FITS]
        self.assertGreater(len(twins), 1000)
        self.assertTrue(all(after == [f'{line[0]}_flat', *line[1:]] for line, after in twins))
        self.assertGreater(min(sum(line[0] == kind for line in lines) for kind in ('export', 'import', 'pack', 'unpack', 'salvage')), 500)
        for kind in ('check_worst', 'check_worst_ring'):
            said = self.answers([' '.join(line) for line in lines if line[0] == kind])
            faults = {answer[:7] for answer in said if answer.startswith('FAULT')}
            self.assertEqual(faults, {f'FAULT {letter}' for letter in 'ABCDE'})
            self.assertGreater(min(said.count('0'), sum(answer.startswith('FAULT E') for answer in said)), 60)

    def test_rings(self):
        """The table has its own numbers for rings, and the port's answer must be the table's."""
        triangle = f'ring {word_of(0.5)} {words(patterns_of(*TRIANGLE))}'
        two = f'ring {word_of(0.5)} {words(patterns_of(*TRIANGLE[:4]))}'
        sound = 'check_ring ' + ring_list()
        short = sound[:-17]  # as many parameters as marks
        cases = write('rings.txt', '\n'.join([triangle, two, sound, short]))
        self.counts(0, '4 cases, 0 different', cases)
        answers = self.answers([triangle, two, sound, short])
        self.assertEqual([answer.split(' ')[0] for answer in answers], ['0', '1', '0', 'BAD'])
        for place, other in ((0, '1'), (1, answers[0]), (1, '2'), (2, 'FAULT C 2 3'), (3, '4')):
            said = answers[:place] + [other] + answers[place + 1:]
            self.counts(1, '4 cases, 1 different', '--answers', write('said.txt', '\n'.join(said)), cases)

    def loaded(self):
        """compare/run as a module."""
        loader = importlib.machinery.SourceFileLoader('compare_run', in_copy('compare/run'))
        compare = importlib.util.module_from_spec(importlib.util.spec_from_loader('compare_run', loader))
        loader.exec_module(compare)
        return compare

    def test_lists_are_packed(self):
        """The list of each fit but a loop's as two house files, a ring's with its first mark once more; and what is packed is unpacked, once."""
        compare, marks = self.loaded(), patterns_of(*TRIANGLE)
        nines = [(first, worst, patterns_of(*SIDES[first], far)) for first, worst, far in ((0, 0, 0.0), (1, 2, 9.0))]
        record = ' '.join(f'{first} {worst} {words(nine)}' for first, worst, nine in nines)
        kinds, times = ('ring', 'joined', 'loop', 'source'), {'ring': patterns_of(0, 0, 0, 1)}
        cases = [f'{kind} {word_of(0.5)} {words(marks)}' for kind in kinds]
        said = [f'0 2 {record} {words(times.get(kind, patterns_of(0, 0, 1)))}\tdepth 3' for kind in kinds]
        made = list(compare.packing(cases + cases, said + ['6'] * 4))
        want = []
        for kind in ('ring', 'joined', 'source'):
            ring, params = marks[:2] * (kind == 'ring'), times.get(kind, patterns_of(0, 0, 1))
            want += [house.build(pattern_of(word_of(0.5)), marks + ring, [(first, nine[:8]) for first, _, nine in nines], params)]
            want += [house.build(pattern_of(word_of(0.5)), marks + ring, [(first, nine) for first, _, nine in nines], params, [0, 2])]
        self.assertEqual(made, [f'pack {data.hex()}' for data in want])
        packed = [house.pack(data).hex() for data in want[:2]]
        self.assertEqual(compare.unpacking([*made[:3], f'unpack {packed[0]}'], [f'0 {packed[0]}', f'0 {packed[1]}', '12', '9']), [f'unpack {packed[1]}'])

    def test_lists_of_rings_are_judged_as_rings(self):
        compare = self.loaded()
        marks, times = words(patterns_of(*TRIANGLE)), words(patterns_of(0, 0, 0, 1))
        eight = words(patterns_of(*range(8)))
        plain, record = f'0 {eight} 1 {eight}', f'0 0 {eight} {word_of(8.0)} 1 2 {eight} {word_of(9.0)}'
        cases = [f'{kind} {word_of(0.5)} {marks}' for kind in ('ring', 'joined', 'loop')]
        made = list(compare.feedback(cases, [f'0 2 {record} {times}\tdepth 3'] * 3))
        self.assertEqual(made, [f'{kind} {word_of(0.5)} 3 {marks} 2 {curves} {times}' for kind, curves in (
            ('check_ring', plain), ('check_worst_ring', record), ('check', plain), ('check_worst', record))])


def ring_list():
    """The triangle's three sides as the words of a sound list."""
    sides = ' '.join(f'{k} {words(patterns_of(*side))}' for k, side in enumerate(SIDES))
    return f'{word_of(0.0)} 3 {words(patterns_of(*TRIANGLE))} 3 {sides} {words(patterns_of(0, 0, 0, 1))}'


class Vectors(Case):
    def make(self, status, piece, *rest, **more):
        self.says(status, piece, 'tools/make_vectors.py', *rest, **more)

    def kept(self, name):
        return [read(f'crates/{name}/{part}') for part in ('stdin', 'stdout')]

    def restore(self, name):
        for part in ('stdin', 'stdout'):
            shutil.copy2(os.path.join(ROOT, 'crates', name, part), in_copy(f'crates/{name}/{part}'))

    def test_usage(self):
        flo = in_copy('flo curves')
        for rest in ([flo, flo], ['--wrote'], [flo, '-w'], [flo, 'fit_case', 'eval_cases']):
            self.make(2, 'usage: tools/make_vectors.py', *rest)
        for rest in ([], ['fit_cases'], ['--write']):
            self.make(2, 'give a checkout of flo_curves', *rest)
        for rest in (['--published'], ['--published', 'x'], ['--published', 'x', 'y', 'z']):
            self.make(2, 'usage: tools/make_vectors.py --published', *rest)
        self.make(2, 'No such file', '--published', 'x', 'y')
        table = write('table.txt', 'no table\n')
        self.make(2, 'there is no table', '--published', table, table)

    def test_mistyped_folder(self):
        before = self.kept('fit_cases')
        for folder in ('nowhere', 'docs'):
            self.make(2, 'has no Cargo.toml', in_copy(folder), 'fit_cases', '--write')
        self.make(2, 'was not built', in_copy('flo curves'), 'fit_cases', '--write', side='unbuilt')
        self.make(2, 'the Rust says PANIC', in_copy('flo curves'), 'fit_cases', '--write', side='panic')
        self.make(2, 'the Rust ended', in_copy('flo curves'), 'fit_cases', '--write', side='early')
        self.assertEqual(self.kept('fit_cases'), before)

    def test_as_kept(self):
        got, out, _ = self.call('tools/make_vectors.py', 'sqrt_cases', 'size_cases')
        self.assertEqual((got, out), (0, 'sqrt_cases: 599 cases (56 published): as kept\nsize_cases: 11 cases: as kept\n'))

    def test_difference_and_write(self):
        write('crates/sqrt_cases/stdout', read('crates/sqrt_cases/stdout').replace(b'3ff0', b'3ff1'))
        got, out, _ = self.call('tools/make_vectors.py', 'sqrt_cases')
        self.assertEqual(got, 1)
        self.assertIn('stdout is not as kept, first at line', out)
        got, out, _ = self.call('tools/make_vectors.py', 'sqrt_cases', '--write')
        self.assertEqual(got, 0)
        self.assertIn('written, stdout changed', out)
        for part in ('stdin', 'stdout'):
            self.assertTrue(filecmp.cmp(os.path.join(ROOT, 'crates/sqrt_cases', part), in_copy(f'crates/sqrt_cases/{part}'), shallow=False))

    def test_never_fewer(self):
        more = read('crates/sqrt_cases/stdin') + bytes(8)
        write('crates/sqrt_cases/stdin', more)
        try:
            self.make(2, '599 cases would take the place of 600', 'sqrt_cases', '--write')
            self.assertEqual(read('crates/sqrt_cases/stdin'), more)
        finally:
            self.restore('sqrt_cases')

    def test_broken_inputs(self):
        flo = in_copy('flo curves')
        for name in ('sqrt_cases', 'eval_cases', 'fit_cases', 'check_cases', 'nearest_cases', 'house_cases', 'replay'):
            try:
                for data in (b'', read(f'crates/{name}/stdin')[:100]):
                    write(f'crates/{name}/stdin', data)
                    self.make(2, f'crates/{name}/stdin', flo, name, '--write')
                    self.assertEqual(read(f'crates/{name}/stdin'), data)
            finally:
                self.restore(name)
        os.remove(in_copy('crates/sqrt_cases/stdin'))
        self.make(2, 'crates/sqrt_cases/stdin: No such file', 'sqrt_cases', '--write')
        self.restore('sqrt_cases')

    def test_nearest_points_by_the_document(self):
        from vectors import near
        said = [line.split(' ') for line in self.kept('nearest_cases')[1].decode('ascii').split('\n')[:-2]]
        kept = [line for line in said if line[0] != 'OTHER']
        self.assertEqual([answer.lower().split(' ') for _, answer in near.answers()], kept)

    def test_half_circles_of_another_sine(self):
        """A machine whose sine rounds otherwise makes the same inputs."""
        import math
        from vectors import files, outlines
        made = [outline.record() for outline in outlines.kept_borders()], list(files.cases(list(files.read())))
        sine = math.sin
        math.sin = lambda angle: math.nextafter(sine(angle), 2.0)
        try:
            again = [outline.record() for outline in outlines.kept_borders()], list(files.cases(list(files.read())))
        finally:
            math.sin = sine
        self.assertEqual(again, made)

    def test_nothing_happens_on_import(self):
        names = [name[:-3] for name in os.listdir(in_copy('tools')) if name.endswith('.py')]
        self.assertGreater(len(names), 2)
        line = 'import sys; sys.dont_write_bytecode = True; import ' + ', '.join(names)
        done = subprocess.run([sys.executable, '-c', line], cwd=in_copy('tools'), capture_output=True)
        self.assertEqual((done.returncode, done.stdout, done.stderr), (0, b'', b''))


class Rings(Case):
    """The list checker by the document's text, on lists of a ring that are made by hand."""

    def judged(self, want, marks=TRIANGLE, tolerance=0.0, claimed=3, curves=tuple(SIDES), firsts=(0, 1, 2), params=(0.0, 0.0, 0.0, 1.0), ring=True, worsts=None):
        numbers_ = [value for curve in curves for value in curve]
        self.assertEqual(check(marks, tolerance, claimed, numbers_, list(firsts), list(params), ring, worsts), want)

    def test_sound(self):
        self.judged((PASSED, 0, 0))
        self.judged((PASSED, 0, 0), params=(-0.0, 0.0, 0.0, 1.0))
        self.judged((PASSED, 0, 0), curves=SIDES[:1] + [SIDES[1][:6] + TRIANGLE[:2]], claimed=2, firsts=(0, 1), params=(0.0, 0.0, 0.5, 1.0), tolerance=9.0)
        self.judged((PASSED, 0, 0), ring=False, claimed=2, curves=SIDES[:2], firsts=(0, 1), params=(0.0, 0.0, 1.0))

    def test_table(self):
        """The refusals of the fit itself, by the document's table."""
        for kind, (count, short, want) in itertools.product(('ring', 'ring_flat'), (
                (5, False, 3), (0, False, 1), (4, True, 1), (6, False, 0), (6, True, 4), (2 * MOST_MARKS, False, 0), (2 * MOST_MARKS + 2, True, 2))):
            self.assertEqual(fit_refusal([kind, word_of(0.5)] + [word_of(1.0)] * count, short), want)
        self.assertEqual(fit_refusal(['joined', word_of(0.5)] + [word_of(1.0)] * 4), 0)
        self.assertEqual(MOST_MARKS, 100000)

    def test_table_of_both_engines(self):
        """A kind of the second engine is refused as that of the first, with 2 above 512 marks and 5 for a tangent where it is the direct one's."""
        good, one = [word_of(1.0)] * 4, [word_of(3.0)]
        for kind in FLAT_FITS:
            direct = kind == 'direct_flat'
            for ways, count, want in ((good, 1024, 0), (good, 1026, 2 * direct), (good[:3] + one, 1024, 5 * direct), (good, 0, int(kind != 'joined_flat'))):
                said = [fit_refusal([name, word_of(0.5), *ways] + [word_of(1.0)] * count) for name in (kind, kind.removesuffix('_flat'))]
                self.assertEqual(said, [want, want])

    def test_refusals(self):
        self.judged((REFUSED, 3, 0), marks=TRIANGLE[:5])
        self.judged((REFUSED, 1, 0), marks=TRIANGLE[:4])
        self.judged((REFUSED, 2, 0), marks=[0.0] * (2 * MOST_MARKS + 2), params=[])
        self.judged((REFUSED, 4, 0), params=(0.0, 0.0, 1.0), tolerance=-1.0)
        self.judged((REFUSED, 4, 0), curves=SIDES[:2])
        self.judged((REFUSED, 5, 0), tolerance=-1.0, claimed=0)
        spot = [0.0] * 2 * MOST_MARKS
        self.judged((PASSED, 0, 0), marks=spot, claimed=1, curves=[[0.0] * 8], firsts=[0], params=[0.0] * MOST_MARKS + [1.0])
        self.judged((REFUSED, 4, 0), marks=spot, claimed=1, curves=[[0.0] * 8], firsts=[0], params=[0.0] * (MOST_MARKS - 1) + [1.0])

    def test_faults(self):
        self.judged((FAULT_A, 0, 0), claimed=0)
        self.judged((FAULT_A, 0, 0), claimed=4, curves=SIDES + SIDES[:1], firsts=(0, 1, 2, 3))
        self.judged((FAULT_A, 2, 0), firsts=(0, 1, 3))
        self.judged((FAULT_B, 1, 1), claimed=2)  # it ends on the last mark that is given
        self.judged((FAULT_B, 2, 2), curves=SIDES[:2] + [SIDES[2][:6] + [0.0, 0.0]])  # the first mark has a minus zero
        self.judged((FAULT_B, 2, 2), curves=SIDES[:2] + [SIDES[2][:6] + TRIANGLE[4:]])
        self.judged((FAULT_C, 2, 3), params=(0.0, 0.0, 0.0, 0.0))
        self.judged((FAULT_C, 2, 2), params=(0.0, 0.0, 1.0, 1.0))
        self.judged((FAULT_D, 1, 2), claimed=2, curves=SIDES[:1] + [SIDES[1][:6] + TRIANGLE[:2]], firsts=(0, 1), params=(0.0, 0.0, 0.5, 1.0), tolerance=0.5)

    def test_records(self):
        """Lists of nine numbers a curve: E behind all else of its curve, at its first mark."""
        nines = [side + [0.0] for side in SIDES]
        marks, bent = TRIANGLE[:4] + [4.0, 3.0], [SIDES[0] + [0.0], SIDES[1][:6] + TRIANGLE[:2] + [2.5]]  # of the second curve mark 2 is a little off
        far = math.dist(marks[4:], (3.5, 1.11375))  # the second curve's middle
        sound = dict(claimed=2, firsts=(0, 1), params=(0.0, 0.0, 0.5, 1.0), tolerance=9.0, worsts=[0, 2])
        worsts, fars = kept_for(marks, [bent[0][:8], bent[1][:8]], [0, 1], [0.0, 0.0, 0.5, 1.0], ring=True)
        self.assertEqual((worsts, fars[0]), ([0, 2], 0.0))
        self.assertAlmostEqual(fars[1], far)
        good = [bent[0], bent[1][:8] + fars[1:]]
        self.judged((PASSED, 0, 0), worsts=[0, 1, 2], curves=nines)
        self.judged((PASSED, 0, 0), **sound, curves=good)
        for place in (0, 1):
            for other in (math.nextafter(fars[place], 9.0), math.nan, math.inf, -fars[place], fars[place] ** 2 or 1.0):
                wrong = [row[:8] + [other if k == place else row[8]] for k, row in enumerate(good)]
                self.judged((FAULT_E, place, place), **sound, curves=wrong)
        wrong = [good[0], good[1][:8] + [math.nan]]
        for want, change in (((FAULT_D, 1, 2), dict(tolerance=0.5)), ((FAULT_C, 1, 3), dict(params=(0.0, 0.0, 0.5, 0.5))), ((FAULT_A, 1, 0), dict(firsts=(0, 0))),
                             ((REFUSED, 5, 0), dict(tolerance=-1.0)), ((REFUSED, 4, 0), dict(worsts=[0])), ((FAULT_E, 0, 0), dict(worsts=[1, 2], tolerance=0.5))):
            self.judged(want, **{**sound, **change}, curves=wrong)
        self.judged((REFUSED, 4, 0), **sound, curves=[good[0], good[1][:8]])
        self.judged((FAULT_B, 1, 1), **sound, curves=[good[0], [0.0] * 8 + [math.nan]])

    def test_ties(self):
        """The first of equal squares is the worst mark, also where the distances of others are equal to the last bit."""
        for marks, worst in TIES:
            (found,), (far,) = kept_for(marks, [CURVE], [0], PARAMS)
            self.assertEqual((found, far), (worst, 0.5 if worst else 0.0))
            for other in range(5):
                want = (PASSED, 0, 0) if other == worst else (FAULT_E, 0, 0)
                self.judged(want, marks=marks, tolerance=0.5, claimed=1, curves=[CURVE + [far]], firsts=[0], params=PARAMS, ring=False, worsts=[other])

    def test_tender(self):
        """The ring fit of the tender's cover: its list is sound as a ring's and as no other's, and there is no kink at the seam, nor where its two blocks meet."""
        held = house.parse(read('examples/tender.house'))
        (said,) = self.answers([f'ring {words([held.tolerance] + held.marks)}'])
        head, count, *rest = said.split(' ')
        self.assertEqual((head, count, len(rest)), ('0', '19', 11 * 19 + 261))
        firsts, worsts = ([int(text) for text in rest[place:11 * 19:11]] for place in (0, 1))
        nines = [numbers([pattern_of(text) for text in rest[11 * k + 2:11 * k + 11]]) for k in range(19)]
        params, curves = numbers([pattern_of(text) for text in rest[11 * 19:]]), [nine[:8] for nine in nines]
        parts = dict(marks=numbers(held.marks), tolerance=0.8, claimed=19, firsts=firsts, params=params)
        self.judged((PASSED, 0, 0), **parts, curves=curves)
        self.judged((PASSED, 0, 0), **parts, curves=nines, worsts=worsts)
        self.judged((FAULT_E, 4, firsts[4]), **parts, curves=nines, worsts=worsts[:4] + [worsts[4] + 1] + worsts[5:])
        self.judged((FAULT_B, 18, firsts[-1]), **parts, curves=curves, ring=False)
        met = [kink(before, after) for first, before, after in zip(firsts, curves[-1:] + curves, curves) if first in (0, 200)]
        self.assertEqual(len(met), 2)
        self.assertLess(max(met), 1e-9)


class Houses(Case):
    """House files by the document's text (tools/shared/house.py): the four kinds of a curve."""

    def built(self, count, kind, beside=(0x0102, 0x0304)):
        """A file of so many marks with one curve of a kind, and how long its records are."""
        kept = kind in (6, 7)
        numbers_ = patterns_of(*range(9 if kept else 8))
        return house.build(1, [2] * 2 * count, [(beside[0], numbers_)], [3] * count, [beside[1]] if kept else None, kind)

    def test_records(self):
        """Byte by byte: the lowest first, two for a mark's number or four."""
        numbers_ = {kept: b''.join(pattern.to_bytes(8, 'little') for pattern in patterns_of(*range(9 if kept else 8))) for kept in (False, True)}
        for kind, head in ((3, b'\x44\0\0\0\3\0\2\1'), (6, b'\x4e\0\0\0\6\0\2\1\4\3'), (5, b'\x46\0\0\0\5\0\2\1\0\0'), (7, b'\x52\0\0\0\7\0\2\1\0\0\4\3\0\0')):
            record = head + numbers_[kind in (6, 7)]
            self.assertEqual(self.built(2, kind)[52:52 + len(record)], record)
        large = self.built(4097, 7, (0x12345678, 0xFFFFFFFE))
        self.assertEqual(large[65572 + 6:65572 + 14], b'\x78\x56\x34\x12\xfe\xff\xff\xff')

    def test_which_kinds_suit(self):
        for count in (2, 512, 4095, 4096, 4097, 5000):
            for kind in (3, 5, 6, 7):
                data = self.built(count, kind)
                held = house.parse(data)
                self.assertEqual(held is not None, (kind in (3, 6)) == (count <= 4096))
                if held:
                    self.assertEqual((held.bytes(), held.firsts(), held.worsts), (data, [0x0102], [0x0304] if kind in (6, 7) else None))
                    self.assertEqual(house.kind_of(count, held.worsts is not None), kind)

    def test_each_list_has_one_encoding(self):
        """What is held does not depend on the kind that it came in, and is written in one way."""
        for count, kinds in ((4096, (3, 6)), (4097, (5, 7))):
            for kind in kinds:
                records = house.records_of(self.built(count, kind))
                for other in (3, 5, 6, 7, 8):
                    again = b''.join(house.record(other if is_curve else given, body) for is_curve, (given, body) in zip((False, False, True, False), records))
                    self.assertEqual(house.parse(again) is not None, other == kind)

    def test_lengths(self):
        for count in (2, 3, 4096, 4097):
            curves = [(i, [0] * 9) for i in range(count - 1)]
            self.assertEqual(house.longest(count), len(house.build(0, [0] * 2 * count, curves, [0] * count, [0] * (count - 1))))
        self.assertEqual((house.longest(4096), house.longest(MOST_MARKS)), (434120, 10999940))

    def test_kept_runs(self):
        """What house_cases keeps of a large file is its heads; put together again it is the file."""
        from vectors import files
        rows = [row for row in [*files.large_cases(), *files.packed_cases(), *files.packing_cases()] if len(row[1]) > files.LARGE]
        self.assertGreater(max(len(data) for _, data, _ in rows), 2400000)
        for todo, data, room in rows:
            parts = files.runs(data)
            self.assertEqual((len(parts), b''.join(given + bytes(zeros) for given, zeros in parts)), (3, data))
            self.assertLess(len(files.record(todo, data, room)), 500)


class Packing(Case):
    """House files that store each joint once, by the document's text."""

    def held(self, data):
        held = house.parse(data)
        return held and (held.tolerance, held.marks, held.curves, held.worsts, held.params)

    def test_bytes(self):
        """Byte by byte: the flag, the first mark, the start; of each curve the next mark, controls and end, and the distance and the worst mark where they are kept."""
        def eight(*values):
            return b''.join(pattern.to_bytes(8, 'little') for pattern in patterns_of(*values))
        chain = [float(value) for value in range(14)]
        for kept in (False, True):
            rows = [(first, patterns_of(*chain[at:at + 8]) + patterns_of(90 + at) * kept) for first, at in ((0x0102, 0), (0x0304, 6))]
            marks, params = [7] * 6, [5] * 3
            packed = house.pack(house.build(9, marks, rows, params, [0x0506, 0x0708] if kept else None))
            kept_ = [eight(90) + b'\x06\x05\0\0', eight(96) + b'\x08\x07\0\0'] if kept else [b'', b'']
            body = bytes([kept]) + b'\x02\x01\0\0' + eight(0, 1) + b'\x04\x03\0\0' + eight(*range(2, 8)) + kept_[0] + b'\x02\0\0\0' + eight(*range(8, 14)) + kept_[1]
            self.assertEqual(packed, house.build(9, marks) + (2 + len(body)).to_bytes(4, 'little') + b'\x08\0' + body + house.record(4, house.row(params)))
            self.assertEqual(len(body), 21 + 2 * (64 if kept else 52))

    def test_there_and_back(self):
        """What packs is unpacked to the same bytes and holds the same list; and so many bytes are saved, which is fewer than none for one curve."""
        files = [*pack_cases.that_pack(), *pack_cases.many_that_pack()]
        for data in files:
            packed, held = house.pack(data), house.parse(data)
            self.assertEqual((house.unpack(packed), self.held(packed)), (data, self.held(data)))
            self.assertEqual((house.parse(packed).packed, held.packed), (True, False))
            field, kept, count = 2 if held.count <= 4096 else 4, held.worsts is not None, len(held.curves)
            self.assertEqual(len(data) - len(packed), count * (6 + 16) - 27 - (4 - field) * (1 + kept) * count)
        for data in pack_cases.alone():
            self.assertEqual((house.pack(data), house.unpack(data)), (data, data))

    def test_kept_files(self):
        """The example is packed, and a sound list; the file that `save` has to write gets smaller as the page says, and so does a file with a curve between each two marks."""
        held = house.parse(read('examples/cushion.house'))
        flat = numbers([pattern for _, row in held.curves for pattern in row])
        self.assertTrue(held.packed)
        self.assertEqual(check(numbers(held.marks), 0.5, len(held.curves), flat, held.firsts(), numbers(held.params), worsts=held.worsts), (PASSED, 0, 0))
        rows = re.findall(r'(?m)^\| .* \| ([\d,]+) \| ([\d,]+) \| ([\d,]+) \| ([\d,]+) \| ([\d.]+) % \|$', read('docs/BENCH.md').decode('utf-8'))
        self.assertEqual(len(rows), 9)
        told = {}
        for *cells, share in rows:
            count, curves, before, after = (int(cell.replace(',', '')) for cell in cells)
            field = 2 if count <= 4096 else 4
            self.assertEqual((before, before - after, f'{100 * (before - after) / before:.1f}'), (26 + 24 * count + (78 + 2 * field) * curves, (14 + 2 * field) * curves - 27, share))
            told[count] = curves, before, after
        saved, packed = read('crates/save/stdout'), read('examples/cushion.house')
        self.assertEqual((told[500], told[85]), ((34, len(saved), len(house.pack(saved))), (8, len(house.unpack(packed)), len(packed))))
        for name in os.listdir(in_copy('examples')):
            data = read(f'examples/{name}')
            if name.endswith('.house') and data != packed:
                self.assertEqual((house.pack(data), house.unpack(data)), (data, data))

    def test_kept_inputs(self):
        """Each file that a program is kept with is packed and comes back, or is refused: by 12 if it is a whole one with curves that is not packed."""
        from vectors import files
        inputs = [data for _, data, _ in files.read()] + [read(f'crates/{name}') for name in ('listing/stdin', 'save/stdin', 'save/stdout', 'judge/stdin', 'path_out/stdin')]
        found = []
        for data in inputs:
            made, held = pack_cases.either(house.pack, data), house.parse(data)
            found.append(made if isinstance(made, int) else house.unpack(made) == data)
            self.assertEqual(made == 9, held is None or held.packed)
        self.assertNotIn(False, found)
        self.assertGreater(min(found.count(one) for one in (True, 9, 12)), 30)

    def test_refusals(self):
        """9 comes before 12, and 12 before 4; each is given to the wrong call too."""
        for data in [*pack_cases.apart(), *pack_cases.many_apart()]:
            self.assertEqual([pack_cases.either(call, data, room) for call in (house.pack, house.unpack) for room in (None, 0)], [12, 12, 9, 9])
        for data in pack_cases.no_files():
            self.assertEqual([pack_cases.either(call, data, room) for call in (house.pack, house.unpack) for room in (None, 0)], [9] * 4)
        for data in pack_cases.that_pack():
            packed = house.pack(data)
            self.assertEqual([pack_cases.either(call, one, 0) for call, one in ((house.pack, packed), (house.unpack, data))], [9, 9])
            for call, one, made in ((house.pack, data, packed), (house.unpack, packed, data)):
                self.assertEqual([pack_cases.either(call, one, len(made) - short) for short in (0, 1)], [made, 4])

    def test_packed_files_that_are_none(self):
        """What is taken of them are other mark numbers that still fit, fewer curves that end on the last mark, and a body that is well formed by either flag."""
        taken = [data for data in pack_cases.malformed() if house.parse(data)]
        self.assertTrue(all(pack_cases.either(house.pack, data) == 9 and house.pack(house.unpack(data)) == data for data in taken))
        self.assertEqual([sum(len(house.parse(data).curves) == count for data in taken) for count in (1, 2, 3, 13, 16)], [2, 2, 9, 1, 1])
        for count, kept in itertools.product((4096, 4097), (False, True)):
            wide = [True] * (2 + kept) if count > 4096 else [False] * (2 + kept)
            fits = [fit for pair in zip([True] * (2 + kept), wide) for fit in pair]
            self.assertEqual([house.parse(data) is not None for data in pack_cases.at_the_side(count, kept)], fits + [False] * 2)

    def test_prefixes_and_changes(self):
        """Every prefix of a packed file is none, but its marks; whatever byte is changed, what is still a packed file is unpacked and packed again to the same bytes."""
        for data in pack_cases.SMALL:
            marks = 20 + 16 * house.parse(data).count
            self.assertEqual([end for end in range(len(data)) if house.parse(data[:end])], [marks])
            for at, value in itertools.product(range(len(data)), range(256)):
                other = data[:at] + bytes([value]) + data[at + 1:]
                if house.parse(other):
                    self.assertEqual(house.pack(house.unpack(other)), other)

    def test_random_files(self):
        taken = 0
        for call, data in pack_cases.random_cases(random.Random(31), 300):
            made = pack_cases.either(pack_cases.CALLS[call], data)
            if isinstance(made, bytes):
                taken += 1
                self.assertEqual((house.unpack if call == 'pack' else house.pack)(made), data)
                self.assertEqual(self.held(made), self.held(data))
        self.assertGreater(taken, 500)


def cleaned(data, *rooms):
    """The cleaned file and the list, or the refusal."""
    try:
        return cleaning.salvage(data, *rooms)
    except Refused as refused:
        return refused.refusal


class Cleaning(Case):
    """House files without the marks that are out of range or pile up, by the document's text."""

    def test_marks(self):
        """Which marks are dropped and why, by hand."""
        inf, nan, above = math.inf, math.nan, math.nextafter(1e6, math.inf)
        for marks, want in (
                ([], []), ([(1, 2)], []), ([(1, 2), (1, 2)], ['1 EQUAL']), ([(1, 2), (1, 3), (0, 3)], []), ([(1, 2), (2, 1), (1, 2)], []),
                ([(1, 2), (nan, 2), (1, 2)], ['1 RANGE', '2 EQUAL']), ([(nan, nan), (nan, nan)], ['0 RANGE', '1 RANGE']), ([(1, 2), (1, inf), (-inf, 2), (3, 4)], ['1 RANGE', '2 RANGE']),
                ([(1e6, -1e6), (above, 0), (0, -above), (1e6, -1e6)], ['1 RANGE', '2 RANGE', '3 EQUAL']), ([(above, 0), (above, 0)], ['0 RANGE', '1 RANGE']),
                ([(0.0, -0.0), (-0.0, 0.0), (5e-324, 0.0), (0.0, 0.0)], ['1 EQUAL']), ([(1, 1)] * 11, [f'{i} EQUAL' for i in range(1, 11)])):
            text = f'KEPT {len(marks) - len(want)} DROPPED {len(want)}\n' + ''.join(f'DROP {line}\n' for line in want)
            file, said = cleaning.salvage(cleaning_cases.trace(*(patterns_of(*mark) for mark in marks)))
            left = [mark for i, mark in enumerate(marks) if not any(line.startswith(f'{i} ') for line in want)]
            self.assertEqual((said.decode('ascii'), file), (text, cleaning_cases.trace(*(patterns_of(*mark) for mark in left))))

    def test_bytes(self):
        """Tolerance and kept marks keep their bits, whatever they are; nothing else is left."""
        kept, odd = [MINUS, 1], INFINITY + 1
        whole = house.build(odd, kept + [0, 1] + [NAN, 0], [(0, [NAN] * 9)], [NAN] * 3, [2])
        want = b'\x0a\0\0\0\x01\0' + odd.to_bytes(8, 'little') + b'\x12\0\0\0\x02\0' + bytes(7) + b'\x80\x01' + bytes(7)
        for data in (whole, house.pack(whole)):
            self.assertEqual(cleaning.salvage(data), (want, b'KEPT 1 DROPPED 2\nDROP 1 EQUAL\nDROP 2 RANGE\n'))

    def hold(self, data):
        """Of a file that is cleaned: kept and dropped are all marks, each once; cleaned again it is the same bytes. How many are dropped."""
        held, (file, said) = house.parse(data), cleaning.salvage(data)
        first, *drops = said.decode('ascii').split('\n')[:-1]
        _, kept, _, dropped = first.split(' ')
        away = [int(line.split(' ')[1]) for line in drops]
        self.assertEqual((int(kept) + len(drops), int(dropped), away), (held.count, len(drops), sorted(set(away))))
        left = [pattern for i in sorted({*range(held.count)} - {*away}) for pattern in held.marks[2 * i:2 * i + 2]]
        self.assertEqual(file, house.build(held.tolerance, left))
        self.assertEqual(cleaning.salvage(file), (file, f'KEPT {kept} DROPPED 0\n'.encode('ascii')))
        self.assertTrue(len(file) <= len(data) and len(said) <= 55 + 21 * held.count)
        return len(drops)

    def test_cases(self):
        hand = random.Random(11)
        made = [*cleaning_cases.files(), *cleaning_cases.damaged_small(), *cleaning_cases.large_files(), *cleaning_cases.random_cases(hand, 300)]
        whole = {data for data in made if house.parse(data)}
        self.assertEqual({cleaned(data, 0, 0) for data in made if data not in whole}, {9})
        drops = list(map(self.hold, whole))
        self.assertGreater(min(drops.count(0), len(drops) - drops.count(0)), 100)

    def test_room(self):
        """Both slices have to suffice, and 9 comes first."""
        for data in (cleaning_cases.trace(), cleaning_cases.trace(*[cleaning_cases.A] * 12)):
            file, said = cleaning.salvage(data)
            full = len(file), len(said)
            self.assertEqual([cleaned(data, *room) for room in (full, (full[0] - 1, full[1]), (full[0], full[1] - 1), (0, 0))], [(file, said), 4, 4, 4])
            self.assertEqual([cleaned(data + b'\0', *room) for room in (full, (0, 0))], [9, 9])

    def test_program(self):
        """What the program writes at its limits: 9 for too long a file, whatever it holds, and then 2 above 512 marks."""
        most, more = map(cleaning_cases.long_trace, (512, 513))
        self.assertEqual(cleaning.piped(most), cleaning.salvage(most))
        longest = house.build(0, [0] * 8192, [(0, [0] * 9)] * 4095, [0] * 4096, [0] * 4095)
        self.assertEqual(len(longest), cleaning.MOST_BYTES)
        longer = house.build(0, [0] * 2 * 27132)
        for data, number in ((more, 2), (longest, 2), (more[:-1], 9), (longer, 9), (b'', 9)):
            self.assertEqual(cleaning.piped(data), (b'', f'REFUSED {number}\n'.encode('ascii')))


class Long(Case):
    """As many marks as a line of replay holds, and one more."""

    def test_fits(self):
        mark, other = words(patterns_of(1, 2)), word_of(1.0)
        direct = ('direct', 'direct_flat')
        for kind in [kind for kind in FITS if kind not in direct]:
            line = ' '.join([kind, word_of(0.5)] + [mark] * LINE_MARKS)
            self.assertEqual(self.answers([line, f'{line} {other}', f'{line} {mark}', f'{kind} {word_of(0.5)} {mark} {mark} {mark}']), ['6', 'BAD', 'BAD', '6'])
        for kind in direct:
            line = ' '.join([f'{kind} {words(patterns_of(0.5, 1, 0, 0, 1))}'] + [mark] * LINE_MARKS)
            self.assertEqual(self.answers([line, f'{line} {mark}', f'{line} {other}']), ['2', 'BAD', 'BAD'])

    def test_engines(self):
        """Every part is cut until it has two marks: both engines give a curve for each two, the same ones."""
        from vectors import outlines
        teeth = words(outlines.saw(LINE_MARKS))
        for kind, count in (('joined', LINE_MARKS - 1), ('ring', LINE_MARKS)):
            first, second = self.answers([f'{one} {word_of(0.0)} {teeth}' for one in (kind, f'{kind}_flat')])
            self.assertEqual((first == second, first.split(' ', 2)[:2]), (True, ['0', str(count)]))

    def test_packing(self):
        """A curve between each two of 5,000 marks, both ways; as long a file as there is room for, and a mark more."""
        from vectors import packing
        full, most = pack_cases.list_of(5000, 4999, True), (LINE_FILE - 20) // 16
        packed, longest, more = house.pack(full), pack_cases.marks_alone(most), pack_cases.marks_alone(most + 1)
        rows = [packing.row(*one) for one in (('pack', full), ('unpack', packed), *((call, data) for data in (longest, more) for call in packing.KINDS))]
        self.assertEqual([said for _, said in rows[-2:]], ['4', '4'])
        self.assertEqual(self.answers([line for line, _ in rows]), [said for _, said in rows])
        self.assertEqual(self.answers([f'pack {"0" * LINE_BYTES}', rows[1][0]]), ['BAD', rows[1][1]])

    def test_cleaning(self):
        """As long a file as there is room for, and a mark more; as long a list, and a mark more. Of more marks than any fit takes all are cleaned."""
        from vectors import cleaning as lines
        most = (LINE_FILE - 20) // 16
        ends = list(itertools.accumulate(len(f'DROP {i} RANGE\n') for i in range(LINE_MARKS)))
        dropped = sum(end + len('KEPT 0 DROPPED 6000\n') <= LINE_REPORT for end in ends)
        apart = cleaning_cases.A + cleaning_cases.B
        whole = [house.build(0, (apart * most)[:2 * count]) for count in (most, most + 1)] + [house.build(0, [NAN, 0] * count) for count in (dropped, dropped + 1)]
        rows = [lines.row(data) for data in [*whole, house.build(0, [NAN, 0] * 6000 + (apart * most)[:2 * most])]]
        self.assertEqual([said == '4' for _, said in rows], [False, True, False, True, False])
        self.assertEqual(self.answers([line for line, _ in rows]), [said for _, said in rows])

    def test_lists(self):
        """A curve between each two marks, in both forms: as it is, with the last curve off, and for a mark more."""
        from vectors import lists
        for ring, nine in itertools.product((False, True), repeat=2):
            marks = [float(value) for i in range(LINE_MARKS) for value in (i, i * i % 11)]
            ends = marks + marks[:2] * ring
            count = len(ends) // 2 - 1
            sound = lists.Claim(0.0, marks, count, [value for i in range(count) for value in straight(ends[2 * i:2 * i + 2], ends[2 * i + 2:2 * i + 4])], list(range(count)), [0.0] * count + [1.0], ring)
            if nine:
                sound = sound.kept()
            off = sound.but(curves=lists.put(sound.curves, sound.wide() * count - 1 - nine, 0.5))  # where the last one ends
            late = sound.but(firsts=lists.put(sound.firsts, count - 1, count))
            self.assertEqual([claim.answer() for claim in (sound, off, late)], [(PASSED, 0, 0), (FAULT_B, count - 1, count - 1), (FAULT_A, count - 1, 0)])
            more = lists.Claim(0.0, [0.0] * 2 * (LINE_MARKS + 1), 1, [0.0] * sound.wide(), [0], [0.0] * (LINE_MARKS + ring) + [1.0], ring, nine=nine, worsts=[0] * nine)
            self.assertEqual(more.answer()[0], PASSED)
            cases = [sound, off, late]
            self.assertEqual(self.answers([claim.line() for claim in [*cases, more]]), [lists.line_answer(claim.answer()) for claim in cases] + ['BAD'])


def kink(before, after):
    """The angle in degrees between the way into a joint and the way out of it, from control to joint and from joint to control."""
    (a, b), (c, d) = ([q - p for p, q in zip(curve[at:], curve[at + 2:at + 4])] for curve, at in ((before, 4), (after, 0)))
    return math.degrees(abs(math.atan2(a * d - b * c, a * c + b * d)))


def by_sheet(count):
    """The size of a block by the sheet of docs/BENCH.md, for 200 marks and more."""
    q, r = divmod(count, 200)
    return 200 if r >= 50 else 200 + (r - 50) // q


class Sheet(Case):
    def test_rule(self):
        """The sheet's division gives what the document counts down, and 30,049 is where the two part."""
        unlike = next(count for count in itertools.count(200) if by_sheet(count) != size_of(count))
        self.assertEqual((unlike, by_sheet(unlike), size_of(unlike)), (30049, 199, 198))

    def test_worked_examples(self):
        """Every number of the page's table is the document's, and the port's."""
        page = read('docs/BENCH.md').decode('utf-8')
        rows = re.findall(r'^\| (\d+) \| q = (\d+), r = (\d+) \| (\w+) \| (?:.* )?(\d+) \| (\d+) \| (.+) \|$', page, re.M)
        self.assertEqual(len(rows), 3)
        for count, q, r, missing, taken, size, begin in [[*row[:6], row[6].split(', ')] for row in rows]:
            lack, wanted = max(50 - int(r), 0), size_of(int(count))
            self.assertEqual(divmod(int(count), 200), (int(q), int(r)))
            self.assertEqual((missing, taken, size), (str(lack or 'none'), str(200 - wanted), str(wanted)))
            self.assertEqual(begin, [str(mark) for mark in range(0, int(count) - 1, wanted)])
            self.assertEqual(self.answers([f'size {count}', f'blocks {count}']), [f'0 {size}', f'0 {len(begin)}'])
        left = re.search(r'Of (\d+) marks three blocks of (\d+) leave (\d+); three of (\d+) would leave (\d+)', page)
        count, size, rest, larger, less = map(int, left.groups())
        self.assertEqual((size_of(count), size + 1, count - 3 * size, count - 3 * larger), (size, larger, rest, less))
        self.assertTrue(less < 50 <= rest)


class Other(Case):
    def test_examples(self):
        self.says(2, 'usage: tools/make_examples.py', 'tools/make_examples.py', 'x')
        got, out, _ = self.call('tools/make_examples.py')
        self.assertEqual((got, out.count('as kept')), (0, 12), out)
        os.remove(in_copy('examples/luff.house'))
        self.assertEqual(self.call('tools/make_examples.py')[0], 1)
        self.assertEqual(self.call('tools/make_examples.py', '--write')[0], 0)
        self.assertTrue(filecmp.cmp(os.path.join(ROOT, 'examples/luff.house'), in_copy('examples/luff.house'), shallow=False))

    def test_no_kink_where_blocks_meet(self):
        """The hood's three blocks meet at marks 200 and 400. There the way in and the way out are one."""
        pieces = [line.split() for line in self.program('listing', read('examples/hood.house')).decode('ascii').split('\n')[1:-1]]
        curves = [(piece[1], numbers([pattern_of(text) for text in piece[2:]])) for piece in pieces]
        met = [kink(before, after) for (_, before), (first, after) in zip(curves, curves[1:]) if first in ('200', '400')]
        self.assertEqual(len(met), 2)
        self.assertLess(max(met), 1e-9)

    def test_run_program(self):
        self.says(2, 'usage: tools/run_program', 'tools/run_program')
        self.says(2, 'there is no target/bin/nothing yet', 'tools/run_program', 'nothing')

    def test_respell(self):
        self.says(2, 'usage: tools/respell.py', 'tools/respell.py', '--name')
        self.says(2, 'there is no folder crates here', 'tools/respell.py')  # it works on the folder that it is run in

    def test_table_of_the_gate(self):
        self.says(2, 'usage: tools/gate_table.py', 'tools/gate_table.py')
        self.says(2, 'no line of a crate', 'tools/gate_table.py', in_copy('crates.txt'))
        log = write('gate.log', '''rt: mast is kept: an earlier run on this machine proved the same files over the same libraries
== loft
fn loft::one: proved
logic=proved functions=4 sum=dac8208d650f15bf native=nat,char,string logic-built=trusted libraries-built=trusted statements=trusted
rt: loft proved
== loft: its tests
logic=proved tests=2 functions=6 sum=dac8208d650f15bf native=nat,char,string
rt: loft: its tests are proved
== sail
logic=proved target=x86_64-unknown-linux-gnu functions=12 axioms=8 sum=dac8208d650f15bf
rt: sail proved
rt: loft: trying its must-fail edits (3)
rt: must-fail loft/gap.edit: refused, as it must be: proofs/a.antt:1:2: error
rt: must-fail loft/turn.edit: BAD EDIT: it changes nothing
rt: must-fail loft/wide.edit: refused, as it must be
rt: must-fail mast/step.edit: refused, as it must be
rt: loft: its tests passed
''')
        got, out, _ = self.call('tools/gate_table.py', log)
        self.assertEqual((got, out.splitlines()[2:]), (0, ['| sail | now | 12 | 0 | 0 |', '| loft | now | 4 | 2 | 1 |', '| mast | kept | - | 1 | 0 |', '| all | 2 now, 1 kept | 16 | 3 | 1 |']))

    def test_design_counts_says_what_is_wrong(self):
        for words in (['--place'], ['a', 'b'], ['']):
            self.says(2, 'usage: tools/design_counts.py', 'tools/design_counts.py', *words)
        self.says(2, 'nosuch: git has no such commit here', 'tools/design_counts.py', 'nosuch')

    def test_design_counts(self):
        twin = 'fn %s(x: %s) -> %s {\n    let mut a = x;\n    a += %d;\n    a += x;\n    a += x;\n    a += x;\n    a\n}\n\n'
        source = (
            '// while it is a comment, nothing counts\n#[derive(Clone, Copy)]\nenum Found {\n    At(usize),\n    Lost,\n}\n\nenum Made {\n    Bytes(usize),\n    Refused(u32),\n}\n\n'
            'fn put_gate(kind: u64) -> u32 {\n    while i < n {\n        i += 1;\n    }\n    0\n}\n\n'
        ) + twin % ('one', 'u32', 'u32', 1) + twin % ('two', 'u64', 'u64', 2)
        more = {'1 enums of the shape of Option': 1, '1 enums of the shape of Result': 1, '1 refusals by number in an enum or a constant': 1, '1 functions that answer a refusal by number, or 0': 1,
                '2 functions alike but for names, types and constants': 1, '3 loops that count by hand': 1, '4 enums and structs without derives': 1, '7 a kind by number that picks the step': 1}

        def counted():
            got, out, _ = self.call('tools/design_counts.py')
            self.assertEqual(got, 0)
            return {line[7:]: int(line[:5]) for line in out.splitlines()}

        before = counted()
        path = write('crates/loft/src/lib.rt', source)
        try:
            after = counted()
            self.assertEqual({kind: after[kind] - before[kind] for kind in after if after[kind] != before[kind]}, more)
            self.assertIn('\n         crates/loft/src/lib.rt:3 Found\n', self.call('tools/design_counts.py', '--places')[1])
        finally:
            shutil.rmtree(os.path.dirname(os.path.dirname(path)))

    def test_map(self):
        self.says(2, 'usage: tools/draw_map.py', 'tools/draw_map.py', 'x')
        self.assertEqual(self.call('tools/draw_map.py'), (0, '', ''))

    def test_map_of_other_crates(self):
        crates, page = read('crates.txt'), read('docs/MAP.md')
        try:
            write('crates.txt', crates + b'loft: fit\n')
            self.assertEqual(self.call('tools/draw_map.py')[0], 1)
            self.assertEqual(self.call('tools/draw_map.py', '--write')[0], 0)
            self.assertIn(b'    fit --> loft\n', read('docs/MAP.md'))
            write('crates.txt', '')
            self.says(2, 'has no crates', 'tools/draw_map.py')
            write('crates.txt', b'junk\n' + crates)
            self.says(2, 'line 1 is no crate', 'tools/draw_map.py')
            write('crates.txt', crates)
            write('docs/MAP.md', page.replace(b'`Block.block_size`', b'`Block.block_sizes`').replace(b'`Fit.cubic_of`', b'`Fits.cubic_of`'))
            got, out, _ = self.call('tools/draw_map.py')
            self.assertEqual((got, out.count('\n')), (1, 2), out)
            write('docs/MAP.md', 'no map\n')
            self.says(2, 'has no place for the drawing', 'tools/draw_map.py')
        finally:
            write('crates.txt', crates)
            write('docs/MAP.md', page)


RT = """#!/bin/sh
# stands in for rt: says that a crate is proved, leaves what is built, and ends with $ENDS; rt run then runs the program, which says something and ends with 9
echo "$* $(basename "$PWD")" >>"$RUNS"
{ echo 'rt: chose --jobs 2 for float'; echo 'logic=proved functions=4 sum=dac8208d650f15bf'; } >&2
[ "${ENDS:-0}" -eq 0 ] || { echo 'rt: the library root did not build' >&2; exit "$ENDS"; }
name=$(basename "$PWD")
mkdir -p out
[ "$1" = run ] || { echo "$name" >"out/lib$name.a"; exit; }
echo "$name" >"out/$name"
chmod 755 "out/$name"
echo "rt: running out/$name; to give it other input, run that file yourself" >&2
echo 'what it writes'
echo 'what it complains of' >&2
exit 9
"""


class Builder(support.Case):
    """tools/build, with a stand-in for rt."""

    def setUp(self):
        rt = write('kit/bin/rt', RT, runs=True)
        self.environment = {'PATH': os.path.dirname(rt) + os.pathsep + os.environ['PATH'], 'RUNS': write('runs', '')}
        self.addCleanup(self.remove)

    def remove(self):
        for name in ('size_cases', 'wesalondo'):
            shutil.rmtree(in_copy(f'crates/{name}/out'), ignore_errors=True)
        shutil.rmtree(in_copy('target/staticlib'), ignore_errors=True)
        if os.path.exists(in_copy('target/bin/size_cases')):
            os.remove(in_copy('target/bin/size_cases'))

    def build(self, *words_, **more):
        got, out, said = self.call('tools/build', *words_, **self.environment, **more)
        return got, out.splitlines(), said

    def runs(self):
        return read('runs').decode('ascii').splitlines()

    def test_words(self):
        self.says(2, 'usage: tools/build', 'tools/build', '--what')
        self.says(2, 'no program and no static library nothing', 'tools/build', 'size_cases', 'nothing')
        self.says(2, 'no program and no static library float', 'tools/build', 'float')
        bare = write('bare/python3', f'#!/bin/sh\nexec "{sys.executable}" "$@"\n', runs=True)
        self.says(2, 'rt is not on the path', 'tools/build', 'size_cases', PATH=os.path.dirname(bare))

    def test_program(self):
        """rt's lines and its own are printed, and nothing of the program, whose status does not count; of the crates each is called proved once."""
        got, lines, said = self.build('size_cases')
        self.assertEqual((got, said, self.runs()), (0, '', ['run size_cases']))
        self.assertEqual(lines[:2], ['rt: chose --jobs 2 for float', 'logic=proved functions=4 sum=dac8208d650f15bf'])
        self.assertRegex(lines[2], '^build: float proved [(][0-9]+ s[)]$')
        self.assertTrue(lines[3].startswith('rt: running out/size_cases; '))
        self.assertEqual(lines[-2:], ['build: size_cases was proved before', 'build: target/bin/size_cases is there'])
        self.assertEqual(len([line for line in lines if line.startswith('build: float ')]), 1)
        self.assertEqual(read('target/bin/size_cases'), b'size_cases\n')
        self.assertTrue(os.access(in_copy('target/bin/size_cases'), os.X_OK))

    def test_library(self):
        self.assertEqual(self.build('wesalondo')[0], 0)
        self.assertEqual((self.runs(), read('target/staticlib/libwesalondo.a')), (['lib wesalondo'], b'wesalondo\n'))

    def test_not_proved(self):
        """rt's status, and one line that says what it ended with; what was built before stays."""
        write('target/bin/size_cases', 'before')
        for ends in (1, 2, 3):
            got, _, said = self.build('size_cases', ENDS=str(ends))
            self.assertEqual((got, said), (ends, f"build: size_cases is not built: rt run ended with status {ends}, saying 'rt: the library root did not build'\n"))
        self.assertEqual(read('target/bin/size_cases'), b'before')

    def test_after_ci(self):
        """What rt ci has left is taken, and rt is not called; a program that is not there is built, and so is an archive where there is nothing to make it over."""
        write('crates/size_cases/out/size_cases', 'left by rt ci', runs=True)
        self.assertEqual(self.build('--after-ci', 'size_cases'), (0, ['build: target/bin/size_cases is there'], ''))
        self.assertEqual((self.runs(), read('target/bin/size_cases')), ([], b'left by rt ci'))
        self.remove()
        got, lines, _ = self.build('--after-ci', 'size_cases', 'wesalondo')
        self.assertEqual((got, self.runs()), (0, ['run size_cases', 'lib wesalondo']))
        self.assertEqual([line for line in lines if line.endswith(' is there')], ['build: target/bin/size_cases is there', 'build: target/staticlib/libwesalondo.a is there'])


class Paths(Case):
    """Path data by the document's text (tools/shared/path_data.py), and the port beside it."""

    def refusal(self, call, *rest):
        try:
            call(*rest)
        except Refused as refused:
            return refused.refusal
        return 0

    def test_numbers(self):
        for value, text in (
                (0.0, '0'), (-0.0, '0'), (0.5, '0.5'), (5.0, '5'), (0.12, '0.12'), (120.0, '120'), (0.0625, '0.063'), (-0.0625, '-0.063'), (0.1875, '0.188'), (0.0005, '0.001'), (-0.0005, '-0.001'),
                (1.0005, '1'), (-0.0004999, '0'), (5e-324, '0'), (1e9, '1000000000'), (-999999999.9999, '-1000000000'), (999999999.999, '999999999.999'), (10.01, '10.01'), (7.0, '7')):
            self.assertEqual(written(value), text)

    def test_numbers_by_fractions(self):
        hand = random.Random(21)
        for value in path_cases.NUMBERS + [path_cases.random_number(hand) for _ in range(3000)]:
            above = abs(Fraction(value)) * 1000 + Fraction(1, 2)
            count = above.numerator // above.denominator
            text = written(value)
            self.assertEqual(Fraction(text), Fraction(count, 1000) * (-1 if value < 0 else 1))
            self.assertRegex(text, r'^(0|-?0\.[0-9]{0,2}[1-9]|-?[1-9][0-9]*(\.[0-9]{0,2}[1-9])?)$')

    def test_grammar(self):
        for texts, want in ((path_cases.TAKEN, 0), (path_cases.OUTSIDE, 11), (path_cases.LARGE, 10), (path_cases.BOTH, 11)):
            for text in texts:
                self.assertEqual(self.refusal(imported, text), want, text)

    def test_lines(self):
        self.assertEqual(imported('M0 0L4 0 4 4Z'), ([straight((0.0, 0.0), (4.0, 0.0)), straight((4.0, 0.0), (4.0, 4.0)), straight((4.0, 4.0), (0.0, 0.0))], True))
        self.assertEqual([len(imported(text)[0]) for text in ('M0 0', 'M0 0Z', 'M0 0 0 0Z', 'M0 0L1 0L-0 .0Z', 'M0 0L1 0L0 .001Z')], [0, 0, 1, 2, 3])
        self.assertEqual([word_of(value) for value in imported('M-0-0-0-0')[0][0]], [word_of(0.0)] * 8)
        self.assertEqual((self.refusal(imported, 'M0 0 1 1', 7), self.refusal(imported, 'M0 0 1 1', 8), self.refusal(imported, 'M0 0 1 1e', 7)), (4, 0, 11))

    def test_order_of_refusals(self):
        arch, beyond = path_cases.ARCH, path_cases.BEYOND
        for ring, curves, want in (
                (False, [arch[:2] + [beyond] + arch[3:], arch[:5] + [math.nan] + arch[6:]], 5), (False, [arch, arch[:5] + [-beyond] + arch[6:]], 10), (False, [arch, arch], 12), (True, [arch], 12), (False, [], 12), (False, [arch], 0)):
            self.assertEqual(self.refusal(exported, curves, ring), want)

    def test_there_and_back(self):
        """What is exported is imported as so many curves that meet, each number the nearest to its decimal, and exported again to the same text."""
        hand, trips = random.Random(22), 0
        for ring, curves in [*path_cases.lists(), *(path_cases.random_list(hand) for _ in range(500))]:
            if not self.refusal(exported, curves, ring):
                text, trips = exported(curves, ring), trips + 1
                again, closed = imported(text)
                self.assertEqual((len(again), closed, exported(again, ring)), (len(curves), ring, text))
                self.assertEqual([written(value) for curve in again for value in curve], [written(value) for curve in curves for value in curve])
        self.assertGreater(trips, 300)

    def test_port(self):
        from vectors import paths
        for rows in (paths.rows(), list(paths.random_rows(23, 1500))):
            for (line, want), said in zip(rows, self.answers([line for line, _ in rows])):
                self.assertEqual(said, want, line[:300])


def page(name):
    """A file of the repository; the copy has neither the readme nor the bindings."""
    with open(os.path.join(ROOT, name), encoding='utf-8') as file:
        return file.read()


class Bindings(Case):
    """The readme, the crate, the header and the crate for Rust have the same calls and refusals."""

    def test_calls(self):
        table = page('README.md').split('| to do | call |')[1].split('\n\n')[0]
        told = {'wes_' + name for row in table.split('\n') for name in re.findall(r'`(?:\w+::)?(\w+)`', row.rpartition(' | ')[2])}
        places = {
            'crates/wesalondo/src/lib.rt': r'extern "C" fn (wes_\w+)\(', 'bindings/c/wesalondo.h': r'(?m)^[a-z].* \**(wes_\w+)\(',
            'bindings/rust/src/sys.rs': r'pub fn (wes_\w+)\(', 'docs/PROMISES.md': r'`(wes_\w+)`'}
        for name, pattern in places.items():
            self.assertEqual(set(re.findall(pattern, page(name))), told, name)

    def test_refusals(self):
        told = re.findall(r'(?m)^\| ([0-9]+) \|', page('README.md'))
        self.assertEqual(re.findall(r'WES_\w+ = ([0-9]+)', page('bindings/c/wesalondo.h')), ['0', *told])
        self.assertEqual(re.findall(r'Refusal::\w+ => ([0-9]+),', page('bindings/rust/src/refusal.rs')), told)


if __name__ == '__main__':
    sys.exit(support.main())
