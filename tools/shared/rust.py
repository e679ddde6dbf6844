"""compare's Rust side: built against a checkout of flo_curves, and asked for answers."""
import os
import re
import shutil
import subprocess

from shared.command import Stop
from shared.table import refusal

ROOT = os.path.dirname(os.path.dirname(os.path.dirname(os.path.realpath(__file__))))
WORK = os.path.join(ROOT, 'target', 'compare')
ZERO, MINUS_ZERO = '0' * 16, '8' + '0' * 15


def quoted(text):
    """A string of a Cargo.toml."""
    return '"' + text.replace('\\', '\\\\').replace('"', '\\"') + '"'


def package_name(checkout):
    """The name in the table [package] of the checkout's Cargo.toml."""
    manifest = os.path.join(checkout, 'Cargo.toml')
    if not os.path.isfile(manifest):
        raise Stop(f'{checkout} has no Cargo.toml: give a checkout of flo_curves')
    with open(manifest, encoding='utf-8', errors='replace') as file:
        text = file.read()
    tables = re.split(r'^\s*(\[.*?\])\s*(?:#.*)?$', text, flags=re.M)
    for head, body in zip(tables[1::2], tables[2::2]):
        name = re.search(r'^\s*name\s*=\s*["\']([^"\']+)["\']', body, re.M)
        if head == '[package]' and name:
            return name[1]
    if '[workspace]' in tables[1::2]:
        raise Stop(f'{manifest} is that of a workspace: give the folder of flo_curves in it')
    raise Stop(f'{manifest} names no package: give a checkout of flo_curves')


def build(checkout):
    """The program's path. cargo runs in the checkout, so that settings found from there count."""
    checkout = os.path.realpath(checkout)
    name = package_name(checkout)
    if not shutil.which('cargo'):
        raise Stop('cargo is not on the path, and the Rust side is built by it')
    os.makedirs(WORK, exist_ok=True)
    manifest = os.path.join(WORK, 'Cargo.toml')
    source = os.path.join(ROOT, 'compare', 'src', 'main.rs')
    lines = [
        '[package]', 'name = "compare"', 'version = "0.0.0"', 'edition = "2021"',
        '[[bin]]', 'name = "compare"', f'path = {quoted(source)}',
        '[dependencies]', f'flo_curves = {{ path = {quoted(checkout)}, package = {quoted(name)} }}',
        '[workspace]', '']
    with open(manifest, 'w', encoding='utf-8') as file:
        file.write('\n'.join(lines))
    words = ['cargo', 'build', '--release', '--quiet', '--manifest-path', manifest, '--target-dir', os.path.join(WORK, 'build')]
    if subprocess.run(words, cwd=checkout).returncode:
        raise Stop(f'the Rust side was not built from {checkout} (see above)')
    return os.path.join(WORK, 'build', 'release', 'compare')


def answers(command, cases, side):
    """One line of answer for each case."""
    text = ''.join(case + '\n' for case in cases)
    done = subprocess.run(command, input=text.encode('latin-1'), stdout=subprocess.PIPE)
    lines = done.stdout.decode('latin-1').split('\n')[:-1]
    if done.returncode or len(lines) != len(cases):
        raise Stop(f'the {side} ended with status {done.returncode} after {len(lines)} of {len(cases)} answers')
    return lines


class Rust:
    """The Rust side of one checkout."""

    def __init__(self, checkout):
        self.program = build(checkout)
        self.known = {}

    def ask(self, cases):
        """For each case the Rust's answer, and what is noted of its run: `lost`, `depth D` or nothing."""
        new = [case for case in dict.fromkeys(cases) if case not in self.known]
        if new:
            for case, line in zip(new, answers([self.program], new, 'Rust')):
                said, _, note = line.partition('\t')
                self.known[case] = said, note
        return [self.known[case] for case in cases]

    def answer_all(self, cases):
        """What the document has for each case: the table's refusal, 6 where an operation was not finite, and the Rust's numbers."""
        refused = [refusal(case.split(' ')) for case in cases]
        taken = [case for case, number in zip(cases, refused) if not number]
        said = iter(self.ask(taken))
        return [str(number) if number else accepted(case, *next(said)) for case, number in zip(cases, refused)]


def accepted(case, said, note):
    """6 or the numbers. The sign of a zero that Newton refinement ends in is left open by the Rust; the document has plus zero."""
    if note == 'lost':
        return '6'
    if not said.startswith('0 '):
        raise Stop(f'the Rust says {said} to: {case[:200]}')
    if case.startswith('refine '):
        return said.replace(MINUS_ZERO, ZERO)
    return said
