#!/usr/bin/env python3
"""gate_table.py LOG: what the gate did, from a file of what .ci/run printed: for each crate whether it was proved in that run or kept from an earlier one, its functions, its edits that were refused, and the others.

rt ci prints no seconds. It prints the functions of a crate where it proves it; of one that is kept they are not known, and `-` stands for them.
"""
import re

from shared.command import Stop, run

BEGUN = re.compile(r'== (\w+)$')
COUNTED = re.compile(r'logic=proved (?:\S+ )*?functions=(\d+) ')
PROVED = re.compile(r'rt: (\w+) (proved$|is kept: )')
EDIT = re.compile(r'rt: must-fail (\w+)/\S+: (refused, as it must be|\S+)')


def crates_of(lines):
    """The crates, each with how it was proved, its functions or None, how many edits were refused, and how many not."""
    crates, counts, at = {}, {}, None
    for line in lines:
        begun, counted, proved, edit = (pattern.match(line) for pattern in (BEGUN, COUNTED, PROVED, EDIT))
        if begun:
            at = begun[1]
        elif counted and at:
            counts[at] = int(counted[1])
        elif proved:
            crates[proved[1]] = ['now' if proved[2] == 'proved' else 'kept', counts.get(proved[1]) if proved[2] == 'proved' else None, 0, 0]
        elif edit and edit[1] in crates:
            crates[edit[1]][2 if edit[2].startswith('refused') else 3] += 1
    return crates


def table(crates):
    """The rows, the crates with the most functions first, and the sums."""
    rows = sorted(crates.items(), key=lambda row: (-(row[1][1] or 0), -row[1][2], row[0]))
    now = sum(how == 'now' for how, *_ in crates.values())
    sums = [sum(number or 0 for number in column) for column in list(zip(*crates.values()))[1:]]
    rows.append(('all', [f'{now} now, {len(crates) - now} kept', *sums]))
    lines = [f'| {name} | {how} | {"-" if functions is None else functions} | {refused} | {others} |' for name, (how, functions, refused, others) in rows]
    return '\n'.join(['| crate | proved | functions | edits refused | other edits |', '|---|---|---|---|---|'] + lines)


def main(words):
    if len(words) != 1:
        raise Stop('usage: tools/gate_table.py LOG')
    with open(words[0], encoding='utf-8', errors='replace') as log:
        crates = crates_of(log.read().splitlines())
    if not crates:
        raise Stop(f'{words[0]} has no line of a crate that was proved')
    print(table(crates))
    return 0


if __name__ == '__main__':
    run('gate_table', main)
