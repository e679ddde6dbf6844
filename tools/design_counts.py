#!/usr/bin/env python3
"""design_counts.py [--places] [COMMIT]: counts the places of older forms in the sources, a line for each kind; docs/DESIGN-PASS.md's table is made of them.

It counts this tree, or a commit; --places lists each place too. It reads crates/*/src, and of crates/*/proofs the answers. It goes by the text, so a place that it
lists may be kept for a reason that stands beside it, and a place of another spelling escapes it.
Exit status: 0 counted; 2 nothing could be counted.
"""
import collections
import glob
import io
import itertools
import os
import re
import subprocess
import sys
import tarfile

sys.dont_write_bytecode = True
sys.path.insert(0, os.path.dirname(os.path.realpath(__file__)))

from shared.command import Stop, run
from shared.kept import ROOT

USAGE = 'usage: tools/design_counts.py [--places] [COMMIT]'

OPTIONS = '1 enums of the shape of Option'
RESULTS = '1 enums of the shape of Result'
MIXED = '1 other enums with a refusal among their cases'
NUMBERS = '1 refusals by number in an enum or a constant'
ANSWERED = '1 functions that answer a refusal by number, or 0'
FLAGS = '1 a flag with a value beside it'
TWINS = '2 functions alike but for names, types and constants'
LOOPS = '3 loops that count by hand'
BY_HAND = '4 equality, order and conversion by hand'
BARE = '4 enums and structs without derives'
CLAUSES = '5 clauses that stand in three contracts or more'
GROUPS = '5 parameters that travel together (three or more, in four functions or more)'
LENGTHS = "6 a buffer's length or count beside it in the parameters"
SWITCHES = '7 a kind by number that picks the step'
SEARCHES = '8 answers that are only a search'
REPEATED = '8 a line of forty signs or more that three answers or more of a function repeat'
KINDS = [OPTIONS, RESULTS, MIXED, NUMBERS, ANSWERED, FLAGS, TWINS, LOOPS, BY_HAND, BARE, CLAUSES, GROUPS, LENGTHS, SWITCHES, SEARCHES, REPEATED]

WANTED = re.compile(r'crates/[^/]+/(src/.*\.rt|proofs/.*Answers\.antt)$')
ENUM = re.compile(r'\benum (\w+)[^{;]*\{((?:[^{}]|\{[^{}]*\})*)\}')
STRUCT = re.compile(r'\bstruct (\w+)[^{;]*\{([^{}]*)\}')
DECLARED = re.compile(r'((?:#\[[^\]]*\]\s*)*)(?:pub )?(struct|enum) (\w+)')
FUNCTION = re.compile(
    r'\bfn (\w+)(?:<[^>]*>)?\(([^)]*(?:\([^)]*\)[^)]*)*)\)\s*(?:->\s*([^\n{]+?))?\s*(?:\n((?:\s*(?:requires|ensures|ghost)[^\n]*\n)*))?\s*\{'
)
BODY = re.compile(r'^(\s*)((?:pub )?(?:extern "C" )?fn (\w+)[^{]*?\{.*?^\1\})', re.M | re.S)
KEPT_WORDS = {'fn', 'let', 'mut', 'if', 'else', 'while', 'for', 'in', 'return', 'match', 'pub'}


def files_of_tree():
    names = glob.glob(os.path.join(ROOT, 'crates', '*', '*', '**', '*.*t*'), recursive=True)
    for path in sorted(names):
        name = os.path.relpath(path, ROOT)
        if WANTED.match(name):
            with open(path, encoding='utf-8') as file:
                yield name, file.read()


def files_of_commit(commit):
    made = subprocess.run(['git', '-C', ROOT, 'archive', '--format=tar', commit, '--', 'crates'], capture_output=True)
    if made.returncode != 0:
        raise Stop(f'{commit}: git has no such commit here, or it has no crates')
    with tarfile.open(fileobj=io.BytesIO(made.stdout)) as tar:
        for member in sorted(tar.getmembers(), key=lambda member: member.name):
            if WANTED.match(member.name):
                yield member.name, tar.extractfile(member).read().decode('utf-8')


def line_of(text, at):
    return text.count('\n', 0, at) + 1


def bare(text):
    """The text with its comments blanked, so that every place keeps its line."""
    return re.sub(r'//[^\n]*', lambda comment: ' ' * len(comment.group()), text)


def cases_of(body):
    """The cases of an enum's body: a name, and whether it holds values."""
    flat = re.sub(r'\{[^{}]*\}|\([^()]*\)', '@', body)
    return [(case.strip().rstrip('@').strip(), case.strip().endswith('@')) for case in flat.split(',') if case.strip()]


def kind_of_enum(cases):
    """The kind of an older form that an enum is, or None."""
    names = {name for name, _ in cases}
    holding = sum(holds for _, holds in cases)
    if len(cases) == 2 and holding == 1 and 'Refused' not in names:
        return OPTIONS
    if len(cases) == 2 and holding == 2 and names & {'Refused', 'Stopped', 'Failed'}:
        return RESULTS
    return MIXED if names & {'Refused', 'Lost', 'Stop'} else None


def shape_of(body):
    """A function's text with its names, types and constants blanked."""
    words = re.findall(r'\w+|[^\w\s]', re.sub(r'requires \{.*\}|ensures[^{]*\{.*\}', '', body))
    return ' '.join(word if word in KEPT_WORDS or not re.match(r'\w', word) else 'x' for word in words)


class Counts:
    def __init__(self):
        self.found = {kind: [] for kind in KINDS}
        self.clauses = collections.defaultdict(list)
        self.groups = collections.defaultdict(list)
        self.shapes = collections.defaultdict(list)

    def read_answers(self, path, text):
        lines = collections.Counter()
        for answer in re.split(r'\n(?=pub )', text)[1:]:
            alone = re.match(r'pub (\S+) :.*\n(?:unfolding.*\n)*\S+[^=\n]*= search rules\s*$', answer.strip())
            if alone:
                self.found[SEARCHES].append(f'{path}: {alone.group(1)}')
            for line in {line.strip() for line in answer.split('\n') if re.match(r'\s+let .{40,} in$', line)}:
                lines[line] += 1
        self.found[REPEATED] += [f'{path}: {count} times {line[:90]}' for line, count in lines.items() if count >= 3]

    def read_source(self, path, whole):
        text = bare(whole)

        def add(kind, match, name=''):
            self.found[kind].append(f'{path}:{line_of(text, match.start())} {name}'.rstrip())

        for enum in ENUM.finditer(text):
            kind = kind_of_enum(cases_of(enum.group(2)))
            if kind:
                add(kind, enum, enum.group(1))
        for number in re.finditer(r'\bRefused\(u32\)|^pub const \w+: u32 = \d+;', text, re.M):
            if 'Refused' in number.group() or path.endswith('refusal.rt'):
                add(NUMBERS, number)
        for struct in STRUCT.finditer(text):
            if re.search(r'\b(fine|holds|small): bool', struct.group(2)):
                add(FLAGS, struct, struct.group(1))
        for function in FUNCTION.finditer(text):
            self.read_function(path, text, function, add)
        for body in BODY.finditer(text):
            if body.group(2).count('\n') >= 6:
                self.shapes[shape_of(body.group(2))].append(f'{path}:{line_of(text, body.start())} {body.group(3)}')
        for loop in re.finditer(r'^\s*(while\b|loop\b)', text, re.M):
            add(LOOPS, loop)
        for declared in DECLARED.finditer(text):
            if 'derive' not in declared.group(1):
                add(BARE, declared, declared.group(3))

    def read_function(self, path, text, function, add):
        name, params, result, contract = (part or '' for part in function.groups())
        for_c = '/wesalondo/' in path
        if result.strip() == 'u32' and not for_c and re.search(r'gate|refus|crowded|put_', name):
            add(ANSWERED, function, name)
        if re.search(r'^(is_same|same|equal|same_\w+|less|as_listed|refusal_of|refusal_in)$', name):
            add(BY_HAND, function, name)
        if re.search(r'\bkind: u\d+', params):
            add(SWITCHES, function, name)
        for clause in re.findall(r'requires[^{]*\{ (.*) \}', contract):
            self.clauses[clause].append(name)
        if for_c:
            return
        each = [' '.join(param.split()) for param in params.split(',') if ':' in param]
        names = [param.split(':')[0].strip() for param in each]
        lent = [param for param in each if '&' in param]
        for size in range(3, len(lent) + 1):
            for group in itertools.combinations(lent, size):
                self.groups[group].append(name)
        if 'count' in names and ('curves' in names or 'firsts' in names):
            add(LENGTHS, function, name)

    def close(self):
        """What only all files together tell."""
        self.found[CLAUSES] = [f'{len(who)} times {clause}' for clause, who in self.clauses.items() if len(who) >= 3]
        often = [(group, who) for group, who in self.groups.items() if len(who) >= 4]
        largest = [group for group, who in often if not any(set(group) < set(other) and len(more) >= len(who) // 2 for other, more in often)]
        self.found[GROUPS] = [f'{len(self.groups[group])} functions: {", ".join(group)}' for group in largest]
        self.found[TWINS] = [' ~ '.join(who) for who in self.shapes.values() if len(who) >= 2]
        return self.found


def places(files):
    counts = Counts()
    for path, text in files:
        if path.endswith('.antt'):
            counts.read_answers(path, text)
        else:
            counts.read_source(path, text)
    return counts.close()


def main(words):
    commits = [word for word in words if word != '--places']
    if len(commits) > 1 or any(word.startswith('-') or not word for word in commits):
        raise Stop(USAGE)
    files = list(files_of_commit(commits[0]) if commits else files_of_tree())
    if not files:
        raise Stop('there are no sources in crates/*/src')
    for kind, found in places(files).items():
        print(f'{len(found):5}  {kind}')
        if '--places' in words:
            for place in found:
                print(f'         {place}')
    return 0


if __name__ == '__main__':
    run('tools/design_counts.py', main)
