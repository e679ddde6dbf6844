#!/usr/bin/env python3
"""graph.py ARCHIVE HEADER: which functions of libwesalondo.a call which, and how much stack they take, read out of its code.

The second engine is for boards with a small stack. So of each of its calls this tests that no function which it leads to calls itself, not by way of others
either; that every call on the way names a function, and out of the archive only memcpy and memset; and that no function on it has a large frame. What a call can
take of the stack at most follows from the code then, whatever the input, and must be within the header's figure. The first engine calls itself, and that must
be found. Of the archive as a whole it tests that it wants no other name from outside than these two.

It needs Python alone. The code is taken apart here, by the instructions of x86-64 that the kit's compiler writes: one that is not known here, or that does not
fit the others, is told as a failure. Exit status: 0 all passed; 1 something failed; 2 there is no such archive or header, or it is none.
"""
import re
import struct
import sys
from collections import namedtuple

SECOND = ('wes_fit_curve_cubic_flat', 'wes_fit_joined_flat', 'wes_fit_ring_flat')
FIRST = ('wes_fit_curve_cubic', 'wes_fit_joined', 'wes_fit_ring')
OUTSIDE = {'memcpy', 'memset'}  # what the archive asks of whoever links it; their own stack is not counted
LARGE = 4096 + 256  # more than this is a large frame: a block of a ring is 200 marks, in 3,200 bytes


class Unknown(Exception):
    """Code that is not understood here."""


# ---- the archive: its functions, each a section of its own

def objects(data):
    """The files in an archive, but for its index and its table of names."""
    if not data.startswith(b'!<arch>\n'):
        raise ValueError('no archive')
    at = 8
    while at < len(data):
        name, size = data[at:at + 16].decode().strip(), int(data[at + 48:at + 58])
        if name not in ('/', '//'):
            yield data[at + 60:at + 60 + size]
        at += 60 + size + size % 2


def text(data, at):
    return data[at:data.index(b'\0', at)].decode()


Section = namedtuple('Section', 'name kind flags address at size link owner aligned each')
Symbol = namedtuple('Symbol', 'name kind other section value size')
SYMBOLS, FILLED, IS_CODE, IS_FUNCTION, FROM_PLACE = 2, 4, 4, 2, (2, 4)  # numbers of the format: kinds of sections, a flag, a kind of symbol, PC32 and PLT32


class Object:
    """An ELF file's functions: name and code, by the section's number. And for each section what the linker is to fill in there: (place, a section's number or the
    name of what is elsewhere, where in it)."""

    def __init__(self, data):
        front, size, count = *struct.unpack_from('<Q', data, 0x28), *struct.unpack_from('<2H', data, 0x3A)
        self.data, self.filled = data, {}
        self.sections = [Section(*struct.unpack_from('<2I4Q2I2Q', data, front + size * i)) for i in range(count)]
        table, = [section for section in self.sections if section.kind == SYMBOLS]
        names = self.held(self.sections[table.link])
        self.symbols = [Symbol(text(names, name), *rest) for name, *rest in struct.iter_unpack('<IBBHQQ', self.held(table))]
        self.functions = {symbol.section: (symbol.name, self.held(self.sections[symbol.section])) for symbol in self.symbols if symbol.kind & 15 == IS_FUNCTION}
        alone = [symbol.section for symbol in self.symbols if symbol.kind & 15 == IS_FUNCTION and symbol.value == 0]
        if sorted(alone) != [i for i, section in enumerate(self.sections) if section.flags & IS_CODE and section.size > 0]:
            raise Unknown('not every function is alone in its section')
        for section in self.sections:
            if section.kind == FILLED:
                self.filled[section.owner] = [self.target(*entry) for entry in struct.iter_unpack('<QQq', self.held(section))]

    def held(self, section):
        return self.data[section.at:section.at + section.size]

    def target(self, place, info, addend):
        """As it is counted from the place itself; None where it is counted in another way."""
        symbol = self.symbols[info >> 32]
        return place, symbol.section or symbol.name, symbol.value + addend if info & 0xFFFFFFFF in FROM_PLACE else None


# ---- one instruction

PREFIXES = bytes((0x26, 0x2E, 0x36, 0x3E, 0x64, 0x65, 0x66, 0x67, 0xF0, 0xF2, 0xF3))
SHORT, LONG = 1, 4  # bytes of an operand in the code; LONG is two under the prefix 66
BRANCH = 'rel'  # four bytes, always


def shapes():
    """For each opcode whether a byte of operands follows, and what operand in the code behind that."""
    known = {}

    def put(opcodes, follows, operand=0):
        known.update((opcode, (follows, operand)) for opcode in opcodes)

    for row in range(0, 0x40, 8):
        put(range(row, row + 4), True)
        put([row + 4], False, SHORT)
        put([row + 5], False, LONG)
    put([*range(0x50, 0x60), *range(0x90, 0x9A), 0xA4, 0xA5, 0xAA, 0xAB, 0xC3, 0xCC], False)
    put([0x63, *range(0x84, 0x8C), 0x8D, 0x8F, *range(0xD0, 0xD4), 0xF6, 0xF7, 0xFE, 0xFF], True)
    put([0x6A, *range(0x70, 0x80), 0xA8, *range(0xB0, 0xB8), 0xEB], False, SHORT)
    put([0x68, 0xA9, *range(0xB8, 0xC0)], False, LONG)
    put([0x6B, 0x80, 0x83, 0xC0, 0xC1, 0xC6], True, SHORT)
    put([0x69, 0x81, 0xC7], True, LONG)
    put([0xE8, 0xE9, *range(0x0F80, 0x0F90)], False, BRANCH)
    put([0x0F0B, *range(0x0FC8, 0x0FD0)], False)
    put([*range(0x0F10, 0x0F20), *range(0x0F28, 0x0F30), *range(0x0F40, 0x0F70), *range(0x0F74, 0x0F77), *range(0x0F7C, 0x0F80), *range(0x0F90, 0x0FA0)], True)
    put([0x0FA3, 0x0FAB, 0x0FAF, 0x0FB3, 0x0FB6, 0x0FB7, 0x0FBB, 0x0FBC, 0x0FBD, 0x0FBE, 0x0FBF, *range(0x0FD0, 0x0FFF)], True)
    put(range(0x0F3800, 0x0F3840), True)
    put(range(0x0F3A08, 0x0F3A18), True, SHORT)
    put([*range(0x0F70, 0x0F74), 0x0FA4, 0x0FAC, 0x0FBA, 0x0FC2, 0x0FC4, 0x0FC5, 0x0FC6], True, SHORT)
    return known


SHAPES = shapes()


class Instruction:
    """Its opcode, its byte of operands (or None), the operand that stands in the code, as a number, and where it begins, where its operands do, and where it ends.
    `below` is how far below rsp it reaches: a function that calls none may keep things there."""

    def __init__(self, code, at):
        self.at, self.rex, self.operands, self.value, self.below, small = at, 0, None, 0, 0, False
        while code[at] in PREFIXES:
            small |= code[at] == 0x66
            at += 1
        if code[at] & 0xF0 == 0x40:
            self.rex, at = code[at], at + 1
        self.opcode, at = code[at], at + 1
        if self.opcode == 0x0F:
            self.opcode, at = 0x0F00 | code[at], at + 1
            if self.opcode in (0x0F38, 0x0F3A):
                self.opcode, at = self.opcode << 8 | code[at], at + 1
        if self.opcode not in SHAPES:
            raise Unknown(f'opcode {self.opcode:X} at {self.at:X}')
        follows, size = SHAPES[self.opcode]
        self.inner = at
        if follows:
            self.operands = code[at]
            self.below = 0 if self.rex & 1 else below(code, at)
            at += 1 + beyond(code, at)
            if self.opcode in (0xF6, 0xF7) and self.group < 2:
                size = SHORT if self.opcode == 0xF6 else LONG
        if size == LONG:
            size = 8 if 0xB8 <= self.opcode < 0xC0 and self.rex & 8 else 2 if small else 4
        elif size == BRANCH:
            size = 4
        self.end = at + size
        self.value = int.from_bytes(code[at:self.end], 'little', signed=True)

    group = property(lambda self: self.operands >> 3 & 7)

    def on_stack_pointer(self):
        """Whether its operand is rsp itself, all of it."""
        return self.operands is not None and self.operands & 0xC7 == 0xC4 and self.rex & 9 == 8


def beyond(code, at):
    """How many bytes of an address follow the byte of operands."""
    mode, base = code[at] >> 6, code[at] & 7
    if mode == 3:
        return 0
    more = 1 if base == 4 else 0
    if mode == 0:
        return more + (4 if base == 5 or more and code[at + 1] & 7 == 5 else 0)
    return more + (1 if mode == 1 else 4)


def below(code, at):
    """How far below rsp an address lies, if it is by rsp at all."""
    mode, base = code[at] >> 6, code[at] & 7
    if mode not in (1, 2) or base != 4 or code[at + 1] & 7 != 4:
        return 0
    return max(0, -int.from_bytes(code[at + 2:at + 2 + (1 if mode == 1 else 4)], 'little', signed=True))


# ---- one function

CALL, JUMP, SHORT_JUMP, RETURN, TRAP, NOTHING = 0xE8, 0xE9, 0xEB, 0xC3, 0x0F0B, (0x90, 0x0F1F)


class Walk:
    """A function, gone through along its own jumps: its frame, and whom it calls with how much on the stack."""

    def __init__(self, obj, index):
        self.obj, self.index, self.frame, self.calls, self.faults = obj, index, 0, [], []
        self.name, code = obj.functions[index]
        self.steps, at = {}, 0
        while at < len(code):
            self.steps[at] = Instruction(code, at)
            at = self.steps[at].end
        if at != len(code):
            raise Unknown(f'{self.name} does not end with an instruction')
        self.filled = self.by_instruction(obj.filled.get(index, []))
        self.go()

    def by_instruction(self, filled):
        """What is filled into each instruction: into its operands, or it was not taken apart as it should be."""
        found = {}
        for place, where, offset in filled:
            step = self.steps[max(start for start in self.steps if start <= place)]
            if offset is None or not step.inner <= place <= step.end - 4:
                raise Unknown(f'{self.name} has an address at {place:X}, and no operand for it')
            found[step.at] = where, offset + step.end - place
        return found

    def go(self):
        """The stack is as deep wherever an instruction is come to from, and empty at the end. All instructions are come to, but for those that do nothing."""
        depths, waiting = {}, [(0, 0)]
        while waiting:
            at, depth = waiting.pop()
            if depths.setdefault(at, depth) != depth:
                raise Unknown(f'{self.name} comes to {at:X} with {depth} and with {depths[at]} bytes on the stack')
            if at not in self.steps:
                raise Unknown(f'{self.name} goes to {at:X}, where no instruction is')
            step = self.steps[at]
            after = depth + self.grown(step)
            self.frame = max(self.frame, after, depth + step.below)
            waiting += [(to, after) for to in self.next(step, after) if to not in depths or depths[to] != after]
        left = [at for at, step in self.steps.items() if at not in depths and step.opcode not in NOTHING]
        if left:
            raise Unknown(f'{self.name} has an instruction at {left[0]:X}, and nothing leads there')

    def grown(self, step):
        """By how much the stack grows."""
        opcode = step.opcode
        if 0x50 <= opcode < 0x58 or opcode in (0x68, 0x6A) or opcode == 0xFF and step.group == 6:
            return 8
        if 0x58 <= opcode < 0x60 or opcode == 0x8F:
            return -8
        if opcode in (0x81, 0x83) and step.on_stack_pointer() and step.group in (0, 5):
            return step.value if step.group == 5 else -step.value
        into_register = opcode in (0x03, 0x0B, 0x13, 0x1B, 0x23, 0x2B, 0x33, 0x8B, 0x8D) and step.group == 4 and step.rex & 12 == 8
        into_operand = opcode in (0x01, 0x09, 0x11, 0x19, 0x21, 0x29, 0x31, 0x89, 0x81, 0x83, 0xC7) and step.on_stack_pointer()
        if into_register or into_operand and not (opcode in (0x81, 0x83) and step.group == 7):
            raise Unknown(f'{self.name} moves its stack at {step.at:X} in a way that is not known here')
        return 0

    def next(self, step, depth):
        """Where it goes on."""
        opcode, where = step.opcode, self.filled.get(step.at)
        branches = opcode in (CALL, JUMP, SHORT_JUMP) or 0x70 <= opcode < 0x80 or 0x0F80 <= opcode < 0x0F90
        if where is not None and (where[0] in self.obj.functions or isinstance(where[0], str)):
            self.leave(step, where, branches, depth)
            return [] if opcode == JUMP else [step.end]
        if opcode == CALL:
            self.leave(step, (self.index, step.end + step.value), True, depth)
            return [step.end]
        if opcode == 0xFF and step.group in (2, 3, 5):
            self.faults.append(f'{self.name} calls by an address')
        if opcode == 0xFF and step.group == 4:
            return self.by_table()
        if opcode == RETURN and depth != 0:
            raise Unknown(f'{self.name} returns with {depth} bytes on the stack')
        to = [step.end + step.value] if branches else []
        return to if opcode in (JUMP, SHORT_JUMP, RETURN, TRAP) else to + [step.end]

    def leave(self, step, where, branches, depth):
        """To another function's front, with the way back on the stack where it is a call."""
        if not branches or where[1] != 0:
            self.faults.append(f'{self.name} takes an address in {self.told(where[0])}')
        elif step.opcode != CALL and depth != 0:
            raise Unknown(f'{self.name} goes over to {self.told(where[0])} with {depth} bytes on the stack')
        else:
            self.calls.append((where[0], depth + (8 if step.opcode == CALL else 0)))

    def told(self, where):
        return self.obj.functions[where][0] if where in self.obj.functions else where

    def by_table(self):
        """All places of the tables that it reads, each as it is counted from its table's front: they are to be in the function itself."""
        tables, to = {where for where in self.filled.values() if where[0] in self.obj.filled and where[0] not in self.obj.functions}, []
        for section in {section for section, _ in tables}:
            for place, where, offset in self.obj.filled[section]:
                fronts = [front for owner, front in tables if owner == section and front <= place]
                if where == self.index and offset is not None and fronts:
                    to.append(offset - place + max(fronts))
                else:
                    self.faults.append(f'{self.name} has a table of other places than its own')
        if not to:
            self.faults.append(f'{self.name} jumps by an address')
        return to


# ---- all functions

class Graph:
    """Every function that a call leads to, what each takes of the stack with all that it calls, and the ways back."""

    def __init__(self, archive):
        found = [Object(data) for data in objects(archive)]
        self.places = {name: (obj, index) for obj in found for index, (name, _) in obj.functions.items()}
        symbols = [symbol for obj in found for symbol in obj.symbols if symbol.name]
        self.asked = {symbol.name for symbol in symbols if symbol.section == 0} - {symbol.name for symbol in symbols if symbol.section}
        self.walks = {}

    def walk(self, name):
        """Gone through when it is asked for: what no fit leads to need not be understood."""
        if name not in self.walks:
            self.walks[name] = Walk(*self.places[name])
        return self.walks[name]

    def calls(self, name):
        walk = self.walk(name)
        return [(walk.told(where), depth) for where, depth in walk.calls]

    def reached(self, name):
        """(the functions, those out of the archive, a way back or None)"""
        inside, outside, back = set(), set(), []

        def visit(one, way):
            if one in way:
                back.append(way[way.index(one):] + [one])
            elif one not in self.places:
                outside.add(one)
            elif one not in inside:
                inside.add(one)
                for other, _ in self.calls(one):
                    visit(other, way + [one])

        visit(name, [])
        return inside, outside, back[0] if back else None

    def stack(self, name):
        """At most, with the way back to who called. Only where no function calls itself."""
        return 8 + self.within(name, {})

    def within(self, name, known):
        if name not in self.places:
            return 0
        if name not in known:
            known[name] = max([self.walk(name).frame] + [depth + self.within(other, known) for other, depth in self.calls(name)])
        return known[name]


# ---- the tests

passed = failed = 0


def check(holds, told):
    global passed, failed
    if holds:
        passed += 1
    else:
        failed += 1
        print(told)


def check_second(graph, name, header):
    inside, outside, back = graph.reached(name)
    check(back is None, f'{name} leads to a function that calls itself: {" > ".join(back or [])}')
    check(outside <= OUTSIDE, f'{name} leads out of the archive: {", ".join(sorted(outside - OUTSIDE))}')
    faults = [fault for one in sorted(inside) for fault in graph.walk(one).faults]
    check(not faults, f'{name} leads to a call that can not be followed: {"; ".join(faults)}')
    largest = max(inside, key=lambda one: graph.walk(one).frame)
    frame = graph.walk(largest).frame
    check(frame <= LARGE, f'{name} leads to {largest}, which has a frame of {frame} bytes')
    if back is None:
        most, figures = graph.stack(name), re.findall(rf'{name} ([0-9]+) bytes', header)
        print(f'{name}: {len(inside)} functions, the largest frame {frame} bytes ({largest}), at most {most} bytes of stack')
        check(len(figures) == 1 and most <= int(figures[0]), f'{name} can take {most} bytes of stack, and the header says {" and ".join(figures) or "nothing"}')


def check_first(graph, name, _):
    back = graph.reached(name)[2]
    check(back is not None, f'{name} calls itself, and that is not found')


def check_asked(graph):
    """What the whole archive asks of whoever links it: a board may have no C library."""
    check(graph.asked <= OUTSIDE, f'the archive wants {", ".join(sorted(graph.asked - OUTSIDE))} from outside')


def test(graph, header):
    check_asked(graph)
    for names, tested in ((SECOND, check_second), (FIRST, check_first)):
        for name in names:
            check(name in graph.places, f'there is no {name} in the archive')
            if name in graph.places:
                tested(graph, name, header)


def main(given):
    if len(given) != 2:
        print('usage: bindings/c/graph.py ARCHIVE HEADER')
        return 2
    try:
        with open(given[0], 'rb') as archive, open(given[1], encoding='utf-8', errors='replace') as header:
            code, text = archive.read(), header.read()
    except OSError as error:
        print(f'{error.filename}: {error.strerror}')
        return 2
    try:
        test(Graph(code), text)
    except Unknown as fault:
        check(False, f'this code is not known here: {fault}')
    except (ValueError, IndexError, struct.error):  # it is cut off, or no archive at all
        print(f'{given[0]}: no archive, or a damaged one')
        return 2
    print(f'{passed} passed, {failed} failed')
    return 1 if failed else 0


if __name__ == '__main__':
    sys.exit(main(sys.argv[1:]))
