"""Lines of `pack` and `unpack` for replay. The answers are by the document (shared/house.py), on the files of shared/pack_cases.py."""
from shared import house, pack_cases
from shared.table import LINE_FILE

KINDS = tuple(pack_cases.CALLS)


def line(call, data):
    return f'{call} {data.hex()}'


def answer(call, data):
    made = pack_cases.either(pack_cases.CALLS[call], data, LINE_FILE)
    return f'0 {made.hex()}' if isinstance(made, bytes) else str(made)


def row(call, data):
    return line(call, data), answer(call, data)


def rows():
    """The lines that are kept, each once; of the files of more than 4,096 marks one, both ways."""
    many = pack_cases.list_of(pack_cases.MANY, 2, True)
    return list(dict.fromkeys(row(*one) for one in [*pack_cases.files(), ('pack', many), ('unpack', house.pack(many))]))


# ---- lines that are no case

GOOD = [line('pack', pack_cases.marks_alone(1)), line('unpack', pack_cases.marks_alone(1))]


def spoilt(call, good):
    """Lines of a call with digits that are none, half a byte, and capital letters."""
    yield from [call, f'{call} 0', f'{call} 000', f'{call} 0A', f'{call} A0', f'{call} 0g', f'{call} 0x00', f'{call} 0/', f'{call} :0', f'{call} `0', f'{call} 00 00', f'{call} -1', f'{call}\t00', f'{call}00']
    yield good.upper().replace(call.upper(), call)  # the tolerance has letters


def bad():
    for call, good in zip(KINDS, GOOD):
        yield from spoilt(call, good)
