"""Lines of `salvage` for replay. The answers are by the document (shared/cleaning.py), on the files of shared/cleaning_cases.py."""
from shared import cleaning_cases
from shared.cleaning import salvage
from shared.table import LINE_FILE, LINE_REPORT, Refused
from vectors.packing import spoilt

KIND = 'salvage'


def line(data):
    return f'{KIND} {data.hex()}'


def answer(data):
    try:
        file, said = salvage(data, LINE_FILE, LINE_REPORT)
    except Refused as refused:
        return str(refused.refusal)
    return f'0 {file.hex()} {said.hex()}'


def row(data):
    return line(data), answer(data)


def rows():
    """The lines that are kept, each once; of many marks a long trace, and a file with curves of which nearly all is dropped."""
    many = [cleaning_cases.long_trace(5000), list(cleaning_cases.heavy_files())[-1]]
    return list(dict.fromkeys(map(row, [*cleaning_cases.files(), *cleaning_cases.damaged_small(), *many])))


# ---- lines that are no case

GOOD = line(cleaning_cases.trace(cleaning_cases.A))


def bad():
    return spoilt(KIND, GOOD)
