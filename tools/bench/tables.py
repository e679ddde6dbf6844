"""The tables of fits: a line for each file, and below it one for each curve."""
from bench import said

HEAD = ('marks', 'curves', 'blocks', 'block size', 'largest distance', 'at mark', 'under curve')
CURVE_HEAD = ('curve', 'first mark', 'last mark', 'worst mark', 'distance')


def table_head(wide):
    """The line above those of files whose names take so many letters."""
    return 'file'.ljust(wide) + ''.join(f'  {title}' for title in HEAD)


def table_row(name, wide, listed):
    far, mark, curve = listed.far
    cells = len(listed.marks), len(listed.curves), listed.blocks, listed.block_size, f'{said.millimetres(far, listed.tolerance)} mm', mark, curve
    return name.ljust(wide) + ''.join(f'  {cell:>{len(title)}}' for title, cell in zip(HEAD, cells))


def refused_row(name, wide, refused):
    return f'{name.ljust(wide)}  {said.refusal(refused.refusal, refused.marks)}'


def curve_table(listed):
    """How far off each curve is, and where: a line for each, below a head."""
    rows = [CURVE_HEAD]
    for curve, (first, end, worst) in enumerate(zip(listed.firsts, listed.ends(), listed.worst)):
        mark, far = ('-', 'no number') if worst is None else (worst[1], f'{said.millimetres(worst[0], listed.tolerance)} mm')
        rows.append((curve, first, end, mark, far))
    wides = [max(len(str(cell)) for cell in column) for column in zip(*rows)]
    return ['  ' + ''.join(f'  {cell:>{wide}}' for cell, wide in zip(row, wides)) for row in rows]
