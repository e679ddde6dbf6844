"""How an outline is cut into blocks, counted as the document has it."""


def size_of(count):
    """The size of a block: below 200 marks 200; else from 200 downwards, stopping at 50, the first whose remainder is at least 50."""
    size = 200
    while count >= 200 and size > 50 and count % size < 50:
        size -= 1
    return size


def blocks_of(count):
    """How many blocks a joined fit has: block k starts at mark k * size, while k * size < n - 1."""
    return len(range(0, max(count - 1, 0), size_of(count)))
