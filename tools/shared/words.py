"""Numbers by their 64 bits: a pattern is a whole number, a word its 16 hex digits."""
import struct

NAN = 0x7FF8000000000000
INFINITY = 0x7FF0000000000000
MINUS = 1 << 63  # the sign, and the pattern of minus zero


def bits(value):
    """The pattern of a float."""
    return struct.unpack('<Q', struct.pack('<d', value))[0]


def number(pattern):
    """The float of a pattern."""
    return struct.unpack('<d', struct.pack('<Q', pattern))[0]


def numbers(patterns):
    return [number(pattern) for pattern in patterns]


def patterns_of(*values):
    return [bits(value) for value in values]


def is_nan(pattern):
    return pattern & ~MINUS > INFINITY


def one_nan(pattern):
    """The pattern, with one for all NaNs: neither sign nor payload counts."""
    return NAN if is_nan(pattern) else pattern


def word(pattern):
    return '%016X' % pattern


def words(patterns):
    return ' '.join(word(pattern) for pattern in patterns)


def word_of(value):
    """The word of a float, one word for all NaNs."""
    return word(one_nan(bits(value)))


def pattern_of(text):
    return int(text, 16)


def value_of(text):
    """The float of a word."""
    return number(int(text, 16))


def turned(digest, pattern):
    """A digest with one word more: turned by five bits, and the word added."""
    return ((digest << 5 | digest >> 59) + pattern) % (1 << 64)


def digest_of(patterns):
    digest = 0
    for pattern in patterns:
        digest = turned(digest, pattern)
    return digest
