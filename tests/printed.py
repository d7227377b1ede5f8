"""Numbers of 64 bits as cases of the program decimal_trials, and as they are to be printed."""
import random

import cases

LARGEST = 2 ** 64 - 1


def parts(number):
    """Its parts of sixteen bits, the highest first."""
    return [number >> shift & 0xffff for shift in (48, 32, 16, 0)]


def case(number):
    return cases.header(*parts(number)) + b"\n"


def line(number):
    """The number over no columns, in six and in twenty, and its parts in six each."""
    return b"%d|%6d|%20d|%s\n" % (number, number, number, cases.columns(parts(number)))


def edges():
    """The numbers around each power of ten and of two, and those of equal digits, with as many zeros behind them."""
    near = [power + by for power in [10 ** k for k in range(20)] + [2 ** k for k in range(65)] for by in (-1, 0, 1)]
    equal = [int(str(digit) * k) * 10 ** zeros for digit in range(1, 10) for k in range(1, 21) for zeros in (0, k)]
    return sorted({number for number in near + equal if 0 <= number <= LARGEST})


def drawn(count, seed):
    """So many over the whole range: in turns of any number of bits and of any number of digits."""
    draw = random.Random(seed)
    for k in range(count):
        if k % 2 == 0:
            yield draw.getrandbits(draw.randint(1, 64))
        else:
            digits = draw.randint(1, 20)
            yield draw.randint(10 ** (digits - 1), min(10 ** digits - 1, LARGEST))
