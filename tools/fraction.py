#!/usr/bin/env python3
"""The fraction behind a value modulo P, where numerator and denominator are below 2^31.

    fraction.py VALUE

Prints `a/b`, or `a/b i` where the fraction of VALUE / i is the simpler one. Two fractions of that size never have the same value, so
the one that is found is the only one; a value that has none gives `none`.
"""

import sys
from fractions import Fraction

P = 2**64 - 2**32 + 1
I = 2**48
BOUND = 2**31


def fraction(value):
    """Euclid's algorithm, stopped at the first remainder below the bound."""
    r, s = (P, value % P), (0, 1)
    while r[1] >= BOUND:
        q = r[0] // r[1]
        r, s = (r[1], r[0] - q * r[1]), (s[1], s[0] - q * s[1])
    return Fraction(r[1], s[1]) if 0 < abs(s[1]) < BOUND else None


def main():
    value = int(sys.argv[1])
    real, imaginary = fraction(value), fraction(value * pow(I, -1, P))
    size = lambda f: max(abs(f.numerator), f.denominator)
    if real is not None and (imaginary is None or size(real) <= size(imaginary)):
        print(real)
    elif imaginary is not None:
        print(imaginary, "i")
    else:
        print("none")


if __name__ == "__main__":
    main()
