#!/usr/bin/env python3
"""An event on the mass shell, modulo P, in the format of docs/formats.md.

    on_shell_event.py MODEL PROCESS SEED [LEG]

The momenta are random with p^2 = m^2 and sum 0; a Dirac wave function solves its equation of motion, and a vector's is orthogonal to
its momentum. With LEG, a massless vector, that leg's wave function is its momentum: where gauge invariance holds, each flow of the
amplitude is then 0, exactly. Widths have to be 0. Conventions: docs/conventions.md.
"""

import random
import sys
import tomllib

P = 2**64 - 2**32 + 1
I = 2**48
METRIC = (1, -1, -1, -1)


def numeral(text):
    """The value of a numeral: [-] digits [/ digits] [i]."""
    unit, text = (I, text[:-1]) if text.endswith("i") else (1, text)
    top, _, bottom = text.partition("/")
    return int(top) * pow(int(bottom or "1"), -1, P) * unit % P


def product(text, parameters):
    value = 1
    for term in text.split("*"):
        value = value * (parameters[term] if term[0].isalpha() else numeral(term)) % P
    return value


def dot(p, q):
    return sum(g * a * b for g, a, b in zip(METRIC, p, q)) % P


def root(n):
    """A square root modulo P, or None (Tonelli and Shanks)."""
    n %= P
    if pow(n, (P - 1) // 2, P) != 1:
        return 0 if n == 0 else None
    odd, twos = P - 1, 0
    while odd % 2 == 0:
        odd, twos = odd // 2, twos + 1
    z = pow(7, odd, P)  # 7 is no square modulo P
    x, t, m = pow(n, (odd + 1) // 2, P), pow(n, odd, P), twos
    while t != 1:
        k, s = 0, t
        while s != 1:
            s, k = s * s % P, k + 1
        b = pow(z, 1 << (m - k - 1), P)
        x, z, t, m = x * b % P, b * b % P, t * b * b % P, k
    return x


def from_light_cone(plus, minus, x, y):
    half = pow(2, -1, P)
    return ((plus + minus) * half % P, x % P, y % P, (plus - minus) * half % P)


def on_shell(square, rng):
    """A random momentum with p^2 = square."""
    x, y, plus = (rng.randrange(1, P) for _ in range(3))
    return from_light_cone(plus, (square + x * x + y * y) * pow(plus, -1, P), x, y)


def last_two(total, first, second, rng):
    """Momenta p and total - p with the squares first and second."""
    while True:
        x, y = rng.randrange(P), rng.randrange(P)
        plus, minus = (total[0] + total[3]) % P, (total[0] - total[3]) % P
        # total . p = (total^2 + first - second) / 2, and p+ p- = first + x^2 + y^2
        need = (dot(total, total) + first - second + 2 * total[1] * x + 2 * total[2] * y) % P
        transverse = (first + x * x + y * y) % P
        square = root(need * need - 4 * plus * minus * transverse)
        if square is not None and minus != 0:
            p_plus = (need + square) * pow(2 * minus, -1, P) % P
            if p_plus != 0:
                p = from_light_cone(p_plus, transverse * pow(p_plus, -1, P), x, y)
                return p, tuple((t - a) % P for t, a in zip(total, p))


def slash(p):
    """p^mu gamma_mu in the chiral basis, as rows."""
    a, b = (p[0] - p[3]) % P, (p[0] + p[3]) % P
    c, d = (p[1] - I * p[2]) % P, (p[1] + I * p[2]) % P
    # upper right p0 - sigma.p, lower left p0 + sigma.p
    return [[0, 0, a, -c % P], [0, 0, -d % P, b], [b, c, 0, 0], [d, a, 0, 0]]


def wave_function(spin, row, p, mass, rng):
    """A solution of the equation of motion with the momentum p that enters."""
    if spin == "scalar":
        return [rng.randrange(1, P)]
    seed = [rng.randrange(P) for _ in range(4)]
    if spin == "vector":
        seed[0] = sum(a * b for a, b in zip(p[1:], seed[1:])) * pow(p[0], -1, P) % P
        return seed
    matrix = slash(p)
    if row:  # along the arrow the momentum is -p
        return [(mass * seed[k] - sum(seed[j] * matrix[j][k] for j in range(4))) % P for k in range(4)]
    return [(mass * seed[k] + sum(matrix[k][j] * seed[j] for j in range(4))) % P for k in range(4)]


def main():
    path, process, seed = sys.argv[1:4]
    replaced = int(sys.argv[4]) if len(sys.argv) > 4 else 0
    with open(path, "rb") as file:
        model = tomllib.load(file)
    parameters = {row["name"]: numeral(row["value"]) for row in reversed(model.get("parameter", []))}
    fields = {}
    for particle in model["particle"]:
        mass = product(particle.get("mass", "0"), parameters)
        fields[particle["anti"]] = (particle["name"], particle["spin"], mass, True)
        fields[particle["name"]] = (particle["anti"], particle["spin"], mass, False)
    incoming, _, outgoing = process.partition("->")
    entering = incoming.split() + [fields[name][0] for name in outgoing.split()]
    rng = random.Random(int(seed))
    squares = [fields[name][2] ** 2 % P for name in entering]
    momenta = [on_shell(square, rng) for square in squares[:-2]]
    total = tuple(-sum(p[k] for p in momenta) % P for k in range(4))
    momenta += last_two(total, squares[-2], squares[-1], rng)
    for leg, (name, p) in enumerate(zip(entering, momenta), 1):
        _, spin, mass, row = fields[name]
        wave = p if leg == replaced else wave_function(spin, row, p, mass, rng)
        print(leg, *p, *wave)


if __name__ == "__main__":
    main()
