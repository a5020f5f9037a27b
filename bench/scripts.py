#!/usr/bin/env python3
"""Writes the script, or the circuit file, of a workload and its size, as `parity 128`.

values N: N lines that ask for the value of one name.
names N: N names of 20 bytes, each asked for a hundred times.
line N: one line of N bytes that spells nothing.
comment N: one line of N bytes, a comment.
fold N: one line of N bytes, a fold of as many positions as fit.
nesting N: one line of N bytes, a fold of as many nests of 60 calls as fit.
pairs N: the conjunctions of neighbours among N variables.
blif N: a circuit file, a chain of N gates, each the parity of the one before it and of the input.
parity N: the parity of N variables by one call, its size and its first assignment.
conjunctions N: N conjunctions of 24 literals each of 128 variables, literals drawn by a fixed generator, and `stats`.
adder N: the sums and carries of two numbers of N bits, whose bits are interleaved, the least first, and `stats`.
clauses N: the conjunction of N clauses of 3 literals each of 16 variables, drawn by the same generator, and its size.
equality N: whether two numbers of N bits, interleaved, are equal, and its size.
"""
import sys


def level(variables):
    return (variables - 1).bit_length()


def values(n):
    yield "level 1"
    yield "let f = @0"
    for _ in range(n):
        yield "value f 10"


def names(n):
    yield "level 1"
    for number in range(n):
        yield f"let name_{number:015} = @1"
    for _ in range(100):
        for number in range(n):
            yield f"value name_{number:015} 10"


def line(n):
    yield "x" * n


def comment(n):
    yield "#" * n


def folded(argument, n):
    yield "level 0"
    begins = "let f = and("
    count = (n - len(begins)) // (len(argument) + 1)
    yield (begins + ",".join([argument] * count) + ")").ljust(n)


def fold(n):
    yield from folded("@0", n)


def nesting(n):
    yield from folded("not(" * 60 + "@0" + ")" * 60, n)


def pairs(n):
    yield f"level {level(n)}"
    for i in range(1, n):
        yield f"let p{i} = and(@{i - 1},@{i})"
    yield "stats"


def blif(n):
    yield from (".model chain", ".inputs a", ".outputs last", ".names a last", "1 1")
    for number in range(n):
        yield from (f".names n{number} a n{number + 1}", "10 1", "01 1")
    yield ".end"


def parity(n):
    yield f"level {level(n)}"
    yield "let p = xor(" + ",".join(f"@{i}" for i in range(n)) + ")"
    yield "size p"
    yield "first p 1"


class Generator:
    """Draws numbers and literals, the same in each run."""

    def __init__(self):
        self.state = 1

    def draw(self, below):
        self.state = (self.state * 6364136223846793005 + 1442695040888963407) % 2**64
        return (self.state >> 33) % below

    def literals(self, count, variables):
        chosen = list(range(variables))
        for _ in range(count):
            variable = chosen.pop(self.draw(len(chosen)))
            yield f"@{variable}" if self.draw(2) else f"not(@{variable})"


def conjunctions(n):
    generator = Generator()
    yield "level 7"
    for number in range(n):
        yield f"let c{number} = and({','.join(generator.literals(24, 128))})"
    yield "stats"


def clauses(n):
    generator = Generator()
    yield "level 4"
    for number in range(n):
        clause = f"or({','.join(generator.literals(3, 16))})"
        yield f"let c = {clause}" if number == 0 else f"let c = and(c,{clause})"
    yield "size c"


def equality(n):
    yield f"level {level(2 * n)}"
    pairs = [f"not(xor(@{2 * i},@{2 * i + 1}))" for i in range(n)]
    yield f"let e = and({','.join(pairs)})"
    yield "size e"


def adder(n):
    yield f"level {level(2 * n)}"
    yield "let s0 = xor(@0,@1)"
    yield "let c0 = and(@0,@1)"
    for i in range(1, n):
        a, b, carry = f"@{2 * i}", f"@{2 * i + 1}", f"c{i - 1}"
        yield f"let x{i} = xor({a},{b})"
        yield f"let s{i} = xor(x{i},{carry})"
        yield f"let c{i} = or(and({a},{b}),and(x{i},{carry}))"
    yield "stats"


WORKLOADS = (
    values, names, line, comment, fold, nesting, pairs, blif, parity, conjunctions, adder, clauses, equality
)

if __name__ == "__main__":
    workloads = {workload.__name__: workload for workload in WORKLOADS}
    if len(sys.argv) != 3 or sys.argv[1] not in workloads:
        sys.exit(__doc__)
    for text in workloads[sys.argv[1]](int(sys.argv[2])):
        print(text)
