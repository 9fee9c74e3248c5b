#!/usr/bin/env python3
"""What each example is to write, found without it: with Python's own library, or worked out anew.
Those over a C library, in examples/libc, are among them.

    python3 examples/expected.py            writes each examples/NAME/expected from examples/NAME/input
    python3 examples/expected.py --check    says whether these files are what this script would write
    python3 examples/expected.py NAME       prints what NAME is to write for standard input
"""

import collections
import hashlib
import itertools
import math
import re
import sys
from pathlib import Path

HERE = Path(__file__).resolve().parent
MASK = 0xFFFFFFFF


def hello(_):
    return b"Hello, world\n"


def echo(data):
    return data


def word_count(data):
    return b"%d %d %d\n" % (data.count(b"\n"), len(data.split()), len(data))


def quicksort(data):
    return b"".join(b"%d\n" % number for number in sorted(map(int, data.split())))


def sha256(data):
    return hashlib.sha256(data).hexdigest().encode() + b"\n"


def matrix(data):
    """The trace and the sum of a product, without the product: each is a sum over the inner index."""
    side = int(data)
    first = [[i + 2 * k + 1 for k in range(side)] for i in range(side)]
    second = [[3 * i - k + 5 for k in range(side)] for i in range(side)]
    columns = [sum(row[j] for row in first) for j in range(side)]
    trace = sum(first[i][j] * second[j][i] for i in range(side) for j in range(side))
    whole = sum(columns[j] * sum(second[j]) for j in range(side))
    return b"trace %d sum %d\n" % (trace & MASK, whole & MASK)


def collatz(data):
    """Steps are kept, so that a sequence is followed only to the first smaller number."""
    limit = int(data)
    steps = [0] * (limit + 1)
    for start in range(2, limit + 1):
        number, count = start, 0
        while number >= start:
            number, count = (3 * number + 1 if number % 2 else number // 2), count + 1
        steps[start] = count + steps[number]
    longest = max(steps)
    return b"all up to %d come to 1; from %d it takes the most steps, %d\n" % (
        limit, max(1, steps.index(longest)), longest)


def collatz_chunks(data):
    """The same, up to the end of the last chunk of 448 numbers."""
    chunks = -(-int(data) // 448)
    return collatz(b"%d" % (448 * chunks))


def ising(data):
    """A lattice's energy is twice the pairs of unlike neighbours, less all pairs."""
    count, side, seed = map(int, data.split())
    state, found = seed & MASK, []
    for _ in range(count):
        up = []
        for _ in range(side * side):
            state = (1664525 * state + 1013904223) & MASK
            up.append(state >= 1 << 31)
        cells = [(row, column) for row in range(side) for column in range(side)]
        unlike = sum(
            up[row * side + column] != up[beside % side + side * (below % side)]
            for row, column in cells for below, beside in ((row, column + 1), (row + 1, column))
        )
        found.append(2 * unlike - 2 * side * side)
    return b"least energy %d at lattice %d\n" % (min(found), found.index(min(found)))


def mandel(data):
    """Numbers count 2^-24, and products are rounded down."""
    columns, rows, limit = map(int, data.split())
    unit = 1 << 24
    beside, below = 3 * unit // columns, 5 * unit // 2 // rows

    def cell(row, column):
        z, rounds = (0, 0), 0
        while rounds < limit and sum(part * part // unit for part in z) <= 4 * unit:
            (x, y), rounds = z, rounds + 1
            z = (x * x // unit - y * y // unit - 9 * unit // 4 + beside // 2 + column * beside,
                 2 * (x * y // unit) + 5 * unit // 4 - below // 2 - row * below)
        return "#" if rounds == limit else " .+"[(rounds > 3) + (rounds > 11)]

    picture = ["".join(cell(row, column) for column in range(columns)) for row in range(rows)]
    inside = sum(row.count("#") for row in picture)
    return "".join(row + "\n" for row in picture).encode() + b"%d of %d points are inside\n" % (inside, columns * rows)


def sieve(data):
    """All numbers but the multiples of smaller ones."""
    limit = int(data)
    multiples = (range(number * number, limit, number) for number in range(2, math.isqrt(limit) + 1))
    primes = set(range(2, limit)).difference(*multiples)
    return b"%d primes below %d, the greatest %d\n" % (len(primes), limit, max(primes))


def primes(data):
    """The same, and of each limit how many of them are smaller."""
    limits = list(map(int, data.split()))
    most = max(limits)
    multiples = (range(number * number, most, number) for number in range(2, math.isqrt(most) + 1))
    found = set(range(2, most)).difference(*multiples)
    return b"".join(b"%d\n" % sum(number < limit for number in found) for limit in limits)


def queens(data):
    """Places of the rows in all orders, where no two stand on a diagonal."""
    rows = range(int(data))
    found = [places for places in itertools.permutations(rows)
             if all(len({places[row] + turn * row for row in rows}) == len(rows) for turn in (1, -1))]
    first = collections.Counter(places[0] for places in found)
    return b"".join(b"%d " % first[place] for place in rows) + b"ways, %d in all\n" % len(found)


def adder(data):
    sums = itertools.accumulate(map(int, data.split()))
    return b"> " + b"".join(b"%d\n> " % number for number in sums) + b"\n"


def life(data):
    """A board is the set of the cells that live."""
    side = 24
    board = {(row, column) for row, cells in enumerate(data.decode().split("\n")[:side])
             for column, cell in enumerate(cells[:side]) if cell == "#"}
    boards = []
    while board not in boards[-8:]:
        boards.append(board)
        around = collections.Counter(
            ((row + below) % side, (column + beside) % side) for row, column in board
            for below, beside in itertools.product((-1, 0, 1), repeat=2) if below or beside)
        board = {cell for cell, count in around.items() if count == 3 or (count == 2 and cell in board)}
    rows = ["".join(".#"[(row, column) in board] for column in range(side)) for row in range(side)]
    latest = max(k for k, kept in enumerate(boards) if kept == board)
    return "".join(row + "\n" for row in rows).encode() + b"generation %d is as %d\n" % (len(boards), latest)


def copies(_):
    """Four functions, at 13 places each for source and target, with 13 sizes."""
    return b"%d calls right, 0 wrong\n" % (4 * 13**3)


def statistics(data):
    numbers = [float(line) for line in data.split()]
    count, total, squares = len(numbers), 0.0, 0.0
    for number in numbers:
        total += number
    mean = total / count
    for number in numbers:
        squares += (number - mean) * (number - mean)
    numbers.sort()
    median = (numbers[(count - 1) // 2] + numbers[count // 2]) / 2
    return b"%d numbers\nmean      %15.6f\ndeviation %15.6e\nmedian    %15.6g\n" % (
        count, mean, math.sqrt(squares / count), median)


def frequencies(data):
    found = collections.Counter(re.findall(rb"[a-z]+", data.lower()))
    shown = sorted(found.items(), key=lambda item: (-item[1], item[0]))[:10]
    return b"".join(b"%5d %-12s|\n" % (count, word) for word, count in shown)


def startup(_):
    """What C says of each line."""
    return (b"before main: 41\nof the thread: 42 and 0, of the program: 5\nstrtod: 1, Result too large\n"
            b"malloc: 1, Not enough space\nfree: 1\nbehind main: 42; exit writes this line, which has no end")


PROGRAMS = {function.__name__: function
            for function in (hello, echo, word_count, quicksort, sha256, matrix, collatz, collatz_chunks, ising,
                             mandel, sieve, primes, queens, adder, life, copies, statistics, frequencies, startup)}


def folder_of(name):
    return next(folder for folder in (HERE / name, HERE / "libc" / name) if folder.exists())


def main():
    if len(sys.argv) > 1 and sys.argv[1] != "--check":
        sys.stdout.buffer.write(PROGRAMS[sys.argv[1]](sys.stdin.buffer.read()))
        return
    for name, function in PROGRAMS.items():
        given, kept = folder_of(name) / "input", folder_of(name) / "expected"
        made = function(given.read_bytes() if given.exists() else b"")
        if sys.argv[1:]:
            if not kept.exists() or kept.read_bytes() != made:
                sys.exit(f"{kept} is not what this script writes")
        else:
            kept.write_bytes(made)


if __name__ == "__main__":
    main()
