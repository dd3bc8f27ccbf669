"""Random piles of records, and pairs of places in them, as the program `exchange_records` reads them."""
from itertools import product

SHAPES = ((3,), (2, 3), (4, 4), (2, 2, 2), (6, 7), (12, 12), (16, 16), (1, 5), (0, 3), ())


def rows_of(chance, shape, most):
    """Some positions of a shape, in order."""
    positions = list(product(*map(range, shape)))
    return sorted(chance.sample(positions, min(len(positions), chance.randint(0, most))))


def record(kind, dense, shape, rows, state=(), inputs=()):
    """A record, from its sections."""
    numbers = [kind, dense, len(shape)] + list(shape)
    for entries in (rows, state, inputs):
        numbers += [len(entries)] + [n for entry in entries for n in entry]
    return numbers


def of_the_kind(chance, shape):
    """A record of a pile of one kind: free of dependencies, dense or ordered sparse without dense axes."""
    if chance.random() < 0.2:
        return record(0, len(shape), shape, ())
    return record(2, 0, shape, rows_of(chance, shape, chance.choice([3, 20, 128])))


def deps(chance, shape):
    """A list of dependencies, in order."""
    return sorted({tuple(chance.randrange(max(e, 1) + 1) for e in shape) + (chance.randrange(3),) for _ in range(chance.randint(0, 4))})


def any_record(chance, shape):
    """A record of any kind, mostly of this shape and sound."""
    other = chance.choice(SHAPES) if chance.random() < 0.1 else shape
    rank = len(other)
    lists = [deps(chance, other), deps(chance, other)] if chance.random() < 0.3 else [(), ()]
    rows = rows_of(chance, other, 20)
    if chance.random() < 0.15:
        chance.shuffle(rows)
    d = chance.randint(0, rank)
    numbers = chance.choice([
        lambda: of_the_kind(chance, other), lambda: record(2, 0, other, rows, *lists), lambda: record(0, rank, other, (), *lists),
        lambda: record(1, 0, other, (), *lists), lambda: record(2, d, other, rows_of(chance, other[:rank - d], 5), *lists),
    ])()
    if chance.random() < 0.03:
        numbers[chance.randrange(len(numbers))] = chance.choice([-1, 5, 129, 2, 65537])
    return numbers


def pile_and_pairs(chance, make, most, pairs):
    """The numbers of a text: up to so many records of one shape, mostly, and so many pairs of places, a few of them wrong."""
    shape, count = chance.choice(SHAPES), chance.randint(0, most)
    place = lambda: chance.randint(-1, count) if chance.random() < 0.1 else chance.randrange(max(count, 1))
    return [count] + [n for _ in range(count) for n in make(chance, shape)] + [pairs] + [place() for _ in range(2 * pairs)]
