"""Requests made by hand: the positions worked by hand, those at the limits, those with two faults, and the tests of the Rust's own that the rules reach.

All operations have theirs here; `tests/sample` takes those of the operations that the port has into the fixed list.
"""
from itertools import product

DENSE, DIAGONAL, SPARSE = 0, 1, 2
BUFFERS = [1802, 10812]


def record(kind, D, shape, rows=(), states=(), inputs=()):
    """The numbers of a record; a dependency is its index with its number behind it."""
    section = lambda entries: [len(entries)] + [n for entry in entries for n in entry]
    return [kind, D, len(shape), *shape] + section(rows) + section(states) + section(inputs)


def dense(shape, states=(), inputs=()):
    """A dense record."""
    return record(DENSE, len(shape), shape, (), states, inputs)


def sparse(shape, rows, states=(), inputs=(), D=0):
    """A sparse record."""
    return record(SPARSE, D, shape, rows, states, inputs)


def line(op, *arguments):
    """A request line; a list is a slice, behind its length."""
    numbers = [n for a in arguments for n in ([len(a), *a] if isinstance(a, list) else [a])]
    return ' '.join(map(str, [op] + numbers))


def run_of(first, count):
    """So many rows of one axis, from one on."""
    return [(i,) for i in range(first, first + count)]


def full(first=0, count=128):
    """A record of rank 4 with so many rows, states and inputs; 128 of each make 1,802 numbers."""
    every = list(product(range(4), repeat=4))[first:first + count]
    deps = [(*index, sum(index)) for index in every]
    return sparse([4, 4, 4, 4], every, deps, deps)


def worked_by_hand():
    """The positions that the rules work by hand, P1 to P9, by name: each request with the answer that the rules give."""
    square, moved = [2, 2], sparse([3, 2], [(2, 0), (0, 1)])
    said = lambda layout: 'ok ' + ' '.join(map(str, layout))
    return [
        ('P1', line(22, sparse(square, [(1,)], D=1), sparse(square, [(1, 0)]), *BUFFERS), said(sparse(square, [(1, 0), (1, 1)]))),
        ('P2', line(28, dense([3]), dense([8], [(k, k) for k in (2, 5, 6, 7)]), 5, 8, *BUFFERS), said(dense([3], [(0, 5), (1, 6), (2, 7)]))),
        ('P3', line(1, [1, 1, 1, 0], 2), 'refused 6'),
        ('P3', line(1, [1, 2, 2, 2, 3], 2), 'ok 2 2 3'),
        ('P3', line(1, [1, 3, 2, 2, 3], 2), 'refused 6'),
        ('P4', line(7, dense([1, 3]), [4, 2]), 'found 2'),
        ('P5', line(7, record(DIAGONAL, 0, [1, 1]), [3, 3]), 'nothing'),
        ('P6', line(19, dense([1, 1], [(0, 0, 7)]), [2, *square], *BUFFERS), said(dense(square, [(0, 0, 7), (0, 1, 7), (1, 0, 7)]))),
        ('P7', line(24, sparse(square, [(1,)], D=1), *BUFFERS), said(sparse([2], [(1,)]))),
        ('P8', line(27, [], 0, 3, *BUFFERS), 'ok 0 0 0 0 0 0'),
        ('P9', line(25, sparse([2, 3], [(0, 2), (1, 0)]), [1, 0], *BUFFERS), said(moved)),
        ('P9', line(7, moved, [2, 0]), 'refused 4'),
    ]


def limits_of_records():
    """128 and 129 entries of each list, [256,256] and [65537], rank 4 and 5: judged, counted, looked up, formed."""
    for n in (128, 129):
        rows, deps = sparse([200], run_of(9, n)), [(0, k) for k in range(n)]
        for s in (rows, dense([2], deps), dense([2], (), deps)):
            yield from [line(29, s), line(30, s), line(8, s), line(9, s), line(10, s, s), line(11, s, s), line(12, s, 1802), line(18, s, 1802)]
        yield from [line(7, rows, [c]) for c in (8, 9, 72, n + 8, n + 9)] + [line(31, rows, k) for k in (0, 127, 128)]
        yield line(17, [1, 200], n, list(range(n)), 1802)
        yield line(17, [1, 200], n, list(range(n))[::-1], 1802)
    for shape in ([256, 256], [65536], [65537], [0, 65537], [2, 2, 2, 2], [2, 2, 2, 2, 2], [1] * 5):
        s, given, end = dense(shape), [len(shape), *shape], [max(e - 1, 0) for e in shape]
        yield from [line(29, s), line(8, s), line(9, s), line(7, s, end), line(12, s, 1802), line(13, len(shape), 1802), line(15, given, 1802)]
        yield from [line(1, given + given, 2), line(2, given, [1, 1]), line(3, end, given), line(4, 65535, given), line(16, given, 1802)]
    whole = full()
    yield from [line(29, whole), line(30, whole), line(8, whole), line(10, whole, whole), line(11, whole, whole), line(12, whole, 1802)]
    yield from [line(18, whole, 1802), line(31, whole, 127), line(7, whole, [1, 3, 3, 3]), line(7, whole, [2, 0, 0, 0])]


def limits_of_pairs():
    """Unions and intersections of 128 and 129 entries, by joining, by expanding a diagonal, by removal; a result of 1,802 numbers."""
    pairs = [(full(), full()), (full(0, 64), full(64, 64)), (full(0, 70), full(60, 68)), (full(0, 64), full(64, 65))]
    for n in (128, 129):
        pairs.append((sparse([300], run_of(0, 64)), sparse([300], run_of(n - 65, 65))))
        pairs.append((record(DIAGONAL, 0, [n, n]), sparse([n, n], [(1, 1), (n - 1, n - 1)])))
        pairs.append((sparse([2, n], [(1,)], D=1), sparse([2, n], [(1, 0), (1, n - 1)])))
        states, others = [(0, k) for k in range(100)], [(0, k) for k in range(90, n)]
        pairs += [(dense([2], states), dense([2], others)), (sparse([2], [(0,)], (), states), sparse([2], [(0,)], (), others))]
    pairs.append((dense([256, 256], [(255, 255, 7)]), sparse([256, 256], [(0, 0), (255, 255)], [(0, 0, 1)])))
    for a, b in pairs:
        yield from [line(op, x, y, *BUFFERS) for op in (22, 23) for x, y in ((a, b), (b, a))]


def limits_of_others():
    """The same for what one record, a list of records, or a list of blocks is made to."""
    whole = full()
    yield from [line(24, whole, *BUFFERS), line(25, whole, [3, 2, 1, 0], *BUFFERS), line(28, dense([1]), whole, 0, 1, *BUFFERS)]
    yield from [line(26, whole + whole, 2, operator, *BUFFERS) for operator in (42, 43, 47)]
    for n in (128, 129):
        one = sparse([1], [(0,)], [(0, 5)])
        yield from [line(19, one, [1, n], *BUFFERS), line(19, one, [2, 1, n], *BUFFERS), line(26, one + dense([n]), 2, 42, *BUFFERS)]
        left, right = sparse([64], run_of(0, 64)), sparse([65], run_of(0, n - 64))
        yield from [line(27, [0, 0, *left, 64, 0, *right], 2, 1, *BUFFERS), line(27, [70, 0, *left, 0, 0, *right], 2, 1, *BUFFERS)]
        source = dense([200], [(k, k) for k in range(n)])
        yield line(28, dense([200]), source, 0, 200, *BUFFERS)
    for shape in ([256, 256], [65537], [1] * 4, [1] * 5):
        yield from [line(20, dense([1]), len(shape), *BUFFERS), line(19, dense([1]), [len(shape), *shape], *BUFFERS)]


def two_faults():
    """Calls with two reasons to be refused at once, for every operation: the lower number is given."""
    high, cut, scalar, unordered, empty = [0, 0, 5], [], dense([]), sparse([2], [(1,), (0,)]), [0, 0]
    yield from [line(1, [1, -1, 5], 2), line(2, [5], [-1]), line(2, [-1], [5]), line(3, [-1], [5]), line(4, -1, [5]), line(4, -1, [1, 0])]
    yield from [line(7, high, [-1]), line(7, cut, [-1]), line(7, unordered, [-1])]
    yield from [line(op, high, cut) for op in (10, 11)] + [line(op, cut, high) for op in (10, 11)]
    yield from [line(op, s, 0) for op in (12, 18) for s in (high, cut)]
    yield from [line(13, rank, 0) for rank in (5, -1)] + [line(op, shape, 0) for op in (15, 16) for shape in ([5], [-1])]
    yield from [line(17, [5], -1, [], 0), line(17, [-1], -1, [], 0), line(17, [1, 2], -1, [7], 1802)]
    for buffers in (empty, BUFFERS):
        yield from [line(19, s, shape, *buffers) for s, shape in ((high, [-1]), (cut, [5]), (cut, [-1]), (scalar, [-1]))]
        yield from [line(20, s, rank, *buffers) for s, rank in ((high, -1), (cut, 5), (cut, -1), (scalar, -1))]
        yield from [line(op, a, b, *buffers) for op in (22, 23) for a, b in ((high, cut), (cut, scalar), (scalar, cut), (unordered, scalar))]
        yield from [line(24, s, *buffers) for s in (high, cut, scalar)]
        yield from [line(25, s, [9], *buffers) for s in (high, cut, scalar)]
        yield from [line(26, s, n, 43, *buffers) for s, n in ((cut, 17), (cut, 1), (high + cut, 2), (scalar, 0))]
        yield from [line(27, s, n, rank, *buffers) for s, n, rank in (([0, 2], 17, 1), ([0, 2], 1, 5), ([0, 2], 1, 1), ([2] + dense([1]), 1, 0))]
        yield from [line(28, a, b, -1, 0, *buffers) for a, b in ((high, cut), (cut, scalar), (scalar, cut), (scalar, scalar))]


def tests_of_the_rust():
    """What the tests of layout.rs ask; those of forms that are not carried over are left out."""
    cube = [2, 3, 4]
    first, both = sparse(cube, [(0, 0, 0)]), sparse(cube, [(0, 0, 0), (1, 2, 3)])
    for operator in (42, 43):
        others = (record(DIAGONAL, 0, cube), first)
        yield from [line(26, dense(cube) + other, 2, operator, *BUFFERS) for other in others]
        yield line(26, first + both, 2, operator, *BUFFERS)
    square = [2, 2]
    pairs = [(sparse(square, [(0, 0), (1, 1)]), sparse(square, [(1, 0)])), (sparse(square, [(1,)], D=1), sparse(square, [(1, 0)])),
             (sparse(square, [(0, 0), (1, 1)]), sparse(square, [(1, 0), (1, 1)])),
             (sparse(square, [(0, 0)], [(0, 0, 1)]), sparse(square, [(1, 1)], (), [(1, 1, 2)])),
             (sparse(square, [(0, 0), (1, 1)], [(1, 1, 9)], [(0, 0, 8)]), sparse(square, [(1, 1)], [(1, 1, 5)]))]
    yield from [line(op, a, b, *BUFFERS) for op in (22, 23) for a, b in pairs]
    yield line(12, sparse([2], [(0,), (1,)], [(1, 7)], [(0, 3)]), 1802)
    yield line(19, sparse([1, 2], [(0, 0)], [(0, 0, 42)]), [2, 3, 2], *BUFFERS)
    yield line(25, sparse([2, 3], [(0, 1), (1, 2)], [(1, 2, 5)], [(0, 1, 8)]), [1, 0], *BUFFERS)
    line_deps = dense([2], [(0, 0), (1, 1)])
    yield from [line(19, line_deps, [2, 2, 2], *BUFFERS), line(19, line_deps, [1, 2], *BUFFERS)]
    yield line(26, sparse(square, [(0, 0), (0, 1), (1, 1)]) + line_deps, 2, 43, *BUFFERS)
    yield line(26, sparse(square, [(0, 0), (1, 1)]) + line_deps, 2, 42, *BUFFERS)
    yield line(26, sparse(square, [(0, 1), (1, 0)], (), [(0, 1, 5), (1, 0, 6)]) + line_deps, 2, 43, *BUFFERS)


def ranges_of_the_rust():
    """What the tests of layout.rs ask of filter_deps_from: target and source extent, states, inputs with their numbers, the range."""
    asked = [(5, 10, range(8), ((1, 10), (3, 11), (5, 12), (7, 13)), 2, 7), (3, 8, (0, 1, 2, 5), ((0, 10), (2, 12)), 0, 3),
             (3, 8, (2, 5, 6, 7), ((5, 15), (7, 17)), 5, 8), (3, 10, (0, 1, 8, 9), ((0, 10), (9, 19)), 3, 6), (1, 5, (0, 2, 3), ((2, 12),), 2, 3),
             (5, 10, (), (), 2, 7), (5, 5, range(5), ((1, 11), (3, 13)), 0, 5)]
    for target, source, states, inputs, start, end in asked:
        yield line(28, dense([target]), dense([source], [(k, k) for k in states], inputs), start, end, *BUFFERS)


def two_exchangers():
    """The balance of two heat exchangers, refined to three and four segments; it depends on a state and on an input."""
    return dense([1, 1], [(0, 0, 0)], [(0, 0, 0)]), [2, 3, 4]


def many_indices():
    """Indices looked up in one call: as many as the result has room for and one more, of records with and without axes, and with two faults."""
    scalar, full_row, two = dense([]), sparse([200], run_of(9, 128)), sparse([3, 3], [(0, 1), (1, 0), (2, 2)])
    unordered, cut = sparse([3], [(1,), (0,)]), [2, 0, 1, 3, 2, 1]
    yield from [line(35, scalar, n, [], 1802) for n in (0, 1, 1802, 1803, -1)]
    yield from [line(35, full_row, n, [k % 200 for k in range(n)], 1802) for n in (200, 1801, 1802, 1803)]
    yield line(35, full(), 1802, [k // 4 % 4 if k % 4 else 1 for k in range(4 * 1802)], 1802)
    yield from [line(35, two, n, [2, 2, 1, 1, 0, 1][:m], size) for n, m in ((3, 6), (3, 5), (2, 6)) for size in (1801, 1802, 1803)]
    yield from [line(35, s, n, [-1], size) for s in ([2, 0, 5], cut, unordered) for n in (1, -1, 1803) for size in (0, 1802)]


def modes_of_stretching():
    """Both modes of stretching: dependencies outside the new extents, new extents 0, axes that stay 1, 128 and 129 combinations, and as many as a shape has; no mode, alone and with another fault."""
    balance, segments = two_exchangers()
    one, far, cut = dense([1, 1], [(0, 0, 7)]), dense([1, 1], [(0, 6, 7), (5, 0, 7), (5, 6, 8)], [(9, 9, 2147483647)]), []
    shapes = [[2, 2, 2], [2, 1, 2], [2, 2, 1], [2, 1, 1], [1, 2], [0], [3, 2, 2, 2], [2, 0, 2], [2, 2, 0], [2, 65536, 0], [2, 256, 256], [2, 8, 16], [2, 3, 43]]
    for mode in (0, 1):
        yield line(32, balance, segments, mode, *BUFFERS)
        yield from [line(32, s, shape, mode, *BUFFERS) for s in (one, far) for shape in shapes]
        yield from [line(33, s, rank, mode, *BUFFERS) for s in (one, far, dense([2, 1], [(1, 3, 4)])) for rank in range(5)]
        yield line(32, dense([1], [(k, 7) for k in range(128)]), [1, 128], mode, *BUFFERS)
        yield line(32, sparse([1, 2, 1], [(0, 1, 0)], [(0, 1, 4, 3), (2, 0, 0, 3)]), [3, 2, 2, 3], mode, *BUFFERS)
        for operator in (42, 43, 47):
            yield from [line(34, balance + other, 2, operator, mode, *BUFFERS) for other in (dense([3, 4]), sparse([3, 4], [(1, 2)], [(1, 2, 5)]))]
            yield from [line(34, far, 1, operator, mode, *BUFFERS), line(34, far + dense([2, 0]), 2, operator, mode, *BUFFERS)]
    for mode in (2, -1, 256, 2147483647, -2147483648):
        for s, shape, rank, sizes in ((one, [2, 2, 2], 3, BUFFERS), (one, [5], 5, BUFFERS), (one, [2, 2, 2], 3, [0, 0]), (cut, [-1], -1, BUFFERS), (one, [-1], -1, BUFFERS), (far, [1, 2], 0, BUFFERS)):
            yield from [line(32, s, shape, mode, *sizes), line(33, s, rank, mode, *sizes), line(34, s, 1, 43, mode, *sizes)]
        yield from [line(34, one, 17, 43, mode, *BUFFERS), line(34, [], 0, 43, mode, *BUFFERS)]


def branch_loads():
    """The loads of five branches over 24 hours, of which three draw at every hour and depend on their supply temperature."""
    return sparse([5, 24], [(0,), (2,), (3,)], [(b, 0, b) for b in (0, 2, 3)], D=1)


def contractions_over_dense_axes():
    """Rows kept, few and many, in order and not, filling the shape, without numbers, over an extent 0; D from 1 to 4; dependencies that meet; kinds without rows."""
    cube, deps = [2, 3, 2], [(1, 2, 0, 7), (1, 2, 1, 7), (1, 2, 1, 9)]
    records = [branch_loads(), sparse([3, 2], [(2,), (0,)], D=1), sparse([2, 3], [(1,), (0,)], D=1), sparse([2, 0], [(1,)], D=1), sparse([0, 2], [], D=1)]
    records += [sparse(cube, [(1, 2), (0, 1)], deps, deps[1:], D=1), sparse(cube, [(1,), (0,)], deps, D=2), sparse(cube, [()], deps, D=3), sparse(cube, [], deps, D=1)]
    records += [sparse([4], [()], D=1), sparse([4], [], D=1), sparse([0], [()], D=1), sparse([1] * 4, [()], D=4), sparse([2] * 4, [(1, 0, 1), (0, 1, 1)], D=1)]
    records += [sparse([200, 2], run_of(9, n)[::step], D=1) for n in (127, 128, 129) for step in (1, -1)] + [sparse([3, 2], [(1,), (1,)], D=1), sparse([3, 2], [(3,)], D=1)]
    records += [record(DIAGONAL, D, [2] * (3 - D) + [3] * D, (), deps) for D in (1, 2)] + [dense(cube, deps)]
    for s in records:
        yield from [line(24, s, *BUFFERS), line(24, s + [5, -1], *BUFFERS), line(24, s, 1801, 10812), line(24, s, 1802, 10811)]


def all_cases():
    """Every request made by hand, once."""
    positions = [request for _, request, _ in worked_by_hand()]
    parts = (positions, limits_of_records(), limits_of_pairs(), limits_of_others(), two_faults(), tests_of_the_rust(), ranges_of_the_rust(), modes_of_stretching(), contractions_over_dense_axes(),
             many_indices())
    return list(dict.fromkeys(request for part in parts for request in part))
