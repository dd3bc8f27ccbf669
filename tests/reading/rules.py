"""The rules of layouts, read once more: as functions of Python over a layout that never changes.

Made apart from the definitions of crates/rules/specs and from the port, so that each can be held against it. A function that may be refused
gives its answer or a Refusal; nothing is raised. `judged` takes numbers with their conditions in rising order, so the first that
holds is the lowest. The variable LANDED names the later requests that are in force (REQUESTS.md), parted by spaces, or `all`.
"""
import os
import struct
from functools import reduce
from itertools import accumulate, product as cartesian
from math import prod
from typing import NamedTuple, Optional, Tuple

DENSE, DIAGONAL, SPARSE = 0, 1, 2
MAX_RANK, MAX_COUNT = 4, 16
MAX_ENTRIES, MAX_PRODUCT, MAX_COMPONENT = 128, 65536, 65535
RESULT_NUMBERS, WORK_NUMBERS = 1802, 10812
DIVIDE, MULTIPLY = 47, 42
WORDS, PATTERN_NUMBERS, MAX_STATES = 1024, 257, 128


def named(text):
    """The requests that a value of LANDED names."""
    words = text.split()
    return frozenset("Q-%d" % i for i in range(1, 14)) if "all" in words else frozenset(words)


LANDED = named(os.environ.get("LANDED", ""))


def landed(request):
    """Whether a later request is in force."""
    return request in LANDED


class Layout(NamedTuple):
    """A layout by its parts."""
    kind: int
    dense: int                       # D, the dense-axis count
    shape: Tuple[int, ...]
    rows: Optional[tuple]            # tuple of index tuples; OVER: more than 128
    state: Optional[tuple]           # tuple of (index tuple, number)
    inputs: Optional[tuple]

    @property
    def rank(self):
        """R, how many axes there are."""
        return len(self.shape)


class Refusal(NamedTuple):
    """The number of a refusal."""
    number: int


OVER = None                          # a list that passed 128 different entries


def judged(*conditions):
    """The first number whose condition holds."""
    return next((Refusal(n) for n, holds in conditions if holds()), None)


def then(value, step):
    """The next step, unless this one was refused."""
    return value if isinstance(value, Refusal) else step(value)


# ---- the layout record

class Walked(NamedTuple):
    """What was found where a record was to stand."""
    layout: Optional[Layout]         # nothing: not walkable
    extents: Optional[int]           # the count of extents, where it can be read
    end: int


class WalkedShape(NamedTuple):
    """What was found where a shape was to stand."""
    shape: Optional[tuple]
    extents: Optional[int]
    end: int


class WalkedBlock(NamedTuple):
    """What was found where a block was to stand."""
    start: Optional[tuple]
    content: Optional[tuple]         # the zero flag alone; with Q-5 the tag and two numbers
    record: Walked
    end: int


def section(s, at, width):
    """One section behind its count, entries of `width` numbers: (entries, next) or nothing."""
    if at >= len(s) or s[at] < 0 or at + 1 + s[at] * width > len(s):
        return None
    if width == 0:                   # rows of no numbers: never more than needed to be seen equal
        return ((),) * min(s[at], MAX_ENTRIES + 1), at + 1
    count, first = s[at], at + 1
    return (tuple(tuple(s[i:i + width]) for i in range(first, first + count * width, width)),
            first + count * width)


def walk_record(s, at=0):
    """A record at a place; behind one that cannot be walked nothing of the slice is left."""
    extents = s[at + 2] if at + 2 < len(s) else None
    lost = Walked(None, extents, len(s))
    shape = section(s, at + 2, 1)
    if shape is None:
        return lost
    sizes, at1 = tuple(e for (e,) in shape[0]), shape[1]
    rank, dense = len(sizes), s[at + 1]
    if rank - dense < 0:
        return lost
    rows = section(s, at1, rank - dense)
    state = rows and section(s, rows[1], rank + 1)
    inputs = state and section(s, state[1], rank + 1)
    if not inputs:
        return lost
    pairs = lambda part: tuple((e[:-1], e[-1]) for e in part[0])
    return Walked(Layout(s[at], dense, sizes, rows[0], pairs(state), pairs(inputs)), extents, inputs[1])


def walk_shape(s, at=0):
    """A shape at a place: its count and so many extents."""
    extents = s[at] if at < len(s) else None
    part = section(s, at, 1)
    if part is None:
        return WalkedShape(None, extents, len(s))
    return WalkedShape(tuple(e for (e,) in part[0]), extents, part[1])


def walk_block(rank):
    """How a block is walked, for an asked rank: start, flag (or content), record."""
    def walk(s, at):
        """A block at a place."""
        after = at + rank + (3 if landed("Q-5") else 1)
        if rank < 0 or after > len(s):
            return WalkedBlock(None, None, Walked(None, None, len(s)), len(s))
        record = walk_record(s, after)
        return WalkedBlock(tuple(s[at:at + rank]), tuple(s[at + rank:after]), record, record.end)
    return walk


def good_content(content):
    """A flag is 0 or 1; with Q-5 a constant (0, low, high) or an expression (1, number, ignored)."""
    if not landed("Q-5"):
        return content[0] in (0, 1)
    tag, number, _ = content
    return tag == 0 or (tag == 1 and number >= 0)


def counts_as_zero(content):
    """With Q-5: a constant equal to 0.0, negative zero too."""
    if not landed("Q-5"):
        return content[0] == 1
    tag, low, high = content
    return tag == 0 and struct.unpack("<d", struct.pack("<ii", low, high))[0] == 0.0


def walk_list(walk, s, count):
    """So many things, each where the one before it ends."""
    return tuple(reduce(lambda got, _: got + (walk(s, got[-1].end if got else 0),), range(count), ()))


def numbers(l):
    """The record of a layout."""
    deps = lambda ds: (len(ds),) + tuple(n for index, j in ds for n in index + (j,))
    return ((l.kind, l.dense, l.rank) + l.shape
            + (len(l.rows),) + tuple(c for row in l.rows for c in row)
            + deps(l.state) + deps(l.inputs))


def within_product(shape):
    """The limit on extents: the zeros are left out of the product."""
    return prod(e for e in shape if e != 0) <= MAX_PRODUCT


def in_order(index, order=0):
    """What an index is sorted by: order 1 (Q-11) has the last axis weigh most; every other the first."""
    return index[::-1] if order == 1 else index


def dep_in_order(order=0):
    """What a dependency is sorted by: by index, then number."""
    return lambda entry: (in_order(entry[0], order), entry[1])


def row_in_order(order=0):
    """What a row is sorted by."""
    return lambda row: in_order(row, order)


def increasing(entries, key=lambda e: e):
    """Each entry is below the next."""
    keys = tuple(map(key, entries))
    return all(a < b for a, b in zip(keys, keys[1:]))


def form_sound(l, order=0):
    """Soundness other than by size."""
    rows, R, D = (l.rows or ()), l.rank, l.dense
    return (l.kind in (DENSE, DIAGONAL, SPARSE)
            and 0 <= D <= R <= MAX_RANK
            and all(e >= 0 for e in l.shape)
            and (l.kind == SPARSE or l.rows == ())
            and len(set(rows)) == len(rows)
            and all(len(row) == R - D and all(0 <= c < e for c, e in zip(row, l.shape)) for row in rows)
            and (l.kind != DENSE or D == R)
            and (l.kind != DIAGONAL or (R - D >= 1 and len(set(l.shape[:R - D])) == 1))
            and all(len(index) == R and all(c >= 0 for c in index) and j >= 0
                    for ds in (l.state, l.inputs) for index, j in (ds or ()))
            and increasing(l.state or (), dep_in_order(order))
            and increasing(l.inputs or (), dep_in_order(order)))


def size_sound(l):
    """The size limits of soundness."""
    return (within_product(l.shape)
            and all(part is not OVER and len(part) <= MAX_ENTRIES for part in (l.rows, l.state, l.inputs))
            and all(c <= MAX_COMPONENT for ds in (l.state, l.inputs) for index, _ in ds for c in index))


def sound(walked, order=0):
    """A record that can be walked and is sound, in form and in size."""
    return walked.layout is not None and form_sound(walked.layout, order) and size_sound(walked.layout)


def ordered(l, order=0):
    """The rows of a sound layout strictly increase."""
    return increasing(l.rows, row_in_order(order))


def row_by_number(walked, n):
    """The numbers of a row, none where there is no such row."""
    return walked.layout.rows[n] if sound(walked) and 0 <= n < len(walked.layout.rows) else ()


# ---- a diagonal with dense axes stands as a sparse layout

def retired(l):
    """A diagonal with dense axes, where Q-8 is in force."""
    return landed("Q-8") and l.kind == DIAGONAL and l.dense > 0


def in_new_form(l):
    """The sparse layout that stands for a diagonal with dense axes; its rows OVER where it needs over 128."""
    if not retired(l):
        return l
    n = l.shape[0]
    return l._replace(kind=SPARSE, rows=OVER if n > MAX_ENTRIES else tuple((i,) * (l.rank - l.dense) for i in range(n)))


def first_step(layouts, operation):
    """Lent layouts in the new form (13 where one needs over 128 rows), then the operation."""
    new = tuple(map(in_new_form, layouts))
    return Refusal(13) if any(l.rows is OVER for l in new) else operation(*new)


def made(l, order=0):
    """A layout made on the way or at the end of a step: 12, then 13."""
    new = in_new_form(l)
    return judged((12, lambda: not form_sound(l, order)), (13, lambda: not size_sound(new))) or new


# ---- numbers 1 to 5

def good_shape(walked):
    """A shape that can be walked, without negative extents, within the limit."""
    return (walked.shape is not None and all(e >= 0 for e in walked.shape)
            and within_product(walked.shape))


def good_components(index):
    """Every component is in 0..65,535."""
    return all(0 <= c <= MAX_COMPONENT for c in index)


def good_index(index, rank):
    """As many components as the rank, all of them good."""
    return len(index) == rank and good_components(index)


def good_end(n):
    """A start or a range end: 0..65,536."""
    return 0 <= n <= MAX_PRODUCT


def arguments(records=(), shapes=(), ranks=(), counts=(), result=None, work=None,
              to_be_ordered=(), wrong=lambda: False, order=0, lent_wrong=lambda: False):
    """The lowest of the numbers 1 to 5 that holds of any argument."""
    return judged(
        (1, lambda: any(not 0 <= c <= MAX_COUNT for c in counts)
            or any(r > MAX_RANK for r in ranks)
            or any(x.extents is not None and x.extents > MAX_RANK for x in tuple(records) + tuple(shapes))),
        (2, lambda: (result is not None and result < RESULT_NUMBERS)
            or (work is not None and work < WORK_NUMBERS) or lent_wrong()),
        (3, lambda: not all(sound(w, order) for w in records)),
        (4, lambda: not all(ordered(w.layout, order) for w in to_be_ordered)),
        (5, lambda: any(r < 0 for r in ranks) or not all(good_shape(s) for s in shapes)
            or order not in (0, 1) or wrong()))


# ---- 1. Shapes

def common_axis(shapes, i):
    """The extent of axis i, or nothing where the shapes do not agree."""
    extents = tuple(s[i] if i < len(s) else 1 for s in shapes)
    largest = max(extents)
    return largest if all(e in (1, largest) for e in extents) else None


def common_shape(shapes):
    """The common shape, aligned on the left, or nothing."""
    if not shapes:
        return None
    axes = tuple(common_axis(shapes, i) for i in range(max(map(len, shapes))))
    return None if None in axes else axes


def broadcast_shapes(shapes):
    """The common shape of a list of shapes: 6, then 13."""
    shape = common_shape(shapes)
    return judged((6, lambda: shape is None), (13, lambda: not within_product(shape))) or shape


def can_broadcast_to(to, source):
    """Whether the common shape of both is the first."""
    return common_shape((to, source)) == to


# ---- 2. Positions

def ravel_index(index, shape, order=0):
    """The number of an index; the axes behind it run faster, in order 1 those before it."""
    faster = lambda i: shape[:i] if order == 1 else shape[i + 1:]
    return sum(c * prod(faster(i)) for i, c in enumerate(index))


def unravel(number, shape):
    """An index by remainders, the last axis first."""
    if not shape:
        return ()
    return unravel(number // shape[-1], shape[:-1]) + (number % shape[-1],)


def unravel_index(number, shape, order=0):
    """The index of a number, in an order; 6 over an extent 0."""
    return judged((6, lambda: 0 in shape)) or in_order(unravel(number, in_order(shape, order)), order)


def cmp_index(a, b, order=0):
    """How two indices of one length compare: -1, 0 or 1."""
    a, b = in_order(a, order), in_order(b, order)
    return (a > b) - (a < b)


# ---- 3. Dependencies

def merge(*lists, key=None):
    """The different entries of some lists, in order."""
    return tuple(sorted(set(e for entries in lists for e in entries), key=key))


def held(l):
    """The test whether an index is among the held positions of the layout."""
    if l.kind == DENSE:
        return lambda index: all(c < e for c, e in zip(index, l.shape))
    if l.kind == DIAGONAL:
        return lambda index: all(c == index[0] for c in index) and index[0] < l.shape[0]
    rows = frozenset(l.rows)
    return lambda index: index in rows


def dense_axes_bar_filter(l, *lists):
    """Something is to be filtered by a sparse layout with dense axes: 11."""
    return l.kind == SPARSE and l.dense > 0 and any(lists)


def filter_deps(l, entries):
    """The entries whose index the layout holds."""
    keeps = held(l)
    return tuple(e for e in entries if keeps(e[0]))


def fit(index, rank):
    """An index cut, or filled up with zeros, to a rank."""
    return (index + (0,) * rank)[:rank]


# ---- 4. Lookup

NOTHING = ("nothing",)


def found(place):
    """What a lookup answers for a place."""
    return ("found", place)


def not_held(number_before):
    """What a lookup answers for a position of the shape that is not held: how many are held before it (Q-3)."""
    return ("before", number_before) if landed("Q-3") else NOTHING


def as_read(index, shape):
    """The index with the axes of extent 1 read as 0, or nothing where it lies outside the shape."""
    read = tuple(0 if e == 1 else c for c, e in zip(index, shape))
    return None if any(c >= e for c, e in zip(read, shape)) else read


def before(entries, index, order):
    """How many entries come before an index."""
    return sum(cmp_index(e, index, order) < 0 for e in entries)


def lookup(l, index, order=0):
    """Where an index stands; if it is not held, how many are before it (Q-3) or nothing."""
    read = as_read(index, l.shape)
    if read is None:
        return NOTHING
    if l.kind == DENSE:
        return found(ravel_index(read, l.shape, order))
    if l.kind == DIAGONAL:
        if all(c == read[0] for c in index):
            return found(read[0])
        if l.dense > 0 or l.shape[0] == 1:
            return NOTHING
        return not_held(before(((i,) * l.rank for i in range(l.shape[0])), read, order))
    lead = read[:l.rank - l.dense]
    return found(l.rows.index(lead)) if lead in l.rows else not_held(before(l.rows, lead, order))


# ---- 5. Counts and forms

def nnz(l):
    """How many positions a layout stores: the product, the first extent, or the rows."""
    return {DENSE: lambda: prod(l.shape), DIAGONAL: lambda: l.shape[0], SPARSE: lambda: len(l.rows)}[l.kind]()


def min_rank(l):
    """How many axes are left without the extents 1 at the end."""
    return max((i + 1 for i, e in enumerate(l.shape) if e != 1), default=0)


def eq_nonzeros(a, b):
    """Kind, D, shape and rows are the same."""
    return a[:4] == b[:4]


def eq_nonzeros_and_deps(a, b):
    """And so are both dependency lists."""
    return a == b


def to_dense(l):
    """The dense layout of the same shape and dependencies."""
    return l._replace(kind=DENSE, dense=l.rank, rows=())


def dense(shape):
    """The dense layout of a shape."""
    return Layout(DENSE, len(shape), shape, (), (), ())


def new_empty(rank):
    """The dense layout of a rank whose extents are all 0."""
    return dense((0,) * rank)


def new_scalar():
    """The dense layout without axes."""
    return dense(())


def diagonal(shape):
    """The diagonal layout of a shape, if it is one."""
    return made(Layout(DIAGONAL, 0, shape, (), (), ()))


def sparse(shape, count, values):
    """Rows of a good shape; the caller has seen that there are count times rank values."""
    rank = len(shape)
    rows = (tuple(tuple(values[i * rank:(i + 1) * rank]) for i in range(count)) if rank
            else ((),) * min(count, MAX_ENTRIES + 1))
    return made(Layout(SPARSE, 0, shape, rows, (), ()))


def to_data_layout(l):
    """The numbers of the rows of a sparse layout, one after the other."""
    return tuple(c for row in l.rows for c in row) if l.kind == SPARSE else ()


# ---- 6. Stretching

def stretched_axes(old, new):
    """New axes, and old ones whose extent was 1 and is another now."""
    return tuple(i for i in range(len(new)) if i >= len(old) or (old[i] == 1 and new[i] != 1))


def with_value(index, axis, value):
    """The index with another value on one axis."""
    return index[:axis] + (value,) + index[axis + 1:]


def gather(entries):
    """The different entries, sorted; OVER as soon as there are more than 128."""
    seen = set()
    for e in entries:
        seen.add(e)
        if len(seen) > MAX_ENTRIES:
            return OVER
    return tuple(sorted(seen))


def stretch_stream(fitted, axes, shape):
    """Every entry as it is, then with each value on one stretched axis at a time."""
    yield from fitted
    for index, j in fitted:
        for axis in axes:
            for value in range(shape[axis]):
                yield with_value(index, axis, value), j


def every_combination(fitted, axes, shape):
    """Mode 1 (Q-1): each entry with all stretched axes running at once."""
    bases = set((tuple(0 if i in axes else c for i, c in enumerate(index)), j) for index, j in fitted)
    if any(shape[a] == 0 for a in axes):
        return
    for base, j in bases:
        for values in cartesian(*(range(shape[a]) for a in axes)):
            yield reduce(lambda index, av: with_value(index, *av), zip(axes, values), base), j


def stretch_deps(entries, axes, shape, mode=0):
    """Each entry at the new rank, and what the stretched axes make of it."""
    fitted = tuple((fit(index, len(shape)), j) for index, j in entries)
    return gather((every_combination if mode == 1 else stretch_stream)(fitted, axes, shape))


def stretch_rows(l, axes, shape):
    """The rows with each value on those stretched axes that they reach over."""
    own = tuple(a for a in axes if a < l.rank - l.dense)
    if len(l.rows) * prod(shape[a] for a in own) > MAX_ENTRIES:
        return OVER
    widen = lambda rows, axis: tuple(with_value(r, axis, v) for r in rows for v in range(shape[axis]))
    return tuple(sorted(reduce(widen, own, l.rows)))


def stretched(l, shape, mode=0):
    """The layout after stretching, not yet judged."""
    axes = stretched_axes(l.shape, shape)
    return Layout(l.kind, l.dense + len(shape) - l.rank, shape, stretch_rows(l, axes, shape),
                  stretch_deps(l.state, axes, shape, mode), stretch_deps(l.inputs, axes, shape, mode))


def broadcast_to_shape(l, shape, mode=0):
    """A layout stretched to a shape: 6, then 11, then what the layout made breaks."""
    return judged(
        (6, lambda: any(e != 1 and e != n for e, n in zip(l.shape, shape))),
        (11, lambda: l.dense + len(shape) - l.rank < 0)) or made(stretched(l, shape, mode))


def broadcast_to_rank(l, rank, mode=0):
    """A layout stretched to a rank; the axes that are cut must be 1."""
    return judged((6, lambda: any(e != 1 for e in l.shape[rank:]))) or \
        broadcast_to_shape(l, (l.shape + (1,) * rank)[:rank], mode)


# ---- 7. Removal

def lists_a_row(l, new):
    """Removal hands a row of full length to a layout that still has dense axes: 12."""
    return l.dense > new > 0 and bool(l.rows) and 0 not in l.shape[l.rank - (l.dense - new):]


def remove_dense_axes(l, new):
    """A sparse layout with fewer dense axes: what it lists, with each value on the axes removed."""
    if l.dense == new:
        return l
    kept = l.rank - (l.dense - new)
    last = l.shape[kept:]
    each = prod(last)
    tails = lambda: cartesian(*map(range, last))
    heads = tuple(sorted(set((index[:kept], j) for index, j in l.state)))
    heads_in = tuple(sorted(set((index[:kept], j) for index, j in l.inputs)))
    widen = lambda hs: (OVER if len(hs) * each > MAX_ENTRIES
                        else tuple(sorted((h + t, j) for h, j in hs for t in tails())))
    rows = OVER if len(l.rows) * each > MAX_ENTRIES else tuple(r + t for r in l.rows for t in tails())
    return l._replace(dense=new, rows=rows, state=widen(heads), inputs=widen(heads_in))


def expanded(l):
    """A diagonal (without dense axes) as rows."""
    if l.kind != DIAGONAL:
        return l
    n = l.shape[0]
    return l._replace(kind=SPARSE, rows=OVER if n > MAX_ENTRIES else tuple((i,) * l.rank for i in range(n)))


def any_over(*layouts):
    """Whether a list of one of the layouts passed 128 entries."""
    return any(part is OVER for l in layouts for part in (l.rows, l.state, l.inputs))


def diagonal_with_dense_axes(*layouts):
    """Whether one of the layouts is a diagonal that cannot be expanded: 11."""
    return any(l.kind == DIAGONAL and l.dense > 0 for l in layouts)


# ---- 8. union

def merged_deps(a, b, order=0):
    """The dependencies of two layouts, merged."""
    key = dep_in_order(order)
    return dict(state=merge(a.state, b.state, key=key), inputs=merge(a.inputs, b.inputs, key=key))


def union(a, b, order=0):
    """Positions that either layout holds: 6, then 11, 12, 13, whatever is met first."""
    if a.shape != b.shape:
        return Refusal(6)
    merged = merged_deps(a, b, order)
    if a.kind == DENSE or b.kind == DENSE:
        return made((a if a.kind == DENSE else b)._replace(**merged), order)
    if a.kind == b.kind == DIAGONAL and a.dense == b.dense:
        return made(a._replace(**merged), order)
    bare = tuple(x._replace(state=(), inputs=()) for x in (a, b))
    low = min(a.dense, b.dense)
    first = judged((11, lambda: diagonal_with_dense_axes(a, b)),
                   (12, lambda: any(lists_a_row(x, low) for x in bare)))
    if first:
        return first
    x, y = (remove_dense_axes(l, low) if l.kind == SPARSE else expanded(l) for l in bare)
    if any_over(x, y):
        return Refusal(13)
    return made(x._replace(rows=merge(x.rows, y.rows, key=row_in_order(order)), **merged), order)


# ---- 9. intersect

def merged_and_filtered(l, a, b, order=0):
    """Layout l with the dependencies of a and b merged, then filtered by l."""
    merged = merged_deps(a, b, order)
    return judged((11, lambda: dense_axes_bar_filter(l, *merged.values()))) or \
        made(l._replace(**{part: filter_deps(l, entries) for part, entries in merged.items()}), order)


def survives_removal(l, low):
    """Whether any dependency is left once the layout is lowered."""
    return bool(l.state or l.inputs) and (l.dense == low or 0 not in l.shape[l.rank - (l.dense - low):])


def fill_to_dense(l):
    """A sparse layout that holds every position turns dense."""
    return to_dense(l) if l.kind == SPARSE and len(l.rows) == prod(l.shape) else l


def intersect(a, b, order=0):
    """Positions that both layouts hold: 6, then 11, 12, 13, whatever is met first."""
    if a.shape != b.shape:
        return Refusal(6)
    if a.kind == DENSE or b.kind == DENSE:
        return merged_and_filtered(b if a.kind == DENSE else a, a, b, order)
    if a.kind == b.kind == DIAGONAL and a.dense == b.dense:
        return made(a._replace(**merged_deps(a, b, order)), order)
    low = min(a.dense, b.dense)
    first = judged(
        (11, lambda: diagonal_with_dense_axes(a, b)
            or (low > 0 and any(survives_removal(l, low) for l in (a, b)))),
        (12, lambda: any(lists_a_row(l, low) for l in (a, b))))
    if first:
        return first
    x, y = (remove_dense_axes(l, low) if l.kind == SPARSE else expanded(l) for l in (a, b))
    if any_over(x, y):
        return Refusal(13)
    common = x._replace(rows=merge(set(x.rows) & set(y.rows), key=row_in_order(order)), state=(), inputs=())
    return then(merged_and_filtered(common, x, y, order), fill_to_dense)


# ---- the pile

def exchange(pile, first, second):
    """The pile with the union and the intersection of the records at two places there: 5, then as the two calls refuse."""
    if not (0 <= first < len(pile) and 0 <= second < len(pile) and first != second):
        return Refusal(5)
    pair = (pile[first], pile[second])
    layouts = (pair[0].layout, pair[1].layout)
    either = arguments(records=pair) or first_step(layouts, union)
    if isinstance(either, Refusal):
        return either
    both = arguments(records=pair, to_be_ordered=pair) or first_step(layouts, intersect)
    if isinstance(both, Refusal):
        return both
    new = {first: either, second: both}
    return tuple(Walked(new[i], new[i].rank, 0) if i in new else w for i, w in enumerate(pile))


# ---- 10. contract_last_axis

def contract_last_axis(l):
    """A layout summed over its last axis."""
    if l.rank == 0:
        return Refusal(7)
    shape = l.shape[:-1]
    short = lambda ds: merge(tuple((index[:-1], j) for index, j in ds))
    base = Layout(l.kind, l.dense - 1, shape, (), short(l.state), short(l.inputs))
    if l.kind == SPARSE and l.dense > 0 and landed("Q-2"):
        return made(base._replace(rows=l.rows))        # keeps its rows in their order
    if l.kind == DENSE or l.dense > 0:                 # sparse with D > 0 loses its rows
        return made(base)
    if l.kind == DIAGONAL:
        return made(base._replace(dense=0) if l.rank > 2 else to_dense(base))
    return made(fill_to_dense(base._replace(dense=0, rows=merge(tuple(r[:-1] for r in l.rows)))))


# ---- 11. permute

def permute(l, permutation):
    """The axes of a layout exchanged: axis i goes to place permutation[i]."""
    refused = judged(
        (8, lambda: len(permutation) > l.rank or len(permutation) < min_rank(l)
            or any(not 0 <= p < MAX_RANK for p in permutation)
            or len(set(permutation)) != len(permutation)),
        (11, lambda: permutation and l.kind == SPARSE and l.dense > 0))
    if refused or not permutation:
        return refused or l
    rank = max(permutation) + 1
    place = {p: i for i, p in enumerate(permutation)}
    move = lambda values, missing: tuple(values[place[p]] if p in place else missing for p in range(rank))
    moved = lambda ds: merge(tuple((move(index, 0), j) for index, j in ds))
    return made(Layout(l.kind, rank if l.kind == DENSE else l.dense, move(l.shape, 1),
                       tuple(move(r, 0) for r in l.rows), moved(l.state), moved(l.inputs)))


# ---- 12. broadcast

def stretch_all(layouts, shape, mode=0):
    """Every layout stretched, the first of the list first; a refusal ends it."""
    one = lambda done, l: then(done, lambda got: then(broadcast_to_shape(l, shape, mode), lambda s: got + (s,)))
    return reduce(one, layouts, ())


def divides_by_other_sparse(last, neighbour):
    """9: a sparse divisor beside a dense or another layout."""
    return last.kind == SPARSE and (neighbour.kind == DENSE or not eq_nonzeros(last, neighbour))


def fold(layouts, operator):
    """The last layout joined with each in front of it; 9 is judged before the first join."""
    join = intersect if operator in (MULTIPLY, DIVIDE) else union
    if operator == DIVIDE and len(layouts) > 1 and divides_by_other_sparse(layouts[-1], layouts[-2]):
        return Refusal(9)
    return reduce(lambda acc, l: then(acc, lambda got: join(got, l)), reversed(layouts[:-1]), layouts[-1])


def is_diagonal_in_rows(l):
    """The rows of a sparse layout are those of a diagonal."""
    return (l.rank != 1 and len(set(l.shape)) == 1 and len(l.rows) == l.shape[0]
            and all(len(set(row)) <= 1 for row in l.rows))


def end_of_broadcast(l):
    """A sparse result that is full turns dense, one of diagonal rows turns diagonal."""
    if l.kind != SPARSE:
        return l
    if len(l.rows) == prod(l.shape):
        return to_dense(l)
    if l.rank == 0:
        return Refusal(12)
    return made(l._replace(kind=DIAGONAL, rows=())) if is_diagonal_in_rows(l) else l


def broadcast(layouts, operator, mode=0):
    """Layouts stretched to their common shape and folded by an operator."""
    shape = broadcast_shapes(tuple(l.shape for l in layouts))
    return then(then(then(shape, lambda s: stretch_all(layouts, s, mode)),
                     lambda ls: fold(ls, operator)), end_of_broadcast)


# ---- 13. concatenate

class Block(NamedTuple):
    """A block: where it starts, whether it counts as zero, its layout."""
    start: Tuple[int, ...]
    zero: bool
    layout: Layout


def moved(index, start):
    """An index moved by a start."""
    return tuple(c + s for c, s in zip(index, start))


def running_firsts(blocks):
    """The sums of the first extents in front of each block, and of them all."""
    firsts = tuple(b.layout.shape[0] if b.layout.rank else 1 for b in blocks)
    return tuple(accumulate(firsts[:-1], initial=0)), sum(firsts)


def positions(l):
    """The rows a block gives, OVER if more than 128 (they are all different)."""
    if nnz(l) > MAX_ENTRIES:
        return OVER
    if l.kind == DENSE:
        return tuple(cartesian(*map(range, l.shape)))
    return expanded(l).rows


def largest_later(blocks, rank):
    """The largest extent of each axis, at least 1."""
    return tuple(max([1] + [b.layout.shape[i] for b in blocks if i < b.layout.rank]) for i in range(rank))


def join_dense(blocks, rank):
    """Dense blocks one below the other."""
    largest = largest_later(blocks, rank)
    if any(e not in (1, m) for b in blocks for e, m in zip(b.layout.shape[1:], largest[1:])):
        return Refusal(10)
    return dense((running_firsts(blocks)[1],) + largest[1:] if rank else ())


def join_sparse(blocks, rank, D):
    """Blocks by their rows, wherever they start."""
    if D > 0 and any(b.layout.kind != SPARSE for b in blocks):
        return Refusal(10)
    shape = tuple(max(b.start[i] + b.layout.shape[i] for b in blocks) for i in range(rank))
    parts = tuple((positions(b.layout), b.start) for b in blocks if not b.zero)
    rows = (OVER if any(p is OVER for p, _ in parts)
            else merge(*(tuple(moved(r, start) for r in p) for p, start in parts)))
    # the limit is judged while the rows are still listed
    return then(made(Layout(SPARSE, D, shape, rows, (), ())), fill_to_dense)


def join_other(blocks, rank, along_diagonal):
    """Blocks that are not all dense on the first axis: along the diagonal, or by rows."""
    others = tuple(b.layout for b in blocks if b.layout.kind != DENSE)
    D = others[0].dense if others else 0
    if (any(l.dense != D for l in others) or any(b.layout.rank != rank for b in blocks)
            or len(set(b.layout.shape[rank - D:] for b in blocks)) > 1):
        return Refusal(10)
    if along_diagonal and all(b.layout.kind == DIAGONAL or all(e == 1 for e in b.layout.shape) for b in blocks):
        shape = tuple(sum(b.layout.shape[i] for b in blocks) for i in range(rank))
        return Layout(DIAGONAL, D, shape, (), (), ())
    return join_sparse(blocks, rank, D)


def concatenate(blocks, rank):
    """Blocks joined to one layout of the asked rank."""
    if not blocks:
        return new_scalar()
    if any(b.layout.rank > rank for b in blocks):
        return Refusal(10)
    runs = running_firsts(blocks)[0]
    on_first_axis = all(b.start == ((run,) + (0,) * rank)[:rank] for b, run in zip(blocks, runs))
    along_diagonal = all(b.start == (run,) * rank for b, run in zip(blocks, runs))
    joined = (join_dense(blocks, rank) if on_first_axis and all(b.layout.kind == DENSE for b in blocks)
              else join_other(blocks, rank, along_diagonal))
    gathered = lambda part: merge(*(tuple((moved(fit(index, rank), b.start), j) for index, j in part(b.layout))
                                    for b in blocks))
    return then(joined, lambda l: made(l._replace(state=gathered(lambda x: x.state),
                                                  inputs=gathered(lambda x: x.inputs))))


# ---- 14. filter_deps_from

def filter_deps_from(target, source, start, end):
    """The dependencies of a range of a source in place of those of a target."""
    wide = tuple(i for i, e in enumerate(source.shape) if e > 1)
    if source.kind != DENSE or source.rank == 0 or len(wide) > 1 or target.rank > source.rank:
        return Refusal(10)
    axis = wide[0] if wide else 0
    keeps = held(source)

    def cut(index):
        """An index shortened to the target's rank, less start on the axis that is cut."""
        short = index[:target.rank]
        return with_value(short, axis, short[axis] - start) if axis < len(short) else short

    kept = lambda ds: tuple((cut(index), j) for index, j in ds if keeps(index) and start <= index[axis] < end)
    return made(target._replace(state=kept(source.state), inputs=kept(source.inputs)))


# ---- the summary of a layout in words of bits

def all_positions(l):
    """The set of held positions of a dense layout, or a diagonal or sparse one without dense axes."""
    if l.kind == DENSE:
        return frozenset(cartesian(*map(range, l.shape)))
    if l.kind == DIAGONAL:
        return frozenset((i,) * l.rank for i in range(l.shape[0]))
    return frozenset(l.rows)


def without_dense_axes(l):
    """A dense layout, or one whose rows or diagonal reach over all axes."""
    return l.kind == DENSE or l.dense == 0


def has_summary(l):
    """The layouts that Q-4 sums up: dense ones, and sparse ones without dense axes."""
    return l.kind == DENSE or (l.kind == SPARSE and l.dense == 0)


def summary(l):
    """A word of 64 bits and a count for each of the 1,024 places."""
    if not has_summary(l):
        return Refusal(11)
    held_bits = [ravel_index(p, l.shape) for p in all_positions(l)]
    used = -(-prod(l.shape) // 64)
    words = [0] * WORDS
    for bit in held_bits:
        words[bit // 64] |= 1 << bit % 64
    ones = tuple(accumulate((w.bit_count() for w in words), initial=0))
    return tuple(words), tuple(ones[i] if i < used else 0 for i in range(WORDS))


def lookup_by_summary(l, index, words, counts):
    """The answer that bit and counts stand for, right or wrong; sums wrap."""
    if not has_summary(l):
        return Refusal(11)
    read = as_read(index, l.shape)
    if read is None:
        return NOTHING
    position = ravel_index(read, l.shape)
    word, bit = words[position // 64], position % 64
    total = (counts[position // 64] + (word & ((1 << bit) - 1)).bit_count()) % 2**32
    return found(total) if word >> bit & 1 else not_held(total)


# ---- the pattern of the states

def pattern(l, states):
    """The starts of the columns, then the places in each: 15, then 16."""
    if any(j >= states for _, j in l.state):
        return Refusal(15)
    places = tuple((lookup(l, index), j) for index, j in l.state)
    if any(what != "found" for (what, *_), _ in places):
        return Refusal(16)
    columns = tuple(sorted(set(place for (_, place), j in places if j == column)) for column in range(states))
    starts = tuple(accumulate(map(len, columns), initial=0))
    return starts + tuple(place for column in columns for place in column)


# ---- a proposal checked

def check_proposal(a, b, operator, proposal):
    """Whether a proposal holds the positions that the operation of two layouts asks for: 6, then 10."""
    three = (a, b, proposal)
    refused = judged((6, lambda: a.shape != b.shape),
                     (10, lambda: any(l.state or l.inputs or not without_dense_axes(l) for l in three)))
    if refused:
        return refused
    if proposal.shape != a.shape:
        return False
    asked = (all_positions(a) & all_positions(b)) if operator == 1 else (all_positions(a) | all_positions(b))
    return all_positions(proposal) == asked


# ---- the order in which the last axis weighs most

def convert(l, order):
    """A record of the named order in the other one."""
    other = 1 - order
    return made(l._replace(rows=merge(l.rows, key=row_in_order(other)),
                           state=merge(l.state, key=dep_in_order(other)),
                           inputs=merge(l.inputs, key=dep_in_order(other))), other)
