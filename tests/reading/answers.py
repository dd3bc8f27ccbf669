#!/usr/bin/env python3
"""answers.py < REQUESTS: the answers of the reading of the rules (rules.py) to request lines; REQUESTS.md says what a line is.

`answers.py union-records`, `answers.py exchange-records` and `answers.py optimiser-example` print what the programs of these names print.
"""
import sys
from rules import (Block, Layout, MAX_COUNT, MAX_RANK, MAX_STATES, PATTERN_NUMBERS, RESULT_NUMBERS, Refusal, SPARSE,
                   WORDS, arguments, broadcast, broadcast_shapes, broadcast_to_rank, broadcast_to_shape, can_broadcast_to,
                   check_proposal, cmp_index, concatenate, contract_last_axis, convert, counts_as_zero, dense,
                   diagonal, eq_nonzeros, eq_nonzeros_and_deps, exchange, filter_deps_from, first_step,
                   good_components, good_content, good_end, good_index, intersect, landed, lookup, lookup_by_summary,
                   min_rank, new_empty, new_scalar, nnz, numbers, ordered, pattern, permute, ravel_index,
                   row_by_number, sound, sparse, summary, to_data_layout, to_dense, union, unravel_index, walk_block,
                   walk_list, walk_record, walk_shape)


# ---- what a line says

def say(word, *values):
    """A word and numbers as a line."""
    return " ".join([word, *map(str, values)])


def answered(value, show):
    """The line of a value, or of its refusal."""
    return say("refused", value.number) if isinstance(value, Refusal) else show(value)


def show_record(l):
    """The line of a record."""
    return say("ok", *numbers(l))


def show_list(values):
    """The line of numbers behind their count."""
    return say("ok", len(values), *values)


def show_number(value):
    """The line of one number, or of yes and no."""
    return say("ok", int(value))


def op_broadcast_shapes(s, count):
    """Operation 1."""
    shapes = walk_list(walk_shape, s, count) if 0 <= count <= MAX_COUNT else ()
    return answered(arguments(shapes=shapes, counts=(count,))
                    or broadcast_shapes(tuple(x.shape for x in shapes)), show_list)


def op_can_broadcast_to(to, source):
    """Operation 2."""
    t, f = walk_shape(to), walk_shape(source)
    refused = arguments(shapes=(t, f))
    return answered(refused if refused else can_broadcast_to(t.shape, f.shape), show_number)


def op_ravel_index(index, s, order=0):
    """Operations 3 and 44."""
    shape = walk_shape(s)
    refused = arguments(shapes=(shape,), order=order, wrong=lambda: not good_index(index, len(shape.shape)))
    return answered(refused if refused else ravel_index(index, shape.shape, order), show_number)


def op_unravel_index(n, s, order=0):
    """Operations 4 and 45."""
    shape = walk_shape(s)
    refused = arguments(shapes=(shape,), order=order, wrong=lambda: n < 0)
    return answered(refused if refused else unravel_index(n, shape.shape, order), show_list)


def op_cmp_index(a, b, order=0):
    """Operations 5 and 46."""
    wrong = lambda: (len(a) != len(b) or len(a) > MAX_RANK
                     or not good_components(a) or not good_components(b))
    refused = arguments(order=order, wrong=wrong)
    return answered(refused if refused else cmp_index(a, b, order), show_number)


def show_found(what):
    """The line of what a lookup answers."""
    return say(*what)


def op_lookup(s, index, order=0):
    """Operations 7 and 49."""
    w = walk_record(s)
    refused = arguments(records=(w,), to_be_ordered=(w,), order=order,
                        wrong=lambda: not good_index(index, w.layout.rank))
    return answered(refused or first_step((w.layout,), lambda l: lookup(l, index, order)), show_found)


def place_number(what):
    """What stands for the answer of a lookup among others: the place, or -1."""
    return what[1] if what[0] == "found" else -1


def op_lookup_all(s, count, values, r):
    """Operation 35."""
    w = walk_record(s)
    wrong = lambda: not (0 <= count <= RESULT_NUMBERS and len(values) == count * w.layout.rank and good_components(values))
    places = lambda l: [place_number(lookup(l, values[i * l.rank:(i + 1) * l.rank])) for i in range(count)]
    return answered(arguments(records=(w,), to_be_ordered=(w,), result=r, wrong=wrong)
                    or first_step((w.layout,), places), show_list)


def of_one(function, show):
    """The operation of a function of one record."""
    def op(s, *buffers):
        """An answer line."""
        w = walk_record(s)
        refused = arguments(records=(w,), **dict(zip(("result", "work"), buffers)))
        return answered(refused if refused else first_step((w.layout,), function), show)
    return op


def of_two(function, show, is_ordered=False):
    """The operation of a function of two records."""
    def op(s, t, *buffers):
        """An answer line."""
        w = (walk_record(s), walk_record(t))
        refused = arguments(records=w, to_be_ordered=w if is_ordered else (),
                            **dict(zip(("result", "work"), buffers)))
        return answered(refused if refused else first_step((w[0].layout, w[1].layout), function), show)
    return op


def op_new_empty(rank, r):
    """Operation 13."""
    return answered(arguments(ranks=(rank,), result=r) or new_empty(rank), show_record)


def op_new_scalar(r):
    """Operation 14."""
    return answered(arguments(result=r) or new_scalar(), show_record)


def of_shape(function):
    """The operation of a function of a shape."""
    def op(s, r):
        """An answer line."""
        shape = walk_shape(s)
        return answered(arguments(shapes=(shape,), result=r) or function(shape.shape), show_record)
    return op


def op_sparse(s, count, values, r):
    """Operation 17."""
    shape = walk_shape(s)
    wrong = lambda: count < 0 or count * len(shape.shape) != len(values)
    return answered(arguments(shapes=(shape,), result=r, wrong=wrong)
                    or sparse(shape.shape, count, values), show_record)


def good_mode(mode):
    """The two modes of Q-1."""
    return mode in (0, 1)


def stretch_to_shape(s, t, mode, r, w):
    """Operations 19 and 32."""
    record, shape = walk_record(s), walk_shape(t)
    return answered(arguments(records=(record,), shapes=(shape,), result=r, work=w, wrong=lambda: not good_mode(mode))
                    or first_step((record.layout,), lambda l: broadcast_to_shape(l, shape.shape, mode)), show_record)


def stretch_to_rank(s, rank, mode, r, w):
    """Operations 20 and 33."""
    record = walk_record(s)
    return answered(arguments(records=(record,), ranks=(rank,), result=r, work=w, wrong=lambda: not good_mode(mode))
                    or first_step((record.layout,), lambda l: broadcast_to_rank(l, rank, mode)), show_record)


def stretch_and_fold(s, count, operator, mode, r, w):
    """Operations 26 and 34."""
    records = walk_list(walk_record, s, count) if 0 <= count <= MAX_COUNT else ()
    return answered(arguments(records=records, counts=(count,), result=r, work=w, wrong=lambda: not good_mode(mode))
                    or first_step((x.layout for x in records), lambda *ls: broadcast(ls, operator, mode)), show_record)


def op_broadcast_to_shape(s, t, r, w):
    """Operation 19: mode 0."""
    return stretch_to_shape(s, t, 0, r, w)


def op_broadcast_to_rank(s, rank, r, w):
    """Operation 20: mode 0."""
    return stretch_to_rank(s, rank, 0, r, w)


def op_permute(s, permutation, r, w):
    """Operation 25."""
    record = walk_record(s)
    return answered(arguments(records=(record,), result=r, work=w)
                    or first_step((record.layout,), lambda l: permute(l, permutation)), show_record)


def op_broadcast(s, count, operator, r, w):
    """Operation 26: mode 0."""
    return stretch_and_fold(s, count, operator, 0, r, w)


def op_concatenate(s, count, rank, r, w):
    """Operation 27."""
    blocks = (walk_list(walk_block(rank), s, count)
              if 0 <= count <= MAX_COUNT and rank <= MAX_RANK else ())
    wrong = lambda: any(not good_content(b.content) or not all(map(good_end, b.start)) for b in blocks)
    join = lambda *layouts: concatenate(tuple(Block(b.start, counts_as_zero(b.content), l)
                                              for b, l in zip(blocks, layouts)), rank)
    return answered(arguments(records=tuple(b.record for b in blocks), ranks=(rank,), counts=(count,),
                              result=r, work=w, wrong=wrong)
                    or first_step((b.record.layout for b in blocks), join), show_record)


def op_filter_deps_from(s, t, start, end, r, w):
    """Operation 28."""
    target, source = walk_record(s), walk_record(t)
    return answered(arguments(records=(target, source), result=r, work=w,
                              wrong=lambda: not (good_end(start) and good_end(end)))
                    or first_step((target.layout, source.layout),
                                  lambda t, s: filter_deps_from(t, s, start, end)), show_record)


def op_sound(s, order=0):
    """Operations 29 and 47."""
    return answered(arguments(order=order), show_number) if order not in (0, 1) else \
        show_number(sound(walk_record(s), order))


def op_ordered(s, order=0):
    """Operations 30 and 48."""
    w = walk_record(s)
    return answered(arguments(order=order), show_number) if order not in (0, 1) else \
        show_number(sound(w, order) and ordered(w.layout, order))


def op_row(s, n):
    """Operation 31."""
    row = row_by_number(walk_record(s), n)
    return say("part", len(row), *row)


def show_summary(both):
    """The line of the words and counts that are not 0."""
    return say("ok", *(n for i, (w, c) in enumerate(zip(*both)) if w or c
                       for n in (i, w % 2**32, w >> 32, c)))


def op_build_summary(s, words, counts):
    """Operation 40."""
    w = walk_record(s)
    return answered(arguments(records=(w,), to_be_ordered=(w,), lent_wrong=lambda: (words, counts) != (WORDS, WORDS))
                    or first_step((w.layout,), summary), show_summary)


def op_lookup_by_summary(s, index, halves, counts):
    """Operation 41."""
    w = walk_record(s)
    refused = arguments(records=(w,), to_be_ordered=(w,),
                        lent_wrong=lambda: (len(halves), len(counts)) != (2 * WORDS, WORDS),
                        wrong=lambda: not good_index(index, w.layout.rank))
    words = tuple(low % 2**32 | high % 2**32 << 32 for low, high in zip(halves[::2], halves[1::2]))
    return answered(refused or first_step((w.layout,), lambda l: lookup_by_summary(l, index, words, counts)), show_found)


def op_pattern(s, states, r):
    """Operation 42."""
    w = walk_record(s)
    return answered(arguments(records=(w,), to_be_ordered=(w,), lent_wrong=lambda: r < PATTERN_NUMBERS,
                              wrong=lambda: not 0 <= states <= MAX_STATES)
                    or first_step((w.layout,), lambda l: pattern(l, states)), show_list)


def op_check_proposal(s, t, operator, p):
    """Operation 43."""
    w = tuple(map(walk_record, (s, t, p)))
    refused = arguments(records=w, to_be_ordered=w, wrong=lambda: operator not in (0, 1))
    return answered(refused or first_step((x.layout for x in w),
                                          lambda a, b, c: check_proposal(a, b, operator, c)), show_number)


def of_two_in_order(function, is_ordered=False):
    """The operation of a function of two records in an order."""
    def op(s, t, order, r, work):
        """An answer line."""
        w = (walk_record(s), walk_record(t))
        refused = arguments(records=w, to_be_ordered=w if is_ordered else (), order=order, result=r, work=work)
        return answered(refused or first_step((w[0].layout, w[1].layout), lambda a, b: function(a, b, order)), show_record)
    return op


def op_convert(s, order, r, work):
    """Operation 52."""
    w = walk_record(s)
    return answered(arguments(records=(w,), order=order, result=r, work=work)
                    or first_step((w.layout,), lambda l: convert(l, order)), show_record)


OPERATIONS = {
    1: ("Sn", op_broadcast_shapes), 2: ("SS", op_can_broadcast_to), 3: ("SS", op_ravel_index),
    4: ("nS", op_unravel_index), 5: ("SS", op_cmp_index), 7: ("SS", op_lookup),
    8: ("S", of_one(nnz, show_number)), 9: ("S", of_one(min_rank, show_number)),
    10: ("SS", of_two(eq_nonzeros, show_number)), 11: ("SS", of_two(eq_nonzeros_and_deps, show_number)),
    12: ("Sn", of_one(to_dense, show_record)), 13: ("nn", op_new_empty), 14: ("n", op_new_scalar),
    15: ("Sn", of_shape(dense)), 16: ("Sn", of_shape(diagonal)), 17: ("SnSn", op_sparse),
    18: ("Sn", of_one(to_data_layout, show_list)), 19: ("SSnn", op_broadcast_to_shape),
    20: ("Snnn", op_broadcast_to_rank), 22: ("SSnn", of_two(union, show_record)),
    23: ("SSnn", of_two(intersect, show_record, is_ordered=True)),
    24: ("Snn", of_one(contract_last_axis, show_record)), 25: ("SSnn", op_permute),
    26: ("Snnnn", op_broadcast), 27: ("Snnnn", op_concatenate), 28: ("SSnnnn", op_filter_deps_from),
    29: ("S", op_sound), 30: ("S", op_ordered), 31: ("Sn", op_row),
    32: ("SSnnn", stretch_to_shape), 33: ("Snnnn", stretch_to_rank), 34: ("Snnnnn", stretch_and_fold),
    35: ("SnSn", op_lookup_all),
    40: ("Snn", op_build_summary), 41: ("SSSS", op_lookup_by_summary), 42: ("Snn", op_pattern),
    43: ("SSnS", op_check_proposal), 44: ("SSn", op_ravel_index), 45: ("nSn", op_unravel_index),
    46: ("SSn", op_cmp_index), 47: ("Sn", op_sound), 48: ("Sn", op_ordered), 49: ("SSn", op_lookup),
    50: ("SSnnn", of_two_in_order(union)), 51: ("SSnnn", of_two_in_order(intersect, is_ordered=True)),
    52: ("Snnn", op_convert),
}

# the request that an operation came with
CAME_WITH = {**dict.fromkeys((32, 33, 34), "Q-1"), **dict.fromkeys((40, 41), "Q-4"), 42: "Q-7", 43: "Q-10",
             **dict.fromkeys(range(44, 53), "Q-11")}


def take(kinds, values):
    """The arguments of a request, or nothing where the line is not one."""
    if not kinds:
        return () if not values else None
    if not values:
        return None
    if kinds[0] == "n":
        head, rest = values[0], values[1:]
    else:
        if not 0 <= values[0] < len(values):
            return None
        head, rest = values[1:1 + values[0]], values[1 + values[0]:]
    tail = take(kinds[1:], rest)
    return None if tail is None else (head,) + tail


def answer(line):
    """The answer to a request line."""
    try:
        values = tuple(map(int, line.split()))
    except ValueError:
        return "bad request"
    if not values or not all(-2**31 <= v < 2**31 for v in values):
        return "bad request"
    if values[0] not in OPERATIONS or values[0] in CAME_WITH and not landed(CAME_WITH[values[0]]):
        return "unknown"
    kinds, operation = OPERATIONS[values[0]]
    got = take(kinds, values[1:])
    return "bad request" if got is None else operation(*got)


# ---- the programs

def shown_lines(l):
    """A record in five lines, as `union_records` prints it."""
    deps = lambda ds: (len(ds),) + tuple(n for index, j in ds for n in index + (j,))
    return [" ".join(map(str, part)) for part in (
        (l.kind, l.dense), (l.rank,) + l.shape, (len(l.rows),) + tuple(c for r in l.rows for c in r),
        deps(l.state), deps(l.inputs))]


def text_numbers(text):
    """The numbers of a text; nothing where it is too long, or other text than 32-bit numbers."""
    words = [w for w in text.replace("\n", " ").split(" ") if w]
    plain = lambda w: w.removeprefix("-").isdigit() and w.isascii()
    if len(text.encode()) > 65536 or not all(map(plain, words)) or not all(-2**31 <= int(w) < 2**31 for w in words):
        return None
    return tuple(map(int, words))


def union_records(text):
    """What the program `union_records` prints for a text."""
    s = text_numbers(text)
    if s is None:
        return say("refused", 3)
    records = walk_list(walk_record, s, 2)
    if records[-1].end != len(s):
        return say("refused", 3)
    made = arguments(records=records) or first_step((records[0].layout, records[1].layout), union)
    return answered(made, lambda l: "\n".join(shown_lines(l)))


def pile_and_pairs(s):
    """The records of a pile and the pairs of places behind them, or the refusal of the whole."""
    if not s:
        return Refusal(3)
    if not 0 <= s[0] <= MAX_COUNT:
        return Refusal(1)
    pile = walk_list(walk_record, s[1:], s[0])
    rest = s[1 + (pile[-1].end if pile else 0):]
    if not rest or rest[0] < 0 or len(rest) != 1 + 2 * rest[0]:
        return Refusal(3)
    return pile, tuple(zip(rest[1::2], rest[2::2]))


def exchange_records(text):
    """What the program `exchange_records` prints for a text."""
    s = text_numbers(text)
    got = Refusal(3) if s is None else pile_and_pairs(s)
    if isinstance(got, Refusal):
        return say("refused", got.number)
    pile, pairs = got
    lines = []
    for first, second in pairs:
        new = exchange(pile, first, second)
        lines.append(answered(new, lambda _: "made"))
        pile = pile if isinstance(new, Refusal) else new
    for walked in pile:
        lines += shown_lines(walked.layout) if sound(walked) else [say("refused", 3)]
    return "\n".join(lines)


def printed(said):
    """What a program prints that says this: its lines, each ended."""
    return said + "\n" if said else ""


def optimiser_example():
    """The small program of Q-12: the union X of two rows, then X intersected with X."""
    one = lambda i: Layout(SPARSE, 0, (2,), ((i,),), (), ())
    x = union(one(0), one(1))
    return "\n".join(shown_lines(x) + shown_lines(intersect(x, x)))


def main():
    """Answers request lines, or does what one of the two programs does."""
    programs = {"optimiser-example": optimiser_example, "union-records": lambda: union_records(sys.stdin.read()),
                "exchange-records": lambda: exchange_records(sys.stdin.read())}
    if sys.argv[1:]:
        sys.stdout.write(printed(programs[sys.argv[1]]()))
        return
    for line in sys.stdin:
        print(answer(line))


if __name__ == "__main__":
    main()
