#!/usr/bin/env python3
"""requests.py SEED COUNT [OP ..]: random request lines of every operation, or of those named; REQUESTS.md says what a line is.

About a third of them are refused, with every number that an operation can give. The same seed gives the same lines. Nothing
here knows the reading of the rules.
"""
import sys
from itertools import product as cartesian
from math import prod
from layouts import BIG, DENSE, DIAGONAL, MANY, SPARSE, Layouts


NONE = dict(state=[], inputs=[])


class Requests(Layouts):
    """A method for each operation."""

    def compatible(self, common, keep=0.6):
        """A shape that stretches to `common`."""
        s = [e if self.chance(keep) or e == 0 else 1 for e in common]
        if self.chance(0.3):
            cut = self.r.randrange(len(s) + 1)
            if all(e != 0 for e in common[cut:]):
                s = s[:cut]
        return s

    def count_of(self, n):
        """A count of things, seldom a wrong one."""
        return n if self.chance(0.94) else self.one(n - 1, n + 1, -1, 17, 16, 0, BIG, -BIG - 1)

    def op1(self):
        """broadcast_shapes"""
        n = self.one(1, 2, 2, 2, 3, 4, 16) if self.chance(0.95) else self.one(0, 17)
        if self.chance(0.12):
            common = self.one([65536], [256, 256], [256, 256, 2], [65536, 2], [256, 257], [128, 512], [2, 2, 128, 129])
            if self.chance(0.6):
                out = []
                for i, e in enumerate(common):
                    out += [i + 1] + [1] * i + [e]
                return self.line(1, out, len(common))
        else:
            common = self.shape()
        out, keep = [], self.one(0.3, 0.6, 0.9)
        for _ in range(n):
            shape = self.compatible(common, keep)
            if self.chance(0.06):
                shape = self.shape()
            out += self.shape_slice(shape, bad=0.02)
        return self.line(1, out, self.count_of(n))

    def op2(self):
        """can_broadcast_to"""
        to = self.limit_shape() if self.chance(0.06) else self.shape()
        frm = self.compatible(to) if self.chance(0.7) else self.shape()
        if self.chance(0.15):
            to, frm = frm, to
        return self.line(2, self.shape_slice(to, 0.07), self.shape_slice(frm, 0.07))

    def index(self, rank, shape=()):
        """An index of a rank, seldom a wrong one."""
        i = [self.component(shape[k] if k < len(shape) else 3, 0.3) for k in range(rank)]
        if self.chance(0.15):
            i = [self.r.randrange(4)] * rank
        if i and self.chance(0.04):
            i[self.r.randrange(len(i))] = self.one(-1, 65536, BIG, -BIG - 1, 65535)
        if self.chance(0.04):
            i = self.one(i[:-1], i + [0], i + [0] * 5)
        return i

    def op3(self):
        """ravel_index"""
        shape = self.limit_shape() if self.chance(0.1) else self.shape()
        return self.line(3, self.index(len(shape), shape), self.shape_slice(shape, 0.08))

    def op4(self):
        """unravel_index"""
        shape = self.limit_shape() if self.chance(0.1) else self.shape()
        n = self.one(self.r.randrange(300), self.r.randrange(300), prod(shape), max(prod(shape) - 1, 0), 65535, 65536, BIG)
        if self.chance(0.06):
            n = self.one(-1, -BIG - 1)
        return self.line(4, n, self.shape_slice(shape, 0.08))

    def op5(self):
        """cmp_index"""
        n = self.r.randrange(5)
        a = self.index(n)
        b = list(a) if self.chance(0.6) else self.index(n)
        if b and self.chance(0.5):
            b[self.r.randrange(len(b))] = self.r.randrange(4)
        if self.chance(0.03):
            a, b = [1] * 5, [1] * 5
        return self.line(5, a, b)

    def sought(self, l):
        """An index to look up in a layout, often that of a row."""
        shape = l["shape"]
        i = self.index(len(shape), shape)
        if l["rows"] and self.chance(0.5):
            row = list(self.r.choice(l["rows"]))
            i = row + [self.component(e, 0.1) for e in shape[len(row):]]
            i = [self.r.randrange(9) if e == 1 and self.chance(0.3) else c for c, e in zip(i, shape)]
        return i

    def op7(self):
        """find_nnz_index"""
        l = self.limit_layout() if self.chance(0.04) else self.layout(ordered=0.93)
        i = self.sought(l)
        return self.line(7, self.rec(l), i)

    def op8(self):
        """nnz"""
        return self.line(8, self.rec(bad=0.2))

    def op9(self):
        """min_rank"""
        return self.line(9, self.rec(bad=0.15))

    def near(self, l):
        """The same layout, or one that differs in one respect."""
        m = {k: (list(v) if isinstance(v, list) else v) for k, v in l.items()}
        how = self.r.randrange(7)
        if how == 1:
            return self.layout(l["shape"])
        if how == 2:
            m["rows"] = m["rows"][::-1]
        elif how == 3 and m["rows"]:
            m["rows"] = m["rows"][:-1]
        elif how == 4:
            m["state"] = self.deps(m["shape"])
        elif how == 5:
            m["inputs"] = self.deps(m["shape"])
        elif how == 6 and m["kind"] == SPARSE and not m["rows"]:
            m["D"] = self.r.randrange(len(m["shape"]) + 1)
        return m

    def op10(self, op=10):
        """eq_nonzeros"""
        l = self.layout()
        return self.line(op, self.rec(l, 0.08), self.rec(self.near(l), 0.08))

    def op11(self):
        """eq_nonzeros_and_deps"""
        return self.op10(11)

    def op12(self):
        """to_dense"""
        return self.line(12, self.rec(bad=0.12), self.result())

    def rank(self):
        """An asked rank."""
        return self.r.choices((-1, 0, 1, 2, 3, 4, 5, BIG, -BIG - 1), (3, 8, 10, 10, 10, 8, 4, 1, 1))[0]

    def op13(self):
        """new_empty"""
        return self.line(13, self.rank(), self.result())

    def op14(self):
        """new_scalar"""
        return self.line(14, self.one(1802, 1803, 5000, 1801, 1800, 0, 1802))

    def op15(self):
        """dense"""
        return self.line(15, self.shape_slice(bad=0.2), self.result())

    def op16(self):
        """diagonal"""
        shape = [self.extent()] * self.r.randrange(1, 5) if self.chance(0.75) else self.shape()
        if self.chance(0.06):
            shape = self.one([65536], [256, 256], [16] * 4, [40, 40, 40], [65536, 1])
        return self.line(16, self.shape_slice(shape), self.result())

    def op17(self):
        """sparse"""
        shape = self.shape()
        if self.chance(0.09):
            shape = self.one([200], [16, 16], [129], [200], [65536], [2, 2, 2, 20])
        rows = self.rows(shape)
        if shape in ([200], [129]) or shape == [16, 16]:
            every = list(cartesian(*map(range, shape)))
            rows = self.r.sample(every, self.one(127, 128, 129))
        if self.chance(0.3):
            self.r.shuffle(rows)
        if rows and self.chance(0.05):
            rows = rows + [self.r.choice(rows)]
        values = [c for row in rows for c in row]
        if values and self.chance(0.06):
            values[self.r.randrange(len(values))] = self.one(-1, 4, 65536, BIG)
        count = len(rows)
        if not shape:
            count = self.one(0, 1, 1, 2, 129)
        if self.chance(0.06):
            count = self.one(count + 1, count - 1, -1, BIG, 0)
        if self.chance(0.03):
            values = self.one(values + [0], values[:-1])
        return self.line(17, self.shape_slice(shape, 0.06), count, values, self.result())

    def op18(self):
        """to_data_layout"""
        l = self.layout(kinds=(SPARSE, SPARSE, DENSE, DIAGONAL)) if self.chance(0.95) else self.limit_layout()
        return self.line(18, self.rec(l, 0.1), self.result())

    def target_shape(self, l):
        """A shape that a layout may be stretched to."""
        s = [self.extent() if e == 1 and self.chance(0.6) else e for e in l["shape"]]
        if l["kind"] == DIAGONAL and self.chance(0.7):
            n = len(s) - l["D"]
            if all(e == 1 for e in l["shape"][:n]):
                s[:n] = [s[0]] * n
        how = self.r.random()
        if how < 0.35:
            s = s + [self.extent() for _ in range(self.r.randrange(0, 5 - len(s)))] if len(s) < 4 else s
        elif how < 0.6:
            least = 0 if self.chance(0.12) else len(s) - l["D"]
            s = s[:self.r.randrange(least, len(s) + 1)] if least <= len(s) else s
        if s and self.chance(0.06):
            s[self.r.randrange(len(s))] = self.extent()
        return s

    def op19(self):
        """broadcast_to_shape"""
        if self.chance(0.06):
            ones = [1] * self.r.randrange(1, 4)
            l = self.layout(ones, deps=self.one("few", "wild", "none"), rows="full")
            s = list(ones)
            s[self.r.randrange(len(s))] = self.one(127, 128, 129, 65536, 64, 256)
            if self.chance(0.4) and len(s) > 1:
                s[self.r.randrange(len(s))] = self.one(2, 128, 65, 64, 129)
            return self.line(19, self.rec(l, 0.01), self.shape_slice(s, 0.01), *self.rw())
        l = self.layout(ordered=0.7) if self.chance(0.97) else self.limit_layout()
        return self.line(19, self.rec(l), self.shape_slice(self.target_shape(l), 0.04), *self.rw())

    def op20(self):
        """broadcast_to_rank"""
        l = self.layout(ordered=0.7)
        R = len(l["shape"])
        if self.chance(0.3):
            for i in range(self.r.randrange(R + 1), R):
                l["shape"][i] = 1
            l = self.layout(l["shape"], ordered=0.7)
        how = self.r.random()
        if how < 0.6:
            rank = self.r.randrange(R, 5)
        elif how < 0.85:
            least = max((i + 1 for i, e in enumerate(l["shape"]) if e != 1), default=0)
            rank = self.r.randrange(max(least, R - l["D"] if self.chance(0.8) else 0), R + 1)
        else:
            rank = self.rank()
        return self.line(20, self.rec(l), rank, *self.rw())

    def limit_pair(self, op):
        """Two layouts at the limits of union and intersect."""
        ways = (self.pair_joined, self.pair_expanded, self.pair_removed, self.pair_deps_removed, self.pair_deps_merged, self.pair_filtered,
                self.pair_lowered, self.pair_large, self.pair_diagonal)
        a, b = ways[self.one(0, 1, 2, 3, 4, 5, 6, 6, 7, 8)]()
        if self.chance(0.5):
            a, b = b, a
        return a, b

    def pair_joined(self):
        """Rows that number 127 to 130 when they are joined."""
        n, k = self.one(*MANY, 130), self.r.randrange(2, 126)
        return (dict(NONE, kind=SPARSE, D=0, shape=[200], rows=[(i,) for i in range(k)]),
                dict(NONE, kind=SPARSE, D=0, shape=[200], rows=[(i,) for i in range(max(k - 3, n - 128), n)]))

    def pair_expanded(self):
        """A diagonal that expands to some 128 rows."""
        n = self.one(127, 128, 129, 256)
        a = dict(NONE, kind=DIAGONAL, D=0, shape=[n, n], rows=[])
        b = dict(NONE, kind=SPARSE, D=self.one(0, 0, 1), shape=[n, n], rows=[])
        b["rows"] = [(3, 3)] if b["D"] == 0 else self.one([(1,)], [])
        return a, b

    def pair_removed(self):
        """Rows that number some 128 when a dense axis is removed."""
        n, m = self.one((2, 64), (3, 43), (1, 128), (1, 129), (127, 1), (129, 1), (1, 65536), (2, 2))
        return (dict(NONE, kind=SPARSE, D=1, shape=[n + 1, m], rows=[(i,) for i in range(min(n, 128))]),
                dict(NONE, kind=SPARSE, D=0, shape=[n + 1, m], rows=self.one([], [(0, 0)], [(n, m - 1)])))

    def pair_deps_removed(self):
        """Dependencies that number some 128 when a dense axis is removed."""
        n, m = self.one((2, 64), (3, 43), (1, 128), (1, 129), (1, 65536), (5, 3))
        a = dict(NONE, kind=SPARSE, D=1, shape=[n + 1, m], rows=self.one([], [(0,)]) if m < 129 else [])
        a["state"] = [((i, self.r.randrange(m)), 5) for i in range(n)]
        b = dict(NONE, kind=SPARSE, D=0, shape=[n + 1, m], rows=self.one([], [(0, 0)], [(0, 0), (1, 0)]))
        b["inputs"] = self.deps(b["shape"])
        return a, b

    def pair_deps_merged(self):
        """Dependencies that number 127 to 130 when they are merged."""
        shape = self.one([129], [2, 2], [], [3])
        kind = self.one(DENSE, SPARSE)
        a = self.layout(shape, (kind,), D=0, deps="none")
        b = self.layout(shape, (self.one(DENSE, SPARSE),), D=0, deps="none")
        n, k = self.one(*MANY, 130), self.r.randrange(3, 126)
        part = self.one("state", "inputs")
        z = (0,) * len(shape)
        a[part] = [(z, i) for i in range(k)]
        b[part] = [(z, i) for i in range(max(k - 2, n - 128), n)]
        if shape == [129] and self.chance(0.5):
            a[part] = [((i,), 0) for i in range(k)]
            b[part] = [((i,), 0) for i in range(max(k - 2, n - 128), n)]
        return a, b

    def pair_filtered(self):
        """Far too many dependencies before a filter."""
        a = self.layout([3, 3], (DENSE, SPARSE, DIAGONAL), D=0, deps="none")
        b = self.layout([3, 3], (DENSE, SPARSE), D=0, deps="none")
        a["state"] = [((7, i), 1) for i in range(128)]
        b["state"] = [((0, 0), 1)] + [((8, i), 1) for i in range(127)]
        return a, b

    def pair_lowered(self):
        """A removal that keeps a dense axis."""
        shape = [2, 2, self.one(0, 1, 2, 200)]
        calm = self.one("none", "none", "few")
        a = self.layout(shape, (SPARSE,), D=self.one(2, 2, 3), deps=calm)
        return a, self.layout(shape, (SPARSE,), D=1, deps=calm)

    def pair_large(self):
        """Two layouts of one large shape."""
        shape = self.limit_shape()
        return self.layout(shape), self.layout(shape)

    def pair_diagonal(self):
        """A diagonal beside one with another D, or beside rows."""
        n = self.one(2, 3)
        a = self.layout([n] * 3, (DIAGONAL,), D=self.one(0, 1, 2))
        return a, self.layout([n] * 3, (DIAGONAL, SPARSE), D=self.one(0, 1, 2))

    def pair(self, op):
        """Two layouts for union and intersect."""
        if self.chance(0.1):
            return self.limit_pair(op)
        a = self.layout(ordered=0.96 if op == 23 else 0.7)
        shape = a["shape"] if self.chance(0.95) else self.shape()
        want = a["D"] if a["kind"] != DENSE and self.chance(0.55) else (0 if self.chance(0.6) else None)
        calm = "none" if a["D"] and a["kind"] == SPARSE and self.chance(0.6) else None
        if calm:
            a["state"], a["inputs"] = [], []
        b = self.layout(shape, D=want, ordered=0.96 if op == 23 else 0.7, deps=calm)
        return a, b

    def op22(self, op=22):
        """union"""
        a, b = self.pair(op)
        return self.line(op, self.rec(a, 0.03), self.rec(b, 0.03), *self.rw())

    def op23(self):
        """intersect"""
        return self.op22(23)

    def op24(self):
        """contract_last_axis"""
        l = self.layout(ordered=0.6) if self.chance(0.96) else self.limit_layout()
        return self.line(24, self.rec(l), *self.rw())

    def op25(self):
        """permute"""
        l = self.layout(D=0 if self.chance(0.7) else None, ordered=0.7)
        R = len(l["shape"])
        if R and self.chance(0.25):
            for i in range(self.r.randrange(R), R):
                l["shape"][i] = 1
            l = self.layout(l["shape"], ordered=0.7)
        least = max((i + 1 for i, e in enumerate(l["shape"]) if e != 1), default=0)
        n = self.r.randrange(least, R + 1)
        how = self.r.random()
        if how < 0.45:
            p = self.r.sample(range(n), n)
        elif how < 0.75:
            p = self.r.sample(range(4), n)
        elif how < 0.85:
            p = list(range(n))
        else:
            p = [self.one(0, 1, 2, 3, 3, 4, -1, BIG, 255) for _ in range(self.r.randrange(6))]
        return self.line(25, self.rec(l), p, *self.rw())

    def operator(self):
        """An operator: the two that are named, others, and numbers that are no byte."""
        return self.r.choices((42, 47, 43, 45, 0, 255, 256, 298, 303, -1, BIG, 42 - 256),
                              (30, 18, 24, 10, 2, 2, 1, 1, 1, 1, 1, 1))[0]

    def op26(self):
        """broadcast"""
        how = self.r.random()
        if how < 0.07:
            return self.limit_broadcast()
        n = self.r.choices((1, 2, 3, 4, 16), (16, 44, 22, 6, 2))[0]
        common = self.shape(0, 4) if self.chance(0.7) else [self.one(1, 2, 2, 3)] * self.one(1, 2, 2, 3)
        op = self.operator()
        keep = self.one(0.5, 0.8, 1.0)
        D = self.one(None, 0, 0, 0, 1)
        calm = self.one(None, None, "none", "few")
        out = []
        for k in range(n):
            shape = self.compatible(common, keep) if self.chance(0.97) else self.shape()
            out.append(self.layout(shape, D=D, ordered=0.7, deps=calm))
        if op == 47 and n > 1:
            if self.chance(0.6):
                last = out[-1]
                out[-2] = dict(last, state=self.deps(last["shape"], last["rows"], much=calm))
            elif self.chance(0.6):
                out[-1] = self.layout(out[-1]["shape"], (DENSE, DIAGONAL), deps=calm)
        nums = []
        for l in out:
            nums += self.rec(l, 0.015)
        return self.line(26, nums, self.count_of(n), op, *self.rw())

    def limit_broadcast(self):
        """Requests of broadcast at its limits."""
        how = self.r.randrange(7)
        if how == 0:                                     # the common shape at and over the limit
            a, b = self.one(([256], [1, 256]), ([256], [1, 257]), ([65536], [1, 2]), ([65536], [1, 1]), ([1, 65536], [1]),
                            ([0], [0, 65536]), ([2, 1], [1, 32768]), ([3, 1], [1, 32768]))
            out = [self.layout(a, deps="none"), self.layout(b, deps="none")]
        elif how == 1:                                   # stretched rows or dependencies
            m = self.one(127, 128, 129, 200, 65536)
            out = [self.layout([1], deps=self.one("few", "none"), rows="full"), self.layout([m], (DENSE,), deps="none")]
        elif how == 2:                                   # a diagonal stretched out of shape
            out = [self.layout([1, 1], (DIAGONAL,), D=0), self.layout(self.one([2, 3], [2, 2], [2], [1, 200])),
                   self.layout([1, 1], deps="few")]
        elif how == 3:                                   # one refusal behind another
            out = [self.layout([1, 1], (self.one(DIAGONAL, DENSE),), deps="few"),
                   self.layout([1, 1], (self.one(DIAGONAL, DENSE),), deps="few"),
                   self.layout([200, self.one(2, 200)], (DENSE,), deps="none")]
        elif how == 4:                                   # folds over the limit
            out = [dict(kind=SPARSE, D=0, shape=[300], rows=[(i + k * 60,) for i in range(64)], state=[], inputs=[])
                   for k in range(self.one(2, 3))]
        elif how == 5:
            out = [self.layout([], (SPARSE, DENSE)) for _ in range(self.one(1, 2, 3))]
        else:
            out = [self.layout([3, 3, 3], D=self.one(0, 1, 2)) for _ in range(3)]
        self.r.shuffle(out)
        nums = []
        for l in out:
            nums += self.rec(l, 0)
        n = len(out) if self.chance(0.95) else 0
        return self.line(26, nums, n, self.operator(), *self.rw())

    def op27(self):
        """concatenate"""
        rank = self.r.choices((0, 1, 2, 3, 4), (6, 26, 36, 18, 8))[0]
        n = self.r.choices((0, 1, 2, 3, 4, 16), (4, 20, 36, 24, 8, 2))[0]
        style = self.weighted(dense=26, diag=20, sparse=30, mixed=10, trailing=14, limit=5)
        blocks = getattr(self, "blocks_" + style)(rank, n)
        nums = []
        for start, flag, l in blocks:
            start = list(start)
            if start and self.chance(0.012):
                start[self.r.randrange(len(start))] += self.one(1, -1, 65536, -70000, 65537)
            if self.chance(0.012):
                flag = self.one(2, -1, BIG)
            nums += start + [flag] + self.rec(l, 0.012 if n < 9 else 0)
        n = len(blocks)
        if self.chance(0.02):
            nums = nums[:self.r.randrange(len(nums) + 1)]
        asked = rank if self.chance(0.97) else self.one(-1, 5, rank + 1, rank - 1, BIG)
        return self.line(27, nums, self.count_of(n) if self.chance(0.7) else n, asked, *self.rw())

    def flag(self, p=0.2):
        """A zero flag."""
        return int(self.chance(p))

    def blocks_dense(self, rank, n):
        """Dense blocks one below the other."""
        later, run, out = [self.one(1, 2, 3) for _ in range(rank)], 0, []
        for _ in range(n):
            k = rank if self.chance(0.6) else self.r.randrange(rank + 1)
            shape = [self.one(0, 1, 2, 3) if i == 0 else self.one(1, later[i], later[i]) for i in range(k)]
            if len(shape) > 1 and self.chance(0.04):
                shape[-1] = self.one(0, 5)
            out.append(([run] + [0] * (rank - 1) if rank else [], self.flag(), self.layout(shape, (DENSE,))))
            run += shape[0] if shape else 1
        return out

    def blocks_diag(self, rank, n):
        """Diagonals along the diagonal."""
        run, out = 0, []
        rank = rank
        D = 0 if self.chance(0.75) or rank < 2 else self.r.randrange(rank)
        tail = [self.one(1, 1, 2) for _ in range(D)]
        for _ in range(n):
            e = self.one(0, 1, 1, 2, 3)
            shape = [e] * (rank - D) + tail
            if all(x == 1 for x in shape) and self.chance(0.6):
                l = self.layout(shape, (DENSE, SPARSE), D=D)
            else:
                l = self.layout(shape, (DIAGONAL,) if rank else (DENSE, DENSE, SPARSE), D=D)
            at = [run] * rank if self.chance(0.93) else [self.r.randrange(4) for _ in range(rank)]
            out.append((at, self.flag(), l))
            run += shape[0] if shape else 1
        return out

    def blocks_sparse(self, rank, n):
        """Blocks at any place."""
        kinds = self.one((SPARSE,), (SPARSE, DENSE), (SPARSE, DIAGONAL, DENSE))
        out = []
        tile = self.chance(0.25)
        for k in range(n):
            shape = [self.one(0, 1, 2, 2, 3) if self.chance(0.3) else self.one(1, 2, 2) for _ in range(rank)]
            start = [self.r.randrange(4) for _ in range(rank)]
            if tile:
                shape = [2] + [2] * (rank - 1) if rank else []
                start = [2 * k] + [0] * (rank - 1) if rank else []
            l = self.layout(shape, kinds, D=0, rows="full" if tile and self.chance(0.8) else None, ordered=0.7)
            out.append((start, self.flag(0.1 if tile else 0.2), l))
        return out

    def blocks_mixed(self, rank, n):
        """Blocks of every kind and D."""
        out = []
        for _ in range(n):
            k = rank if self.chance(0.9) else self.r.randrange(5)
            out.append(([self.r.randrange(4) for _ in range(rank)], self.flag(), self.layout(self.shape(k, k))))
        return out

    def blocks_trailing(self, rank, n):
        """Blocks with dense axes."""
        D = self.r.randrange(1, rank + 1) if rank else 0
        tail = [self.one(0, 1, 2, 2, 3) for _ in range(D)]
        if self.chance(0.15):
            tail = [1] * D
        out = []
        for _ in range(n):
            shape = [self.one(1, 2, 3) for _ in range(rank - D)] + tail
            if shape and self.chance(0.04):
                shape[-1] += 1
            start = [self.r.randrange(3) for _ in range(rank - D)] + [self.one(0, 0, 0, 1) for _ in range(D)]
            kinds = (SPARSE,) if self.chance(0.93) else (SPARSE, DENSE, DIAGONAL)
            out.append((start, self.flag(), self.layout(shape, kinds, D=D if self.chance(0.96) else 0, ordered=0.7)))
        return out

    def blocks_limit(self, rank, n):
        """Blocks at the limits."""
        how = self.r.randrange(8)
        z = [0] * max(rank - 1, 0)
        bare = lambda kind, D, shape, rows=(): dict(kind=kind, D=D, shape=list(shape), rows=list(rows), state=[], inputs=[])
        if rank == 0:
            return [([], 0, self.layout([], (DENSE,), deps="many")) for _ in range(2)]
        if how == 0:                                     # dense joined: extents at and over the product
            e = self.one(32768, 32769, 65536)
            return [([0] + z, 0, bare(DENSE, rank, [e] + [1] * (rank - 1))),
                    ([e] + z, 0, bare(DENSE, rank, [32768] + [1] * (rank - 1)))]
        if how == 1:                                     # rows before they turn dense
            a = self.one(63, 64, 65)
            return [([64] + z, 0, bare(DENSE, rank, [64] + [1] * (rank - 1))),
                    ([0] + z, self.flag(0.1), bare(DENSE, rank, [a] + [1] * (rank - 1)))]
        if how == 2:                                     # a diagonal laid out as rows
            m = self.one(127, 128, 129, 255)
            e = [m] * min(rank, 2) + [1] * max(rank - 2, 0)
            return [([1] * rank, self.flag(0.3), self.layout(e, (DIAGONAL,), D=max(rank - 2, 0) if self.chance(0.3) else 0, deps="none"))]
        if how == 3:                                     # starts at the limit
            s = self.one(65535, 65536, 65534, 32768)
            return [([s] + z, self.flag(0.5), bare(SPARSE, 0, [1] * rank, self.one([], [(0,) * rank])))]
        if how == 4:                                     # dependency components at the limit
            s = self.one(0, 1, 2)
            l = bare(DENSE, rank, [1] * rank)
            l[self.one("state", "inputs")] = [((self.one(65533, 65534, 65535),) + (0,) * (rank - 1), 2)]
            return [([s] + z, self.flag(0.3), l)]
        if how == 5:                                     # merged dependencies
            k = self.one(64, 65, 63)
            a, b = bare(DENSE, rank, [70] + [1] * (rank - 1)), bare(DENSE, rank, [70] + [1] * (rank - 1))
            a["state"] = [((i,) + (0,) * (rank - 1), 1) for i in range(64)]
            b["state"] = [((i,) + (0,) * (rank - 1), 1) for i in range(k)]
            return [([0] + z, 0, a), ([70] + z, 0, b)]
        if how == 6:                                     # diagonal over the product
            e = self.one(128, 129, 200)
            return [([0] * rank, 0, bare(DIAGONAL, 0, [min(e, 16) if rank > 2 else e] * rank)),
                    ([min(e, 16) if rank > 2 else e] * rank, 0, bare(DIAGONAL, 0, [16 if rank > 2 else 128] * rank))]
        k = self.one(64, 65, 63)                         # joined rows
        return [([0] + z, 0, bare(SPARSE, 0, [70] + [1] * (rank - 1), [(i,) + tuple(z) for i in range(64)])),
                ([75] + z, 0, bare(SPARSE, 0, [70] + [1] * (rank - 1), [(i,) + tuple(z) for i in range(k)]))]

    def op28(self):
        """filter_deps_from"""
        R = self.r.choices((0, 1, 2, 3, 4), (1, 40, 26, 10, 5))[0]
        shape = [1] * R
        if R:
            shape[self.r.randrange(R)] = self.one(1, 2, 3, 5, 8, 8, 8, 128, 65536)
            if self.chance(0.04):
                shape[self.r.randrange(R)] = self.one(0, 2, 3)
        source = self.layout(shape, (DENSE,) if self.chance(0.94) else (DENSE, DIAGONAL, SPARSE), deps="none")
        for part in ("state", "inputs"):
            got = set()
            for _ in range(self.one(0, 1, 2, 4, 6)):
                i = tuple(self.component(min(e, 9), 0.1) for e in shape)
                got.add((i, self.one(sum(i), sum(i), self.r.randrange(9))))
            source[part] = sorted(got)
        if self.chance(0.02) and R:
            source["state"] = [((i,) + (0,) * (R - 1), i) for i in range(self.one(127, 128))]
        k = self.r.randrange(R + 1) if self.chance(0.9) else self.r.randrange(5)
        target = self.layout(self.shape(k, k), ordered=0.6)
        start, end = self.r.randrange(9), self.r.randrange(10)
        if self.chance(0.8) and start > end:
            start, end = end, start
        if self.chance(0.1):
            start, end = 0, self.one(65536, 65535, 8)
        if self.chance(0.05):
            start, end = self.one((-1, 3), (0, 65537), (65536, 65536), (65537, 3), (0, -1), (0, BIG))
        return self.line(28, self.rec(target, 0.03), self.rec(source, 0.03), start, end, *self.rw())

    def op29(self):
        """sound"""
        return self.line(29, self.rec(bad=0.5))

    def op30(self):
        """ordered"""
        l = self.layout(kinds=(SPARSE, SPARSE, DENSE, DIAGONAL), ordered=0.6)
        return self.line(30, self.rec(l, 0.2))

    def op31(self):
        """the row of a number"""
        l = self.layout(kinds=(SPARSE, SPARSE, SPARSE, DENSE, DIAGONAL), ordered=0.6)
        n = self.one(0, 1, 2, len(l["rows"]) - 1, len(l["rows"]), -1, BIG, -BIG - 1)
        if l["rows"] and self.chance(0.75):
            n = self.r.randrange(len(l["rows"]))
        return self.line(31, self.rec(l, 0.15), n)

    def op35(self):
        """find_nnz_indices"""
        l = self.limit_layout() if self.chance(0.04) else self.layout(ordered=0.93)
        n = self.one(0, 1, 1, 2, 3, 4, 5, 9) if self.chance(0.97) else self.one(128, 1801, 1802, 1803)
        indices = [c for _ in range(n) for c in self.sought(l)]
        count = n if self.chance(0.95) else self.one(n + 1, n - 1, -1, 1803, BIG, -BIG - 1)
        if indices and self.chance(0.05):
            indices[self.r.randrange(len(indices))] = self.one(-1, 65536, BIG, -BIG - 1, 65535)
        return self.line(35, self.rec(l), count, indices, self.result())

    WEIGHTS = {1: 2, 2: 1, 3: 1, 4: 1, 5: 1, 7: 3, 8: 1, 9: 1, 10: 1, 11: 1, 12: 1, 13: 1, 14: 0.3, 15: 1, 16: 1,
               17: 2, 18: 1, 19: 4, 20: 2, 22: 5, 23: 6, 24: 3, 25: 4, 26: 7, 27: 7, 28: 4, 29: 2, 30: 1, 31: 1, 35: 3}

    def request(self, ops=None):
        """A request of one of the operations, by their weights."""
        ops = ops or list(self.WEIGHTS)
        op = self.r.choices(ops, [self.WEIGHTS[o] for o in ops])[0]
        return getattr(self, "op%d" % op)()


def main():
    """Writes so many request lines."""
    seed, count = int(sys.argv[1]), int(sys.argv[2])
    operations = [int(word) for word in sys.argv[3:]] or None
    maker = Requests(seed)
    for _ in range(count):
        print(maker.request(operations))


if __name__ == "__main__":
    main()
