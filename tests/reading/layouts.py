"""Random layouts from a seed, sound and broken ones: what requests are made of.

A layout here is a dict with kind, D, shape, rows, state and inputs. Nothing here knows the rules of the operations.
"""
import random
from itertools import product as cartesian
from math import prod

DENSE, DIAGONAL, SPARSE = 0, 1, 2
BIG = 2**31 - 1
MANY = (127, 128, 128, 129)


class Layouts:
    """Random shapes, layouts, records and buffer sizes, from a seed."""
    def __init__(self, seed):
        """All that follows is decided by the seed."""
        self.r = random.Random(seed)

    # ---- small helpers
    def chance(self, p):
        """Yes, with a probability."""
        return self.r.random() < p

    def one(self, *choices):
        """One of the choices, each as likely."""
        return self.r.choice(choices)

    def weighted(self, **w):
        """One of the names, by their weights."""
        return self.r.choices(list(w), list(w.values()))[0]

    # ---- shapes
    def extent(self):
        """A small extent, seldom 0."""
        return self.r.choices((0, 1, 2, 3, 4), (3, 26, 36, 25, 10))[0]

    def shape(self, lo=0, hi=4):
        """A small shape of a rank between two."""
        n = self.r.choices(range(lo, hi + 1), [(2, 5, 7, 5, 3)[i] for i in range(lo, hi + 1)])[0]
        if self.chance(0.35):
            return [self.extent()] * n
        return [self.extent() for _ in range(n)]

    def limit_shape(self):
        """A good shape at some limit."""
        return list(self.one([256, 256], [65536], [65535], [1, 65536], [65536, 1], [128], [129], [0, 65536],
                             [256, 0, 256], [16, 16, 16, 16], [2, 32768], [65536, 0, 0, 1], [64, 2], [43, 3],
                             [11, 12], [128, 128], [129, 129]))

    def over_shape(self):
        """A shape past the limit on the product."""
        return list(self.one([65537], [256, 257], [65536, 2], [0, 65537], [2, 2, 2, 8193], [BIG], [BIG, BIG],
                             [65536, 65536], [65536] * 4, [1, 0, 65537]))

    def shape_slice(self, shape=None, bad=0.12):
        """A shape as its count and extents, sometimes wrong, sometimes with numbers behind it."""
        if shape is None:
            shape = self.limit_shape() if self.chance(0.08) else self.shape()
        s = [len(shape)] + list(shape)
        if self.chance(bad):
            how = self.r.randrange(7)
            if how == 0:
                s = [5] + [self.extent() for _ in range(self.one(0, 4, 5))]
            elif how == 1:
                s = [self.one(-1, -2, -BIG - 1)] + s[1:]
            elif how == 2:
                s = s[:-1]
            elif how == 3 and len(s) > 1:
                s[self.r.randrange(1, len(s))] = self.one(-1, -3, -BIG)
            elif how == 4:
                o = self.over_shape()
                s = [len(o)] + o
            elif how == 5:
                s = []
            else:
                s = [self.one(5, 6, 100, BIG)] + s[1:]
        elif self.chance(0.04):
            s = s + [self.r.randrange(-2, 5) for _ in range(self.r.randrange(1, 4))]
        return s

    # ---- layouts
    def number(self):
        """A number of a dependency."""
        return self.r.choices((self.r.randrange(4), self.r.randrange(20), BIG), (10, 3, 1))[0]

    def component(self, e, wild):
        """A component of an axis, wild ones at or past its extent."""
        if self.chance(wild):
            return self.one(e, e + 1, self.r.randrange(6), 65535)
        return self.r.randrange(e) if e > 0 else 0

    def deps(self, shape, rows=(), lead=None, much=None):
        """A list of dependencies, of some kind."""
        how = much or self.weighted(none=45, few=30, wild=14, held=14, equal=6, many=1)
        got = set()
        if how == "many":
            want = self.one(*MANY[:3])
            axis = self.r.randrange(len(shape)) if shape else None
            for k in range(want):
                i = [0] * len(shape)
                if shape:
                    i[axis] = k
                got.add((tuple(i), 3 if shape else k))
        elif how == "held" and rows:
            for _ in range(self.r.randrange(1, 5)):
                row = tuple(self.r.choice(rows))
                tail = tuple(self.component(e, 0.1) for e in shape[len(row):])
                got.add((row + tail, self.number()))
        elif how == "equal":
            for _ in range(self.r.randrange(1, 4)):
                got.add(((self.r.randrange(4),) * len(shape), self.number()))
        elif how != "none":
            wild = 0.35 if how == "wild" else 0.03
            for _ in range(self.r.randrange(1, 5)):
                got.add((tuple(self.component(e, wild) for e in shape), self.number()))
        return sorted(got)

    def rows(self, lead, how=None):
        """Rows over the leading extents, of some kind."""
        total = prod(lead)
        how = how or self.weighted(none=8, full=12, diag=12, single=15, some=53)
        if how == "none" or total == 0:
            return []
        if how == "diag":
            return [(i,) * len(lead) for i in range(min(min(lead, default=1), 128))]
        if total > 600:
            want = self.one(1, 2, 5, 127, 128)
            got = set()
            while len(got) < min(want, total):
                got.add(tuple(self.r.randrange(e) for e in lead))
            return sorted(got)
        every = list(cartesian(*map(range, lead)))
        if how == "full":
            return every[:128]
        if how == "single":
            return [self.r.choice(every)]
        return sorted(self.r.sample(every, min(128, self.r.randrange(1, len(every) + 1))))

    def layout(self, shape=None, kinds=(DENSE, DIAGONAL, SPARSE), D=None, deps=None, ordered=0.85, rows=None):
        """A sound layout; on the given shape if there is one."""
        if shape is None:
            shape = self.shape()
            if DIAGONAL in kinds and self.chance(0.3) and shape:
                k = self.r.randrange(1, len(shape) + 1)
                shape = [shape[0]] * k + shape[k:]
        R = len(shape)
        diag = [x for x in range(R) if len(set(shape[:R - x])) == 1 and (D is None or D == x)]
        allowed = [k for k in kinds if k != DIAGONAL or diag] or [SPARSE]
        kind = self.r.choice(allowed)
        if kind == DENSE:
            d, rws = R, []
        elif kind == DIAGONAL:
            d, rws = (diag[0] if self.chance(0.6) else self.r.choice(diag)), []
        else:
            d = min(D, R) if D is not None else (0 if self.chance(0.6) else self.r.randrange(R + 1))
            rws = self.rows(shape[:R - d], rows)
            if not self.chance(ordered):
                self.r.shuffle(rws)
        held = rws if kind == SPARSE else [(i,) * R for i in range(min(shape[:1] or [0]))][:128] if kind == DIAGONAL else []
        return dict(kind=kind, D=d, shape=list(shape), rows=[tuple(x) for x in rws],
                    state=self.deps(shape, held, much=deps), inputs=self.deps(shape, held, much=deps))

    def limit_layout(self):
        """A sound layout at some limit."""
        how = self.r.randrange(6)
        if how == 0:
            return self.layout(self.limit_shape(), deps=self.one("none", "few", "wild"))
        if how == 1:
            n = self.one(*MANY[:3])
            return dict(kind=SPARSE, D=0, shape=[200], rows=[(i + 7,) for i in range(n)], state=[], inputs=[])
        if how == 2:
            return self.layout(self.one([129], [128], [3, 43], [1, 1], []), deps="many")
        if how == 3:
            n = self.one(127, 128, 129, 200, 65536)
            return dict(kind=DIAGONAL, D=0, shape=[n], rows=[], state=[], inputs=[])
        if how == 4:
            n = self.one(127, 128, 129, 255, 256)
            return dict(kind=DIAGONAL, D=0, shape=[n, n], rows=[], state=[], inputs=[])
        n, m = self.one((2, 64), (3, 43), (1, 128), (1, 129), (127, 1))
        return dict(kind=SPARSE, D=1, shape=[n + 1, m], rows=[(i,) for i in range(n)], state=[], inputs=[])

    @staticmethod
    def record(l):
        """The numbers of a layout."""
        out = [l["kind"], l["D"], len(l["shape"])] + list(l["shape"]) + [len(l["rows"])]
        for row in l["rows"]:
            out += row
        for part in ("state", "inputs"):
            out.append(len(l[part]))
            for index, j in l[part]:
                out += list(index) + [j]
        return out
    def broken(self, l):
        """The numbers of a layout with one clause of soundness broken."""
        l = {k: (list(v) if isinstance(v, list) else v) for k, v in l.items()}
        part = self.one("state", "inputs")
        how = self.r.randrange(26)
        if how < 18:
            l = self.wrong_lists(l, part, how) if how in (5, 6, 7, 8, 9, 13, 14, 15, 16, 17) else self.wrong_head(l, how)
        return self.record(l) if how < 18 else self.wrong_numbers(l, how)

    def wrong_head(self, l, how):
        """A layout whose kind, D or shape is wrong."""
        R = len(l["shape"])
        if how == 0:
            l["kind"] = self.one(3, -1, 255, BIG)
        elif how == 1:
            l["D"] = self.one(-1, R + 1, R + 2, BIG, -BIG)
        elif how == 2:
            n = 5 + self.r.randrange(2)
            return dict(kind=l["kind"], D=n, shape=[1] * n, rows=[], state=[], inputs=[])
        elif how == 3 and R:
            l["shape"][self.r.randrange(R)] = self.one(-1, -2, -BIG - 1)
        elif how == 4:
            o = self.over_shape()
            return dict(kind=self.one(0, 2), D=len(o), shape=o, rows=[], state=[], inputs=[])
        elif how == 10:
            l.update(kind=DENSE, D=max(R - 1, 0) if R else 1, rows=[])
        elif how == 11:
            l.update(kind=DIAGONAL, D=R, rows=[])
        elif how == 12:
            l.update(kind=DIAGONAL, D=self.one(0, 1), shape=[2, 3, 2], rows=[], state=[], inputs=[])
        return l

    def wrong_lists(self, l, part, how):
        """A layout whose rows, or a list of whose dependencies, are wrong."""
        if how == 5:
            return dict(kind=SPARSE, D=0, shape=[200], rows=[(i,) for i in range(129)], state=[], inputs=[])
        if how == 6:
            l = dict(kind=DENSE, D=1, shape=[3], rows=[], state=[], inputs=[])
            l[part] = [((i,), 1) for i in range(129)]
        elif how == 7:
            l = dict(l, kind=self.one(DENSE, DIAGONAL), D=0, shape=[2, 2], rows=[(0, 0)], state=[], inputs=[])
            if self.chance(0.5):
                l.update(kind=DENSE, D=2, rows=[()])
        elif how == 8 and l["rows"]:
            l["rows"].append(self.r.choice(l["rows"]))
        elif how == 9 and l["rows"] and l["rows"][-1]:
            i = self.r.randrange(len(l["rows"]))
            a = self.r.randrange(len(l["rows"][i]))
            row = list(l["rows"][i])
            row[a] = self.one(-1, l["shape"][a], l["shape"][a] + 1, BIG)
            l["rows"][i] = tuple(row)
        elif how > 12 and l[part]:
            self.wrong_deps(l[part], how)
        return l

    def wrong_deps(self, entries, how):
        """A component, a number or the order of some dependencies is made wrong."""
        (i, j), (last, number) = entries[0], entries[-1]
        if how == 13 and last:
            entries[-1] = (tuple(last[:-1]) + (self.one(65536, BIG),), number)
        elif how == 14 and i:
            entries[0] = ((-1,) + tuple(i[1:]), j)
        elif how == 15:
            entries[0] = (i, self.one(-1, -BIG - 1))
        elif how == 16 and len(entries) > 1:
            entries.reverse()
        elif how == 17:
            entries.append(entries[-1])

    def wrong_numbers(self, l, how):
        """The numbers of a layout, cut off or with one of them changed."""
        nums, R = self.record(l), len(l["shape"])
        if how == 18:
            return nums[:-1]
        if how == 19:
            return nums[:self.r.randrange(len(nums))]
        if how == 20:
            return []
        if how == 21:
            nums[2] = self.one(-1, -2, -BIG - 1, BIG, 5, R + 1)
        elif how == 22:
            nums[3 + R] = self.one(-1, BIG, nums[3 + R] + 1, 129)
        elif how == 23:
            nums[-1] = self.one(-1, 1, BIG)
        elif how == 24:
            nums[self.r.randrange(len(nums))] = self.one(-1, BIG, 7, 65536, -BIG - 1)
        elif how == 25:
            at = 4 + R + len(l["rows"]) * (R - l["D"])
            nums[at] = self.one(-1, BIG, nums[at] + 1, 129)
        return nums

    def rec(self, l=None, bad=0.05):
        """Numbers of a record, sometimes broken, sometimes with numbers behind it."""
        l = l or (self.limit_layout() if self.chance(0.03) else self.layout())
        if self.chance(bad):
            return self.broken(l)
        nums = self.record(l)
        if self.chance(0.04):
            nums = nums + [self.r.randrange(-3, 9) for _ in range(self.r.randrange(1, 5))]
        return nums

    # ---- buffers and output
    def result(self):
        """How long the lent result is."""
        return self.r.choices((1802, 1803, 2000, 1801, 0, 10812), (80, 4, 6, 3, 1, 3))[0]

    def work(self):
        """How long the lent working buffer is."""
        return self.r.choices((10812, 10813, 20000, 10811, 0, 1802), (80, 4, 6, 2, 1, 1))[0]

    def rw(self):
        """Both lengths."""
        return [self.result(), self.work()]

    @staticmethod
    def line(op, *parts):
        """A request line: lists are slices, behind their length."""
        out = [op]
        for p in parts:
            out += ([len(p)] + list(p)) if isinstance(p, (list, tuple)) else [p]
        return " ".join(map(str, out))
