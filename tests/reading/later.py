#!/usr/bin/env python3
"""later.py SEED COUNT [OP ..]: random request lines for the later requests (REQUESTS.md), and of all operations with many diagonals
that have dense axes.

Operation 27 is written with the content of Q-5; `270` stands for its form with zero flags. Right proposals and summaries are
made by the reading with all later requests in force, whatever LANDED says.
"""
import sys
from itertools import product as cartesian
from math import prod
import rules
from layouts import BIG, DENSE, DIAGONAL, SPARSE
from requests import Requests

rules.LANDED = rules.named("all")
LOW = -BIG - 1


def key(order):
    """What an index is sorted by in an order."""
    return (lambda i: tuple(i)[::-1]) if order == 1 else (lambda i: tuple(i))


def reorder(l, order):
    """The layout with rows and dependencies sorted in an order."""
    k = key(order)
    return dict(l, rows=sorted(l["rows"], key=k), **{p: sorted(l[p], key=lambda e: (k(e[0]), e[1])) for p in ("state", "inputs")})


def bare(kind, D, shape, rows=(), state=(), inputs=()):
    """A layout by its parts, without dependencies unless they are given."""
    return dict(kind=kind, D=D, shape=list(shape), rows=[tuple(r) for r in rows], state=list(state), inputs=list(inputs))


def to_model(l):
    """The reading's form of a layout."""
    return rules.Layout(l["kind"], l["D"], tuple(l["shape"]), tuple(map(tuple, l["rows"])),
                    tuple((tuple(i), j) for i, j in l["state"]), tuple((tuple(i), j) for i, j in l["inputs"]))


def from_model(l):
    """A layout of the reading's form."""
    return bare(l.kind, l.dense, l.shape, l.rows, l.state, l.inputs)


class Later(Requests):
    """Requests as in requests.py, with many diagonals that have dense axes, and those of the later requests."""
    retire = 0.1                                          # the share of layouts that become diagonals with dense axes

    calm = 0.1                                            # the share of those that have no dependencies

    # ---- diagonals with dense axes
    def layout(self, shape=None, kinds=(DENSE, DIAGONAL, SPARSE), D=None, deps=None, ordered=0.85, rows=None):
        """A sound layout, some of them diagonals with dense axes."""
        if DIAGONAL in kinds and D != 0 and self.chance(self.retire) and (shape is None or len(shape) > 1):
            got = self.retired(shape, D, deps)
            if got:
                return got
        return super().layout(shape, kinds, D, deps, ordered, rows)

    def retired(self, shape=None, D=None, deps=None):
        """A diagonal with dense axes."""
        if shape is None:
            R = self.one(2, 2, 2, 3, 3, 4)
            d = D if D is not None and 0 < D < R else self.r.randrange(1, R)
            e = self.r.choices((0, 1, 2, 3, 4, 127, 128, 129, 200), (3, 12, 20, 15, 6, 1, 2, 3, 1))[0]
            tail = [self.extent() for _ in range(d)]
            if self.chance(0.3):
                tail = [e if e < 9 else 1] * d
            if e > 9:
                d = R - 1
                tail = [self.one(0, 1, 1, 2, 4) for _ in range(d)]
                shape = [e] + tail
            else:
                shape = [e] * (R - d) + tail
        else:
            R = len(shape)
            fit = [x for x in range(1, R) if len(set(shape[:R - x])) == 1 and (D is None or D == x)]
            if not fit:
                return None
            d = self.r.choice(fit)
        held = [(i,) * len(shape) for i in range(min(shape))][:5]
        if deps is None and self.chance(self.calm):
            deps = "none"
        return bare(DIAGONAL, d, shape, (), self.deps(shape, held, much=deps), self.deps(shape, held, much=deps))

    def limit_layout(self):
        """A sound layout at some limit."""
        if self.chance(0.4):
            n = self.one(127, 128, 129, 130, 65536)
            return bare(DIAGONAL, 1, [n, 1]) if n > 9999 else bare(DIAGONAL, 1, [n, self.one(0, 1, 2, 3)])
        return super().limit_layout()

    def converted(self, l):
        """The sparse layout that stands for a diagonal with dense axes."""
        lead = len(l["shape"]) - l["D"]
        return dict(l, kind=SPARSE, rows=[(i,) * lead for i in range(min(l["shape"][0], 128))])

    def near(self, l):
        """The same layout, the one that stands for it, or one that differs in one respect."""
        if l["kind"] == DIAGONAL and l["D"] and self.chance(0.45):
            c = self.converted(l)
            if c["rows"] and self.chance(0.2):
                c["rows"] = c["rows"][:-1]
            return c
        return super().near(l)

    # ---- 7 and 24
    def unheld(self, l):
        """An in-shape index that is likely not held, or an odd one."""
        shape = l["shape"]
        i = [self.r.randrange(e) if e else 0 for e in shape]
        return [self.one(0, 1, 3, 65535) if e == 1 and self.chance(0.2) else c for c, e in zip(i, shape)]

    def lookup_case(self, ordered=0.94):
        """A layout and an index to look up."""
        how = self.r.random()
        if how < 0.22:
            n = self.one(1, 2, 2, 3, 3, 4)
            l = super().layout([n] * self.one(1, 2, 2, 3, 3, 4), (DIAGONAL,), D=0)
        elif how < 0.40:
            l = super().layout(None, (SPARSE,), D=self.one(0, 1, 1, 2, 3, 4), ordered=ordered, rows=self.one("some", "single", "none", None))
        elif how < 0.52:
            l = self.retired()
        elif how < 0.56:
            l = self.limit_layout()
        elif how < 0.60:
            l = self.layout([1] * self.r.randrange(5), ordered=ordered)
        elif how < 0.64:
            l = bare(SPARSE, self.one(0, 0, 1), [300, self.one(1, 2)], [])
            w = 2 - l["D"]
            l["rows"] = [(i * 2,) + (0,) * (w - 1) for i in range(self.one(1, 20, 127, 128))]
        else:
            l = self.layout(ordered=ordered)
        i = self.index(len(l["shape"]), l["shape"]) if self.chance(0.4) else self.unheld(l)
        if l["rows"] and self.chance(0.25):
            row = list(self.r.choice(l["rows"]))
            i = row + [self.component(e, 0.1) for e in l["shape"][len(row):]]
        if i and self.chance(0.05):
            i[self.r.randrange(len(i))] = self.one(-1, 65536, LOW)
        return l, i

    def op7(self):
        """find_nnz_index"""
        l, i = self.lookup_case(0.75)
        return self.line(7, self.rec(l, 0.12), i)

    def op24(self):
        """contract_last_axis"""
        how = self.r.random()
        if how < 0.45:
            R = self.one(1, 1, 2, 2, 3, 3, 4)
            l = super().layout(self.shape(R, R), (SPARSE,), D=self.r.randrange(1, R + 1), ordered=0.5)
        elif how < 0.65:
            l = self.retired()
        elif how < 0.69:
            l = self.limit_layout()
        elif how < 0.76:
            l = self.layout([])
        else:
            l = self.layout(ordered=0.6)
        return self.line(24, self.rec(l, 0.09), *self.rw())

    # ---- 27
    def content(self, zero):
        """The content of a block: a constant or an expression, seldom a wrong one."""
        if self.chance(0.03):
            return self.one([2, 0, 0], [-1, 0, 0], [BIG, 1, 1], [1, -1, 0], [1, LOW, 0], [1, -1, -1], [LOW, 0, LOW])
        if zero:
            return self.one([0, 0, 0], [0, 0, LOW])
        return self.one([1, 0, 0], [1, 0, 0], [1, 7, -1], [1, BIG, LOW], [1, 0, LOW], [0, 1, 0], [0, 1, LOW], [0, LOW, 0],
                        [0, 0, 1072693248], [0, 0, 2146435072], [0, 0, 2146959360], [0, 0, -1], [0, -1, -1], [0, 0, 1],
                        [0, 0, -BIG], [0, 0, BIG], [0, LOW, LOW])

    def op27(self, old=False):
        """concatenate, by content or by the zero flag"""
        self.retire = 0.3
        rank = self.r.choices((0, 1, 2, 3, 4), (5, 22, 36, 22, 8))[0]
        n = self.r.choices((0, 1, 2, 3, 4, 16), (3, 20, 38, 24, 8, 2))[0]
        style = self.weighted(dense=14, diag=16, sparse=24, mixed=8, trailing=12, limit=6, retired=26)
        nums, blocks = [], getattr(self, "blocks_" + style)(rank, n)
        for start, flag, l in blocks:
            start = list(start)
            if start and self.chance(0.012):
                start[self.r.randrange(len(start))] += self.one(1, -1, 65536, -70000, 65537)
            body = self.content(flag) if not old else [flag if self.chance(0.985) else self.one(2, -1, BIG)]
            nums += start + body + self.rec(l, 0.012 if n < 9 else 0)
        if self.chance(0.02):
            nums = nums[:self.r.randrange(len(nums) + 1)]
        asked = rank if self.chance(0.97) else self.one(-1, 5, rank + 1, rank - 1, BIG)
        return self.line(27, nums, self.count_of(len(blocks)) if self.chance(0.6) else len(blocks), asked, *self.rw())

    def blocks_retired(self, rank, n):
        """Blocks with dense axes, some of them filed diagonals; along the diagonal or not."""
        if rank < 2:
            return self.blocks_sparse(rank, n)
        D = self.r.randrange(1, rank)
        tail = [self.one(0, 1, 1, 2, 2, 3) for _ in range(D)]
        whole, ones, run, out = self.chance(0.4), self.chance(0.2), 0, []
        if ones:
            tail = [1] * D
        for _ in range(n):
            e = 1 if ones else self.one(0, 1, 1, 2, 2, 3)
            if self.chance(0.02):
                e = self.one(64, 65, 128, 129)
            shape = ([e] * (rank - D) if e < 9 else [e] + [1] * (rank - D - 1)) + tail
            l = self.retired(shape, D) if self.chance(0.6) else None
            l = l or super().layout(shape, (SPARSE,), D=D, ordered=0.7)
            at = [run] * rank if whole or ones else [run] * (rank - D) + [0] * D
            if self.chance(0.15):
                at = [self.r.randrange(4) for _ in range(rank)]
            out.append((at, self.flag(), l))
            run += e
        return out

    # ---- 32 to 34
    def mode(self):
        """A mode, seldom a wrong one."""
        return self.r.choices((0, 1, 2, -1, 256, BIG), (25, 69, 2, 2, 1, 1))[0]

    def ones_layout(self):
        """A layout with many axes of extent 1 and dependencies, some outside."""
        shape = [self.one(1, 1, 1, 2, 3) for _ in range(self.r.randrange(5))]
        return self.layout(shape, ordered=0.7, deps=self.one("few", "few", "wild", "wild", "equal", "held", "none"))

    def op32(self):
        """broadcast_to_shape with a mode"""
        how = self.r.random()
        if how < 0.13:                                    # 127..129 combinations
            ones = [1] * self.one(1, 2, 2, 3)
            l = self.layout(ones, deps="none", rows=self.one("none", "full", "none"))
            to = list(self.one((128,), (129,), (127,), (8, 16), (16, 8), (3, 43), (2, 64), (64, 2), (1, 128), (128, 1), (2, 65),
                               (2, 8, 8), (4, 4, 8), (3, 43, 1), (8, 8), (65536, 0), (256, 256), (65536,), (0, 129)))[:4]
            for part in ("state", "inputs"):
                if self.chance(0.7):
                    z = [0] * (len(ones) - 1)
                    l[part] = sorted({((self.one(0, 0, 1, 7), *z), self.one(1, 1, 2)) for _ in range(self.one(1, 1, 2, 2, 3))})
            return self.line(32, self.rec(l, 0.01), self.shape_slice(to, 0.01), self.mode(), *self.rw())
        l = self.ones_layout() if how < 0.7 else self.layout(ordered=0.7)
        if how > 0.97:
            l = self.limit_layout()
        to = self.target_shape(l)
        return self.line(32, self.rec(l, 0.06), self.shape_slice(to, 0.06), self.mode(), *self.rw())

    def op33(self):
        """broadcast_to_rank with a mode"""
        old = Requests.op20(self).split()
        return " ".join(["33"] + old[1:-2] + [str(self.mode())] + old[-2:])

    def op34(self):
        """broadcast with a mode"""
        if self.chance(0.35):
            common = [self.one(0, 1, 2, 2, 3, 3) for _ in range(self.one(1, 2, 2, 3, 4))]
            out = []
            for _ in range(self.one(1, 2, 2, 2, 3)):
                shape = self.compatible(common, self.one(0.2, 0.5))
                out.append(self.layout(shape, D=self.one(None, 0), ordered=0.7, deps=self.one("few", "wild", "none", None)))
            nums = [x for l in out for x in self.rec(l, 0.015)]
            return self.line(34, nums, self.count_of(len(out)), self.operator(), self.mode(), *self.rw())
        old = Requests.op26(self).split()
        return " ".join(["34"] + old[1:-2] + [str(self.mode())] + old[-2:])

    # ---- 40 and 41
    def summary_layout(self):
        """A layout to be summed up in words."""
        how = self.r.random()
        if how < 0.13:
            shape = list(self.one([64], [63], [65], [128], [129], [8, 8], [65536], [256, 256], [2, 64], [64, 0], [4, 4, 4, 4], [1, 65]))
            return super().layout(shape, (DENSE, SPARSE), D=0, deps=self.one("none", "none", "few"))
        if how < 0.25:
            n, step = self.one(1, 5, 127, 128), self.one(1, 3, 7, 64, 500)
            size = self.one((n - 1) * step + 1, 65536, (n - 1) * step + 1 + 64)
            if size <= 65536:
                return bare(SPARSE, 0, [size], [(k * step,) for k in range(n)])
        if how < 0.78:
            return super().layout(None, (DENSE, SPARSE), D=0, ordered=0.85, deps=self.one("none", "few"))
        if how < 0.85:
            return self.retired()
        if how < 0.87:
            return self.limit_layout()
        l = super().layout(None, (DIAGONAL, SPARSE), ordered=0.5, D=self.one(None, 0, 1), rows=self.one("some", "full", None))
        return l

    def op40(self):
        """build the summary"""
        w = 1024 if self.chance(0.95) else self.one(1023, 1025, 0, -1, 2048, BIG, 2, 1)
        c = 1024 if self.chance(0.95) else self.one(1023, 1025, 0, -1, 2048, BIG, 2, 1)
        return self.line(40, self.rec(self.summary_layout(), 0.07), w, c)

    @staticmethod
    def signed(n):
        """The signed number of 32 bits."""
        n %= 2**32
        return n - 2**32 if n >= 2**31 else n

    def op41(self):
        """lookup by the summary"""
        l = self.summary_layout()
        words, counts = [0] * 1024, [0] * 1024
        m = to_model(l)
        right = rules.summary(m) if rules.has_summary(m) else rules.Refusal(11)
        used = max(1, min(1024, -(-prod(l["shape"]) // 64)))
        how = self.r.random()
        if how < 0.75 and not isinstance(right, rules.Refusal):
            words, counts = list(right[0]), list(right[1])
            if how > 0.45:                                # nearly right
                for _ in range(self.one(1, 1, 2)):
                    words[self.r.randrange(used)] ^= 1 << self.one(self.r.randrange(64), self.r.randrange(min(64, prod(l["shape"]) or 1)))
                if self.chance(0.5):
                    counts[self.r.randrange(used)] += self.one(-1, 1, 5)
        else:
            for k in list(range(used))[:4]:
                words[k] = self.one(self.r.getrandbits(64), 2**64 - 1, 0, 1 << 63, self.r.getrandbits(8))
        if self.chance(0.25):
            counts[self.r.randrange(min(used, 3))] = self.one(BIG, BIG - 1, -1, -2, LOW, -BIG, -3, BIG - 60, -30)
        index = self.unheld(l) if self.chance(0.7) else self.index(len(l["shape"]), l["shape"])
        if self.chance(0.2) and l["shape"] and len(l["rows"]) and l["D"] == 0:
            index = list(self.r.choice(l["rows"]))
        if not rules.has_summary(m) and self.chance(0.15):
            index = self.one(index + [0], index[:-1] if index else [0], [-1] * len(index), [65536] * len(index))
        halves = [self.signed(h) for w in words for h in (w, w >> 32)]
        if self.chance(0.03):
            halves = self.one(halves[:-1], halves[:-2], halves + [0], halves + [0, 0], [], halves[:1024])
        counts = [self.signed(c) for c in counts]
        if self.chance(0.03):
            counts = self.one(counts[:-1], counts + [0], [], counts + counts)
        return self.line(41, self.rec(l, 0.05), index, halves, counts)

    # ---- 42
    # ---- 43
    def op42(self):
        """pattern"""
        how = self.r.random()
        if how < 0.05:
            l, n = self.many_states()
        else:
            l = self.pattern_layout(how)
            l["state"] = self.states_of(l)
            l["inputs"] = self.deps(l["shape"], much=self.one("none", "none", "few", "wild"))
            top = max((j for _, j in l["state"]), default=-1) + 1
            n = self.r.choices((top, top + 1, 5, 128, 0, top - 1, 1, 129, -1, BIG), (30, 25, 8, 3, 3, 6, 3, 2, 2, 1))[0]
        r = self.r.choices((257, 258, 1802, 256, 0, 255), (80, 5, 5, 4, 1, 1))[0]
        return self.line(42, self.rec(l, 0.06), n, r)

    def many_states(self):
        """A layout with 128 state dependencies, and a count of states."""
        R = self.one(0, 1, 2)
        shape = [] if R == 0 else [128] if R == 1 else [self.one(1, 128), 1]
        l = bare(DENSE, R, shape)
        if R == 0:
            l["state"] = [((), k) for k in range(128)]
        else:
            l["state"] = [((k,) + (0,) * (R - 1), self.one(k, 3) if R == 2 else k) for k in range(128)]
        return l, self.one(128, 128, 129, 127)

    def pattern_layout(self, how):
        """A layout without dependencies, of a kind that a number between 0.05 and 1 names."""
        if how < 0.35:
            return super().layout(None, (SPARSE,), D=self.one(None, 0, 0, 1), ordered=0.93, deps="none", rows=self.one("full", "some", "diag", None))
        if how < 0.45:
            return self.retired(deps="none")
        if how < 0.47:
            return dict(self.limit_layout(), state=[], inputs=[])
        if how < 0.6:
            return super().layout([self.one(1, 2, 3)] * self.one(1, 2, 3), (DIAGONAL,), D=0, deps="none")
        return self.layout(deps="none", ordered=0.93)

    def states_of(self, l):
        """State dependencies of positions that a layout holds, now and then of others."""
        got, bad = set(), self.one(0, 0, 0.05, 0.3)
        for _ in range(self.one(0, 1, 2, 3, 4, 6, 9)):
            i = self.position(l)
            if i and self.chance(bad):
                k = self.r.randrange(len(i))
                i[k] = self.component(l["shape"][k], 0.8)
            got.add((tuple(i), self.r.randrange(4) if self.chance(0.95) else self.one(127, 128, 5)))
        return sorted(got)

    def position(self, l):
        """A position that a layout holds, now and then by another index that is read as the same."""
        shape = l["shape"]
        if l["kind"] == SPARSE and l["rows"]:
            i = list(self.r.choice(l["rows"]))
            i += [self.component(e, 0) for e in shape[len(i):]]
        elif l["kind"] == DIAGONAL:
            k = self.r.randrange(min(shape[0], 5) or 1)
            i = [k] * (len(shape) - l["D"]) + [self.component(e, 0) for e in shape[len(shape) - l["D"]:]]
        else:
            i = [self.component(e, 0) for e in shape]
        if l["kind"] != DIAGONAL or l["D"]:
            i = [self.one(0, 1, 9, 65535) if e == 1 and self.chance(0.5) else c for c, e in zip(i, shape)]
        return i

    def plain(self, shape, ordered=0.985):
        """Dense, diagonal or sparse without dense axes and without dependencies."""
        l = Requests.layout(self, shape, (DENSE, DIAGONAL, SPARSE, SPARSE), D=0, deps="none", ordered=ordered)
        return l if l["kind"] != DIAGONAL or l["D"] == 0 else Requests.layout(self, shape, (SPARSE,), D=0, deps="none", ordered=ordered)

    def other_form(self, l):
        """The same positions in another kind, or a kind that looks like it."""
        total, R = prod(l["shape"]), len(l["shape"])
        if l["kind"] != SPARSE and total <= 128 and self.chance(0.7):
            rows = cartesian(*map(range, l["shape"])) if l["kind"] == DENSE else [(i,) * R for i in range(l["shape"][0])]
            return bare(SPARSE, 0, l["shape"], rows)
        if R and len(set(l["shape"])) == 1 and self.chance(0.6):
            return bare(DIAGONAL, 0, l["shape"])
        return bare(DENSE, R, l["shape"]) if self.chance(0.7) else bare(SPARSE, self.one(R, 1 if R else 0), l["shape"])

    def op43(self):
        """check a proposal"""
        shape = self.shape() if self.chance(0.5) else [self.one(1, 2, 2, 3)] * self.one(0, 1, 1, 2, 2, 3)
        if self.chance(0.03):
            shape = list(self.one([128], [129], [200], [11, 12], [128, 128], [129, 129], [256, 256], [128, 1]))
        a, b = self.plain(shape), self.plain(shape)
        if self.chance(0.15):
            b = dict(a) if a["kind"] == SPARSE else self.other_form(a)
        op = self.r.choices((0, 1, 2, -1, 42, BIG), (46, 46, 3, 2, 1, 1))[0]
        made = (rules.intersect if op == 1 else rules.union)(to_model(a), to_model(b))
        p = self.plain(shape) if isinstance(made, rules.Refusal) else from_model(made)
        p = self.proposal(p, shape)
        if self.chance(0.05):
            b = self.plain(self.shape())
        a, b, p = self.one_changed([a, b, p], shape)
        return self.line(43, self.rec(a, 0.025), self.rec(b, 0.025), op, self.rec(p, 0.025))

    def proposal(self, p, shape):
        """A right proposal, in another form, or with a row less or more, or another one."""
        how = self.r.random()
        if how < 0.15:
            return self.other_form(p)
        if how < 0.30 and p["kind"] == SPARSE and p["rows"]:
            p["rows"].pop(self.r.randrange(len(p["rows"])))
        elif how < 0.42 and p["kind"] == SPARSE and 0 < prod(p["shape"]) <= 600:
            free = [r for r in cartesian(*map(range, p["shape"])) if r not in set(p["rows"])]
            if free and len(p["rows"]) < 128:
                p["rows"] = sorted(p["rows"] + [self.r.choice(free)])
        elif how < 0.47:
            return self.plain(self.one(shape + [1], shape[:-1], [1] + shape, shape[::-1])[:4])
        elif how < 0.52:
            return self.plain(shape)
        elif how < 0.55 and len(p["rows"]) > 1:
            p["rows"] = p["rows"][::-1]
        return p

    def one_changed(self, three, shape):
        """Three layouts, now and then one of them with dependencies, with dense axes, or at a limit."""
        k = self.r.randrange(3)
        if self.chance(0.05):
            part = self.one("state", "inputs")
            three[k] = dict(three[k], **{part: self.deps(three[k]["shape"], much="few")})
        elif self.chance(0.04):
            three[k] = self.retired(self.one(None, shape if len(shape) > 1 else None)) or three[k]
            three[k]["state"] = [] if self.chance(0.7) else three[k]["state"]
        elif self.chance(0.04) and shape:
            three[k] = super().layout(shape, (SPARSE,), D=self.r.randrange(1, len(shape) + 1), deps="none", ordered=0.8)
        elif self.chance(0.02):
            three[k] = self.limit_layout()
        return three

    # ---- 44 to 52
    def order(self):
        """An order, seldom a wrong one."""
        return self.r.choices((1, 0, 2, -1, BIG, 256), (66, 25, 3, 3, 1, 1))[0]

    def op44(self):
        """ravel_index in an order"""
        old = Requests.op3(self).split()
        return " ".join(["44"] + old[1:] + [str(self.order())])

    def op45(self):
        """unravel_index in an order"""
        old = Requests.op4(self).split()
        return " ".join(["45"] + old[1:] + [str(self.order())])

    def op46(self):
        """cmp_index in an order"""
        n = self.one(0, 1, 2, 2, 3, 3, 4)
        a, b = self.index(n), self.index(n)
        for k in range(min(len(a), len(b))):
            if self.chance(0.45):
                b[k] = a[k]
        if self.chance(0.06):
            a, b = self.one(([1] * 5, [1] * 5), (a, a + [0]), (a + [0], a), ([0, -1], [0, 0]))
        return self.line(46, a, b, self.order())

    def for_order(self, l, order, wrong=0.12):
        """Rows (if they were ordered) and dependencies in the named order, now and then in the other."""
        o = order if order in (0, 1) else self.one(0, 1)
        was = l["rows"]
        new = reorder(l, o if not self.chance(wrong) else 1 - o)
        if was != sorted(was):
            new["rows"] = was
        elif self.chance(wrong):
            new["rows"] = sorted(was, key=key(1 - o))
        return new

    def rich(self, **k):
        """A layout whose two orders differ: several rows and dependencies over two or more axes."""
        if self.chance(0.6):
            shape = [self.one(1, 2, 2, 3, 3) for _ in range(self.one(2, 2, 3, 4))]
            l = self.layout(shape, (SPARSE, SPARSE, DENSE, DIAGONAL), rows=self.one("some", "some", "full", None), **k)
        else:
            l = self.layout(**k)
        if self.chance(0.5) and len(l["shape"]) > 1 and k.get("deps") != "none":
            got = {(tuple(self.component(e, 0.15) for e in l["shape"]), self.r.randrange(3)) for _ in range(self.one(2, 3, 5))}
            l[self.one("state", "inputs")] = sorted(got)
        return l

    def op47(self, op=47):
        """sound in an order"""
        o = self.order()
        l = self.limit_layout() if self.chance(0.03) else self.rich(ordered=0.7)
        return self.line(op, self.rec(self.for_order(l, o, 0.25), 0.2), o)

    def op48(self):
        """ordered in an order"""
        return self.op47(48)

    def op49(self):
        """lookup in an order"""
        o = self.order()
        l, i = self.lookup_case(0.9)
        if self.chance(0.25):
            shape = [self.one(2, 3, 4) for _ in range(self.one(2, 2, 3))]
            l = super().layout(shape, (SPARSE,), D=self.one(0, 0, 0, 1), ordered=0.95, rows="some", deps=self.one("none", "few"))
            i = self.unheld(l)
        elif self.chance(0.4):
            l = self.rich(ordered=0.9)
            i = self.unheld(l) if self.chance(0.6) else self.index(len(l["shape"]), l["shape"])
            if l["rows"] and self.chance(0.3):
                row = list(self.r.choice(l["rows"]))
                i = row + [self.component(e, 0.1) for e in l["shape"][len(row):]]
        return self.line(49, self.rec(self.for_order(l, o, 0.12), 0.05), i, o)

    def op50(self, op=50):
        """union in an order"""
        o = self.order()
        if self.chance(0.12):
            a, b = self.limit_pair(23)
        else:
            calm = self.one(None, None, "none")
            a = self.rich(ordered=0.9, deps=calm)
            shape = a["shape"] if self.chance(0.95) else self.shape()
            D = a["D"] if a["kind"] != DENSE and self.chance(0.5) else self.one(0, 0, None)
            b = self.layout(shape, (SPARSE, SPARSE, DIAGONAL, DENSE), D=D, ordered=0.9, deps=calm, rows=self.one("some", "full", None))
            if self.chance(0.5):
                a, b = b, a
        w = 0.07
        return self.line(op, self.rec(self.for_order(a, o, w), 0.02), self.rec(self.for_order(b, o, w), 0.02), o, *self.rw())

    def op51(self):
        """intersect in an order"""
        return self.op50(51)

    def op52(self):
        """convert a record to the other order"""
        o = self.order()
        l = self.limit_layout() if self.chance(0.04) else self.rich(ordered=0.75)
        return self.line(52, self.rec(self.for_order(l, o, 0.15), 0.08), o, *self.rw())

    # ---- the others, with many diagonals with dense axes
    def op10(self, op=10):
        """eq_nonzeros"""
        l = self.layout()
        a, b = self.rec(l, 0.06), self.rec(self.near(l), 0.06)
        return self.line(op, *((a, b) if self.chance(0.5) else (b, a)))

    def pair(self, op):
        """Two layouts for union and intersect."""
        a, b = Requests.pair(self, op)
        if self.chance(0.02):                             # a conversion of 128 or 129 rows beside another refusal
            n = self.one(128, 129)
            a = bare(DIAGONAL, 1, [n, self.one(1, 2, 3)])
            b = self.layout(self.one([n, 2], a["shape"], [n]), deps=self.one("none", "few"))
        if op == 23 and self.chance(0.5):
            for l in (a, b):
                l["state"], l["inputs"] = [], []
        return a, b

    def op28(self):
        """filter_deps_from"""
        if self.chance(0.04):
            n = self.one(127, 128, 129, 200)
            a, b = bare(DIAGONAL, 1, [n, self.one(0, 1, 2)]), self.layout([self.one(1, 8)] * self.one(1, 2), (DENSE, SPARSE))
            if self.chance(0.3):
                a, b = b, a
            return self.line(28, self.rec(a, 0), self.rec(b, 0), 0, self.one(5, 65537), *self.rw())
        return Requests.op28(self)

    def op26(self):
        """broadcast"""
        if self.chance(0.25):                             # an ordinary diagonal that the common rank gives dense axes
            n = self.one(1, 2, 2, 3, 3, self.one(127, 128, 129))
            k = self.one(1, 2) if n < 9 else 1
            common = [n] * k + [self.one(1, 1, 2, 3)] * self.one(1, 1, 2)
            out = [bare(DIAGONAL, 0, [n] * k if self.chance(0.8) else [1] * k)]
            out[0]["state"] = self.deps(out[0]["shape"], much=self.one("none", "none", "few"))
            for _ in range(self.one(0, 1, 1, 2)):
                out.append(self.layout(self.compatible(common, 0.9), ordered=0.7, deps=self.one("none", "none", None)))
            out.append(self.layout(common, (DENSE, SPARSE, DIAGONAL), deps="none"))
            self.r.shuffle(out)
            nums = [x for l in out for x in self.rec(l, 0.01)]
            return self.line(26, nums, self.count_of(len(out)), self.operator(), *self.rw())
        return Requests.op26(self)

    def op19(self):
        """broadcast_to_shape"""
        if self.chance(0.25):                             # an ordinary diagonal that gains dense axes
            n = self.one(0, 1, 1, 2, 3, 127, 128, 129)
            R = self.one(1, 2, 2, 3) if n < 9 else 1
            l = bare(DIAGONAL, 0, [n] * R)
            l["state"] = self.deps(l["shape"], much=self.one("none", "few", "wild") if n < 9 else "none")
            to = [n if n != 1 or self.chance(0.5) else self.one(2, 3, 3)] * R + [self.one(0, 1, 2, 3) for _ in range(self.r.randrange(5 - R))]
            if self.chance(0.15) and n == 1:
                to[0] = self.one(1, 2, 128, 129)
            return self.line(19, self.rec(l, 0.02), self.shape_slice(to, 0.02), *self.rw())
        return Requests.op19(self)

    NEW = {7: 3, 24: 3, 27: 5, 32: 4, 33: 2, 34: 4, 40: 3, 41: 3, 42: 4, 43: 5, 44: 1, 45: 1, 46: 1, 47: 2, 48: 2, 49: 4,
           50: 5, 51: 5, 52: 3}
    OLD = {1: 0.1, 2: 0.1, 3: 0.1, 4: 0.1, 5: 0.1, 8: 1, 9: 0.6, 10: 1.2, 11: 1, 12: 0.7, 13: 0.1, 14: 0.1, 15: 0.1, 16: 0.3,
           17: 0.1, 18: 1, 19: 3, 20: 2, 22: 3, 23: 3, 25: 2, 26: 4, 28: 1.5, 29: 1, 30: 0.6, 31: 0.8}
    WEIGHTS = {**NEW, **OLD, 270: 3}

    def request(self, ops=None):
        """A request of one of the operations, by their weights."""
        ops = ops or [o for o in self.WEIGHTS if o != 270]
        op = self.r.choices(ops, [self.WEIGHTS[o] for o in ops])[0]
        self.retire = 0.1 if op in self.NEW else 0.5
        self.calm = 0.75 if op in (23, 26, 51) else 0.1
        if op == 270:
            return self.op27(old=True)
        return getattr(self, "op%d" % op)()


def main():
    """Writes so many request lines."""
    seed, count = int(sys.argv[1]), int(sys.argv[2])
    operations = [int(word) for word in sys.argv[3:]] or None
    maker = Later(seed)
    for _ in range(count):
        print(maker.request(operations))


if __name__ == "__main__":
    main()
