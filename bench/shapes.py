#!/usr/bin/env python3
"""shapes.py SHAPE N OUT [SEED]: writes a stored function of about N instructions to OUT.

The same arguments give the same function. Each is for a machine of 16 integer and 16 float registers, of which p0i to
p8i and p0f to p7f are preferred, without a dedicated scratch register. A slot takes one unit for an integer and two
for a float. The docstring of each shape below is its recipe, where n is N; docs/BENCH.md says what each is for, and
counts by the instructions that a function has, which may be fewer than N: of 10,000 `params` has 6,254, `branch-ops`
5,002 and `branch-defs-wide` 2,502.
"""
import random, sys

# Int: p0..p8 preferred (caller saved), p9..p15 not preferred (callee saved).
# Float: p0..p7 preferred, p8..p15 not preferred, all caller saved.
INT_PREF, INT_NON = list(range(9)), list(range(9, 16))
FL_PREF, FL_NON = [64 + i for i in range(8)], [64 + i for i in range(8, 16)]
CALLER = INT_PREF + FL_PREF + FL_NON

ANY, REG, STACK = 0, 1, 2
DEF, USE = 0, 1
EARLY, LATE = 0, 1


def fixed(n):
    return 64 + n


def reuse(k):
    return 32 + k


def oper(v, con, kind, pos):
    """The word of an operand; v is the virtual register's word."""
    return (v >> 2) | (v & 3) << 32 | pos << 34 | kind << 35 | con << 36


def use(v, con=REG):
    return oper(v, con, USE, EARLY)


def use_late(v, con=REG):
    return oper(v, con, USE, LATE)


def define(v, con=REG):
    return oper(v, con, DEF, LATE)


def define_early(v, con=REG):
    return oper(v, con, DEF, EARLY)


class F:
    """A function under construction."""

    def __init__(self):
        self.insts = []        # (op, operands, clobbers)
        self.ranges = []
        self.succs, self.args, self.params = [], [], []
        self.start = 0
        self.nv = 0
        self.labels = []
        self.fixed_stack = []
        self.scratch = ["null", "null", "null"]

    def new(self, cls=0):
        v = self.nv << 2 | cls
        self.nv += 1
        return v

    def emit(self, operands, clobbers=(), op="Op"):
        self.insts.append((op, operands, clobbers))

    def begin(self, params=()):
        """Opens the next block, and returns its number."""
        self.params.append(list(params))
        self.start = len(self.insts)
        return len(self.params) - 1

    def end(self, edges, operands=(), ret=False, clobbers=()):
        """Ends the block. Edges are lists of a target and arguments; targets may be filled in later."""
        self.emit(list(operands), clobbers, "Ret" if ret else "Branch")
        self.ranges.append((self.start, len(self.insts)))
        self.succs.append(edges)
        return edges

    def write(self, path):
        nb = len(self.ranges)
        preds = [[] for _ in range(nb)]
        for b, edges in enumerate(self.succs):
            for t, args in edges:
                preds[t].append(b)
                assert len(args) == len(self.params[t]), (b, t, args, self.params[t])
        # critical edges, operands on branches
        for b, edges in enumerate(self.succs):
            multi = [t for t, _ in edges if len(preds[t]) + (t == 0) > 1]
            if multi:
                assert len(edges) == 1 or all(len(preds[t]) == 1 for t, _ in edges), (b, edges)
                assert not self.insts[self.ranges[b][1] - 1][1]
        with open(path, "w") as o:
            j = lambda xs: "[" + ",".join(map(str, xs)) + "]"
            o.write('{"machine_env":{"preferred_regs_by_class":[%s,%s,[]],' % (j(INT_PREF), j(FL_PREF)))
            o.write('"non_preferred_regs_by_class":[%s,%s,[]],' % (j(INT_NON), j(FL_NON)))
            o.write('"scratch_by_class":%s,"fixed_stack_slots":%s},\n' % (j(self.scratch), j(self.fixed_stack)))
            o.write('"entry_block":0,"insts":[\n')
            last = len(self.insts) - 1
            for k, (op, ops, cl) in enumerate(self.insts):
                o.write('{"op":"%s","operands":%s,"clobbers":%s}%s\n'
                        % (op, j(ops), j(cl), "," if k < last else ""))
            o.write('],"blocks":%s,\n' % j(map(list, self.ranges)))
            o.write('"block_preds":[%s],\n' % ",".join(j(p) for p in preds))
            o.write('"block_succs":[%s],\n' % ",".join(j(t for t, _ in e) for e in self.succs))
            o.write('"block_params_in":[%s],\n' % ",".join(j(p) for p in self.params))
            o.write('"block_params_out":[%s],\n'
                    % ",".join("[" + ",".join(j(a) for _, a in e) + "]" for e in self.succs))
            o.write('"num_vregs":%d,"debug_value_labels":%s,' % (self.nv, j(map(list, self.labels))))
            o.write('"spillslot_size":[1,2,2],"multi_spillslot_named_by_last_slot":false,'
                    '"allow_multiple_vreg_defs":false}\n')


# ------------------------------------------------------------------- real

class Real:
    """`real`: randomly generated from the seed, like compiled code for x86-64. The function's arguments come in
    fixed registers; then straight runs of instructions of several kinds with calls that clobber, forks, loops with
    parameters and small switches, nested. A definition dominates its uses, and 4% of the vregs have a debug label.
    """

    def __init__(self, n, seed):
        self.f, self.n, self.r = F(), n, random.Random(seed)
        self.vis = ([], [])          # visible vregs of class 0 and 1
        self.keep = ([], [])         # long-lived ones
        self.defs_at = {}

    def left(self):
        return self.n - len(self.f.insts)

    def new(self, cls=0):
        v = self.f.new(cls)
        if self.r.random() < 0.04:
            self.f.labels.append((v, len(self.f.insts), len(self.f.insts) + 1 + self.r.randrange(8), len(self.f.labels)))
        return v

    def add(self, *vs):
        for v in vs:
            self.vis[v & 3].append(v)

    def pick(self, cls=0):
        r = self.r
        vis = self.vis[cls]
        if self.keep[cls] and r.random() < 0.12:
            return r.choice(self.keep[cls])
        # recent ones are likelier: a geometric step back
        back = min(int(r.expovariate(1 / 5.0)), 60)
        return vis[max(len(vis) - 1 - back, 0)]

    def inst(self):
        f, r = self.f, self.r
        x = r.random()
        if x < 0.26:        # two-address ALU
            a, b, d = self.pick(), self.pick(), self.new()
            f.emit([define(d, reuse(1)), use(a), use(b, ANY if r.random() < 0.4 else REG)])
            self.add(d)
        elif x < 0.44:      # load
            ops = [use(self.pick())]
            if r.random() < 0.3:
                ops.append(use(self.pick()))
            d = self.new()
            f.emit([define(d)] + ops)
            self.add(d)
        elif x < 0.54:      # store
            ops = [use(self.pick()), use(self.pick())]
            if r.random() < 0.25:
                ops.append(use(self.pick()))
            f.emit(ops)
        elif x < 0.63:      # constant, address
            d = self.new()
            f.emit([define(d, ANY if r.random() < 0.1 else REG)])
            self.add(d)
        elif x < 0.71:      # compare
            f.emit([use(self.pick()), use(self.pick(), ANY)])
        elif x < 0.75:      # shift by rcx
            a, c, d = self.pick(), self.pick(), self.new()
            f.emit([define(d, reuse(1)), use(a), use(c, fixed(1))])
            self.add(d)
        elif x < 0.765:     # divide
            a, b, c = self.pick(), self.pick(), self.pick()
            q, m = self.new(), self.new()
            f.emit([define(q, fixed(0)), define(m, fixed(2)), use(a, fixed(0)), use(b, fixed(2)), use(c)])
            self.add(q, m)
        elif x < 0.86:      # float arithmetic
            a, b, d = self.pick(1), self.pick(1), self.new(1)
            f.emit([define(d, reuse(1)), use(a), use(b, ANY if r.random() < 0.3 else REG)])
            self.add(d)
        elif x < 0.90:      # float load, store, conversion
            k = r.random()
            if k < 0.5:
                b, d = self.pick(), self.new(1)
                f.emit([define(d), use(b)])
                self.add(d)
            elif k < 0.8:
                f.emit([use(self.pick(1)), use(self.pick())])
            else:
                b, d = self.pick(1), self.new()
                f.emit([define(d), use(b)])
                self.add(d)
        elif x < 0.96:      # call
            ops, ni, nf = [], r.choice([0, 1, 1, 2, 2, 3, 4, 6]), r.choice([0, 0, 0, 1, 2])
            regs = [7, 6, 2, 1, 4, 5][:ni]
            cl = set(CALLER)
            for p in regs:
                ops.append(use(self.pick(), fixed(p)))
            for p in range(nf):
                ops.append(use(self.pick(1), fixed(p)))
            if r.random() < 0.2:
                ops.append(use(self.pick(), REG))   # callee
            if r.random() < 0.15:
                ops.append(use(self.pick(), ANY))   # argument on the stack
            k = r.random()
            new = []
            if k < 0.6:
                d = self.new()
                new.append(d)
                ops.append(define(d, fixed(0)))
                cl.discard(0)
            elif k < 0.75:
                d = self.new(1)
                new.append(d)
                ops.append(define(d, fixed(0)))
                cl.discard(64)
            f.emit(ops, sorted(cl))
            self.add(*new)
        elif x < 0.975:     # with a temporary
            t, a, d = self.new(), self.pick(), self.new()
            f.emit([define_early(t), use(a), define(d)])
            self.add(d)
        elif x < 0.985:     # late use
            a, b, d = self.pick(), self.pick(), self.new()
            f.emit([define(d), use(a), use_late(b)])
            self.add(d)
        elif x < 0.99:      # stack
            f.emit([use(self.pick(), STACK)])
        else:               # copy
            a, d = self.pick(), self.new()
            f.emit([define(d, ANY), use(a, ANY)])
            self.add(d)

    def run_of(self, k):
        for _ in range(k):
            self.inst()

    def mark(self):
        return (len(self.vis[0]), len(self.vis[1]))

    def back(self, m):
        del self.vis[0][m[0]:]
        del self.vis[1][m[1]:]

    def classes(self, hi):
        return [1 if self.r.random() < 0.25 else 0 for _ in range(self.r.randrange(hi + 1))]

    def region(self, depth, budget):
        """Emits about `budget` instructions; a block is open before and after."""
        f, r = self.f, self.r
        stop = len(f.insts) + budget
        while len(f.insts) < stop:
            self.run_of(r.randrange(2, 12))
            room = stop - len(f.insts)
            if room < 12 or r.random() < 0.15:
                continue
            sub = min(int(r.expovariate(1 / 60.0)) + 8, room) if depth < 6 else 8
            if depth == 0 and room > 2000:
                sub = min(room, r.randrange(20, 1200))
            k = r.random()
            if k < 0.6:
                self.diamond(depth, sub)
            elif k < 0.9:
                self.loop(depth, sub)
            else:
                self.switch(depth, sub)

    def diamond(self, depth, sub):
        f, r = self.f, self.r
        cond = [use(self.pick())] if r.random() < 0.5 else []
        head = f.end([[0, []], [0, []]], cond)
        cl = self.classes(3)
        joins = []
        for side in range(2):
            m = self.mark()
            head[side][0] = f.begin()
            if side == 0 or r.random() < 0.6:
                self.region(depth + 1, max(sub // 2, 2))
            joins.append(f.end([[0, [self.pick(c) for c in cl]]]))
            self.back(m)
        ps = [self.new(c) for c in cl]
        b = f.begin(ps)
        for e in joins:
            e[0][0] = b
        self.add(*ps)

    def switch(self, depth, sub):
        f, r = self.f, self.r
        w = r.randrange(3, 9)
        head = f.end([[0, []] for _ in range(w)], [use(self.pick())])
        cl = self.classes(2)
        joins = []
        for side in range(w):
            m = self.mark()
            head[side][0] = f.begin()
            self.region(depth + 1, max(sub // w, 2))
            joins.append(f.end([[0, [self.pick(c) for c in cl]]]))
            self.back(m)
        ps = [self.new(c) for c in cl]
        b = f.begin(ps)
        for e in joins:
            e[0][0] = b
        self.add(*ps)

    def loop(self, depth, sub):
        f, r = self.f, self.r
        cl = [0] + self.classes(3)
        pre = f.end([[0, [self.pick(c) for c in cl]]])
        ps = [self.new(c) for c in cl]
        h = f.begin(ps)
        pre[0][0] = h
        self.add(*ps)
        self.run_of(r.randrange(1, 5))
        cond = [use(self.pick()), use(self.pick(), ANY)] if r.random() < 0.5 else []
        head = f.end([[0, []], [0, []]], cond)
        m = self.mark()
        head[0][0] = f.begin()
        self.region(depth + 1, max(sub, 2))
        f.end([[h, [self.pick(c) for c in cl]]])
        self.back(m)
        head[1][0] = f.begin()

    def build(self):
        f = self.f
        f.begin()
        # arguments of the function
        args = [self.new() for _ in range(6)] + [self.new(1) for _ in range(4)]
        f.emit([define(v, fixed(p)) for v, p in zip(args, [7, 6, 2, 1, 4, 5, 0, 1, 2, 3])])
        self.add(*args)
        self.keep = (args[:6], args[6:])
        self.run_of(6)
        self.region(0, max(self.n - len(f.insts) - 2, 1))
        a = self.pick()
        f.end([], [use(a, fixed(0))], ret=True)
        return f


# ------------------------------------------------------------ one pattern

def straight_live(n, rev):
    """`straight-live`: one block of n/2 definitions, integer and float in turn, all live; then each is used, in the
    order of the definitions, so that each reload evicts. `straight-live-rev`: used in the reverse order.
    """
    f = F()
    f.begin()
    vs = []
    for k in range(n // 2):
        v = f.new(k & 1)
        vs.append(v)
        f.emit([define(v)])
    for v in (reversed(vs) if rev else vs):
        f.emit([use(v)])
    f.end([], ret=True)
    return f


def straight_any(n):
    """One block of n/3 integer definitions; then 2n/3 instructions, of which the kth reads under `Any` the vregs k
    and 7k + 3, modulo n/3.
    """
    f = F()
    f.begin()
    vs = [f.new(0) for _ in range(n // 3)]
    for v in vs:
        f.emit([define(v)])
    for k in range(2 * n // 3):
        f.emit([use(vs[k % len(vs)], ANY), use(vs[(k * 7 + 3) % len(vs)], ANY)])
    f.end([], ret=True)
    return f


def live_through(n, nv, nb):
    """`nv` vregs, live through a chain of `nb` blocks that each define and use one more, and then used.
    `live-through` has n/5 vregs and n/5 blocks, `live-sqrt` 2 * sqrt(n) and n/4.
    """
    f = F()
    f.begin()
    vs = [f.new(k & 1) for k in range(nv)]
    for v in vs:
        f.emit([define(v)])
    e = f.end([[0, []]])
    for _ in range(nb):
        e[0][0] = f.begin()
        d = f.new()
        f.emit([define(d)])
        f.emit([use(d)])
        e = f.end([[0, []]])
    e[0][0] = f.begin()
    for v in vs:
        f.emit([use(v)])
    f.end([], ret=True)
    return f


def params(n, how):
    """`params`: a loop with n/4 parameters, passed on in a cycle. `params-swap`: swapped by pairs.
    `params-one-swap`: one pair swapped, the others newly defined. `params-perm`: all newly defined.
    """
    f = F()
    k = n // 4
    f.begin()
    vs = [f.new() for _ in range(k)]
    for v in vs:
        f.emit([define(v)])
    pre = f.end([[0, list(vs)]])
    ps = [f.new() for _ in range(k)]
    h = f.begin(ps)
    pre[0][0] = h
    for p in ps[: k // 2]:
        f.emit([use(p, ANY)])
    head = f.end([[0, []], [0, []]])
    head[0][0] = f.begin()
    if how == "cycle":
        f.end([[h, ps[1:] + ps[:1]]])
    elif how == "swap":
        f.end([[h, [ps[i ^ 1] if i ^ 1 < k else ps[i] for i in range(k)]]])
    elif how == "one-swap":
        ds = [f.new() for _ in range(k)]
        for d in ds:
            f.emit([define(d)])
        f.end([[h, [ps[1], ps[0]] + ds[2:]]])
    else:
        ds = [f.new() for _ in range(k)]
        for d in ds:
            f.emit([define(d)])
        f.end([[h, ds]])
    head[1][0] = f.begin()
    for p in ps:
        f.emit([use(p, ANY)])
    f.end([], ret=True)
    return f


def branch_ops(n):
    """A branch that reads n/4 vregs under `Any` and passes them all to one block, which uses its parameters."""
    f = F()
    k = n // 4
    f.begin()
    vs = [f.new() for _ in range(k)]
    for v in vs:
        f.emit([define(v)])
    e = f.end([[0, list(vs)]], [use(v, ANY) for v in vs])
    ps = [f.new() for _ in range(k)]
    e[0][0] = f.begin(ps)
    for p in ps:
        f.emit([use(p)])
    f.end([], ret=True)
    return f


def params_small(n, w=32):
    """A chain of loops with 32 parameters each. Each turn passes them on in a cycle, two places further."""
    f = F()
    f.begin()
    vs = [f.new(k & 1) for k in range(w)]
    for v in vs:
        f.emit([define(v)])
    while len(f.insts) < n - 8:
        pre = f.end([[0, list(vs)]])
        ps = [f.new(k & 1) for k in range(w)]
        h = f.begin(ps)
        pre[0][0] = h
        f.emit([use(ps[0]), use(ps[2], ANY)])
        f.emit([use(ps[1])])
        head = f.end([[0, []], [0, []]])
        head[0][0] = f.begin()
        f.emit([use(ps[4])])
        f.end([[h, ps[2:] + ps[:2]]])
        head[1][0] = f.begin()
        d = f.new()
        f.emit([define(d), use(ps[6])])
        vs = [d] + ps[1:]
    for v in vs:
        f.emit([use(v)])
    f.end([], ret=True)
    return f


def clobbers(n):
    """One block of 24 definitions, integer and float in turn; then instructions that define a new integer in p0i,
    read an older integer in p7i and a float in p1f, and clobber all 31 other registers. The new integer replaces
    the older one. The values are read in turn, each the fifth after the last. Then the 24 are used.
    """
    f = F()
    f.begin()
    allr = list(range(16)) + [64 + i for i in range(16)]
    vs = [f.new(k & 1) for k in range(24)]
    for v in vs:
        f.emit([define(v)])
    k = 0
    while len(f.insts) < n - 26:
        d = f.new(0)
        f.emit([define(d, fixed(0)), use(vs[k % 24 & ~1], fixed(7)), use(vs[k % 24 | 1], fixed(1))],
               [p for p in allr if p != 0])
        vs[k % 24 & ~1] = d
        k += 5
    for v in vs:
        f.emit([use(v)])
    f.end([], ret=True)
    return f


def wide(n):
    """One block of n/2 integer definitions, one instruction that reads them all under `Any`, and n/4 times a
    definition and its use.
    """
    f = F()
    f.begin()
    k = n // 2
    vs = [f.new() for _ in range(k)]
    for v in vs:
        f.emit([define(v)])
    f.emit([use(v, ANY) for v in vs])
    for _ in range(n // 4):
        d = f.new()
        f.emit([define(d)])
        f.emit([use(d)])
    f.end([], ret=True)
    return f


def switch(n):
    """A branch to n/3 blocks, each with a parameter, a use of it and a return."""
    f = F()
    f.begin()
    a = f.new()
    f.emit([define(a)])
    k = n // 3
    e = f.end([[0, [a]] for _ in range(k)], [use(a)])
    for j in range(k):
        p = f.new()
        e[j][0] = f.begin([p])
        f.emit([use(p)])
        f.end([], ret=True)
    return f


def switch_merge(n):
    """A branch to n/4 blocks that all branch to one block, with n/4 vregs live through and used there."""
    f = F()
    f.begin()
    k = n // 4
    vs = [f.new() for _ in range(k)]
    for v in vs:
        f.emit([define(v)])
    e = f.end([[0, []] for _ in range(k)], [use(vs[0])])
    joins = []
    for j in range(k):
        e[j][0] = f.begin()
        d = f.new()
        f.emit([define(d)])
        joins.append(f.end([[0, []]]))
    b = f.begin()
    for x in joins:
        x[0][0] = b
    for v in vs:
        f.emit([use(v)])
    f.end([], ret=True)
    return f


def stack_moves(n):
    """One block over eight fixed stack slots. n/4 times: a definition fixed to one of them in turn, a definition
    under `Stack`, an instruction that reads the first under `Stack` and the second fixed to the next slot, and one
    that reads the second under `Stack`.
    """
    f = F()
    f.fixed_stack = list(range(32, 40))
    f.begin()
    while len(f.insts) < n:
        a, b = f.new(), f.new()
        k = len(f.insts) // 4 % 8
        f.emit([define(a, fixed(32 + k))])
        f.emit([define(b, STACK)])
        f.emit([use(a, STACK), use(b, fixed(32 + (k + 1) % 8))])
        f.emit([use(b, STACK)])
    f.end([], ret=True)
    return f


def chain(n, backward=False):
    """`chain`: n/3 blocks of a definition, its use and a branch, each going to the next by number. `chain-back`: to
    the one before.
    """
    f = F()
    k = max(2, n // 3)
    for b in range(k):
        f.begin()
        d = f.new()
        f.emit([define(d)])
        f.emit([use(d)])
        if backward:
            to = k - 1 if b == 0 else (b - 1 if b > 1 else None)
        else:
            to = b + 1 if b < k - 1 else None
        f.end([] if to is None else [[to, []]], ret=to is None)
    return f


def graph(succs, entries):
    """Blocks of a definition, a use of it and of the first block's vreg, and a branch, along a graph's edges.

    Each edge of a block with several successors leads over a block of its own, so that no edge is critical. The
    first block branches to the entries.
    """
    f = F()
    succs = [entries] + [[s for s in to] for to in succs]
    start, waiting = {}, []
    for node, to in enumerate(succs):
        start[node - 1] = f.begin()
        d = f.new()
        if node == 0:
            a = d
        f.emit([define(d)])
        f.emit([use(d), use(a)])
        edges = f.end([[None, []] for _ in to], ret=not to)
        for k, target in enumerate(to):
            if len(to) > 1:
                edges[k][0] = f.begin()
                waiting.append((f.end([[None, []]])[0], target))
            else:
                waiting.append((edges[k], target))
    for edge, target in waiting:
        edge[0] = start[target]
    return f


def traps(n):
    """A chain of n/5 tests, each of which may go to one common block, as tests of bounds do."""
    k = max(2, n // 5)
    return graph([[i + 1, k] for i in range(k - 1)] + [[k], []], [0])


def rungs(n):
    """Two chains of n/10 blocks with edges across both ways: irreducible."""
    k = max(2, n // 10)
    left = [([i + 1] if i + 1 < k else []) + [k + i * 7 % k] for i in range(k)]
    right = [([k + i + 1] if i + 1 < k else []) + [i * 5 % k] for i in range(k)]
    return graph(left + right, [0, k])


def two_ends(n):
    """A chain of n/5 blocks, walked both ways and entered at both ends: irreducible, and no block of it dominates
    another one.
    """
    k = max(3, n // 5)
    return graph([[j for j in (i + 1, i - 1) if 0 <= j < k] for i in range(k)], [0, k - 1])


def two_switches(n):
    """A chain of n/5 blocks, whose last block may go to each of n/15 blocks, as the entry may. None of these is below
    the chain in the dominator tree, though a depth-first search first comes to them by it.
    """
    k, m = max(1, n // 5), max(2, n // 15)
    ends = [k + j for j in range(m)]
    return graph([[i + 1] for i in range(k - 1)] + [ends] + [[]] * m, [0] + ends)


def branch_defs(n, w=8):
    """A chain of n/2 blocks, each of which uses one of its parameters. Its branch defines eight integers under
    `Any`, and passes them to the next block's eight parameters.
    """
    f = F()
    f.begin()
    k = max(1, n // 2)
    edge = None
    for b in range(k):
        last = b == k - 1
        if b > 0:
            ps = [f.new() for _ in range(w)]
            edge[0][0] = f.begin(ps)
            f.emit([use(ps[0])])
        else:
            f.emit([])
        if last:
            f.end([], ret=True)
        else:
            ds = [f.new() for _ in range(w)]
            edge = f.end([[0, ds]], [define(d, ANY) for d in ds])
    return f


def branch_defs_wide(n):
    """A branch that defines n/4 integers under `Any` and passes them all to one block, in which n/4 instructions
    use the parameters.
    """
    f = F()
    k = n // 4
    f.begin()
    ds = [f.new() for _ in range(k)]
    e = f.end([[0, list(ds)]], [define(d, ANY) for d in ds])
    ps = [f.new() for _ in range(k)]
    e[0][0] = f.begin(ps)
    for p in ps:
        f.emit([use(p)])
    f.end([], ret=True)
    return f


def changed(f, rng, vs, count):
    """Emits `count` instructions, each of which gives one of `vs` a new value from two of them, and returns the values."""
    vs = list(vs)
    for _ in range(count):
        d = f.new()
        f.emit([define(d), use(rng.choice(vs)), use(rng.choice(vs), ANY)])
        vs[rng.randrange(len(vs))] = d
    return vs


def loops(f, rng, vs, depth):
    """A loop whose parameters begin as `vs`, with `depth` - 1 more inside. Each turn changes two. Returns the parameters."""
    pre = f.end([[0, list(vs)]])
    ps = [f.new() for _ in vs]
    h = f.begin(ps)
    pre[0][0] = h
    head = f.end([[0, []], [0, []]], [use(rng.choice(ps))])
    head[0][0] = f.begin()
    inner = changed(f, rng, ps, 2)
    if depth > 1:
        inner = loops(f, rng, inner, depth - 1)
    f.end([[h, inner]])
    head[1][0] = f.begin()
    return ps


def nest(n, w=20, depth=8, begins_as_one=False):
    """Loops nested eight deep, one nest after another, each with `w` parameters. Each turn of a loop changes two.
    For `zero-locals` three deep, with 50 or 20 parameters, which all begin as one value in each nest.
    """
    f, rng = F(), random.Random(3)
    f.begin()
    vs = [f.new() for _ in range(w)]
    for v in vs:
        f.emit([define(v)])
    while len(f.insts) < n - w:
        vs = loops(f, rng, vs[:1] * w if begins_as_one else vs, depth)
    for v in vs:
        f.emit([use(v)])
    f.end([], ret=True)
    return f


def max_ssa(n, w=20):
    """Forks whose blocks all have `w` parameters, one for each variable, in a chain."""
    f, rng = F(), random.Random(4)
    f.begin()
    vs = [f.new() for _ in range(w)]
    for v in vs:
        f.emit([define(v)])
    while len(f.insts) < n - w:
        fork, joins = f.end([[0, list(vs)], [0, list(vs)]]), []
        for side in fork:
            ps = [f.new() for _ in range(w)]
            side[0] = f.begin(ps)
            joins.append(f.end([[0, changed(f, rng, ps, 2)]]))
        vs = [f.new() for _ in range(w)]
        b = f.begin(vs)
        for edge in joins:
            edge[0][0] = b
        vs = changed(f, rng, vs, 3)
    for v in vs:
        f.emit([use(v)])
    f.end([], ret=True)
    return f


def match_value(n):
    """A `match` of n/2 cases, each of which defines a value and passes it to one block."""
    f = F()
    f.begin()
    x = f.new()
    f.emit([define(x)])
    cases, joins = f.end([[0, []] for _ in range(n // 2)], [use(x)]), []
    for case in cases:
        case[0] = f.begin()
        d = f.new()
        f.emit([define(d)])
        joins.append(f.end([[0, [d]]]))
    p = f.new()
    b = f.begin([p])
    for edge in joins:
        edge[0][0] = b
    f.emit([use(p)])
    f.end([], ret=True)
    return f


def interpreter(n, w=10):
    """A loop with `w` parameters, the interpreter's state, around a switch of n/5 cases. Each case gives three of them a
    new value, and passes all to one block, which goes back to the loop's head.
    """
    f, rng = F(), random.Random(2)
    f.begin()
    state = [f.new() for _ in range(w)]
    for v in state:
        f.emit([define(v)])
    enter = f.end([[0, list(state)]])
    state = [f.new() for _ in range(w)]
    head = enter[0][0] = f.begin(state)
    op = f.new()
    f.emit([define(op), use(state[0], ANY)])
    cases = f.end([[0, []] for _ in range(max(2, (n - 2 * w) // 5) + 1)], [use(op)])
    joins = []
    for case in cases[:-1]:
        case[0] = f.begin()
        joins.append(f.end([[0, changed(f, rng, state, 3)]]))
    passed = [f.new() for _ in range(w)]
    back = f.begin(passed)
    for edge in joins:
        edge[0][0] = back
    f.end([[head, passed]])
    cases[-1][0] = f.begin()
    for v in state:
        f.emit([use(v)])
    f.end([], ret=True)
    return f


SHAPES = {
    "real": lambda n, seed: Real(n, seed).build(),
    "straight-live": lambda n, _: straight_live(n, False),
    "straight-live-rev": lambda n, _: straight_live(n, True),
    "straight-any": lambda n, _: straight_any(n),
    "live-through": lambda n, _: live_through(n, n // 5, n // 5),
    "live-sqrt": lambda n, _: live_through(n, int(2 * n ** 0.5), n // 4),
    "params": lambda n, _: params(n, "cycle"),
    "params-swap": lambda n, _: params(n, "swap"),
    "params-one-swap": lambda n, _: params(n, "one-swap"),
    "params-perm": lambda n, _: params(n, "new"),
    "branch-ops": lambda n, _: branch_ops(n),
    "params-small": lambda n, _: params_small(n),
    "clobbers": lambda n, _: clobbers(n),
    "wide": lambda n, _: wide(n),
    "branch-defs": lambda n, _: branch_defs(n),
    "branch-defs-wide": lambda n, _: branch_defs_wide(n),
    "switch": lambda n, _: switch(n),
    "switch-merge": lambda n, _: switch_merge(n),
    "stack-moves": lambda n, _: stack_moves(n),
    "chain": lambda n, _: chain(n),
    "chain-back": lambda n, _: chain(n, backward=True),
    "traps": lambda n, _: traps(n),
    "rungs": lambda n, _: rungs(n),
    "two-ends": lambda n, _: two_ends(n),
    "snca": lambda n, _: two_switches(n),
    "nest": lambda n, _: nest(n),
    "nest-10": lambda n, _: nest(n, w=10),
    "zero-locals": lambda n, _: nest(n, w=50, depth=3, begins_as_one=True),
    "zero-locals-20": lambda n, _: nest(n, w=20, depth=3, begins_as_one=True),
    "max-ssa": lambda n, _: max_ssa(n),
    "max-ssa-10": lambda n, _: max_ssa(n, w=10),
    "match-value": lambda n, _: match_value(n),
    "interpreter": lambda n, _: interpreter(n),
    "interpreter-4": lambda n, _: interpreter(n, w=4),
}

if __name__ == "__main__":
    if len(sys.argv) < 4:
        sys.exit(__doc__)
    shape, n, out = sys.argv[1], int(sys.argv[2]), sys.argv[3]
    seed = int(sys.argv[4]) if len(sys.argv) > 4 else 1
    SHAPES[shape](n, seed).write(out)
