#!/usr/bin/env python3
"""Makes, from a fixed seed, the jobs and sheets that tools/bench/run and tools/bench/growth measure:

    python3 tools/bench/make_jobs.py run FOLDER       what tools/bench/run needs
    python3 tools/bench/make_jobs.py growth FOLDER    what tools/bench/growth needs

    wide_KIND.job            20 inputs, 400 gates a side; 50 in the targets' fanout, or 300, led to by all or one target each
    rare_ONE_OR_TWO.job      the same with 50; the old netlist at vector 0 is the golden one, or is so but at rare inputs
    unseen_wide.job          the same with 50, and a support behind most gates of which many readings do not occur
    unseen_gated.job         such a job whose outputs are all 0 wherever the last input is, so that half the inputs are settled;
                             in unseen_mirror.job they are 0 wherever it is 1, so that the other half is
    unseen_decoded.job       the same as gated, with a support of which at most one net is 1; in unseen_hidden.job no gate alone
                             says of two nets that they cannot have some values, and in unseen_cases.job two cases show it, not
                             one of them alone
    unseen_held.job          as unseen_cases.job, but the outputs are 0 unless the last five inputs are 1: all inputs but one of 32
                             are settled
    revised_DESIGN.job       20 inputs, 300 to 400 gates a side: the golden netlist is the old one but for two to four gates, whose
                             nets are cut open, and the targets lead to some of the outputs
    CIRCUIT_SIZE.job         typical cuts: old and golden netlist are two designs of one circuit, some old nets cut open
    tiny_CIRCUIT_SIZE.job    the same of 2 to 6 inputs and up to 20 gates a side
    pair_GATES_four.job      gates of four operands, and in pair_GATES_chain.job each of them as three gates of two operands
    ties_SOUND_WEIGHTS.job   20 inputs, 390 and 320 gates: all supports are sound, or a quarter of them, with irregular tables; all
                             weights are 0 (zero), or no two sets cost the same (distinct)
    decide_3_WEIGHTS.job     decide_patch_3.job with these weights; it needs all priced nets
    fit_GATES.job            patches of growing size, each with a .sheet and the .netlist that fit must give
    late.job, late.sheet     a sheet whose first difference is at one of the last inputs
    ties_all_zero.sheet      the empty support with the vector that fixes every input
    SERIES_SIZE.job          growth: jobs that differ in one size

The full-size jobs decide_*.job and four_*.job beside this file are made by tools/reference/bench_jobs.py.
"""

import os
import random
import sys
from dataclasses import replace

BENCH = os.path.dirname(os.path.abspath(__file__))
sys.path.insert(0, os.path.join(os.path.dirname(BENCH), "reference"))

import cut_jobs as cj
import job as jobs
import random_jobs as rj
import sheet as sheets
import simulate
from choose import cheapest, choice_of, patch_gates, shared_vectors
from fit import fit
from job import Candidate, Gate, Job, Netlist
from judge import fixed_inputs, judgement_of
from sheet import Patch

SEED = 2012
ZERO, ONE, BUF, NOT, AND, NAND, OR, NOR, XOR, XNOR = range(10)
MIXED = [XOR, XOR, XOR, XNOR, XNOR, XNOR, AND, NAND, OR, NOR]


# ---- circuits


class Circuit:
    """Gates over n inputs; each method appends gates and gives the net of the last."""

    def __init__(self, n):
        self.n = n
        self.gates = []

    def gate(self, kind, *operands):
        self.gates.append(Gate.of(kind, *operands))
        return self.n + len(self.gates) - 1

    def both(self, a, b):
        return self.gate(AND, a, b)

    def either(self, a, b):
        return self.gate(OR, a, b)

    def differ(self, a, b):
        return self.gate(XOR, a, b)

    def both_hidden(self, a, b):
        """The and of two nets and, by the sum of that and of the nets' sum, the or."""
        both = self.both(a, b)
        return both, self.differ(self.differ(a, b), both)

    def both_by_cases(self, a, b, c):
        """The and of two nets and the or, once where a third is 1 and once where it is 0."""
        some = self.either(a, b)
        return self.both(a, b), self.either(self.both(some, c), self.both(some, self.gate(NOT, c)))

    def differ_by_nands(self, a, b):
        both = self.gate(NAND, a, b)
        return self.gate(NAND, self.gate(NAND, a, both), self.gate(NAND, b, both))

    def all_of(self, nets):
        """The and of nets, by gates of up to four operands; of one net, itself."""
        while len(nets) > 1:
            nets = nets[4:] + [self.gate(AND, *nets[:4])]
        return nets[0]

    def half_add(self, a, b):
        return self.differ(a, b), self.both(a, b)

    def full_add(self, a, b, c):
        some, first = self.half_add(a, b)
        total, second = self.half_add(some, c)
        return total, self.either(first, second)


def tree(nets, join):
    """Joins neighbours until one is left."""
    while len(nets) > 1:
        nets = [join(*nets[i : i + 2]) if i + 1 < len(nets) else nets[i] for i in range(0, len(nets), 2)]
    return nets[0]


def chain(nets, join):
    last = nets[0]
    for net in nets[1:]:
        last = join(last, net)
    return last


def add_up(c, size):
    """The sum of the first two numbers and its carry: one full adder after the other."""
    sums, carry = [], None
    for i in range(size):
        total, carry = c.half_add(i, size + i) if i == 0 else c.full_add(i, size + i, carry)
        sums.append(total)
    return sums, carry


def ripple_adder(size):
    c = Circuit(2 * size)
    sums, carry = add_up(c, size)
    return c, sums + [carry]


def prefix_adder(size):
    """Carries by doubling (Kogge and Stone)."""
    c = Circuit(2 * size)
    propagate = [c.differ(i, size + i) for i in range(size)]
    run, carry = list(propagate), [c.both(i, size + i) for i in range(size)]
    step = 1
    while step < size:
        pairs = range(step, size)
        carried = [c.either(carry[i], c.both(run[i], carry[i - step])) for i in pairs]
        runs = [c.both(run[i], run[i - step]) for i in pairs]
        run, carry = run[:step] + runs, carry[:step] + carried
        step *= 2
    sums = [c.differ(propagate[i], carry[i - 1]) for i in range(1, size)]
    return c, propagate[:1] + sums + carry[-1:]


def compare_up(c, size):
    """Whether the first number is less than the second, equal, greater: from the lowest bit up."""
    less, equal = None, None
    for i in range(size):
        same = c.gate(XNOR, i, size + i)
        below = c.both(c.gate(NOT, i), size + i)
        less = below if i == 0 else c.either(below, c.both(same, less))
        equal = same if i == 0 else c.both(same, equal)
    return [less, equal, c.gate(NOR, less, equal)]


def ripple_comparator(size):
    c = Circuit(2 * size)
    return c, compare_up(c, size)


def tree_comparator(size):
    """Halves are compared, then joined."""
    c = Circuit(2 * size)

    def join(low, high):
        less = c.gate(NAND, c.gate(NOT, high[0]), c.gate(NAND, high[1], low[0]))
        return less, c.both(high[1], low[1])

    bits = [(c.gate(NOR, i, c.gate(NOT, size + i)), c.gate(XNOR, i, size + i)) for i in range(size)]
    less, equal = tree(bits, join)
    return c, [less, equal, c.both(c.gate(NOT, less), c.gate(NOT, equal))]


def chain_parity(size):
    c = Circuit(size)
    return c, [chain(range(size), c.differ)]


def tree_parity(size):
    """Balanced, of nands."""
    c = Circuit(size)
    return c, [tree(list(range(size)), c.differ_by_nands)]


def products(c, size, columns):
    """The bit products of two numbers, by column."""
    found = [[] for _ in range(columns)]
    for i in range(size):
        for k in range(size):
            if i + k < columns:
                found[i + k].append(c.both(k, size + i))
    return found


def array_multiplier(size, columns):
    """The lowest columns of a product: row after row is added, its carries along the row."""
    c = Circuit(2 * size)
    rows = [[(k + i, c.both(k, size + i)) for k in range(size) if k + i < columns] for i in range(size)]
    total = dict(rows[0])
    for row in rows[1:]:
        carry = None
        for column, net in row:
            terms = [x for x in (net, total.get(column), carry) if x is not None]
            carry = None
            if len(terms) > 1:
                net, carry = (c.half_add if len(terms) == 2 else c.full_add)(*terms)
            total[column] = net
        if carry is not None and row[-1][0] + 1 < columns:
            total[row[-1][0] + 1] = carry
    return c, [total[column] for column in sorted(total)]


def column_multiplier(size, columns):
    """The same, each column added up before the next."""
    c = Circuit(2 * size)
    found = products(c, size, columns) + [[]]
    outputs = []
    for column in range(columns):
        terms = found[column]
        while len(terms) > 1:
            count = 3 if len(terms) > 2 else 2
            total, carry = (c.full_add if count == 3 else c.half_add)(*terms[:count])
            terms = terms[count:] + [total]
            found[column + 1].append(carry)
        outputs += terms
    return c, outputs


def alu(size):
    """Two numbers, and two bits that choose what the result is: their sum, and, or, or xor. Besides it the larger number, less,
    equal, greater, the sum's carry, whether the result is 0, and the parities of the result and of the numbers. The adder shares no
    gates with the other functions, so that 2 * size gates do what earlier ones do."""
    c = Circuit(2 * size + 2)
    bits = [(i, size + i) for i in range(size)]
    chooses = [(c.gate(NOT, net), net) for net in (2 * size, 2 * size + 1)]
    chosen = [c.both(low, high) for high in chooses[1] for low in chooses[0]]
    sums, carry = add_up(c, size)
    functions = [sums] + [[c.gate(kind, *pair) for pair in bits] for kind in (AND, OR, XOR)]
    result = [c.gate(OR, *[c.both(*pair) for pair in zip(chosen, values)]) for values in zip(*functions)]
    compared = compare_up(c, size)
    not_less = c.gate(NOT, compared[0])
    larger = [c.either(c.both(compared[0], b), c.both(not_less, a)) for a, b in bits]
    zero = c.gate(NOT, tree(result, c.either))
    parities = [tree(nets, c.differ_by_nands) for nets in (result, list(range(size)), list(range(size, 2 * size)))]
    return c, result + larger + compared + [carry, zero] + parities


# ---- typical cuts


def reached(circuit, places):
    """The nets of the cut gates and all that they lead to."""
    found = {circuit.n + k for k in places}
    for k, gate in enumerate(circuit.gates):
        if any(net in found for net in gate.operands()):
            found.add(circuit.n + k)
    return found


def frontier(circuit, places):
    """The nets that no cut gate leads to and that the cut gates are made of."""
    behind, found, to_visit = reached(circuit, places), set(), [circuit.n + k for k in places]
    while to_visit:
        for net in circuit.gates[to_visit.pop() - circuit.n].operands():
            if net in behind:
                to_visit.append(net)
            else:
                found.add(net)
    return found


def cut_job(rng, old, golden, m, priced):
    """Cuts m gates of the old circuit open, so that some table over the priced nets does; weights are random."""
    circuit, outputs = old
    n, seen = circuit.n, cj.cone(circuit.n, circuit.gates, outputs)
    gates = [net - n for net in seen if net >= n]
    inner = [k for k in gates if n + k not in outputs]
    while True:
        places = sorted(rng.sample(inner if len(inner) >= m else gates, m))
        named = frontier(circuit, places)
        if len(named) <= priced:
            break
    return cut_at(rng, old, golden, places, named, seen, priced, lambda count: [rng.randrange(1, 100) for _ in range(count)])


def cut_at(rng, old, golden, places, named, seen, priced, weights):
    """Cuts these gates of the old circuit open. The named nets are priced and, up to so many, others of those seen."""
    circuit, outputs = old
    n, m, behind = circuit.n, len(places), reached(circuit, places)
    others = [net for net in seen if net not in behind and net not in named]
    named = sorted(named | set(rng.sample(others, min(len(others), priced - len(named)))))

    def moved(net):
        return net if net < n else net + m - sum(place < net - n for place in places)

    candidates = [Candidate(moved(net), weight) for net, weight in zip(named, weights(len(named)))]
    left = cj.cut(n, m, circuit.gates, outputs, places, lambda: False)
    return Job(n, m, left, Netlist(golden[0].gates, golden[1]), candidates)


def cuts(rng):
    for size, m in ((4, 1), (6, 2), (8, 3), (10, 4)):
        yield f"adder_{size}", cut_job(rng, ripple_adder(size), prefix_adder(size), m, 10)
    for size, m in ((4, 1), (7, 2), (10, 3)):
        yield f"comparator_{size}", cut_job(rng, ripple_comparator(size), tree_comparator(size), m, 8)
    for size, m in ((8, 1), (14, 2), (20, 2)):
        yield f"parity_{size}", cut_job(rng, chain_parity(size), tree_parity(size), m, 6)
    for size, columns, m in ((4, 8, 2), (6, 12, 3), (8, 9, 4), (8, 16, 4), (10, 10, 4)):
        job = cut_job(rng, array_multiplier(size, columns), column_multiplier(size, columns), m, 10)
        yield f"multiplier_{size}_{columns}", job


def tiny(rng):
    yield "tiny_a", rj.job_a()
    for size in (1, 2):
        yield f"tiny_adder_{size}", cut_job(rng, ripple_adder(size), prefix_adder(size), 1, 4)
    for size in (1, 2, 3):
        yield f"tiny_comparator_{size}", cut_job(rng, ripple_comparator(size), tree_comparator(size), min(size, 2), 4)
    for size, m in ((3, 1), (6, 2)):
        yield f"tiny_parity_{size}", cut_job(rng, chain_parity(size), tree_parity(size), m, 5)
    yield "tiny_multiplier_2_4", cut_job(rng, array_multiplier(2, 4), column_multiplier(2, 4), 1, 4)


# ---- revisions


def revised_job(rng, old, changes):
    """The golden circuit is the old one with other gates at some places, whose nets are cut open: of ten priced nets some tell what
    these gates are made of, the others are among what leads to the same outputs. No two weights are the same."""
    circuit, outputs = old
    places = sorted(changes)
    golden = Circuit(circuit.n)
    golden.gates = [changes.get(k, gate) for k, gate in enumerate(circuit.gates)]
    behind = reached(circuit, places)
    altered = [net for net in outputs if net in behind]
    assert 0 < len(altered) < len(outputs)
    named, seen = frontier(golden, places), cj.cone(circuit.n, circuit.gates, altered)
    job = cut_at(rng, old, (golden, outputs), places, named, seen, 10, lambda count: rng.sample(range(1, 100), count))
    choice = choice_of(job)
    assert choice.name == "patch" and choice.patch.support and len(judgement_of(job).vectors) > 1
    return job


def revised_multiplier(rng, size, columns, row):
    """The bit products of one row are inverted, as for a signed number."""
    circuit, outputs = array_multiplier(size, columns)
    products_of_row = [k for k, gate in enumerate(circuit.gates) if gate.operands()[1] == size + row]
    changes = {k: Gate.of(NAND, *circuit.gates[k].operands()) for k in products_of_row}
    return revised_job(rng, (circuit, outputs), changes)


def revised_alu(rng, size):
    """The numbers are compared as signed ones, and the sum's carry becomes its overflow."""
    circuit, outputs = alu(size)

    def operands(net):
        return circuit.gates[net - circuit.n].operands()

    less, carry = outputs[2 * size], outputs[2 * size + 3]
    highest = operands(less)[0]
    first, second = operands(carry)
    last_carry = operands(second)[1]
    changes = {highest: Gate.of(NOR, *operands(highest)), carry: Gate.of(XOR, first, second, last_carry)}
    return revised_job(rng, (circuit, outputs), {net - circuit.n: gate for net, gate in changes.items()})


def revised_random(rng, n, gates, fanout, outputs):
    """A random netlist in which three gates become other kinds. None of them leads to another; each leads to some outputs, all
    together to half of them at most."""
    made = walked_job(rng, n, 4, gates, fanout, 10, outputs).golden
    circuit = Circuit(n)
    circuit.gates = made.gates

    def led_to(places, nets):
        return len(reached(circuit, places) & set(nets))

    while True:
        places = rng.sample(range(gates), 3)
        apart = all(led_to([k], [n + place for place in places]) == 1 for k in places)
        shown = all(led_to([k], made.outputs) > 1 for k in places)
        if apart and shown and led_to(places, made.outputs) <= outputs // 2:
            break
    kinds = {k: rng.choice([kind for kind in range(AND, XNOR + 1) if kind != made.gates[k].kind]) for k in places}
    changes = {k: Gate.of(kind, *made.gates[k].operands()) for k, kind in kinds.items()}
    return revised_job(rng, (circuit, made.outputs), changes)


def revisions(rng):
    yield "revised_multiplier", revised_multiplier(rng, 10, 12, 8)
    yield "revised_alu", revised_alu(rng, 9)
    yield "revised_random", revised_random(rng, 20, 400, 50, 32)


# ---- jobs of a given size


def walked_job(rng, n, m, gates, fanout, priced, outputs=32, split=False, operands=2, related=False, hidden=False, cases=False, rare=None):
    """A job that has a patch, so that every input is looked at, and where nearly every gate leads to an output. The golden
    netlist has a front over the inputs, of which some nets are priced, a function of priced nets for each target, and a back
    of that many gates: each is led to by all targets, or by one of them, in equal parts. Gates have so many operands. Related
    priced nets are the and and the or of two late nets of the front, for each target the sum of such a pair; hidden, the or is
    the sum of the and and of the two nets' sum; by cases, it is told apart by a third net. Where rare is a number, so many of the functions are 1 where the priced nets
    are all 1, and the others 0."""
    c = Circuit(n)
    unread = list(range(n))
    pairs_gates = priced // 2 * (3 if hidden else 6 if cases else 2) if related else 0
    while len(c.gates) < gates - (fanout + m if m else 0) - pairs_gates - RARE_GATES * (rare or 0):
        nets = range(n + len(c.gates))
        unread.append(c.gate(rng.choice(MIXED), unread.pop(0), *[rng.choice(nets) for _ in range(operands - 1)]))
    if related:
        late = range(n + len(c.gates) - 40, n + len(c.gates))
        pairs = [rng.sample(late, 3 if cases else 2) for _ in range(priced // 2)]
        if cases:
            named = [net for nets in pairs for net in c.both_by_cases(*nets)]
        else:
            named = [net for pair in pairs for net in (c.both_hidden(*pair) if hidden else (c.both(*pair), c.either(*pair)))]
        unread += named
    front = range(n + len(c.gates))
    if related:
        roots = [c.differ(*named[2 * t : 2 * t + 2]) for t in range(m)]
    else:
        named = sorted(rng.sample(front, priced))
        roots = [root(rng, c, named, operands) if rare is None else rare_root(c, named, t < rare) for t in range(m)]
    starts = [[net] for net in roots] if split else [roots]
    ends = []
    for nets in starts if roots else []:
        ends += back(rng, c, list(nets), fanout // len(starts), list(front), unread, outputs // len(starts), operands)
    last = (ends + unread[::-1] + list(front)[::-1])[:outputs]
    old = cj.cut(n, m, c.gates, last, [net - n for net in roots], lambda: True)
    candidates = [Candidate(net if net < n else net + m, rng.randrange(1, 1000)) for net in named]
    return Job(n, m, old, Netlist(c.gates, last), candidates)


def root(rng, c, named, operands):
    """A gate over so many of the priced nets, or fewer where there are fewer."""
    if not named:
        return c.gate(rng.choice([ZERO, ONE]))
    if len(named) == 1:
        return c.gate(rng.choice([BUF, NOT]), named[0])
    return c.gate(rng.choice(MIXED), *rng.sample(named, min(operands, len(named))))


RARE_GATES = 2  # besides the one that a function has at least


def rare_root(c, named, some):
    """The and of ten priced nets, by three gates; or 0."""
    if not some:
        return c.gate(ZERO)
    return c.gate(AND, c.gate(AND, *named[:4]), c.gate(AND, *named[4:8]), *named[8:])


def back(rng, c, unread, count, front, unread_front, width, operands):
    """Appends that many gates behind these nets, which are joined first; the nets that none of them reads."""
    while len(unread) > 1:
        joined = [unread.pop(0) for _ in range(min(operands, len(unread)))]
        unread.append(c.gate(rng.choice(MIXED), *joined))
        count -= 1
    nets = list(unread)
    for _ in range(count):
        first = unread.pop(0) if len(unread) == width else rng.choice(nets[-40:])
        others = [unread_front.pop(0) if unread_front else rng.choice(front + nets[-40:]) for _ in range(operands - 1)]
        nets.append(c.gate(rng.choice(MIXED), first, *others))
        unread.append(nets[-1])
    return unread


def wide(rng):
    yield "wide_few", walked_job(rng, 20, 4, 400, 50, 10)
    yield "wide_all", walked_job(rng, 20, 4, 400, 300, 10)
    yield "wide_split", walked_job(rng, 20, 4, 400, 300, 10, split=True)


def unseen(rng):
    job = walked_job(rng, 20, 4, 400, 50, 10, related=True)
    assert choice_of(job).patch.notes.count(0) > 100
    yield "unseen_wide", job


def gated(job, net, kind):
    """The job with each output joined with an input by a gate of this kind."""

    def behind(side):
        first = job.net_count(side)
        gates = side.gates + [Gate.of(kind, o, net) for o in side.outputs]
        return Netlist(gates, list(range(first, first + len(side.outputs))))

    return replace(job, old=behind(job.old), golden=behind(job.golden))


def held(job, nets):
    """The job with each output joined by and with these five inputs."""

    def behind(side):
        first = job.net_count(side)
        gates = side.gates + [Gate.of(AND, *nets[:4])] + [Gate.of(AND, o, first, nets[4]) for o in side.outputs]
        return Netlist(gates, list(range(first + 1, first + 1 + len(side.outputs))))

    return replace(job, old=behind(job.old), golden=behind(job.golden))


def settled(rng):
    """All outputs are 0 where the last input is 0, then where it is 1."""
    made = walked_job(rng, 20, 4, 368, 50, 10, related=True)
    for name, kind in (("gated", AND), ("mirror", NOR)):
        job = gated(made, 19, kind)
        assert choice_of(job).patch.notes.count(0) > 0
        yield f"unseen_{name}", job


def decoded_job(rng, n, m, gates, fanout, outputs=32):
    """A job that has a patch. The golden netlist has a front over the inputs, the priced nets, each of which is 1 at one setting
    of three late nets of the front, for each target the or of two or four of them, and a back of that many gates, each led to by
    one target."""
    c = Circuit(n)
    unread = list(range(n))
    settings = range(8)
    while len(c.gates) < gates - fanout - 3 - len(settings) - m:
        unread.append(c.gate(rng.choice(MIXED), unread.pop(0), rng.choice(range(n + len(c.gates)))))
    late = rng.sample(range(n + len(c.gates) - 40, n + len(c.gates)), 3)
    sides = [(c.gate(NOT, net), net) for net in late]
    named = [c.gate(AND, *[sides[k][s >> k & 1] for k in range(3)]) for s in settings]
    front = list(range(n + len(c.gates)))
    roots = [c.gate(OR, *[named[s] for s in settings if (3 * s + 1) >> t & 1]) for t in range(m)]
    last = []
    for net in roots:
        last += back(rng, c, [net], fanout // m, front, unread, outputs // m, 2)
    last = (last + unread[::-1] + front[::-1])[:outputs]
    old = cj.cut(n, m, c.gates, last, [net - n for net in roots], lambda: True)
    candidates = [Candidate(net + m, rng.randrange(1, 1000)) for net in named]
    return Job(n, m, old, Netlist(c.gates, last), candidates)


def dependent(rng):
    """As settled() does, with readings that do not occur for other reasons."""
    decoded = decoded_job(rng, 20, 4, 368, 48)
    hidden = walked_job(rng, 20, 4, 368, 50, 10, related=True, hidden=True)
    cases = walked_job(rng, 20, 4, 366, 50, 10, related=True, cases=True)
    for name, made in (("decoded", decoded), ("hidden", hidden), ("cases", cases)):
        job = gated(made, 19, AND)
        assert choice_of(job).patch.notes.count(0) > 0
        yield f"unseen_{name}", job
    job = held(cases, range(15, 20))
    assert choice_of(job).patch.notes.count(0) > 0
    yield "unseen_held", job


def rare(rng):
    """One listed vector, then two."""
    for k, name in ((0, "one"), (1, "two")):
        while True:
            job = walked_job(rng, 20, 4, 400, 50, 10, rare=k)
            if judgement_of(job).name == "fixable" and len(judgement_of(job).vectors) == k + 1:
                break
        yield f"rare_{name}", job


def chained(job, side):
    """A side's gates, each of more than two operands as a chain of gates of two, any inversion on the last; and the new
    number of each net."""
    first, found = job.first_gate_net(side), []
    new_net = list(range(first))
    for gate in side.gates:
        operands = [new_net[net] for net in gate.operands()]
        while len(operands) > 2:
            found.append(Gate.of(gate.kind - gate.kind % 2, *operands[:2]))
            operands[:2] = [first + len(found) - 1]
        found.append(Gate.of(gate.kind, *operands))
        new_net.append(first + len(found) - 1)
    return Netlist(found, [new_net[net] for net in side.outputs]), new_net


def pairs(rng):
    """Jobs of gates of four operands whose patch has a support, and the same functions with each of these gates as a chain of
    three."""
    for n, m, gates, fanout in ((8, 1, 20, 8), (14, 2, 60, 30), (20, 4, 130, 50)):
        while True:
            job = walked_job(rng, n, m, gates, fanout, 6, operands=4)
            if choice_of(job).patch.support:
                break
        old, new_net = chained(job, job.old)
        golden, _ = chained(job, job.golden)
        candidates = [Candidate(new_net[c.net], c.weight) for c in job.candidates]
        yield f"pair_{gates:03}_four", job
        yield f"pair_{gates:03}_chain", Job(n, m, old, golden, candidates)


def scrambled(rng, c, nets, steps):
    """Nets whose values are a scrambled permutation of these nets' values: in each step one is summed with a function of two others."""
    nets = list(nets)
    for step in range(steps):
        i = step % len(nets)
        a, b = rng.sample(nets[:i] + nets[i + 1 :], 2)
        nets[i] = c.differ(nets[i], c.gate(rng.choice([AND, NAND, OR, NOR]), a, b))
    return nets


def tied_job(rng, needed):
    """Ten priced nets, of which every reading occurs. Old output v is the golden one but where the vector is v and net bad[v] is 1.
    The last vector harms nowhere, so that every set is a sound support; or, where two nets are needed, the last two harm where these
    differ, and where they do not. Vector v harms at one of 2, 2, 4, 4, 8, 8, .. readings, here and there, so that the smallest
    harmless one is irregular for supports of every size. Weights are 0."""
    n, m = 20, 4
    c = Circuit(n)
    named = [c.differ(i, n - 1 - i) for i in range(10)]
    mixed = scrambled(rng, c, named, 75)
    unread = list(range(n)) + mixed
    while len(c.gates) < 320:
        unread.append(c.gate(rng.choice(MIXED), unread.pop(0), rng.choice(range(n + len(c.gates)))))
    outputs = unread

    new_net = [net if net < n else net + m for net in range(n + len(c.gates))]
    old = Circuit(n + m)
    old.gates = [cj.renumbered(gate, new_net) for gate in c.gates]
    bad = [old.all_of([new_net[net] for net in rng.sample(mixed, 1 + v // 2)]) for v in range(14 if needed else 15)]
    if needed:
        bad.append(old.differ(*[new_net[net] for net in named[:2]]))
        bad.append(old.gate(NOT, bad[-1]))
    targets = [(old.gate(NOT, net), net) for net in range(n, n + m)]
    harmed = [new_net[net] for net in outputs]
    for v, net in enumerate(bad):
        vector = old.gate(AND, *[both[v >> t & 1] for t, both in enumerate(targets)])
        harmed[v] = old.differ(harmed[v], old.both(vector, net))
    return Job(n, m, Netlist(old.gates, harmed), Netlist(c.gates, outputs), [Candidate(new_net[net], 0) for net in named])


def with_weights(job, weights):
    return replace(job, candidates=[Candidate(c.net, weight) for c, weight in zip(job.candidates, weights)])


def ties(rng):
    """Each with distinct weights, then with all weights 0."""
    for name, needed, least in (("all", False, 1024), ("quarter", True, 256)):
        job = tied_job(rng, needed)
        sound = cheapest(job, shared_vectors(job, fixed_inputs(job)))
        gates = sum(patch_gates(job, table) for _, table in sound)
        assert len(sound) >= least and gates > 200 * len(sound), (len(sound), gates)
        yield f"ties_{name}_distinct", with_weights(job, rng.sample(POWERS, 10))
        yield f"ties_{name}_zero", job
    job = stored("decide_patch_3.job")
    yield "decide_3_distinct", with_weights(job, rng.sample(POWERS, 10))
    yield "decide_3_zero", with_weights(job, [0] * 10)


POWERS = [2**i for i in range(10)]


def growth(rng):
    """Series of jobs in each of which one size grows."""
    for n in range(4, 21, 2):
        yield f"inputs_{n:03}", walked_job(rng, n, 2, 200, 60, 4)
    for m in range(5):
        yield f"targets_{m:03}", walked_job(rng, 16, m, 200, 60, 4)
    for gates in (80, 120, 170, 240, 400):
        yield f"gates_{gates:03}", walked_job(rng, 16, 2, gates, 60, 4)
    for fanout in (25, 50, 100, 200, 380):
        yield f"fanout_{fanout:03}", walked_job(rng, 16, 4, 400, fanout, 4)
    for priced in range(0, 11, 2):
        yield f"candidates_{priced:03}", walked_job(rng, 12, 2, 200, 60, priced)


# ---- sheets


def parity(x):
    return bin(x).count("1") % 2


def fits():
    """A table whose column for target t is the parity of the lowest heights[t] support nets: 5 * 2^(height - 1) - 4 gates, or
    1 for height 0. The old netlist has one gate."""
    for heights in ((0, 0, 0, 0), (3, 0, 0, 0), (4, 3, 2, 0), (5, 4, 2, 0), (6, 5, 2, 0), (7, 0, 0, 0), (7, 5, 2, 0)):
        n, k = 10, max(heights)
        columns = [[parity(r % 2**height) for r in range(2**k)] for height in heights]
        table = [sum(column[r] << t for t, column in enumerate(columns)) for r in range(2**k)]
        old = Netlist([Gate.of(BUF, 0)], [n, n + 1, n + 2, n + 3, n + 4])
        job = Job(n, 4, old, Netlist([], [0, 0, 0, 0, 0]), [Candidate(i, 1) for i in range(n)])
        sheet = sheets.encode(Patch(list(range(k)), table, k))
        number, netlist = fit(jobs.encode(job), sheet)
        assert number == 0
        yield f"fit_{jobs.number(netlist[6:8]) // jobs.GATE_BYTES:03}", job, sheet, netlist


def late_sheet(job):
    """A sheet over all priced nets that does for every fixable input."""
    fixed = fixed_inputs(job)
    fixable = 0
    for inputs in fixed:
        fixable |= inputs
    values = simulate.net_values(job, job.old, simulate.vector_values(job, 0))
    table = [0] * 2 ** len(job.candidates)
    for reading, inputs in simulate.readings([values[c.net] for c in job.candidates], fixable):
        table[reading] = next(vector for vector, these in enumerate(fixed) if inputs & ~these == 0)
    return sheets.encode(Patch([c.net for c in job.candidates], table, sum(c.weight for c in job.candidates)))


# ---- files


def stored(name):
    """A job beside this file."""
    with open(os.path.join(BENCH, name), "rb") as file:
        return jobs.read(file.read())[1]


def put(folder, name, data):
    with open(os.path.join(folder, name), "wb") as file:
        file.write(data)


def put_jobs(folder, made):
    for name, job in made:
        number, data = jobs.write(job)
        assert number == 0, (name, number)
        put(folder, f"{name}.job", data)


def put_sheets(folder):
    for name, job, sheet, netlist in fits():
        put_jobs(folder, [(name, job)])
        put(folder, f"{name}.sheet", sheet)
        put(folder, f"{name}.netlist", netlist)
    job = stored("decide_unfixable_4.job")
    put_jobs(folder, [("late", job)])
    put(folder, "late.sheet", late_sheet(job))
    put(folder, "ties_all_zero.sheet", sheets.encode(Patch([], [15], 0)))


def main():
    what, folder = sys.argv[1:]
    rng = random.Random(SEED)
    os.makedirs(folder, exist_ok=True)
    if what == "growth":
        put_jobs(folder, growth(rng))
        return
    for made in (wide, cuts, tiny, pairs, unseen, rare, ties, settled, revisions, dependent):
        put_jobs(folder, made(rng))
    put_sheets(folder)


if __name__ == "__main__":
    main()
