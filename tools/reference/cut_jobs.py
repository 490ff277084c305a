"""Random jobs for judge and choose. A circuit is made and some of its gates are cut open: the circuit is the golden netlist, and
the old one has a target in place of each cut gate. Every function takes the random source, as in random_jobs.py.

    cut_job(rng, n, m, telling)      a job of up to some thirty gates, of any verdict
    crossed_job(rng)                 a job where sets {a, d} and {b, c} of priced nets a < b < c < d both do
    related_job(rng, n, m)           a patch over nets of which only some readings occur; at some of them several vectors do
    held_job(rng, n, m)              the same with outputs that are 0 on whole ranges of 2^15 inputs, where the nets have other readings
    tied_job(rng, n, m)              the same with nets that tell it in other words, many at the same cost, in small trees and large
    masked_job(rng, n, m)            small trees over some nets, larger ones over as many others or fewer, at the same cost
    last_job(n, m, occurs)           a patch over two nets that are both 1 at the last input alone, where all vectors do, or nowhere
    held_last_job(n, m, occurs)      the same with outputs that are 0 wherever the last of the inputs is 1
    full_job(rng, verdict, ..)       400 gates a side, 32 outputs, 4 targets, 10 priced nets: 8,188 bytes
"""

import gates
import job as jobs
import random_jobs as rj
from job import Candidate, Gate, Job, Netlist

WIDE = range(4, 10)  # the kinds of two operands and more
BUF, NOT, AND, NAND, OR, NOR, XOR, XNOR = range(2, 10)
RANGE_INPUTS = 15  # the inputs below are any in a range of 2^15 inputs, the others the same


def some_gate(rng, nets, kinds):
    """A gate of one of the kinds that reads some of the nets, one or more of them perhaps twice."""
    kind = rng.choice(kinds)
    return Gate.of(kind, *[rng.choice(nets) for _ in range(rj.some_count(rng, kind))])


def renumbered(gate, new_net):
    """The gate with each used operand replaced by its new net."""
    return Gate.of(gate.kind, *[new_net[net] for net in gate.operands()])


# ---- small jobs


def circuit(rng, n, gate_count):
    """Gates that often read one of the last few nets."""
    found = []
    for k in range(gate_count):
        nets = list(range(n + k))
        near = nets[-6:] if rng.random() < 0.6 else nets
        found.append(some_gate(rng, near, list(WIDE) * 3 + list(range(4))) if nets else Gate.of(rng.randrange(2)))
    return found


def cone(n, golden, nets):
    """These nets and those that lead to them."""
    found, to_visit = set(), list(nets)
    while to_visit:
        net = to_visit.pop()
        if net not in found:
            found.add(net)
            to_visit += golden[net - n].operands() if net >= n else []
    return sorted(found)


def cut(n, m, golden, outputs, places, stays):
    """The old netlist of a circuit: target t stands in place of the gate places[t], which is dropped, or stays with
    nothing behind it."""
    new_net = {net: net for net in range(n)}
    old = []
    for k, gate in enumerate(golden):
        if k not in places or stays():
            old.append(renumbered(gate, new_net))
            new_net[n + k] = n + m + len(old) - 1
        if k in places:
            new_net[n + k] = n + places.index(k)
    return Netlist(old, [new_net[net] for net in outputs])


def change_gate(rng, n, golden, k):
    """Another kind with as many operands, or other operands."""
    gate = golden[k]
    kind = rng.choice([kind for kind in range(10) if gate.count in gates.operand_counts(kind)])
    golden[k] = Gate.of(kind, *[rng.randrange(n + k) if rng.random() < 0.3 else net for net in gate.operands()])


def change_output(rng, n, golden, outputs):
    """An output that differs where some of the inputs are all 1."""
    nets = rng.sample(range(n), rng.randrange(1, n + 1))
    last = nets[0]
    for net in nets[1:]:
        golden.append(Gate.of(AND, last, net))
        last = n + len(golden) - 1
    place = rng.randrange(len(outputs))
    golden.append(Gate.of(XOR, outputs[place], last))
    outputs[place] = n + len(golden) - 1


def some_weights(rng, count):
    """Often with equal sums."""
    return rng.choice(
        [
            lambda: [0] * count,
            lambda: [rng.choice([1, 7, 65535])] * count,
            lambda: [rng.randrange(3) for _ in range(count)],
            lambda: [rng.randrange(1, 5) for _ in range(count)],
            lambda: [rng.choice([0, 65535]) for _ in range(count)],
            lambda: [rng.choice([0, 1, 65534, 65535]) for _ in range(count)],
            lambda: [rng.randrange(65536) for _ in range(count)],
        ]
    )()


def priced(rng, job, wanted, counts):
    """The wanted nets and others up to one of these counts, ten at most, as far as they may be priced."""
    allowed = rj.allowed_nets(job)
    wanted = [net for net in dict.fromkeys(wanted) if net in allowed]
    others = [net for net in allowed if net not in wanted]
    rng.shuffle(others)
    count = rng.choice(counts)
    nets = sorted((wanted + others[: max(0, count - len(wanted))])[:10])
    return [Candidate(net, weight) for net, weight in zip(nets, some_weights(rng, len(nets)))]


def with_copies(rng, job):
    """Old gates that repeat or invert inputs, so that several sets of priced nets tell the same."""
    for _ in range(rng.randrange(5)):
        if job.inputs and len(job.old.gates) < jobs.MAX_GATES:
            job.old.gates.append(some_gate(rng, range(job.inputs), [2, 3, XOR]))


def cut_job(rng, n, m, telling=True):
    """Where telling, the priced nets often tell enough for a patch."""
    gate_count = rng.choice([0, 1, 2, 4, 6, 9, 12, 16, 20, 30])
    if n + gate_count == 0:
        gate_count = 1
    golden = circuit(rng, n, gate_count)
    nets = n + gate_count
    outputs = [max(rng.randrange(nets), rng.randrange(nets)) for _ in range(rng.randrange(1, 5))]
    seen = [net - n for net in cone(n, golden, outputs) if net >= n]
    places = rng.sample(seen, min(m, len(seen)))
    old = cut(n, m, golden, outputs, places, lambda: rng.random() < 0.5)
    change = rng.choice(["none", "cut gates", "cut gates", "any gate", "output"])
    if change == "cut gates":
        for k in places:
            change_gate(rng, n, golden, k)
    if change == "any gate" and golden:
        change_gate(rng, n, golden, rng.randrange(len(golden)))
    if change == "output" and n:
        change_output(rng, n, golden, outputs)
    job = Job(n, m, old, Netlist(golden, outputs), [])
    with_copies(rng, job)
    if telling:
        read = [net for net in cone(n, golden, [n + k for k in places]) if net < n]
        wanted = rng.choice([[], rng.sample(range(n), min(n, 10)), rng.sample(read, len(read))])
        job.candidates = priced(rng, job, wanted, range(11))
    else:
        job.candidates = priced(rng, job, [], [0, 1, 2, 3, 3, 4, 5, 7, 10])
    return job


def crossed_job(rng):
    """The golden output is the sum of x and y. Priced are a = x, b = x + z, c = y + z, d = y, ascending, each behind a
    gate; weights are equal or nearly so. A net that a parity has twice is of no effect."""
    x, y, z = rng.sample(range(3), 3)
    old = [
        Gate.of(2, x),
        Gate.of(XOR, *rng.choice([[x, z], [x, y, y, z]])),
        Gate.of(XOR, *rng.choice([[y, z], [z, z, z, y]])),
        Gate.of(rng.choice([2, 3]), y),
    ]
    golden = Gate.of(rng.choice([XOR, XNOR]), *rng.choice([[x, y], [x, z, z, y], [x, y, y, y]]))
    weight = rng.choice([1, 5, 65535])
    weights = [weight, weight, weight, weight]
    if rng.random() < 0.3:
        weights[rng.randrange(4)] -= 1
    candidates = [Candidate(4 + i, weights[i]) for i in range(4)]
    return Job(3, 1, Netlist(old, [3]), Netlist([golden], [3]), candidates)


def minterm(rng, golden, n, inputs, value):
    """Appends gates; the net that is 1 where these inputs, lowest first, have this value."""
    nets = []
    for i, net in enumerate(inputs):
        if not value >> i & 1:
            golden.append(Gate.of(3, net))
            net = n + len(golden) - 1
        nets.append(net)
    return chain(rng, golden, n, nets, [AND], rng.choice([2, 3, 4])) if len(nets) > 1 else nets[0]


def related_nets(rng, golden, n, most):
    """Appends gates over a few of the inputs, mostly the highest: two or more nets, up to so many, of which not all readings
    need occur."""
    inputs = sorted(rng.sample(range(n), min(n, rng.randrange(2, 6)))) if rng.random() < 0.3 else list(range(n))[-rng.randrange(2, 6) :]
    style = rng.choice(["exclusive", "nested", "products", "any"])
    count = rng.choice([2, 2, 3, 3, 4, 5, 7, most])
    if style == "exclusive":
        values = rng.sample(range(2 ** len(inputs)), min(count, 2 ** len(inputs)))
        return [minterm(rng, golden, n, inputs, value) for value in values]
    found = []
    for k in range(count):
        if style == "nested":
            nets, kinds = inputs[: k + 2], [AND]
        else:
            nets, kinds = rng.sample(inputs, rng.randrange(2, len(inputs) + 1)), [AND] if style == "products" else list(WIDE)
        found.append(chain(rng, golden, n, nets, kinds, 4))
    return found


def related_circuit(rng, n, m, some_nets=related_nets):
    """Two inputs or more. Each cut net is a function of related nets; an output is the sum of a cut net and an input, of two
    cut nets, or only one of these where some related nets are not all 1: then any vector does where they are. The job without its
    priced nets; in the golden netlist the related nets, the cut nets, and how many nets stand before these."""
    golden = []
    nets = some_nets(rng, golden, n, 10)
    front = n + len(golden)
    roots = []
    for t in range(m):
        used = nets if t == 0 else rng.sample(nets, rng.randrange(2, len(nets) + 1))
        roots.append(chain(rng, golden, n, used, [rng.choice([OR, XOR, XOR])] if t == 0 else [AND, OR, XOR, XNOR], 4))

    def put(kind, *operands):
        golden.append(Gate.of(kind, *operands))
        return n + len(golden) - 1

    gate = chain(rng, golden, n, rng.sample(nets, rng.randrange(2, min(4, len(nets)) + 1)), [AND], 4)
    open_net = put(3, gate)
    gated = rng.choice(["all", "some", "none"])
    outputs = []
    for root in roots:
        net = put(rng.choice([XOR, XNOR]), root, rng.randrange(n))
        if rng.random() < 0.2:
            net = put(rng.choice([AND, OR, XOR]), root, rng.choice(roots))
        outputs.append(put(AND, net, open_net) if gated == "all" or gated == "some" and rng.random() < 0.5 else net)
    outputs = outputs or [put(XOR, 0, nets[0])]
    old = cut(n, m, golden, outputs, [root - n for root in roots], lambda: True)
    return Job(n, m, old, Netlist(golden, outputs), []), nets, roots, front


def in_old(job, nets):
    """Golden nets in an old netlist where every cut gate stays, ascending."""
    return sorted({net if net < job.inputs else net + job.targets for net in nets})


def related_job(rng, n, m, some_nets=related_nets):
    """The related nets are priced, others seldom and dear, so that they are the support."""
    job, nets, _, front = related_circuit(rng, n, m, some_nets)
    named = set(in_old(job, nets))
    others = [net for net in range(front) if net not in nets and rng.random() < 0.1]
    dear = set(in_old(job, others))
    chosen = sorted((sorted(named) + sorted(dear - named))[:10])
    job.candidates = [Candidate(net, rng.randrange(1, 9) if net in named else rng.randrange(100, 65536)) for net in chosen]
    return job


def tied_job(rng, n, m):
    """Priced are some of the related nets, of what the cut nets must be, and of further old gates: each repeats one of these,
    inverts it, or is the sum of one and another net, which tells it together with that net alone. Weights are all 0, all equal, or
    small."""
    job, nets, roots, _ = related_circuit(rng, n, m)
    words = in_old(job, nets) + in_old(job, roots)
    wanted = set(rng.sample(words, rng.randrange(len(words) + 1)))
    for _ in range(rng.randrange(7)):
        net, mask = rng.choice(words), rng.choice(list(range(n)) + words)
        kind = rng.choice([2, 3, XOR, XOR, XNOR])
        job.old.gates.append(Gate.of(kind, net) if kind < 4 else Gate.of(kind, net, mask))
        wanted |= {job.net_count(job.old) - 1} | ({mask} if kind >= 4 else set())
    chosen = sorted(rng.sample(sorted(wanted), min(len(wanted), 10)))
    weight = rng.choice([1, 7, 65535])
    weights = rng.choice([[0], [0], [weight], [0, weight], [1, 2, 3], [1, 1, 2]])
    job.candidates = [Candidate(net, rng.choice(weights)) for net in chosen]
    return job


def masked_job(rng, n, m):
    """Six inputs or more, one to three targets. Each cut net joins the same few nets in their order by and and or: a tree with about
    a gate for each. Priced are these nets and, so that the price is the same, one input and its sum with each cut net, which are
    mostly fewer: a tree of six gates for each. Often some nets are there twice."""
    mask, *nets = rng.sample(range(n), rng.randrange(m + 2, 7))
    golden = []
    for i, net in enumerate(nets):
        if rng.random() < 0.3:
            golden.append(Gate.of(rng.choice(WIDE), net, rng.randrange(n)))
            nets[i] = n + len(golden) - 1
    roots = [chain(rng, golden, n, sorted(nets), [AND, OR]) for _ in range(m)]
    outputs = []
    for root in roots:
        golden.append(Gate.of(rng.choice([XOR, XNOR]), root, rng.randrange(n)))
        outputs.append(n + len(golden) - 1)
    old = cut(n, m, golden, outputs, [root - n for root in roots], lambda: True)
    job = Job(n, m, old, Netlist(golden, outputs), [])
    weight = rng.choice([0, 0, 1, 13, 1000])
    weights = {net: weight * (m + 1) for net in in_old(job, nets)} | {mask: weight * len(nets)}
    for root in in_old(job, roots):
        old.gates.append(Gate.of(rng.choice([XOR, XNOR]), mask, root))
        weights[job.net_count(old) - 1] = weight * len(nets)
    while len(weights) < 10 and rng.random() < 0.5:
        net = rng.choice(list(weights))
        old.gates.append(Gate.of(rng.choice([2, 3]), net))
        weights[job.net_count(old) - 1] = weights[net]
    job.candidates = [Candidate(net, weights[net]) for net in sorted(weights)]
    return job


def put_gate(golden, n, kind, *operands):
    """Appends a gate; its net."""
    golden.append(Gate.of(kind, *operands))
    return n + len(golden) - 1


def all_one(golden, n, nets):
    """Appends gates; the net that is 1 where all of these are."""
    while len(nets) > 1:
        nets = [put_gate(golden, n, AND, *nets[:4])] + nets[4:]
    return nets[0]


def either_job(n, m, golden, nets):
    """Each cut net is the or of two nets, which are priced; the outputs show it where they are not both 1."""
    open_net = put_gate(golden, n, NAND, *nets)
    roots = [put_gate(golden, n, OR, *nets) for _ in range(m)]
    outputs = [put_gate(golden, n, AND, root, open_net) for root in roots]
    old = cut(n, m, golden, outputs, [root - n for root in roots], lambda: True)
    job = Job(n, m, old, Netlist(golden, outputs), [])
    job.candidates = [Candidate(net, 5) for net in in_old(job, nets)]
    return job


def last_job(n, m, occurs):
    """Two inputs or more, one target or more. One net is 1 where all even inputs are, the other where all odd ones are and,
    if reading 3 is not to occur, input 0 is not. Each cut net is their or; the outputs show it where they are not both 1."""
    golden = []
    even, odd = list(range(0, n, 2)), list(range(1, n, 2))
    nets = [all_one(golden, n, even), all_one(golden, n, odd if occurs else odd + [put_gate(golden, n, NOT, 0)])]
    return either_job(n, m, golden, nets)


# ---- jobs whose outputs are held on ranges of inputs

STYLES = ["exclusive", "products", "any", "pairs", "hidden pairs", "sum"]


def decoded_nets(rng, golden, n, inputs, count):
    """Appends gates: up to so many nets of which at most one is 1, each at one setting of these inputs."""
    sides = [(put_gate(golden, n, NOT, net), net) for net in inputs]
    settings = rng.sample(range(2 ** len(inputs)), min(count, 2 ** len(inputs)))
    return [chain(rng, golden, n, [side[s >> i & 1] for i, side in enumerate(sides)], [AND], 4) for s in settings]


def paired_nets(rng, golden, n, inputs, count, hidden):
    """Appends gates: the and and the or of so many pairs of inputs and of gates over these. Hidden, the or is the sum of the and and of
    the pair's sum, so that no gate alone says that the first at 1 and the second at 0 exclude each other."""
    leaves = inputs + [put_gate(golden, n, rng.choice(WIDE), *rng.sample(inputs, 2)) for _ in range(rng.randrange(3))]
    found = []
    for _ in range(count):
        pair = rng.sample(leaves, 2)
        both = put_gate(golden, n, AND, *pair)
        either = put_gate(golden, n, XOR, put_gate(golden, n, XOR, *pair), both) if hidden else put_gate(golden, n, OR, *pair)
        found += [both, either]
    return found


def summed_nets(rng, golden, n, inputs):
    """Appends gates: these inputs but one, and a net that is their sum where that one is 1, else 0. The readings that no input gives
    differ from each other at two nets or more."""
    opening, *nets = rng.sample(inputs, len(inputs))
    total = chain(rng, golden, n, nets, [XOR, XNOR], 4)
    return nets + [put_gate(golden, n, AND, total, opening)]


def styled_nets(rng, golden, n, style, count):
    """Appends gates over low and high inputs, four or five but for a sum: about so many nets in one of the styles."""
    size = count if style == "sum" else rng.randrange(4, 6)
    high = rng.randrange(min(2, n - RANGE_INPUTS) + 1)
    inputs = rng.sample(range(RANGE_INPUTS), size - high) + rng.sample(range(RANGE_INPUTS, n), high)
    if style == "sum":
        return summed_nets(rng, golden, n, inputs)
    if style == "exclusive":
        return decoded_nets(rng, golden, n, inputs, count)
    if style in ("pairs", "hidden pairs"):
        return paired_nets(rng, golden, n, inputs, count // 2, style == "hidden pairs")
    found = []
    for _ in range(count):
        kind = rng.choice([AND, AND, NOR, NOT] if style == "products" else range(BUF, XNOR + 1))
        found.append(put_gate(golden, n, kind, *rng.sample(inputs, rj.some_count(rng, kind, 3))))
    return found


def turned_nets(rng, golden, n, nets, holding, ones):
    """Appends gates: some of these nets are joined with an input that holds, or with that and a low one. Where the outputs are not
    held, each is as before or inverted."""
    share = rng.choice([0, 0.3, 0.6])
    found = []
    for net in nets:
        if rng.random() < share:
            other = rng.choice(holding)
            if rng.random() < 0.5:
                other = put_gate(golden, n, OR if ones else AND, other, rng.randrange(RANGE_INPUTS))
            net = put_gate(golden, n, rng.choice([XOR, XNOR] + ([AND, NAND] if ones else [OR, NOR])), net, other)
        found.append(net)
    return found


def hold(job, kind, inputs):
    """Each output of both sides is 0 now where a gate of this kind over these inputs is 0, else as before."""
    for side in (job.old, job.golden):
        first = job.net_count(side)
        side.gates += [Gate.of(kind, *inputs)] + [Gate.of(AND, net, first) for net in side.outputs]
        side.outputs = list(range(first + 1, job.net_count(side)))


def held_job(rng, n, m):
    """16 inputs or more. The outputs of both sides are 0 unless one to four of the inputs from number 15 on are all 1, or all 0; of 20
    inputs four. So they are 0 on whole ranges of 2^15 inputs, where the related nets may have readings that they have nowhere else."""
    high = range(RANGE_INPUTS, n)
    holding = rng.sample(high, 4 if n == jobs.MAX_INPUTS else rng.randrange(1, min(4, len(high)) + 1))
    ones = rng.random() < 0.5

    def some_nets(rng, golden, n, most):
        nets = styled_nets(rng, golden, n, rng.choice(STYLES), rng.randrange(2, most + 1))
        return turned_nets(rng, golden, n, nets, holding, ones)

    job = related_job(rng, n, m, some_nets)
    hold(job, (BUF if ones else NOT) if len(holding) == 1 else AND if ones else NOR, holding)
    return job


def held_last_job(n, m, occurs):
    """16 inputs or more, one target or more. One net is 1 where all even inputs below 15 are, the other where all odd ones are and
    input 0 is not or, if reading 3 is to occur, the inputs from 15 on are all 1. The outputs are 0 where the last input is 1."""
    golden = []
    below = put_gate(golden, n, NOT, 0)
    high = list(range(RANGE_INPUTS, n)) + ([] if occurs else [below])
    either = put_gate(golden, n, OR, below, all_one(golden, n, high))
    even, odd = list(range(0, RANGE_INPUTS, 2)), list(range(1, RANGE_INPUTS, 2))
    job = either_job(n, m, golden, [all_one(golden, n, even), all_one(golden, n, odd + [either])])
    hold(job, NOT, [n - 1])
    return job


# ---- jobs that fill every place


def one_of(rng, counts):
    return rng.choice(counts) if len(counts) > 1 else counts[0]


def sampled_gate(rng, nets, kinds, counts):
    """A gate of one of the kinds and counts that reads so many different nets."""
    kind = rng.choice(kinds)
    return Gate.of(kind, *rng.sample(nets, one_of(rng, counts)))


def chain(rng, found, n, nets, kinds, most=2):
    """Appends gates of up to so many operands that join all of the nets, at least two; the net of the last gate."""
    last, left = nets[0], list(nets[1:])
    while left:
        found.append(Gate.of(rng.choice(kinds), last, *left[: most - 1]))
        left = left[most - 1 :]
        last = n + len(found) - 1
    return last


def grow(rng, found, n, count, fresh, kinds, counts):
    """Appends gates that each read the oldest net not read yet, from the fresh ones on, and the next such nets as long as
    there are more than 32 of them, then some of the last forty nets. So all of them lead to the last 32 gates."""
    unread, nets = list(fresh), list(fresh)
    for _ in range(count):
        operands = [unread.pop(0)]
        for _ in range(one_of(rng, counts) - 1):
            others = [net for net in nets[-40:] if net not in operands]
            operands.append(unread.pop(0) if len(unread) > 31 else rng.choice(others))
        found.append(Gate.of(rng.choice(kinds), *operands))
        unread.append(n + len(found) - 1)
        nets.append(n + len(found) - 1)


def full_job(rng, verdict, n=20, used=10, xor_share=0.85, late=17, counts=(2,), related=False):
    """A job of 8,188 bytes that is to have this verdict, of gates with so many operands. The golden netlist has

    - a front over the inputs, of which ten nets are priced (for n 10, the inputs; related ones are the and and the or of
      five pairs of nets, whose readings mostly do not occur),
    - a function of up to `used` priced nets for each cut net; for blind, the first one reads a further net,
    - a back over all of these; its last nets are the outputs,
    - for unfixable, an output that differs where the last `late` inputs are all 1.

    Nearly every gate leads to an output, and nearly every output depends on every input and every cut net, mostly by xor.
    The old netlist has the targets in place of the functions' last gates, which stay, as other kinds, with nothing behind."""
    m, output_count, gate_count = jobs.MAX_TARGETS, jobs.MAX_OUTPUTS, jobs.MAX_GATES
    xors = round(100 * xor_share)
    kinds = [rng.choice([XOR, XNOR]) for _ in range(xors)] + [rng.choice([4, 5, 6, 7]) for _ in range(100 - xors)]

    golden = []
    chain(rng, golden, n, range(n), [XOR], counts[-1])
    while len(golden) < 70:
        golden.append(sampled_gate(rng, range(n + len(golden)), kinds, counts))
    pairs = [rng.sample(range(n + len(golden)), 2) for _ in range(5)] if related else []
    golden += [Gate.of(kind, *pair) for pair in pairs for kind in (AND, OR)]
    front = list(range(n + len(golden)))
    named = front[-10:] if related else front[:n] if n == 10 else sorted(rng.sample(front, 10))
    hidden = rng.choice([net for net in front if net not in named])

    roots = []
    for t in range(m):
        nets = rng.sample(named, used if t == 0 else rng.randrange(2, used + 1))
        if t == 0 and verdict == "blind":
            nets.append(hidden if rng.random() < 0.5 else chain(rng, golden, n, named + [hidden], [AND], counts[-1]))
        roots.append(chain(rng, golden, n, nets, [XOR] if t == 0 else [AND, OR, XOR, XNOR], counts[-1]))
    read = {net for gate in golden[: len(front) - n] for net in gate.operands()}
    fresh = [net for net in range(n + len(golden)) if net not in read]

    extra = late if verdict == "unfixable" else 0
    grow(rng, golden, n, gate_count - extra - len(golden), fresh, kinds, counts)
    outputs = list(range(n + len(golden) - output_count, n + len(golden)))
    old = cut(n, m, golden, outputs, [root - n for root in roots], lambda: True)
    for root in roots:
        old.gates[root - n].kind = rng.choice(kinds)
    if extra:
        everywhere_one = chain(rng, golden, n, range(n - late, n), [AND])
        golden.append(Gate.of(XOR, outputs[-1], everywhere_one))
        outputs[-1] = n + len(golden) - 1
    while len(old.gates) < gate_count:
        old.gates.append(sampled_gate(rng, range(n), kinds, counts))

    nets = [net if net < n else net + m for net in named]
    candidates = [Candidate(net, weight) for net, weight in zip(nets, some_weights(rng, 10))]
    return Job(n, m, old, Netlist(golden, outputs), candidates)
