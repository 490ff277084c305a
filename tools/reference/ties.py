"""Card 5 of document 02: among sound supports of lowest cost the one whose trees have the fewest gates wins, then the one with the
fewest nets, then the one with the smaller net numbers. cases.py runs the checks; random_verdicts.py stores jobs of each class.

    ranks(job)               the sound supports of lowest cost by choose's rank, the chosen one first
    step_of(ranked)          the step that decides
    before_card(ranked)      the support that the rule took before the card
    losing(ranked)           in which ways others lose to the chosen one
    tie_class(job)           the step and what changed with the card, in words
    by_hand()                (job, cost, support): small jobs, decided at each step, whose answers were worked out by hand
    check_hand()             the same from choose
    check_choice(job)        a second way: one input at a time, every set of priced nets, the gates of the fitted netlist
    check_random(rng, k)     the same on random jobs; what they cover
"""

from collections import Counter
from itertools import combinations

import cut_jobs as cj
from by_input import left_at
from choose import cheapest, rank, shared_vectors
from fit import patched
from job import Candidate, Gate, Job, Netlist, encode
from judge import fixed_inputs
from rectify import choose
from sheet import Patch

BUF, NOT, AND, OR, XOR = 2, 3, 4, 6, 8


# ---- what decides


def ranks(job):
    return sorted(rank(job, *found) for found in cheapest(job, shared_vectors(job, fixed_inputs(job))))


def step_of(ranked):
    """The first at which the second best differs from the best."""
    if len(ranked) == 1:
        return "cost"
    return next(step for step, best, second in zip(("gates", "number of nets", "net numbers"), *ranked[:2]) if best != second)


def before_card(ranked):
    return min(ranked, key=lambda rank: rank[1:])


def losing(ranked):
    (gates, count, places), *others = ranked
    found = set()
    for other_gates, other_count, other_places in others:
        if other_gates > gates:
            found.add("more gates, " + ("fewer nets" if other_count < count else "as many nets" if other_count == count else "more nets"))
        elif other_count > count:
            found.add("as many gates, more nets")
        else:
            found.add("as many gates and nets")
            if other_places[0] == places[0]:
                found.add("as many gates and nets, the first net equal")
            if other_places[-1] < places[-1]:
                found.add("as many gates and nets, the last net smaller")
    return found


def tie_class(job):
    ranked = ranks(job)
    best, before = ranked[0], before_card(ranked)
    name = "decided by " + step_of(ranked)
    if best != before:
        name += ", more nets than before card 5" if best[1] > before[1] else ", other nets than before card 5"
    return name + ("" if any(c.weight for c in job.candidates) else ", all weights 0")


# ---- by hand


def one_target(n, gates, golden, weights):
    """One target, an output, that must be the last golden net. Old gate k drives net n + 1 + k."""
    candidates = [Candidate(net, weight) for net, weight in sorted(weights.items())]
    return Job(n, 1, Netlist(gates, [n]), Netlist(golden, [n + len(golden) - 1]), candidates)


def over_limit():
    """The parity of eight inputs: 636 gates. With the and and the or of the last two in place of these, whose reading 1, 0 does not
    occur: 4 + 316 + 158."""
    golden = [Gate.of(XOR, 0, 1)] + [Gate.of(XOR, i + 2, i + 8) for i in range(6)]
    return one_target(8, [Gate.of(AND, 6, 7), Gate.of(OR, 6, 7)], golden, {net: 1 for net in [*range(8), 9, 10]})


def by_hand():
    three = [Gate.of(AND, 0, 1, 2)]  # of four inputs; net 5 as an old gate, and net 6 its sum with input 3
    masked = three + [Gate.of(XOR, 3, 5)]
    two = [Gate.of(AND, 1, 2)]  # of three inputs; net 4, and net 5 its sum with input 0
    pair = [Gate.of(AND, 0, 1), Gate.of(OR, 0, 1)]  # of two inputs; nets 3 and 4
    same = Netlist([Gate.of(AND, 0, 1)], [2])
    # cost: six gates are cheaper than three
    yield one_target(4, masked, three, {0: 2, 1: 2, 2: 2, 3: 3, 6: 2}), 5, [3, 6]
    # gates: three (buf, and, and) win over six, over more nets
    yield one_target(4, masked, three, {0: 2, 1: 2, 2: 2, 3: 3, 6: 3}), 6, [0, 1, 2]
    # gates: two (buf, and) win over six, over as many nets, whose numbers are larger
    yield one_target(3, two + [Gate.of(XOR, 0, 4)], two, {0: 1, 1: 1, 2: 1, 5: 1}), 2, [1, 2]
    # gates: two (not, and) win over six, as the table is 0 at the reading that does not occur
    yield one_target(2, pair, [Gate.of(XOR, 0, 1)], {0: 5, 1: 5, 3: 5, 4: 5}), 10, [3, 4]
    # gates: both are more than 400
    yield over_limit(), 8, [0, 1, 2, 3, 4, 5, 9, 10]
    # number of nets: where all weights are 0, larger sets have the same trees
    yield one_target(4, masked, three, {0: 0, 1: 0, 2: 0, 3: 0, 6: 0}), 0, [0, 1, 2]
    yield one_target(2, pair, [Gate.of(XOR, 0, 1)], {0: 0, 1: 0, 3: 0, 4: 0}), 0, [3, 4]
    yield one_target(3, [], [Gate.of(BUF, 1)], {0: 0, 1: 0, 2: 0}), 0, [1]
    # number of nets: a constant is a gate for each target, whatever the support; without targets there is no gate
    yield Job(2, 3, Netlist([], [0]), Netlist([], [0]), [Candidate(0, 0), Candidate(1, 0)]), 0, []
    yield Job(2, 0, same, same, [Candidate(0, 0), Candidate(1, 0), Candidate(2, 0)]), 0, []
    yield Job(0, 0, Netlist([Gate.of(0)], [0]), Netlist([Gate.of(0)], [0]), [Candidate(0, 0)]), 0, []
    # net numbers: an inverter and a buffer of the input, which is dearer itself
    yield one_target(1, [Gate.of(NOT, 0), Gate.of(BUF, 0)], [Gate.of(BUF, 0)], {0: 1, 2: 0, 3: 0}), 0, [2]
    # net numbers: nets 0 and 6, and nets 4 and 5, tell the sum of inputs 0 and 1
    crossed = [Gate.of(XOR, 0, 2), Gate.of(XOR, 1, 2), Gate.of(BUF, 1)]
    yield one_target(3, crossed, [Gate.of(XOR, 0, 1)], {0: 9, 4: 9, 5: 9, 6: 9}), 18, [0, 6]


def check_hand():
    found = Counter()
    for job, cost, support in by_hand():
        patch = choose(encode(job)).patch
        assert (patch.cost, patch.support) == (cost, support), (job, patch)
        found[tie_class(job)] += 1
    return dict(sorted(found.items()))


# ---- a second way


def added_gates(job, nets):
    """By how many gates the old netlist grows when document 01's table for these nets is fitted; None where they are not sound."""
    left = left_at(job, nets)
    if not all(left.values()):
        return None
    table = [min(left.get(reading, [0])) for reading in range(2 ** len(nets))]
    return len(patched(job, Patch(nets, table, 0)).gates) - len(job.old.gates)


def check_choice(job):
    found = []
    for size in range(len(job.candidates) + 1):
        for chosen in combinations(job.candidates, size):
            nets = [c.net for c in chosen]
            gates = added_gates(job, nets)
            if gates is not None:
                found.append((sum(c.weight for c in chosen), gates, size, nets))
    patch = choose(encode(job)).patch
    assert bool(patch) == bool(found), job
    assert not found or [min(found)[0], min(found)[3]] == [patch.cost, patch.support], job
    return tie_class(job) if found else "blind"


def check_random(rng, count):
    found = Counter()
    for turn in range(count):
        make = (cj.cut_job, cj.tied_job, cj.masked_job)[turn % 3]
        job = make(rng, 6, 1 + turn // 3 % 3) if make is cj.masked_job else make(rng, 2 + turn % 4, turn // 3 % 5)
        if len(job.candidates) <= 6:
            found[check_choice(job)] += 1
    return dict(sorted(found.items()))
