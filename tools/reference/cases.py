#!/usr/bin/env python3
"""Prints the twelve numbered cases of document 01 as this reference answers them, and stops where one is not what the document
says; case 2 goes by card 2 of document 02, the notes by card 1, case 12, which is choose's, by card 7.

    python3 tools/reference/cases.py

Then it tries the reference where a second way is at hand: the values of gates beside the simulator's table and, on sets of
inputs, beside gates.py; on small random jobs the verdict beside every table over every set of priced nets, the fitted
netlist beside the driven old one, and compare and the notes beside one input at a time; the notes so on a few jobs of 16 inputs
with held ranges (held.py); card 5's rule (ties.py); and card 8's sentences on judge's list and on the order of the outputs
(vector_lists.py). Where something differs, it stops.
"""

import copy
import os
import random
from itertools import combinations, product

import compare
import cut_jobs as cj
import gates
import held
import job as jobs
import random_jobs as rj
import random_sheets as rs
import sheet as sheets
import simulate
import ties
import vector_lists
from by_input import fixing_at, left_at, values_at
from choose import choose
from fit import fit, patched
from job import Candidate, Gate, Job, Netlist
from judge import judge
from rectify import rectify, said


def changed(**parts):
    """Job A with some parts exchanged."""
    job = copy.deepcopy(rj.job_a())
    for name, value in parts.items():
        setattr(job, name, value)
    return job


def case_8(first, second):
    prices = [Candidate(0, first), Candidate(2, second)]
    return Job(1, 1, Netlist([Gate.of(3, 0)], [1]), Netlist([], [0]), prices)


def fitted_a():
    data = jobs.encode(rj.job_a())
    number, fields = fit(data, choose(data).sheet)
    count, output = len(fields[8:-5]) // jobs.GATE_BYTES, jobs.number(fields[-2:])
    return f"fit {number}: {count} gates, output net {output}"


def jobs_of_cases():
    """The jobs of cases 1 to 11, without 2, which is case 1's job."""
    a = rj.job_a()
    same = Netlist([Gate.of(4, 0, 1)], [2])
    return [
        a,
        changed(candidates=a.candidates[:1]),
        changed(candidates=[]),
        changed(old=Netlist([], [0])),
        changed(golden=Netlist([Gate.of(0)], [2])),
        changed(targets=0, old=same, golden=same),
        case_8(5, 1),
        case_8(0, 0),
        changed(inputs=21),
        changed(targets=5),
    ]


WANTED = [
    "patch cost 7, support 0 1, table 0 0 0 1, vectors 0 1, notes 1 1 1 1",
    "fit 0: 2 gates, output net 3",
    "blind 1, vectors 0 1",
    "blind 0, vectors 0 1",
    "unfixable 1, vectors 0",
    "patch cost 0, support, table 0, vectors 0, notes 1",
    "patch cost 0, support, table 0, vectors 0, notes 1",
    "patch cost 1, support 2, table 1 0, vectors 0 1, notes 1 1",
    "patch cost 0, support 0, table 0 1, vectors 0 1, notes 1 1",
    "refused 3",
    "refused 3",
    "refused 1",
]


def cases():
    first, *others = [said(rectify(jobs.encode(job))) for job in jobs_of_cases()]
    return [first, fitted_a()] + others + [f"refused {choose(jobs.encode(rj.job_a()), 2083).number}"]


def check_sheets():
    """The sizes that card 7 names."""
    data = jobs.encode(rj.job_a())
    assert len(judge(data, 26).sheet) == 5 and len(choose(data, 2084).sheet) == 28
    assert judge(data, 25).number == 1 and choose(data, 2083).number == 1


# ---- second ways


TABLE = os.path.join(os.path.dirname(os.path.abspath(__file__)), "../../crates/run_gates/stdin")


def check_table():
    """The simulator's rows, over 0, 1 and x; each kind and count over all of these has a row."""
    with open(TABLE, encoding="ascii") as file:
        rows = [line.split() for line in file if not line.startswith("#")]
    for name, *words, _, value in rows:
        operands = [word if word == "x" else int(word) for word in words]
        assert str(gates.partial_value(gates.NAMES.index(name), operands)) == value, (name, words)
    every = sum(3**count for kind in range(2, 10) for count in gates.operand_counts(kind))
    assert len({tuple(row[:-1]) for row in rows}) == every
    return len(rows)


def check_gates():
    """Four inputs give every four operands."""
    job = Job(4, 0, None, None, [])
    values = simulate.input_values(job)
    for kind in range(10):
        for count in gates.operand_counts(kind):
            found = simulate.gate_values(simulate.every_input(job), kind, values[:count])
            for x in range(16):
                operands = [x >> i & 1 for i in range(count)]
                assert found >> x & 1 == gates.value(kind, operands), (kind, operands)


def carrying(job):
    """Each set of priced nets that carries a table: every table is tried. Its cost, gates, number and nets."""
    for size in range(len(job.candidates) + 1):
        for chosen in combinations(job.candidates, size):
            nets, cost = [c.net for c in chosen], sum(c.weight for c in chosen)
            for table in product(range(2**job.targets), repeat=2**size):
                if compare.smallest_difference(job, sheets.Patch(nets, table, cost)) is None:
                    yield (cost, ties.added_gates(job, nets), size, nets)
                    break


def check_verdict(job):
    best = min(carrying(job), default=None)
    verdict = rectify(jobs.encode(job))
    left = left_at(job, [c.net for c in job.candidates])
    unfixable = [x for x in range(2**job.inputs) if not fixing_at(job, x)]
    assert verdict.judged.value == min(unfixable, default=None), job
    assert (verdict.judged.name == "unfixable") == bool(unfixable), job
    if verdict.chosen.name == "patch":
        patch = verdict.patch
        assert verdict.name == "patch" and (best[0], best[3]) == (patch.cost, patch.support), job
        assert compare.compare(jobs.encode(job), verdict.chosen.sheet) == (0, None), job
        check_notes(job, patch)
    else:
        assert best is None, job
        assert verdict.chosen.value == min(reading for reading, vectors in left.items() if not vectors), job
    return verdict.name


def check_notes(job, patch):
    left = left_at(job, patch.support)
    expected = [min(2, len(left.get(reading, []))) for reading in range(2 ** len(patch.support))]
    assert patch.notes == expected, job


def check_fit(job, patch):
    netlist = patched(job, patch)
    alone = Job(job.inputs, 0, netlist, netlist, [])
    assert jobs.number_of_parts(alone) in (0, 3), job
    assert simulate.output_values(alone, netlist, []) == compare.driven_outputs(job, patch), job


def check_compare(job, patch):
    """Input by input, the old netlist first at vector 0 for the reading, then at the entry there."""
    differing = []
    for x in range(2**job.inputs):
        at_zero = values_at(job, job.old, x, 0)
        entry = patch.table[sum(at_zero[net] << i for i, net in enumerate(patch.support))]
        old, golden = values_at(job, job.old, x, entry), values_at(job, job.golden, x, 0)
        if [old[net] for net in job.old.outputs] != [golden[net] for net in job.golden.outputs]:
            differing.append(x)
    assert compare.smallest_difference(job, patch) == min(differing, default=None), job


def check_random(rng, count):
    found = {"patch": 0, "unfixable": 0, "blind": 0}
    while min(found.values()) < count:
        m = rng.randrange(3)
        job = rj.good_job(rng, rng.randrange(5), m, rng.randrange(9), rng.randrange(5), rng.randrange(1, 3), rng.randrange(4 - m))
        found[check_verdict(job)] += 1
        patch = rs.good_patch(rng, job)
        check_fit(job, patch)
        check_compare(job, patch)
    return found


HELD = ["held: unseen readings, more than 64", "held: readings that held inputs alone give", "held: both"]


def check_held(rng, names):
    """The notes of a job of each of these classes, with few gates: one input at a time takes some two seconds a job."""
    left = set(names)
    while left:
        job = cj.held_job(rng, 16, 1)
        patch = choose(jobs.encode(job)).patch
        name = held.held_class(job, patch)
        if name in left and len(job.old.gates) <= 15:
            left.remove(name)
            check_notes(job, patch)
    return names


def main():
    assert len(cases()) == len(WANTED)
    for k, (found, wanted) in enumerate(zip(cases(), WANTED), 1):
        print(f"{k:2} {found}")
        assert found == wanted, f"the document says {wanted}"
    print("tried against the simulator:", check_table(), "rows")
    check_gates()
    check_sheets()
    print("tried against every table over every set:", check_random(random.Random(1364), 100))
    print("notes where ranges are held, one input at a time:", check_held(random.Random(1364), HELD))
    print("decided at each step, by hand:", ties.check_hand())
    print("tried against every set, one input at a time:", ties.check_random(random.Random(1364), 240))
    print("lists without waste, outputs in other orders:", vector_lists.check_random(random.Random(1364), 350))


if __name__ == "__main__":
    main()
