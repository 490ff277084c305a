"""Jobs whose two output lists are put in another order, the same for both (card 8 of document 02), and calls of them from a fixed
seed, each job's call directly before that of the job in the other order: the two lines are equal. random_engine.py stores them.

    reordered(job, order)      the job whose output number i, on both sides, is output number order[i] of the job
    with_repeats(rng, job, k)  the job with k more outputs, which repeat nets of both sides, or of one alone
    made()                     the pairs' names, and the calls
"""

import random
from collections import Counter
from dataclasses import replace

import cut_jobs as cj
import job as jobs
from job import Gate, Netlist, encode
from rectify import rectify
from verdict_calls import judge_call

SEED = 1364
LONGEST = 400  # bytes of a job here
BUFFER_GATE = 2


def reordered(job, order):
    assert sorted(order) == list(range(len(job.old.outputs)))
    old, golden = (replace(side, outputs=[side.outputs[i] for i in order]) for side in (job.old, job.golden))
    return replace(job, old=old, golden=golden)


def behind_buffer(job, side, net):
    """The net of a new gate that repeats this one's value."""
    side.gates.append(Gate.of(BUFFER_GATE, net))
    return job.net_count(side) - 1


def with_repeats(rng, job, more):
    """Each new output is an earlier one again; where one side alone is to repeat its nets, the other has new gates in between.
    The verdict stays."""
    old, golden = (Netlist(list(side.gates), list(side.outputs)) for side in (job.old, job.golden))
    job = replace(job, old=old, golden=golden)
    other = rng.choice([None, old, golden])
    for _ in range(more):
        i = rng.randrange(len(old.outputs))
        for side in (old, golden):
            net = side.outputs[i]
            side.outputs.append(behind_buffer(job, side, net) if side is other else net)
    return job


def up_to_most(rng, job):
    """How many outputs can still be added."""
    return jobs.MAX_OUTPUTS - len(job.old.outputs)


def backwards(rng, count):
    return list(reversed(range(count)))


def mixed(rng, count):
    return rng.sample(range(count), count)


# the order; how many repeated outputs are put in before; pairs of each verdict
WAYS = {
    "reversed": (backwards, lambda rng, job: 0, 6),
    "shuffled": (mixed, lambda rng, job: 0, 6),
    "repeated nets, shuffled": (mixed, lambda rng, job: rng.randrange(1, 6), 6),
    "32 outputs, shuffled": (mixed, up_to_most, 2),
}


def told(job):
    """The verdict; none for a patch whose job needs only vector 0."""
    verdict = rectify(encode(job))
    return verdict.name if len(verdict.vectors) > 1 or verdict.name == "unfixable" else None


def pairs(rng):
    """(name, job, the job in another order), whose bytes differ; inputs 0 to 8 and targets 0 to 4 in turn."""
    left = {(verdict, way): count for verdict in ("patch", "blind", "unfixable") for way, (_, _, count) in WAYS.items()}
    turn = 0
    while any(left.values()):
        turn += 1
        way = rng.choice(list(WAYS))
        put_in_order, more, _ = WAYS[way]
        job = cj.cut_job(rng, turn % 9, turn // 9 % 5, rng.random() < 0.5)
        job = with_repeats(rng, job, more(rng, job))
        other = reordered(job, put_in_order(rng, len(job.old.outputs)))
        name = told(job)
        if left.get((name, way)) and encode(job) != encode(other) and len(encode(job)) <= LONGEST:
            left[name, way] -= 1
            yield f"{name}, {way}", job, other


def made():
    rng = random.Random(SEED)
    names, calls = [], []
    for name, job, other in pairs(rng):
        both = [judge_call(encode(job)), judge_call(encode(other))]
        assert both[0][1] == both[1][1], job
        names.append(name)
        calls += both
    return names, calls


def report(names, calls):
    print(f"{len(calls)} calls, {sum(len(data) for data, _ in calls)} bytes, {len(names)} pairs in two output orders")
    for name, count in sorted(Counter(names).items()):
        print(f"{count:6}  {name}")
