"""Random jobs, good and damaged. Every function takes the random source, so that a seed gives the same jobs again.

    job_a()                     job A of document 01
    good_job(rng, ..)           a job that is accepted
    DAMAGES                     changes of a job's parts, by the number that each alone gives (moved_count: mostly)
    damaged(rng, job, names)    a copy of the job with these damages, in this order
    BYTE_DAMAGES                changes of a job's bytes: cuts, tags, lengths, order, bytes left over
"""

import copy

import gates
import job as jobs
from job import Candidate, Gate, Job, Netlist


def job_a():
    return Job(2, 1, Netlist([], [2]), Netlist([Gate.of(4, 0, 1)], [2]), [Candidate(0, 3), Candidate(1, 4)])


# ---- good jobs


def some_count(rng, kind, most=gates.PLACES):
    """How many operands a gate of this kind has: one of the counts that it may have, up to most."""
    counts = [count for count in gates.operand_counts(kind) if count <= most]
    return rng.choice(counts) if len(counts) > 1 else counts[0]


def good_gate(rng, nets, most=gates.PLACES):
    """A gate with up to so many operands that reads any of the nets below nets, some more than once."""
    kind = rng.choice(range(10) if nets else (0, 1))
    return Gate.of(kind, *[rng.randrange(nets) for _ in range(some_count(rng, kind, most))])


def good_netlist(rng, leaves, gate_count, output_count, most=gates.PLACES):
    found = []
    for k in range(gate_count):
        found.append(good_gate(rng, leaves + k, most))
    nets = leaves + gate_count
    return Netlist(found, [rng.randrange(nets) for _ in range(output_count)])


def good_weight(rng):
    return rng.choice([0, 1, 65535, rng.randrange(65536), rng.randrange(100)])


def allowed_nets(job):
    reached = jobs.reached_from_target(job)
    return [net for net in range(job.net_count(job.old)) if net not in job.target_nets() and net not in reached]


def good_job(rng, n=None, m=None, old_gates=None, golden_gates=None, outputs=None, priced=None, most=gates.PLACES):
    """A job of this shape; what is not given is small and random. Both sides have a net for their outputs."""
    n = rng.randrange(6) if n is None else n
    m = rng.randrange(5) if m is None else m
    old_gates = rng.randrange(9) if old_gates is None else old_gates
    golden_gates = rng.randrange(9) if golden_gates is None else golden_gates
    if n + m + old_gates == 0:
        old_gates = 1
    if n + golden_gates == 0:
        golden_gates = 1
    outputs = rng.randrange(1, 5) if outputs is None else outputs
    made = Job(
        n,
        m,
        good_netlist(rng, n + m, old_gates, outputs, most),
        good_netlist(rng, n, golden_gates, outputs, most),
        [],
    )
    allowed = allowed_nets(made)
    priced = rng.randrange(5) if priced is None else priced
    nets = sorted(rng.sample(allowed, min(priced, len(allowed))))
    made.candidates = [Candidate(net, good_weight(rng)) for net in nets]
    return made


def longest_job(rng, gate_count=400, most=gates.PLACES):
    """20 inputs, 4 targets, 400 gates a side, 32 outputs, 10 priced nets: 8,188 bytes."""
    return good_job(rng, 20, 4, gate_count, gate_count, 32, 10, most)


# ---- damage to a job's parts; a damage that finds nothing to damage leaves the job as it is


def a_side(rng, job):
    return rng.choice([job.old, job.golden])


def set_inputs(rng, job):
    job.inputs = rng.choice([21, 22, 255])


def set_targets(rng, job):
    job.targets = rng.choice([5, 6, 255])


def too_many_gates(rng, job):
    side = a_side(rng, job)
    side.gates = [Gate.of(0)] * rng.choice([401, 402, 500])


def too_many_outputs(rng, job):
    side = a_side(rng, job)
    side.outputs = [0] * rng.choice([33, 34, 50])


def no_outputs(rng, job):
    for side in rng.choice([[job.old], [job.golden], [job.old, job.golden]]):
        side.outputs = []


def too_many_candidates(rng, job):
    job.candidates = [Candidate(i, 1) for i in range(rng.choice([11, 12, 40]))]


def some_gate(rng, job, wanted):
    """A gate of a side whose operand count is wanted, and the net that it drives."""
    found = []
    for side in (job.old, job.golden):
        for k, gate in enumerate(side.gates):
            if gate.kind <= 9 and wanted(gate.count):
                found.append((gate, job.first_gate_net(side) + k))
    return rng.choice(found) if found else (None, 0)


def wrong_kind(rng, job):
    gate, _ = some_gate(rng, job, lambda count: True)
    if gate:
        gate.kind = rng.choice([10, 11, 127, 128, 255])


def past(rng, limit):
    """The limit itself, or beyond it."""
    return min(65535, rng.choice([limit, limit, limit + 1, limit + 256, 65535]))


COUNTS = [0, 1, 2, 3, 4, 5, 255]


def wrong_count(rng, job):
    """A count that the kind may not have; half of the time the places behind it hold 0."""
    gate, _ = some_gate(rng, job, lambda count: True)
    if gate:
        gate.count = rng.choice([count for count in COUNTS if count not in gates.operand_counts(gate.kind)])
        if rng.random() < 0.5:
            gate.places = gate.operands() + [0] * len(gate.fillers())


def moved_count(rng, job):
    """One operand more or fewer than there are, the places as they were."""
    gate, _ = some_gate(rng, job, lambda count: True)
    if gate:
        gate.count = rng.choice([count for count in (gate.count - 1, gate.count + 1) if 0 <= count < 256])


def wrong_operand(place):
    """A used place that holds the gate's own net, or one beyond."""

    def damage(rng, job):
        gate, net = some_gate(rng, job, lambda count: count > place)
        if gate:
            gate.places[place] = past(rng, net)

    return damage


def filled(place):
    """An unused place that does not hold 0."""

    def damage(rng, job):
        gate, _ = some_gate(rng, job, lambda count: count <= place)
        if gate:
            gate.places[place] = rng.choice([1, 256, 65535])

    return damage


def wrong_output(rng, job):
    side = a_side(rng, job)
    if side.outputs:
        side.outputs[rng.randrange(len(side.outputs))] = past(rng, job.net_count(side))


def unequal_outputs(rng, job):
    side = a_side(rng, job)
    if side.outputs and len(side.outputs) < 32:
        side.outputs.append(side.outputs[0])


def insert_candidate(rng, job, net):
    """In its place among the others, so that the nets still ascend."""
    job.candidates = [c for c in job.candidates if c.net != net][:9] + [Candidate(min(65535, net), good_weight(rng))]
    job.candidates.sort(key=lambda c: c.net)


def absent_candidate(rng, job):
    insert_candidate(rng, job, past(rng, job.net_count(job.old)))


def target_candidate(rng, job):
    if 0 < job.targets <= 4:
        insert_candidate(rng, job, rng.choice(job.target_nets()))


def reached_candidate(rng, job):
    reached = sorted(jobs.reached_from_target(job)) if job.targets <= 4 else []
    if reached:
        insert_candidate(rng, job, rng.choice(reached))


def equal_candidates(rng, job):
    if job.candidates:
        k = rng.randrange(len(job.candidates))
        job.candidates = (job.candidates[: k + 1] + job.candidates[k:])[:10]


def swapped_candidates(rng, job):
    if len(job.candidates) >= 2:
        k = rng.randrange(len(job.candidates) - 1)
        job.candidates[k], job.candidates[k + 1] = job.candidates[k + 1], job.candidates[k]


DAMAGES = {
    3: [set_inputs, set_targets, too_many_gates, too_many_outputs, no_outputs, too_many_candidates],
    4: [wrong_kind, wrong_count, moved_count]
    + [wrong_operand(place) for place in range(gates.PLACES)]
    + [filled(place) for place in range(gates.PLACES)],
    5: [wrong_output, unequal_outputs],
    6: [absent_candidate, target_candidate, reached_candidate, equal_candidates, swapped_candidates],
}
ALL_DAMAGES = [damage for damages in DAMAGES.values() for damage in damages]


def damaged(rng, job, damages):
    job = copy.deepcopy(job)
    for damage in damages:
        damage(rng, job)
    return job


# ---- damage to a job's or a sheet's bytes


def split(data):
    """The fields of whole bytes, each with its tag and length."""
    fields = []
    while data:
        end = 3 + jobs.number(data[1:3])
        fields.append(data[:end])
        data = data[end:]
    return fields


def cuts(rng, data):
    """Cut within a field's tag, length or body, or between fields."""
    return data[: rng.randrange(len(data))]


def left_over(rng, data):
    return data + bytes(rng.randrange(256) for _ in range(rng.choice([1, 1, 2, 3, 7])))


def wrong_tag(rng, data):
    fields = split(data)
    k = rng.randrange(len(fields))
    tag = rng.choice([0, fields[k][0] + 1, fields[k][0] - 1, 7, 16, 255])
    return b"".join(fields[:k]) + bytes([tag]) + fields[k][1:] + b"".join(fields[k + 1 :])


def wrong_length(rng, data):
    fields = split(data)
    k = rng.randrange(len(fields))
    length = jobs.number(fields[k][1:3])
    other = max(0, min(65535, rng.choice([length - 1, length + 1, length + 5, length + 10, length + 256, 0, 65535])))
    return b"".join(fields[:k]) + fields[k][:1] + other.to_bytes(2, "big") + fields[k][3:] + b"".join(fields[k + 1 :])


def swapped_fields(rng, data):
    fields = split(data)
    k = rng.randrange(len(fields) - 1)
    fields[k], fields[k + 1] = fields[k + 1], fields[k]
    return b"".join(fields)


def missing_field(rng, data):
    fields = split(data)
    del fields[rng.randrange(len(fields))]
    return b"".join(fields)


def repeated_field(rng, data):
    fields = split(data)
    k = rng.randrange(len(fields))
    return b"".join(fields[: k + 1] + fields[k:])


def resized_field(rng, data):
    """One body longer or shorter by a few bytes, its length with it: whole fields of a wrong size."""
    fields = split(data)
    k = rng.randrange(len(fields))
    body = fields[k][3:]
    if rng.random() < 0.5 and body:
        body = body[: rng.randrange(len(body))]
    else:
        body += bytes(rng.randrange(1, 6))
    fields[k] = jobs.field(fields[k][0], body)
    return b"".join(fields)


def half_gate(rng, data):
    """Five bytes, half a gate, more or fewer in a field of gates (in a sheet, in the field in its place, if there is one)."""
    fields = split(data)
    k = rng.choice([1, 3] if len(fields) > 3 else [1])
    body = fields[k][3:]
    fields[k] = jobs.field(fields[k][0], body[:-5] if body and rng.random() < 0.5 else body + bytes(5))
    return b"".join(fields)


def changed_byte(rng, data):
    at = rng.randrange(len(data))
    return data[:at] + bytes([rng.choice([0, 1, 255, (data[at] + 1) % 256, rng.randrange(256)])]) + data[at + 1 :]


BYTE_DAMAGES = [
    cuts,
    left_over,
    wrong_tag,
    wrong_length,
    swapped_fields,
    missing_field,
    repeated_field,
    resized_field,
    half_gate,
    changed_byte,
]
