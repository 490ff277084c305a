"""Calls of judge, choose and compare from a fixed seed, and the lines that this reference gives (verdict_calls.py has their form).
random_engine.py stores them."""

import random
from collections import Counter
from dataclasses import replace

import cases
import cut_jobs as cj
import held
import job as jobs
import random_jobs as rj
import random_sheets as rs
import sheet as sheets
import simulate
import ties
from choose import shared_vectors
from job import Candidate, Gate, Job, Netlist, encode
from judge import fixed_inputs
from rectify import choose, rectify
from verdict_calls import BUFFER, compare_call, judge_call, order_call

SEED = 1364
JUDGE, CHOOSE = 26, 2084  # the least buffers
QUOTAS = {
    "patch over 0 nets": 180,
    "patch over 1 net": 200,
    "patch over 2 nets": 200,
    "patch over 3 nets": 150,
    "patch over 4 or more nets": 150,
    "unfixable at 0": 120,
    "unfixable later": 100,
    "unfixable, blind at another reading": 80,
    "unfixable, blind at a reading of fixable inputs": 60,
    "blind at 0": 150,
    "blind later": 150,
}
RELATED_QUOTAS = {
    "no reading unseen": 20,
    "unseen readings": 80,
    "unseen readings, elsewhere several vectors": 60,
    "all vectors at a reading, none unseen": 40,
    "all vectors at a reading, others unseen": 40,
    "all vectors at a reading that no input below 1,024 gives": 30,
}
TIE_QUOTAS = {
    "decided by cost": 2,
    "decided by cost, all weights 0": 2,
    "decided by gates": 10,
    "decided by gates, all weights 0": 6,
    "decided by gates, other nets than before card 5": 15,
    "decided by gates, other nets than before card 5, all weights 0": 3,
    "decided by gates, more nets than before card 5": 20,
    "decided by gates, more nets than before card 5, all weights 0": 6,
    "decided by number of nets": 4,
    "decided by number of nets, all weights 0": 4,
    "decided by number of nets, other nets than before card 5, all weights 0": 8,
    "decided by number of nets, more nets than before card 5, all weights 0": 15,
    "decided by net numbers": 4,
    "decided by net numbers, all weights 0": 4,
    "decided by net numbers, other nets than before card 5": 8,
    "decided by net numbers, other nets than before card 5, all weights 0": 8,
    "decided by net numbers, more nets than before card 5": 10,
    "decided by net numbers, more nets than before card 5, all weights 0": 8,
}
LONGEST_TIED = 320  # bytes of a job of these
HELD_QUOTAS = {
    "held: no reading unseen": 8,
    "held: unseen readings": 11,
    "held: unseen readings, more than 16": 9,
    "held: unseen readings, more than 64": 9,
    "held: readings that held inputs alone give": 11,
    "held: readings that held inputs alone give, more than 16": 6,
    "held: readings that held inputs alone give, more than 64": 4,
    "held: both": 12,
    "held: both, more than 16": 10,
    "held: both, more than 64": 10,
}
LONGEST_HELD = 700  # bytes of a job of these


def reading_at(job, x):
    """The reading of all priced nets at an input."""
    values = simulate.net_values(job, job.old, simulate.vector_values(job, 0))
    return sum((values[c.net] >> x & 1) << i for i, c in enumerate(job.candidates))


def inputs_of(job, reading):
    """The inputs that give a reading of all priced nets."""
    values = simulate.net_values(job, job.old, simulate.vector_values(job, 0))
    return dict(simulate.readings([values[c.net] for c in job.candidates], simulate.every_input(job)))[reading]


def unfixable_class(job, verdict):
    """Whether choose's reading is that of the input that judge names, or of another unfixable input, or of fixable ones that share no
    vector."""
    if reading_at(job, verdict.value) == verdict.chosen.value:
        return "unfixable" + (" later" if verdict.value else " at 0")
    left = inputs_of(job, verdict.chosen.value)
    for inputs in fixed_inputs(job):
        left &= ~inputs
    return "unfixable, blind at " + ("another reading" if left else "a reading of fixable inputs")


def class_of(job, verdict):
    if verdict.name == "unfixable":
        return unfixable_class(job, verdict)
    if verdict.name != "patch":
        return verdict.name + (" later" if verdict.value else " at 0")
    size = len(verdict.patch.support)
    return f"patch over {size} net" + ("" if size == 1 else "s") if size < 4 else "patch over 4 or more nets"


# ---- jobs, each with its verdict


def quota_jobs(rng):
    """Random jobs, as many of each class as the quotas say; inputs 0 to 12 and targets 0 to 4 in turn."""
    left = dict(QUOTAS)
    turn = 0
    while any(left.values()):
        turn += 1
        job = cj.cut_job(rng, turn % 13, turn // 13 % 5, rng.random() < 0.5)
        verdict = rectify(encode(job))
        assert verdict.number == 0, job
        name = class_of(job, verdict)
        if left[name]:
            left[name] -= 1
            yield job, verdict


def full_readings(job, patch):
    """The smallest input of each reading that inputs give and where every vector fixes all of them."""
    fixed = fixed_inputs(job)
    values = simulate.net_values(job, job.old, simulate.vector_values(job, 0))
    found = simulate.readings([values[net] for net in patch.support], simulate.every_input(job))
    return [simulate.smallest(inputs) for _, inputs in found if all(inputs & ~these == 0 for these in fixed)]


def related_class(job, patch):
    """What the notes have to tell apart: with targets, a reading at which all vectors do from one that no input gives."""
    full = full_readings(job, patch) if job.targets and patch.support else []
    if any(x >= 1024 for x in full):
        return "all vectors at a reading that no input below 1,024 gives"
    if full:
        return "all vectors at a reading, " + ("others unseen" if 0 in patch.notes else "none unseen")
    if 0 in patch.notes:
        return "unseen readings" + (", elsewhere several vectors" if 2 in patch.notes else "")
    return "no reading unseen"


def related_jobs(rng):
    """Jobs with patches over related nets, as many of each class as the quotas say; inputs 2 to 13 and targets 1 to 4 in turn."""
    left = dict(RELATED_QUOTAS)
    turn = 0
    while any(left.values()):
        turn += 1
        job = cj.related_job(rng, 2 + turn % 12, 1 + turn // 12 % 4)
        verdict = rectify(encode(job))
        assert verdict.name == "patch", job
        name = related_class(job, verdict.patch)
        if left[name]:
            left[name] -= 1
            yield job, verdict


def tie_jobs(rng):
    """Jobs with patches that are decided at each step, as many of each class as the quotas say; inputs 2 to 9 and targets 0 to 4 in
    turn."""
    for _ in range(30):
        job = cj.crossed_job(rng)
        yield job, rectify(encode(job))
    left = dict(TIE_QUOTAS)
    turn = 0
    while any(left.values()):
        turn += 1
        job = cj.masked_job(rng, 6 + turn % 4, 1 + turn // 4 % 3) if turn % 2 else cj.tied_job(rng, 2 + turn % 8, turn // 8 % 5)
        verdict = rectify(encode(job))
        name = ties.tie_class(job) if verdict.patch and len(encode(job)) <= LONGEST_TIED else None
        if left.get(name):
            left[name] -= 1
            yield job, verdict


def held_jobs(rng):
    """Jobs with patches and held ranges: by hand with 16 to 20 inputs, then as many of each class as the quotas say; inputs 16 to 18
    and targets 1 to 4 in turn, seldom 20 inputs."""
    for k in range(5):
        for occurs in (True, False):
            job = cj.held_last_job(16 + k, 1 + k % 4, occurs)
            yield job, rectify(encode(job))
    left = dict(HELD_QUOTAS)
    turn = 0
    while any(left.values()):
        turn += 1
        job = cj.held_job(rng, 16 + turn % 3 if turn % 16 else 20, 1 + turn // 3 % 4)
        name = held.held_class(job, choose(encode(job)).patch) if len(encode(job)) <= LONGEST_HELD else None
        if left.get(name):
            left[name] -= 1
            yield job, rectify(encode(job))


def full_jobs(rng, n, count, names, related=False):
    """So many jobs of 8,188 bytes of each of the verdicts, of gates with two operands, with two to four, with four."""
    for name in names:
        made = 0
        while made < count:
            xor_share, late = rng.choice([0.5, 0.85, 0.85, 0.95, 1.0]), rng.choice([3, 7, n // 2, n - 3, n - 2])
            counts = [(2,), (2, 3, 4), (4,)][made % 3]
            job = cj.full_job(rng, name, n, rng.randrange(4, 11), xor_share, late, counts, related)
            verdict = rectify(encode(job))
            assert verdict.number == 0 and len(encode(job)) == jobs.LONGEST_JOB
            if verdict.name == name:
                made += 1
                yield job, verdict


def hand_jobs():
    """The numbered cases, the smallest jobs, and the sizes of the paper's line "Run"."""
    a = rj.job_a()
    one = Netlist([Gate.of(1)], [0])
    yield from cases.jobs_of_cases()
    for job, _, _ in ties.by_hand():
        yield job
    for m in range(5):
        yield Job(0, m, Netlist([Gate.of(1)], [m]), one, [])
        yield Job(0, m, Netlist([Gate.of(0)], [m]), one, [Candidate(m, 0)])
        yield Job(0, m, Netlist([], [0]), one, []) if m else a
        yield Job(20, m, Netlist([], [19]), Netlist([], [19]), [Candidate(i, 65535) for i in range(10, 20)])
        yield Job(20, m, Netlist([], [19]), Netlist([], [18]), [])
    yield from unfixable_jobs()
    for k, n in enumerate([2, 3, 5, 6, 7, 8, 9, 10, 11, 12, 13, 15, 20, 20, 20, 20]):
        for occurs in (True, False):
            yield cj.last_job(n, 1 + k % 4, occurs)
    more = [[], [18], [18, 17]]
    for gate_count, outputs in [(400, 32), (401, 32), (400, 33), (401, 33)]:
        gates = [Gate.of(3, 0)] + [Gate.of(8, 19, 24 + i, *more[i % 3]) for i in range(gate_count - 1)]
        side = Netlist(gates, [24] * outputs)
        golden = Netlist([Gate.of(3, 0)] + [Gate.of(8, 19, 20 + i, *more[i % 3]) for i in range(gate_count - 1)], [20] * outputs)
        yield Job(20, 4, side, golden, [Candidate(i, 0) for i in range(10)])


def unfixable_jobs():
    """Without targets or without inputs, with every number of priced nets up to two: the reading of choose is that of the input that
    judge names, a smaller one, or the only one. And jobs that are unfixable and have a smaller reading of fixable inputs only."""
    one = Netlist([Gate.of(1)], [0])
    for m in range(5):
        for priced in ([], [m], [m + 1], [m, m + 1]):  # constants 1 and 0, so the only reading is 0, 1, 0, 1
            yield Job(0, m, Netlist([Gate.of(1), Gate.of(0)], [m + 1]), one, [Candidate(net, 3) for net in priced])
    for m in range(3):
        # inputs 1 and 2 are unfixable; priced are inputs, and a gate that inverts the first
        for priced in ([], [0], [1], [2 + m], [0, 1], [0, 2 + m], [1, 2 + m], [0, 1, 2 + m]):
            yield Job(2, m, Netlist([Gate.of(3, 0)], [1]), Netlist([], [0]), [Candidate(net, 1) for net in priced])
    for inverted in (False, True):
        # the target must be input 0; the second output differs where inputs 1 and 2 are both 1, or both 0
        kind = 7 if inverted else cj.AND
        golden = Netlist([Gate.of(kind, 1, 2), Gate.of(0)], [0, 3])
        for priced in ([], [0], [1], [2], [1, 2], [0, 1], [0, 1, 2]):
            yield Job(3, 1, Netlist([Gate.of(0)], [3, 4]), golden, [Candidate(net, 1) for net in priced])


def damaged_bytes(rng, accepted):
    """Bytes of refused jobs, and some that are still accepted: every damage on its own and several at once."""

    def some():
        return rng.choice(accepted)[0]

    for damage in rj.ALL_DAMAGES:
        for _ in range(8):
            yield encode(rj.damaged(rng, some(), [damage]))
    for _ in range(60):
        yield encode(rj.damaged(rng, some(), rng.sample(rj.ALL_DAMAGES, rng.randrange(2, 5))))
    for damage in rj.BYTE_DAMAGES:
        for _ in range(8):
            yield damage(rng, encode(some()))
    yield b""


# ---- calls


def judge_calls(rng, accepted, fulls):
    for job in hand_jobs():
        yield judge_call(encode(job))
    for job, _ in accepted + fulls:
        yield judge_call(encode(job), rng.choice([JUDGE, JUDGE, JUDGE + 1, BUFFER]), rng.choice([CHOOSE, CHOOSE, CHOOSE + 1, BUFFER]))
    for data in damaged_bytes(rng, accepted):
        yield judge_call(data)
    # number 1 comes before every other, and the limits are the same for all jobs
    for lents in [
        (0, 0), (1, 1), (4, 5), (5, 4), (12, 27), (24, 28), (25, 2083), (26, 2083), (25, 2084), (26, 2084), (27, 2085),
        (26, 26), (2084, 25), (33, 1075), (1076, 1077), (2103, 2103),
    ]:  # fmt: skip
        yield judge_call(encode(rj.job_a()), *lents)
        yield judge_call(b"", *lents)
        for data in list(damaged_bytes(rng, accepted))[::60]:
            yield judge_call(data, *lents)
    for lents in [(0, 0), (25, 2083), (25, 2084), (26, 2083)]:
        yield judge_call(encode(fulls[0][0]), *lents)
        for name in ("patch", "unfixable", "blind"):
            yield judge_call(encode(next(job for job, verdict in accepted if verdict.name == name)), *lents)


def order_calls(rng, accepted, longs, fulls):
    """Two jobs both ways round, with one in between that fills every place."""

    def both(a, b, between):
        yield order_call(a, between, b)
        yield order_call(b, between, a)

    data = [encode(job) for job, _ in accepted]
    full_sheet = [encode(job) for job, verdict in longs if len(verdict.chosen.sheet) == CHOOSE]
    full_list = [encode(job) for job, verdict in longs if len(verdict.judged.sheet) == JUDGE]
    assert full_sheet and full_list
    for k in range(6):
        full = (full_sheet, full_list)[k % 2]
        yield from both(rng.choice(data), rng.choice(data), full[k // 2 % len(full)])
    for k, (job, _) in enumerate(longs):
        refused = rj.damaged(rng, rng.choice(accepted)[0], [rng.choice(rj.DAMAGES[3 + k // 2 % 4])])
        yield from both(rng.choice(data), encode(refused) if k % 2 else rng.choice(data), encode(job))
    yield from both(encode(rj.job_a()), rng.choice(data), encode(fulls[0][0]))


# ---- sheets by anyone


def widened(rng, job, patch):
    """The same table over more nets."""
    more = rng.sample(job.candidates, rng.randrange(len(job.candidates) + 1))
    nets = sorted(set(patch.support) | {c.net for c in more})
    weights = {c.net: c.weight for c in job.candidates}
    table = []
    for reading in range(2 ** len(nets)):
        own = sum((reading >> nets.index(net) & 1) << i for i, net in enumerate(patch.support))
        table.append(patch.table[own])
    notes = rng.choice([None, rs.some_notes(rng, len(table))])
    return sheets.Patch(nets, table, sum(weights[net] for net in nets), notes)


def with_entry(rng, job, patch):
    """One entry is another vector."""
    table = list(patch.table)
    table[rng.randrange(len(table))] = rng.randrange(2**job.targets)
    return replace(patch, table=table)


def bits_apart(rng, job, patch):
    """Each target's bit from another entry: two half-right vectors joined."""
    table = [a & 1 | b & 14 for a, b in zip(patch.table, patch.table[1:] + patch.table[:1])]
    return replace(patch, table=table)


def other_notes(rng, job, patch):
    """Field 22 has any notes, which has no effect."""
    return replace(patch, notes=rs.some_notes(rng, len(patch.table)))


def without_notes(rng, job, patch):
    return replace(patch, notes=None)


CHANGES = [
    ("more nets", widened),
    ("an entry changed", with_entry),
    ("bits apart", bits_apart),
    ("other notes", other_notes),
    ("without notes", without_notes),
]


def wrong_notes(rng, pairs, count):
    """(name, job, sheet): sheets for these jobs with notes wrong in each way, so many of each; half of them have a fault of
    number 8 too, which comes after. Some with good notes have only that."""

    def part(damages):
        job, patch = rng.choice(pairs)
        patch = rs.damaged_patch(rng, job, replace(patch, notes=rs.some_notes(rng, len(patch.table))), damages)
        return job, patch

    eights = rs.SHEET_DAMAGES[8]
    for turn in range(count):
        also = [rng.choice(eights)] if turn % 2 else []
        for damage in rs.NOTE_DAMAGES:
            job, patch = part(also + [damage])
            yield "wrong notes" + (" and 8" if also else ""), job, sheets.encode(patch)
        for name, damage in rs.NOTE_FIELD_DAMAGES.items():
            job, patch = part(also)
            yield name + (" and 8" if also else ""), job, rs.damaged_fields(rng, sheets.encode(patch), damage)
    for damage in eights:
        job, patch = part([damage])
        yield "good notes and 8", job, sheets.encode(patch)


def with_vector_field(rng, pairs, count):
    """(name, job, sheet): sheets for these jobs with a field 19 in each place, so many of each, with and without notes; half of them
    have a fault of number 8 too, which comes after."""
    for turn in range(count):
        for name, put in rs.VECTOR_FIELDS.items():
            job, patch = rng.choice(pairs)
            patch = replace(patch, notes=rng.choice([None, patch.notes]))
            also = [rng.choice(rs.SHEET_DAMAGES[8])] if turn % 2 else []
            data = sheets.encode(rs.damaged_patch(rng, job, patch, also))
            vectors = rng.choice([rectify(encode(job)).vectors, rng.sample(range(2**job.targets), rng.randrange(1, 2**job.targets + 1))])
            data = rs.with_vectors(data, vectors, put)
            assert sheets.read(job.targets, job.candidates, data)[0] == 7
            yield name + (" and 8" if also else ""), job, data


def compare_calls(rng, accepted, fulls):
    def some():
        return rng.choice(accepted)

    patches = [(job, verdict.patch) for job, verdict in accepted if verdict.patch]
    big = [(job, verdict.patch) for job, verdict in fulls if verdict.patch]

    def calls_of(name, pairs):
        for job, patch in pairs:
            yield name, compare_call(encode(job), sheets.encode(patch))

    yield from calls_of("own patch", rng.sample(patches, 150) + big)
    for name, change in CHANGES:
        pairs = rng.sample([pair for pair in patches if pair[1].support], 45) + big[:1]
        yield from calls_of(name, [(job, change(rng, job, patch)) for job, patch in pairs])
    small = [pair for pair in patches if len(pair[1].support) in (1, 2, 3) and len(encode(pair[0])) < 400]
    for name, job, sheet in wrong_notes(rng, small, 8):
        yield name, compare_call(encode(job), sheet)
    for name, job, sheet in with_vector_field(rng, small, 8):
        yield name, compare_call(encode(job), sheet)
    yield from calls_of("any table", [(job, rs.good_patch(rng, job)) for job, _ in rng.sample(accepted, 150)])
    yield from calls_of("any table", [(job, rs.good_patch(rng, job)) for job, _ in fulls[::3]])
    for damage in rs.ALL_SHEET_DAMAGES:
        pairs = rng.sample([pair for pair in patches if len(pair[0].candidates) >= 2], 10)
        damaged = [(job, rs.damaged_patch(rng, job, rs.good_patch(rng, job), [damage])) for job, _ in pairs]
        yield from calls_of("damaged parts", damaged)
    for damage in rj.BYTE_DAMAGES:
        for job, patch in rng.sample(patches, 8):
            yield "damaged bytes", compare_call(encode(job), damage(rng, sheets.encode(patch)))
    for _ in range(30):
        yield "sheet of another job", compare_call(encode(some()[0]), some()[1].chosen.sheet)
    for job, verdict in rng.sample(accepted, 30):
        yield "judge's sheet", compare_call(encode(job), verdict.judged.sheet)
        if verdict.name != "patch":
            yield "sheet without a patch", compare_call(encode(job), verdict.chosen.sheet)
    for data in list(damaged_bytes(rng, accepted))[::4]:
        # the job's numbers come before the sheet's
        sheet = rng.choice(patches)[1] if rng.random() < 0.5 else rs.good_patch(rng, some()[0])
        yield "damaged job", compare_call(data, sheets.encode(sheet)[: rng.choice([5, 100])])
    # up to 15 support nets have a table that a field can hold
    several = encode(next(job for job, _ in patches if len(job.candidates) == 10))
    for k, table, notes in [(11, 2048, 2048), (11, 2048, 1024), (15, 32768, None), (16, 0, None), (16, 0, 0), (32, 1, 1)]:
        patch = sheets.Patch(list(range(k)), [0] * table, 0, None if notes is None else [0] * notes)
        yield "too many nets", compare_call(several, sheets.encode(patch))


# ---- what the jobs cover


def stuck_input(job):
    """The smallest input whose reading of all priced nets has no shared vector, and that reading."""
    shared = shared_vectors(job, fixed_inputs(job))
    values = simulate.net_values(job, job.old, simulate.vector_values(job, 0))
    found = simulate.readings([values[c.net] for c in job.candidates], simulate.every_input(job))
    return min((simulate.smallest(inputs), reading) for reading, inputs in found if not shared[reading])


def covered(jobs_and_verdicts):
    found = Counter()
    for job, verdict in jobs_and_verdicts:
        found["verdict " + verdict.name] += 1
        found[f"inputs {job.inputs:2}"] += 1
        found[f"targets {job.targets}"] += 1
        found[f"priced {len(job.candidates):2}"] += 1
        found[f"listed vectors {len(verdict.vectors):2}"] += 1
        for count in {gate.count for side in (job.old, job.golden) for gate in side.gates}:
            found[f"a gate of {count} operands"] += 1
        weights = {c.weight for c in job.candidates}
        found["a weight of 0"] += 0 in weights
        found["a weight of 65535"] += 65535 in weights
        if verdict.name == "unfixable":
            found[f"given to choose: {unfixable_class(job, verdict)}, targets {job.targets}"] += 1
            found["given to choose: unfixable, no inputs"] += job.inputs == 0
            found["given to choose: unfixable, blind above 0"] += verdict.chosen.value > 0
        if verdict.name == "blind":
            found["blind at another reading than the smallest stuck input's"] += stuck_input(job)[1] != verdict.value
        if verdict.patch:
            found[f"support nets {len(verdict.patch.support):2}"] += 1
            found["cost above 65535"] += verdict.value > 65535
            found["an entry outside the vector list"] += any(entry not in verdict.vectors for entry in verdict.patch.table)
            found["notes " + " ".join(str(note) for note in sorted(set(verdict.patch.notes)))] += 1
            if job.targets and verdict.patch.support:
                found["notes: " + related_class(job, verdict.patch)] += 1
            if name := held.held_class(job, verdict.patch):
                found[name] += 1
                found[f"held ranges {len(held.ranges(job)):2} of {2 ** (job.inputs - cj.RANGE_INPUTS):2}"] += 1
            if 0 in verdict.patch.notes:
                found[f"unseen readings, support nets {len(verdict.patch.support):2}"] += 1
            ranked = ties.ranks(job)
            found["decided by " + ties.step_of(ranked)] += 1
            found["another support than before card 5"] += ranked[0] != ties.before_card(ranked)
            found["tie: " + ties.tie_class(job)] += 1
            for way in ties.losing(ranked):
                found["tie, another has " + way] += 1
    return found


def report(calls, jobs_and_verdicts, sheet_names):
    print(f"{len(calls)} calls, {sum(len(data) for data, _ in calls)} bytes")
    words = Counter()
    for _, text in calls:
        parts = text.split()
        for at in [0] + ([parts.index("choose")] if parts[0] == "judge" else []):
            service, number, *rest = parts[at:]
            outcome = next(word for word in rest if word.isalpha())
            words[f"{service} {number} {outcome}"] += 1
    for found in (words, Counter({"sheet: " + name: count for name, count in sheet_names.items()}), covered(jobs_and_verdicts)):
        for name, count in sorted(found.items()):
            print(f"{count:6}  {name}")


# ---- all of them


def made():
    rng = random.Random(SEED)
    accepted = list(quota_jobs(rng)) + list(related_jobs(rng)) + list(tie_jobs(rng))
    longs = list(full_jobs(rng, 10, 5, ["patch", "unfixable"]))
    fulls = list(full_jobs(rng, 20, 5, ["patch", "unfixable", "blind"])) + list(full_jobs(rng, 20, 3, ["patch"], related=True))
    named = list(compare_calls(rng, accepted, fulls))
    calls = list(judge_calls(rng, accepted + longs, fulls)) + list(order_calls(rng, accepted, longs, fulls))
    calls += [call for _, call in named]
    rng.shuffle(calls)
    last = list(held_jobs(random.Random(SEED)))
    calls += [judge_call(encode(job)) for job, _ in last]
    return calls, accepted + longs + fulls + last, Counter(name for name, _ in named)
