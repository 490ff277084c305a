"""Calls of fit, and of choose, fit and compare in a row, from a fixed seed, and the lines that this reference gives (fit_calls.py has
their form). random_engine.py stores them. Every netlist that is fitted is read back from its bytes and evaluated on all inputs beside
the driven old circuit; where they differ, the script stops."""

import random
from collections import Counter
from dataclasses import replace

import cases
import compare
import cut_jobs as cj
import gates
import job as jobs
import random_jobs as rj
import random_sheets as rs
import random_verdicts as rv
import sheet as sheets
import simulate
from fit import LONGEST_NETLIST, fit, patched
from fit_calls import BUFFER, fit_call, row_call
from job import Candidate, Gate, Job, Netlist, encode
from rectify import choose

SEED = 1364
LENT = [LONGEST_NETLIST, LONGEST_NETLIST, LONGEST_NETLIST + 1, BUFFER]


# ---- jobs


def mixed_gates(rng, n, m, count, free_share):
    """Old gates: so large a share reads no net that a target leads to, the others any net. Both sorts are mixed."""
    free, found = list(range(n)), []
    for net in range(n + m, n + m + count):
        nets = free if rng.random() < free_share else range(net)
        gate = cj.some_gate(rng, nets, range(10)) if nets else Gate.of(rng.randrange(2))
        found.append(gate)
        if all(operand in free for operand in gate.operands()):
            free.append(net)
    return found


def some_outputs(rng, n, m, nets, count):
    """Any nets, targets, inputs, and nets that are outputs already."""
    found = []
    for _ in range(count):
        lists = [range(nets), range(n, n + m), range(n), found, range(max(0, nets - 3), nets)]
        found.append(rng.choice(rng.choice([places for places in lists if places])))
    return found


def mixed_job(rng, n, m, gate_count, priced, golden_gates=None, outputs=None):
    """A job with up to so many priced nets, of any verdict."""
    golden_gates = rng.randrange(1, 4) if golden_gates is None else golden_gates
    outputs = rng.randrange(1, 7) if outputs is None else outputs
    gate_count = max(gate_count, 0 if n + m else 1)
    old = mixed_gates(rng, n, m, gate_count, rng.choice([0.2, 0.5, 0.8, 1.0]))
    golden = rj.good_netlist(rng, n, max(golden_gates, 0 if n else 1), outputs)
    job = Job(n, m, Netlist(old, some_outputs(rng, n, m, n + m + gate_count, outputs)), golden, [])
    allowed = rj.allowed_nets(job)
    nets = sorted(rng.sample(allowed, min(priced, len(allowed))))
    job.candidates = [Candidate(net, weight) for net, weight in zip(nets, cj.some_weights(rng, len(nets)))]
    return job


def roomy_job(rng, m, gate_count, priced, golden_gates=None, outputs=None):
    """A job with just so many priced nets."""
    while True:
        job = mixed_job(rng, rng.randrange(9), m, gate_count, priced, golden_gates, outputs)
        if len(job.candidates) == priced:
            return job


def with_dead_gates(rng, job, gate_count):
    """The old netlist with further gates, of which no output reads one, up to so many."""
    old = list(job.old.gates)
    while len(old) < gate_count:
        old.append(cj.some_gate(rng, range(job.inputs + job.targets + len(old)), range(10) if len(old) + job.inputs else [1]))
    return Job(job.inputs, job.targets, Netlist(old, job.old.outputs), job.golden, job.candidates)


# ---- columns and tables


def column(rng, k, constant, equal):
    """2^k bits: constant or with equal halves, or else of two such halves, by these shares."""
    shape = rng.random()
    if k == 0 or shape < constant:
        return [rng.randrange(2)] * 2**k
    low = column(rng, k - 1, constant, equal)
    return low + (low if shape < constant + equal else column(rng, k - 1, constant, equal))


def tall_column(rng, k):
    """The longest tree: the parity of the nets, or its opposite."""
    first = rng.randrange(2)
    return [bin(reading).count("1") + first & 1 for reading in range(2**k)]


def table_of_columns(columns, k):
    return [sum(bits[reading] << t for t, bits in enumerate(columns)) for reading in range(2**k)]


def patch_of(rng, job, table):
    """A sheet with this table over some of the priced nets."""
    k = len(table).bit_length() - 1
    patch = rs.good_patch(rng, job, k)
    assert len(patch.table) == len(table)
    return replace(patch, table=table)


# ---- splits and sizes


# How many gates a split has besides the trees of its other halves, by which halves are constant (card 2); those where both are
SPLITS = {"L 0, H 1": 1, "L 1, H 0": 1, "L 0": 1, "H 0": 2, "L 1": 2, "H 1": 1, "neither": 4}
BOTH = ["L 0, H 1", "L 1, H 0"]


def is_constant(bits):
    return len(set(bits)) == 1


def halves(bits):
    return bits[: len(bits) // 2], bits[len(bits) // 2 :]


def split_of(low, high):
    """The name of a split into two halves that differ."""
    return ", ".join(f"{name} {half[0]}" for name, half in (("L", low), ("H", high)) if is_constant(half)) or "neither"


def splits(bits):
    """The splits of a column's tree, each with the place of its net in the support."""
    if not is_constant(bits):
        low, high = halves(bits)
        yield from splits(low)
        if low != high:
            yield from splits(high)
            yield split_of(low, high), len(low).bit_length() - 1


def columns_of(job, patch):
    return [[entry >> t & 1 for entry in patch.table] for t in range(job.targets)]


def column_size(bits):
    """How many gates a column's tree has, by the card's words."""
    return 1 if is_constant(bits) else sum(SPLITS[name] for name, _ in splits(bits))


def size_before(bits):
    """How many it had before the card, with a gate for each constant half."""
    if is_constant(bits):
        return 1
    low, high = halves(bits)
    return size_before(low) if low == high else size_before(low) + size_before(high) + 4


def lifted(rng, bits, k):
    """The bits as one half of a column, this as one of the next, up to 2^k bits; the other half is the same, constant, or one
    of the nets. The tree has few gates more."""
    while len(bits) < 2**k:
        place = rng.randrange(len(bits).bit_length() - 1)
        net = [reading >> place & 1 for reading in range(len(bits))]
        other = rng.choice([bits, [rng.randrange(2)] * len(bits), net])
        bits = rng.choice([bits + other, other + bits])
    return bits


def split_column(rng, name, place):
    """2^(place + 1) bits that are split so."""

    def half(side):
        if side in name:
            return [int(name[name.index(side) + 2])] * 2**place
        return lifted(rng, rng.choice([[0, 1], [1, 0]]), place)

    while True:
        low, high = half("L"), half("H")
        if low != high:
            assert split_of(low, high) == name
            return low + high


# ---- the classes: (name, job, patch)


def own_patches(rng, accepted):
    for name in rv.QUOTAS:
        if name.startswith("patch"):
            for job, verdict in rng.sample([pair for pair in accepted if rv.class_of(*pair) == name], 30):
                yield "choose's own, " + name, job, verdict.patch
    unseen = [pair for pair in accepted if pair[1].patch and 0 in pair[1].patch.notes]
    for job, verdict in rng.sample(unseen, 30):
        yield "choose's own, unseen readings", job, verdict.patch


def changed_patches(rng, accepted):
    patches = [(job, verdict.patch) for job, verdict in accepted if verdict.patch]
    for name, change in rv.CHANGES:
        for job, patch in rng.sample([pair for pair in patches if pair[1].support], 20):
            yield "choose's own, " + name, job, change(rng, job, patch)


def any_tables(rng, accepted):
    """Any table over 0 to 10 nets; of more than 7 or 8 the netlist is mostly too large."""
    for k in range(11):
        for m in range(5):
            job = roomy_job(rng, m, rng.randrange(12, 30), rng.randrange(k, 11))
            yield "any table", job, rs.good_patch(rng, job, k)
    for job, _ in rng.sample(accepted, 60):
        yield "any table", job, rs.good_patch(rng, job)


def shaped_tables(rng):
    """Columns with constant parts and equal halves, over 0 to 10 nets."""
    for k in range(11):
        for turn in range(16):
            m, equal = 1 + turn % 4, rng.choice([0.2, 0.4, 0.6])
            constant = rng.choice([0.1, 0.3]) if k < 6 else 0.45 - equal / 4
            job = roomy_job(rng, m, rng.randrange(10, 40), rng.randrange(k, 11))
            columns = [column(rng, k, constant, equal) for _ in range(m)]
            yield "constant parts and equal halves", job, patch_of(rng, job, table_of_columns(columns, k))


def constant_tables(rng):
    """Every column constant; and one that mostly is not, in any place."""
    for k in range(11):
        for m in range(1, 5):
            job = roomy_job(rng, m, rng.randrange(10, 20), k)
            columns = [[rng.randrange(2)] * 2**k for _ in range(m)]
            yield "constant columns", job, patch_of(rng, job, table_of_columns(columns, k))
            if k:
                columns[rng.randrange(m)] = column(rng, k - 1, 0.4, 0.3) + [rng.randrange(2)] * 2 ** (k - 1)
                yield "all columns constant but one", job, patch_of(rng, job, table_of_columns(columns, k))


def one_net_tables(rng):
    """A column that is one of the nets or its opposite: equal halves above it and constant ones below."""
    for k in range(1, 11):
        for place in range(k):
            m = rng.randrange(1, 5)
            job = roomy_job(rng, m, rng.randrange(10, 20), k)
            columns = [[(reading >> place & 1) ^ t % 2 for reading in range(2**k)] for t in range(m)]
            yield "columns of one net", job, patch_of(rng, job, table_of_columns(columns, k))


def small_columns(rng):
    """Every column over 0 to 3 nets."""
    for k in range(4):
        columns = [[value >> reading & 1 for reading in range(2**k)] for value in range(2 ** 2**k)]
        rng.shuffle(columns)
        for first in range(0, len(columns), 4):
            these = columns[first : first + 4]
            job = roomy_job(rng, len(these), rng.randrange(4, 12), k)
            yield "every column over up to 3 nets", job, patch_of(rng, job, table_of_columns(these, k))


def split_tables(rng):
    """Each split on each of the support nets, the highest or behind splits on those above."""
    for k in range(1, 11):
        columns = []
        for place in range(k):
            for name in SPLITS if place else BOTH:
                columns.append(lifted(rng, split_column(rng, name, place), k))
        rng.shuffle(columns)
        while columns:
            m = min(rng.choice([1, 3, 4, 4, 4, 4]), len(columns))
            these, columns = columns[:m], columns[m:]
            job = roomy_job(rng, m, rng.randrange(6, 16), k)
            yield "each split on each net", job, patch_of(rng, job, table_of_columns(these, k))


def one_reading_tables(rng):
    """Columns that are constant but for one reading: a split on every net, each with a constant half."""
    for k in range(1, 11):
        for _ in range(2):
            readings = [0, 2**k - 1, rng.randrange(2**k), rng.randrange(2**k)]
            columns = []
            for place in readings:
                rest = rng.randrange(2)
                columns.append([rest ^ (reading == place) for reading in range(2**k)])
            rng.shuffle(columns)
            job = roomy_job(rng, 4, rng.randrange(6, 16), k)
            yield "constant but for one reading", job, patch_of(rng, job, table_of_columns(columns, k))


def no_input_jobs(rng):
    """Net 0 is a target and the filler of unused operands."""
    for turn in range(60):
        m = 1 + turn % 4
        job = mixed_job(rng, 0, m, rng.randrange(14), rng.randrange(5))
        k = rng.randrange(len(job.candidates) + 1)
        columns = [column(rng, k, 0.2, 0.2) for _ in range(m)]
        yield "no inputs", job, patch_of(rng, job, table_of_columns(columns, k))


def no_target_jobs(rng):
    for _ in range(20):
        job = mixed_job(rng, rng.randrange(6), 0, rng.randrange(14), rng.randrange(11))
        yield "no targets", job, rs.good_patch(rng, job)


def bare_jobs(rng):
    """No old gate at all; every target an output, read or not."""
    for m in range(1, 5):
        for k in range(6):
            job = mixed_job(rng, rng.randrange(max(k, 1), 8), m, 0, k)
            job.old.outputs = rng.choice([list(job.target_nets()), [job.inputs] * 3, [0], [job.inputs + m - 1, 0]])
            job.golden.outputs = [0] * len(job.old.outputs)
            yield "no old gate", job, rs.good_patch(rng, job, k)


def at_limit(rng, accepted):
    """Netlists of just 400 gates and of 401, with old gates of all sorts; and choose's own, with dead gates to fill up."""
    turn = 0
    while turn < 36:
        k, m = rng.randrange(11), rng.randrange(5)
        columns = [column(rng, k, rng.choice([0, 0.1]), rng.choice([0.1, 0.5])) for _ in range(m)]
        left = jobs.MAX_GATES - sum(column_size(bits) for bits in columns)
        if left >= k + (m == 0):
            turn += 1
            for extra in (0, 1) if m else (0,):
                job = roomy_job(rng, m, left + extra, rng.randrange(k, 11), outputs=rng.choice([1, 32, rng.randrange(1, 33)]))
                yield f"{400 + extra} gates", job, patch_of(rng, job, table_of_columns(columns, k))
    for job, verdict in rng.sample([pair for pair in accepted if pair[1].patch and pair[0].targets], 12):
        patch = verdict.patch
        size = len(patched(job, patch).gates) - len(job.old.gates)
        for extra in (0, 1):
            if len(job.old.gates) <= 400 + extra - size <= 400:
                yield f"{400 + extra} gates, choose's own", with_dead_gates(rng, job, 400 + extra - size), patch


def smaller_now(rng):
    """Number 9 before the card, and now fitted: netlists that had 401 gates, and with few old gates those that had many."""
    for k in range(1, 11):
        for m in (rng.randrange(1, 3), rng.randrange(3, 5)):
            while True:
                columns = [column(rng, k, rng.choice([0.1, 0.3]), rng.choice([0.2, 0.6])) for _ in range(m)]
                before, now = sum(map(size_before, columns)), sum(map(column_size, columns))
                if now < before <= 401 - k and (k < 6 or before > 150):
                    break
            job = roomy_job(rng, m, 401 - before, k)
            yield "401 gates before card 2", job, patch_of(rng, job, table_of_columns(columns, k))
    for k in range(7, 11):
        for m in range(1, 5):
            for _ in range(2):
                old = rng.randrange(k + 4, 30)
                while True:
                    columns = [column(rng, k, rng.choice([0, 0.1, 0.3]), rng.choice([0.1, 0.3, 0.6])) for _ in range(m)]
                    if sum(map(column_size, columns)) <= 400 - old < sum(map(size_before, columns)):
                        break
                job = roomy_job(rng, m, old, k)
                yield "too large before card 2", job, patch_of(rng, job, table_of_columns(columns, k))


def tall_trees(rng):
    """Parities: for each number of nets and targets the longest trees, up to 10,224 gates."""
    for k in range(11):
        for m in range(1, 5):
            job = roomy_job(rng, m, rng.randrange(k + 4, 40), rng.randrange(k, 11))
            columns = [tall_column(rng, k) for _ in range(m)]
            yield "longest trees", job, patch_of(rng, job, table_of_columns(columns, k))
    for total in (397, 398, 399, 400, 401, 402):  # trees of 316 gates over seven nets and 36 over four
        job = roomy_job(rng, 2, total - 316 - 36, 7)
        columns = [tall_column(rng, 7), [bin(reading & 15).count("1") & 1 for reading in range(128)]]
        rng.shuffle(columns)
        yield "longest trees and old gates", job, patch_of(rng, job, table_of_columns(columns, 7))


def full_size(rng):
    """Jobs of 8,188 bytes with few inputs. Without targets the netlist has 400 gates and 4,075 bytes; with them it is too
    large. Then the longest jobs that have a netlist of 4,075 bytes behind 1 to 4 trees."""
    for turn in range(14):
        job = roomy_job(rng, 0 if turn < 10 else 1 + turn % 4, 400, 10, 400, 32)
        assert len(encode(job)) == jobs.LONGEST_JOB
        yield "8,188 bytes", job, rs.good_patch(rng, job, rng.choice([0, 1, 3, 10]))
    for turn in range(10):
        m = 1 + turn % 4
        columns = [column(rng, 10, 0.4, 0.4) for _ in range(m)]
        left = jobs.MAX_GATES - sum(column_size(bits) for bits in columns)
        if left >= 20:
            job = roomy_job(rng, m, left, 10, 400, 32)
            yield "4,075 bytes behind trees", job, patch_of(rng, job, table_of_columns(columns, 10))


def wide_jobs(rng):
    """13 to 20 inputs."""
    for n in range(13, 21):
        for _ in range(2):
            m, k = rng.randrange(1, 5), rng.randrange(1, 6)
            job = mixed_job(rng, n, m, rng.randrange(30), 10)
            columns = [column(rng, k, 0.2, 0.2) for _ in range(m)]
            yield "13 to 20 inputs", job, patch_of(rng, job, table_of_columns(columns, k))


def hand_jobs():
    for job in cases.jobs_of_cases():
        patch = choose(encode(job)).patch
        if patch:
            yield "numbered cases", job, patch
    # no target leads to net 4, which stands behind net 3, to which one does; the tree reads it by its new number, 2
    prices = [Candidate(0, 1), Candidate(4, 2)]
    old = Netlist([Gate.of(3, 2), Gate.of(8, 0, 1), Gate.of(4, 3, 4)], [5, 2, 2, 5])
    job = Job(2, 1, old, Netlist([], [0, 0, 1, 1]), prices)
    for value in range(16):
        yield "by hand", job, sheets.Patch([0, 4], [value >> i & 1 for i in range(4)], 3)


def good_parts(rng, accepted):
    for made in (
        own_patches(rng, accepted),
        changed_patches(rng, accepted),
        any_tables(rng, accepted),
        shaped_tables(rng),
        constant_tables(rng),
        one_net_tables(rng),
        small_columns(rng),
        split_tables(rng),
        one_reading_tables(rng),
        no_input_jobs(rng),
        no_target_jobs(rng),
        bare_jobs(rng),
        at_limit(rng, accepted),
        smaller_now(rng),
        tall_trees(rng),
        full_size(rng),
        wide_jobs(rng),
        hand_jobs(),
    ):
        yield from made


# ---- the fitted netlist beside the driven old one


def netlist_in(fields):
    """The input count and the netlist of three fields without targets."""
    counts, gate_body, output_body = jobs.walk(fields, [1, 2, 3])
    assert len(counts) == 2 and counts[1] == 0
    return counts[0], jobs.netlist_of(gate_body, output_body)


def check_fitted(job, patch):
    """The number is 0 or 9, with notes or without. The netlist of the reply, as it stands, has the driven outputs on every
    input."""
    number, fields = fit(encode(job), sheets.encode(patch))
    assert fit(encode(job), sheets.encode(replace(patch, notes=None))) == (number, fields), job
    size = len(job.old.gates) + sum(map(column_size, columns_of(job, patch)))
    assert number == (9 if size > jobs.MAX_GATES else 0), job
    if number == 0:
        n, netlist = netlist_in(fields)
        alone = Job(n, 0, netlist, netlist, [])
        assert n == job.inputs and len(netlist.gates) == size and jobs.number_of_parts(alone) == 0, job
        assert simulate.output_values(alone, netlist, []) == compare.driven_outputs(job, patch), job


# ---- calls: (class, call)


def accepted_calls(rng, parts):
    for name, job, patch in parts:
        check_fitted(job, patch)
        yield name, fit_call(encode(job), sheets.encode(patch), rng.choice(LENT))


def too_large(job, patch):
    return fit(encode(job), sheets.encode(patch))[0] == 9


def damaged_calls(rng, accepted, parts):
    small = [(job, patch) for _, job, patch in parts if len(encode(job)) < 500 and len(patch.table) <= 32]
    large = [(job, patch) for _, job, patch in parts if len(job.old.gates) < 60 and too_large(job, patch)]
    pairs = [pair for pair in small if len(pair[0].candidates) >= 2 and len(pair[1].support) >= 2]

    for data in list(rv.damaged_bytes(rng, [pair for pair in accepted if len(encode(pair[0])) < 500]))[::2]:
        # the job's numbers come before the sheet's
        job, patch = rng.choice(small)
        sheet = sheets.encode(patch)
        yield "damaged job", fit_call(data, rng.choice([sheet, b"", sheet[:5]]))
    for damage in rs.ALL_SHEET_DAMAGES:
        for job, patch in rng.sample(pairs, 8) + rng.sample(large, 1):
            yield "damaged parts of a sheet", fit_call(encode(job), sheets.encode(rs.damaged_patch(rng, job, patch, [damage])))
    for _ in range(20):
        job, patch = rng.choice(pairs)
        damages = rng.sample(rs.ALL_SHEET_DAMAGES, 2)
        yield "two damages of a sheet", fit_call(encode(job), sheets.encode(rs.damaged_patch(rng, job, patch, damages)))
    for name, job, sheet in rv.wrong_notes(rng, pairs, 8):
        yield name, fit_call(encode(job), sheet)
    for name, job, sheet in rv.wrong_notes(rng, large[:4], 1):
        yield name + ", too large", fit_call(encode(job), sheet)
    own = [(job, verdict.patch) for job, verdict in accepted if verdict.patch and len(encode(job)) < 300]
    for name, job, sheet in rv.with_vector_field(rng, pairs, 4):
        yield name, fit_call(encode(job), sheet)
    for name, job, sheet in rv.with_vector_field(rng, own, 2):
        yield name + ", choose's own", fit_call(encode(job), sheet)
    for name, job, sheet in rv.with_vector_field(rng, large[:4], 1):
        yield name + ", too large", fit_call(encode(job), sheet)
    for damage in rj.BYTE_DAMAGES:
        for job, patch in rng.sample(small, 6) + rng.sample(large, 1):
            yield "damaged bytes of a sheet", fit_call(encode(job), damage(rng, sheets.encode(patch)))
    for _ in range(30):
        yield "sheet of another job", fit_call(encode(rng.choice(small)[0]), sheets.encode(rng.choice(small)[1]))
    for job, verdict in rng.sample([pair for pair in accepted if not pair[1].patch], 20):
        yield "sheet without a patch", fit_call(encode(job), verdict.chosen.sheet)
    for job, verdict in rng.sample(accepted, 20):
        yield "judge's sheet", fit_call(encode(job), verdict.judged.sheet)
    # up to 15 support nets have a table that a field can hold
    job = encode(roomy_job(rng, 4, 20, 10))
    for k, table in [(11, 2048), (15, 32768), (16, 0), (16, 1), (17, 2), (32, 1), (64, 1), (256, 1), (30000, 0)]:
        patch = sheets.Patch(list(range(k)), [0] * table, 0)
        yield "too many nets", fit_call(job, sheets.encode(patch))
    for k, table, notes in [(11, 2048, 2048), (11, 2048, 2047), (12, 4096, 4096), (16, 0, 0), (16, 1, 1), (17, 2, 2), (32, 1, 1)]:
        patch = sheets.Patch(list(range(k)), [0] * table, 0, [0] * notes)
        yield "too many nets, notes", fit_call(job, sheets.encode(patch))


def short_calls(rng, accepted, parts):
    """Number 1 comes before every other, and the limit is the same for all."""
    a = encode(rj.job_a())
    sheet = choose(a).sheet
    small = [(job, patch) for _, job, patch in parts if len(encode(job)) < 300 and len(patch.table) <= 32]
    for lent in (0, 1, 32, 33, 2084, LONGEST_NETLIST - 1, LONGEST_NETLIST, LONGEST_NETLIST + 1, BUFFER):
        yield "lent bytes", fit_call(a, sheet, lent)
        yield "lent bytes", fit_call(b"", b"", lent)
        yield "lent bytes", fit_call(a, b"", lent)
        yield "lent bytes", fit_call(encode(rj.damaged(rng, rj.job_a(), [rng.choice(rj.ALL_DAMAGES)])), sheet, lent)
    large = [(job, patch) for name, job, patch in parts if name == "longest trees" and len(patch.support) == 8]
    for job, patch in rng.sample(small, 20) + large[:1]:
        yield "a byte too few lent", fit_call(encode(job), sheets.encode(patch), LONGEST_NETLIST - 1)


def row_calls(rng, accepted):
    """Two jobs both ways round: of each two verdicts, refused ones, those whose netlist is too large or just fits."""

    def both(name, a, b):
        yield "row: " + name, row_call(a, b)
        yield "row: " + name, row_call(b, a)

    small = [pair for pair in accepted if len(encode(pair[0])) < 600]
    verdicts = ("patch", "unfixable", "blind")
    named = {name: [encode(job) for job, verdict in small if verdict.name == name] for name in verdicts}
    for first in named:
        for second in named:
            for _ in range(12 if first == second == "patch" else 3):
                yield from both(f"{first} and {second}", rng.choice(named[first]), rng.choice(named[second]))
    for damage in rj.ALL_DAMAGES:
        refused = encode(rj.damaged(rng, rng.choice(small)[0], [damage]))
        yield from both("patch and a damaged job", rng.choice(named["patch"]), refused)
    fulls = [encode(job) for job, _ in rv.full_jobs(rng, 8, 2, ["patch", "unfixable", "blind"])]
    for data in fulls:
        yield from both("patch and 8,188 bytes", rng.choice(named["patch"]), data)
    limits = [(name, job) for name, job, _ in at_limit(rng, accepted) if "own" in name][:8]
    for k, (name, job) in enumerate(limits):
        yield from both("patch and " + name, rng.choice(named["patch"]), encode(job))
        yield from both("two at the limit", encode(limits[k - 1][1]), encode(job))


# ---- what the calls cover


def check_splits(parts):
    """Netlists that are fitted have each split on each net of 1 to 10."""
    found = set()
    for _, job, patch in parts:
        if not too_large(job, patch):
            for bits in columns_of(job, patch):
                found |= {(len(patch.support), place, name) for name, place in splits(bits)}
    assert found == {(k, place, name) for k in range(1, 11) for place in range(k) for name in (SPLITS if place else BOTH)}


def covered(parts):
    found = Counter()
    for _, job, patch in parts:
        number, fields = fit(encode(job), sheets.encode(patch))
        found[f"support nets {len(patch.support):2}, number {number}"] += 1
        if number:
            continue
        reached = jobs.reached_from_target(job)
        free = [net for net in range(job.first_gate_net(job.old), job.net_count(job.old)) if net not in reached]
        found[f"inputs {job.inputs:2}"] += 1
        found[f"targets {job.targets}"] += 1
        found["a support net behind a gate that a target leads to"] += any(
            net > low for net in patch.support for low in reached
        )
        found["gates of all three groups"] += bool(job.targets and reached and free)
        found["a target is an output"] += any(net in job.target_nets() for net in job.old.outputs)
        found["an input is an output"] += any(net < job.inputs for net in job.old.outputs)
        for count in {gate.count for gate in job.old.gates}:
            found[f"an old gate of {count} operands"] += 1
        found["a repeated output"] += len(set(job.old.outputs)) < len(job.old.outputs)
        found["a target that nothing reads"] += any(
            net not in job.old.outputs and all(net not in gate.operands() for gate in job.old.gates)
            for net in job.target_nets()
        )
        read = {net for gate in job.old.gates for net in gate.operands()} | set(job.old.outputs)
        found["a dead gate"] += any(net not in read for net in range(job.first_gate_net(job.old), job.net_count(job.old)))
        found["net 0 a target and a filler"] += job.inputs == 0 < job.targets and any(
            gate.count < gates.PLACES for gate in job.old.gates
        )
        found["differs from the golden netlist"] += compare.smallest_difference(job, patch) is not None
        found["4,075 bytes"] += len(fields) == LONGEST_NETLIST
        for name in {name for bits in columns_of(job, patch) for name, _ in splits(bits)}:
            found["a split, constant halves: " + name] += 1
    return found


def report(named, parts):
    calls = [call for _, call in named]
    print(f"{len(calls)} calls, {sum(len(data) for data, _ in calls)} bytes, {sum(len(text) for _, text in calls)} of lines")
    numbers, rows, classes = Counter(), Counter(), {}
    for name, (_, text) in named:
        words = text.split()
        if words[0] == "fit":
            numbers["fit, number " + words[1]] += 1
            classes.setdefault(name, Counter())[words[1]] += 1
        else:
            rows[name] += 1
    for found in (numbers, rows):
        for name, count in sorted(found.items()):
            print(f"{count:6}  {name}")
    for name, found in classes.items():
        print(f"{sum(found.values()):6}  {name}: " + ", ".join(f"number {x} {count}" for x, count in sorted(found.items())))
    for name, count in sorted(covered(parts).items()):
        print(f"{count:6}  {name}")


# ---- all of them


def made():
    rng = random.Random(SEED)
    accepted = list(rv.quota_jobs(rng)) + list(rv.related_jobs(rng))
    parts = list(good_parts(rng, accepted))
    check_splits(parts)
    named = list(accepted_calls(rng, parts)) + list(damaged_calls(rng, accepted, parts))
    named += list(short_calls(rng, accepted, parts)) + list(row_calls(rng, accepted))
    rng.shuffle(named)
    return named, parts
