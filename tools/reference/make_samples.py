#!/usr/bin/env python3
"""Makes again, from a fixed seed, what the programs of this repository are run on and must write:

    python3 tools/reference/make_samples.py

    crates/run_records/stdin, stdout   calls of the record library, and the lines that this reference gives
    crates/run_gates/stdout            the rows of its stdin (the simulator's table), those over 0 and 1 twice
    examples/a.job, a.judged, a.sheet, a.shown   job A of document 01, judge's sheet, choose's, and what `patcher show` says of it
    examples/VERDICT.job               variants of it: unfixable, blind, refused
    crates/rectify/stdin, stdout       job A, and what the program must print; crates/patcher/data has the job and choose's sheet
    tools/bench/longest.job            one accepted job of 8,188 bytes, of gates with up to two operands

It prints how often each service gives each number. With --try FILE, a file of lines that run_records wrote, it
compares them with its own and prints each line that differs with its call.
"""

import os
import random
import sys
from collections import Counter
from dataclasses import replace
from itertools import permutations

import cases
import gates
import job as jobs
import random_jobs as rj
import random_sheets as rs
import sheet as sheets
from calls import BYTE_LISTS, LARGEST, MOST_PLACES, SLOT_LISTS, after_call, again_call, columns, counts, read_call, sheet_call, write_call
from job import Candidate, Gate, Job, Netlist, encode
from rectify import rectify, said

SEED = 1364
TOP = os.path.dirname(os.path.dirname(os.path.dirname(os.path.abspath(__file__))))


# ---- jobs chosen by hand


def constants(k):
    return [Gate.of(0)] * k


def chain(leaf, first_net, k):
    """k buffers in a row behind a net."""
    return [Gate.of(2, leaf if i == 0 else first_net + i - 1) for i in range(k)]


def shaped(n, m, old, outputs, golden, goldens, candidates):
    return Job(n, m, Netlist(old, outputs), Netlist(golden, goldens), candidates)


def limit_jobs():
    """Counts at and one past each limit, and the smallest jobs."""
    one = constants(1)
    found = []
    for n in (0, 1, 19, 20, 21, 255):
        found.append(shaped(n, 0, one, [n], one, [n], []))
    for m in (0, 1, 3, 4, 5, 255):
        found.append(shaped(1, m, [], [0], [], [0], [Candidate(0, 65535)]))
    for k in (0, 1, 399, 400, 401):
        found.append(shaped(1, 1, constants(k), [0], [], [0], []))
        found.append(shaped(1, 1, [], [0], constants(k), [0], []))
    for k in (0, 1, 31, 32, 33):
        found.append(shaped(1, 1, [], [1] * k, [], [0] * k, []))
        found.append(shaped(1, 1, [], [1], [], [0] * k, []))
        found.append(shaped(1, 1, [], [1] * k, [], [0], []))
    for k in (0, 1, 9, 10, 11):
        found.append(shaped(12, 1, [], [0], [], [0], [Candidate(i, 65535 * (i % 2)) for i in range(k)]))
    return found


def one_gate(gate):
    """The gate as an old one, of net 3, and as a golden one, of net 2."""
    return [shaped(2, 1, [gate], [0], [], [0], []), shaped(2, 1, [], [0], [gate], [0], [])]


def count_jobs():
    """Every kind, and two too many, with every count up to 5, and 255."""
    found = []
    for kind in range(12):
        for count in rj.COUNTS:
            found += one_gate(Gate(kind, count, [0, 0, 0, 0]))
    for kind in range(4, 10):
        for count in (1, 2, 3, 4, 5):
            found += one_gate(Gate(kind, count, [1, 1, 1, 1]))
    return found


def place_jobs():
    """Every kind with each of its counts, and one too many: below, at and past the gate's own net on each side in each
    place, used or not."""
    found = []
    for kind in range(11):
        for count in gates.operand_counts(kind):
            for place in range(gates.PLACES):
                for net in (1, 2, 3, 4, 256, 65535):
                    places = [0, 0, 0, 0]
                    places[place] = net
                    found += one_gate(Gate(kind, count, places))
    return found


def good_gate_jobs():
    """Gates of every kind and count over different nets and over the same one, each of them an output."""
    found = []
    for nets in ([0, 1, 2, 3], [3, 2, 1, 0], [2, 2, 2, 2], [1, 1, 3, 3]):
        for kind in range(10):
            for count in gates.operand_counts(kind):
                gate = Gate.of(kind, *nets[:count])
                found.append(shaped(4, 1, [gate], [5], [gate], [4], [Candidate(5, 1)]))
    return found


def output_jobs():
    """Output nets at and past the last net of each side, which has no targets in the golden netlist."""
    found = []
    for net in range(7):
        found.append(shaped(2, 2, constants(1), [net], constants(2), [0], []))
        found.append(shaped(2, 2, constants(1), [0], constants(2), [net], []))
        found.append(shaped(2, 2, constants(1), [0, net], constants(2), [net, 0], []))
    return found


def candidate_jobs():
    """Each net and each pair of nets priced, over gates of which some are reached from a target."""
    found = []
    old = [
        Gate.of(4, 0, 1),  # net 4: of inputs
        Gate.of(0),  # net 5: a constant
        Gate.of(4, 5, 2),  # net 6: and (constant 0, target), still reached
        Gate.of(3, 6),  # net 7: behind net 6
        Gate.of(6, 4, 5),  # net 8: not reached
        Gate.of(8, 8, 7),  # net 9: reached by its second operand
        Gate.of(4, 0, 1, 3),  # net 10: reached by its third
        Gate.of(7, 0, 1, 4, 9),  # net 11: reached by its fourth
        Gate.of(8, 0, 1, 4, 8),  # net 12: not reached
        Gate.of(5, 12, 12, 5),  # net 13: not reached
    ]
    for net in list(range(16)) + [65535]:
        found.append(shaped(2, 2, old, [9], [], [1], [Candidate(net, 7)]))
    for a in (0, 1, 2, 4, 5, 6, 8, 12):
        for b in (0, 1, 3, 4, 5, 8, 9, 10, 13, 14):
            found.append(shaped(2, 2, old, [9], [], [1], [Candidate(a, 65535), Candidate(b, 0)]))
    return found


def filler_jobs():
    """With no input and a target, net 0 is a target and the filler of unused operands, which is no path."""
    found = []
    for m in (1, 2, 4):
        for gate in (Gate.of(0), Gate.of(1), Gate.of(2, 0), Gate.of(3, m - 1), Gate.of(8, 0, 0)):
            found.append(shaped(0, m, [gate], [0], constants(1), [0], [Candidate(m, 9)]))
        a, b = m, m + 1  # constants
        for kind, *operands in (
            [(3, a), (4, a, b), (5, a, b, a), (9, b, a, b, a)]  # not reached
            + [(2, 0), (6, a, 0), (7, 0, b, a), (8, a, b, 0), (5, a, b, a, 0), (4, a, 0, b, b)]  # reached
        ):
            gate = Gate.of(kind, *operands)
            found.append(shaped(0, m, constants(2) + [gate], [0], constants(1), [0], [Candidate(m + 2, 9)]))
    return found


def chain_jobs():
    """Long paths: the last of 400 gates behind a target, behind an input, and behind both."""
    found = []
    for n, m, leaf in [(1, 1, 0), (1, 1, 1), (20, 4, 19), (20, 4, 20), (20, 4, 23)]:
        first = n + m
        for k in (1, 2, 400):
            old = chain(leaf, first, k)
            found.append(shaped(n, m, old, [first + k - 1], [], [0], [Candidate(first + k - 1, 1)]))
    for operands in ([400, 1], [400, 400, 1], [0, 399, 400, 1]):
        old = chain(0, 2, 399) + [Gate.of(4, *operands)]
        found.append(shaped(1, 1, old, [0], [], [0], [Candidate(400, 1)]))
        found.append(shaped(1, 1, old, [0], [], [0], [Candidate(401, 1)]))
    # each gate reads the one before in another place
    places = [[net if place == net % 4 else 0 for place in range(4)] for net in range(1, 401)]
    old = [Gate(4 + k % 6, 4, operands) for k, operands in enumerate(places)]
    found.append(shaped(1, 1, old, [0], [], [0], [Candidate(401, 1)]))
    return found


def order_jobs():
    """Several things wrong at once, on one side or both: the smallest number wins."""
    bad_gate = Gate(4, 1, [0, 0, 0, 0])
    return [
        shaped(21, 1, [bad_gate], [0], [], [0], []),
        shaped(1, 5, [], [0], [bad_gate], [0], []),
        shaped(1, 1, [bad_gate], [0], [], [], []),
        shaped(1, 1, [bad_gate], [0], constants(401), [0], []),
        shaped(1, 1, [bad_gate], [9], [], [0], []),
        shaped(1, 1, [], [9], [bad_gate], [0], []),
        shaped(1, 1, [], [9], [], [0], [Candidate(1, 0)]),
        shaped(1, 1, [], [0], [], [0, 0], [Candidate(1, 0)]),
        shaped(1, 1, [], [0, 0], [], [9], [Candidate(9, 0)]),
        shaped(1, 1, [], [0], [bad_gate], [0], [Candidate(1, 0)]),
        shaped(1, 1, [], [0], [], [0] * 33, [Candidate(1, 0)]),
        shaped(1, 1, [bad_gate], [9], [bad_gate], [9, 9], [Candidate(9, 0), Candidate(1, 0)]),
        shaped(1, 1, [bad_gate], [9], [bad_gate], [9] * 33, [Candidate(9, 0), Candidate(1, 0)]),
        shaped(1, 1, [], [0], [], [0], [Candidate(i, 0) for i in range(11)]),
    ]


def with_bodies(old, golden):
    """The bytes of a job with these bytes in its fields of gates."""
    fields = rj.split(encode(shaped(2, 1, [], [0], [], [1], [])))
    return b"".join([fields[0], jobs.field(2, old), fields[2], jobs.field(4, golden)] + fields[4:])


def gate_lengths():
    """Fields of gates of every length up to three gates: only multiples of ten are accepted, or refused with 4."""
    for length in range(31):
        yield with_bodies(bytes(length), b"")
        yield with_bodies(b"", bytes(length))
    for old, golden in ((5, 5), (15, 5), (10, 15), (15, 20)):
        yield with_bodies(bytes(old), bytes(golden))


def five_byte_gates():
    """Gates of five bytes each, kind and two operands, as they were before card 6: one alone is 2, two are one of ten bytes,
    as a rule refused with 4."""
    for kind in range(10):
        body = bytes([kind]) + bytes([0, 0, 0, 1] if kind > 3 else [0, 0, 0, 0])
        yield with_bodies(body, b"")
        for second in (body, bytes([0, 0, 0, 0, 0]), bytes([4, 0, 1, 0, 0]), bytes([3, 0, 1, 0, 0])):
            yield with_bodies(body + second, b"")
            yield with_bodies(b"", second + body)


def longest_shapes():
    """Jobs of 65,534 bytes, of well-formed ones the longest that two-byte lengths and the programs' buffers take: too many
    gates."""
    return [shaped(1, 1, constants(6551), [0], [], [0], [])]


def hand_jobs():
    return (
        [rj.job_a()]
        + limit_jobs()
        + count_jobs()
        + place_jobs()
        + good_gate_jobs()
        + output_jobs()
        + candidate_jobs()
        + filler_jobs()
        + chain_jobs()
        + order_jobs()
    )


# ---- calls of read


def a_good_job(rng):
    """Mostly small; some shapes of their own."""
    return rng.choice(
        [
            lambda: rj.good_job(rng),
            lambda: rj.good_job(rng),
            lambda: rj.good_job(rng, n=0),
            lambda: rj.good_job(rng, m=0),
            lambda: rj.good_job(rng, m=4, priced=10),
            lambda: rj.good_job(rng, n=20, priced=10),
            lambda: rj.good_job(rng, old_gates=0),
            lambda: rj.good_job(rng, golden_gates=0),
            lambda: rj.good_job(rng, old_gates=30, golden_gates=25),
            lambda: rj.good_job(rng, outputs=32),
            lambda: rj.good_job(rng, priced=0),
        ]
    )()


def a_damaged_job(rng, most=4):
    damages = rng.sample(rj.ALL_DAMAGES, rng.randrange(1, most + 1))
    return rj.damaged(rng, a_good_job(rng), damages)


def noise(rng):
    return bytes(rng.randrange(256) for _ in range(rng.choice([0, 1, 2, 3, 4, 5, 9, 20, 60, 200])))


def some_bytes(rng):
    """A job's bytes, of any kind."""
    data = encode(rng.choice([a_good_job, a_good_job, a_damaged_job])(rng))
    return rng.choice(rj.BYTE_DAMAGES)(rng, data) if rng.random() < 0.3 else data


def read_calls(rng):
    for job in hand_jobs():
        yield read_call(encode(job))
    # the sizes of the paper's line "Run"
    for gate_count in (400, 401):
        for _ in range(3):
            yield read_call(encode(rj.longest_job(rng, gate_count)))
    longest = rj.longest_job(rng)
    for k in (32, 33):
        longest.old.outputs = longest.golden.outputs = [rng.randrange(420) for _ in range(k)]
        yield read_call(encode(longest))
    # bytes: cut at every place, each byte changed, noise
    for data in (encode(rj.job_a()), encode(rj.good_job(rng, 2, 1, 2, 1, 2, 2))):
        for at in range(len(data)):
            yield read_call(data[:at])
            for x in (0, 255, (data[at] + 1) % 256):
                yield read_call(data[:at] + bytes([x]) + data[at + 1 :])
        for extra in (b"\0", b"\6\0\0", b"\7\0\0", data):
            yield read_call(data + extra)
    for _ in range(40):
        yield read_call(noise(rng))
    for data in list(gate_lengths()) + list(five_byte_gates()):
        yield read_call(data)
    # random ones
    for _ in range(250):
        yield read_call(encode(a_good_job(rng)))
    for damage in rj.ALL_DAMAGES:
        for _ in range(12):
            yield read_call(encode(rj.damaged(rng, a_good_job(rng), [damage])))
    for _ in range(250):
        yield read_call(encode(a_damaged_job(rng)))
    for damage in rj.BYTE_DAMAGES:
        for _ in range(15):
            yield read_call(damage(rng, encode(a_good_job(rng))))
        for _ in range(5):
            yield read_call(damage(rng, encode(a_damaged_job(rng))))
    # fields that fill what two bytes can say
    yield read_call(encode(shaped(1, 1, constants(6500), [0], [], [0], [])))
    for job in longest_shapes():
        yield read_call(encode(job))
    yield read_call(encode(shaped(1, 1, [Gate(77, 0, [0, 0, 0, 0])], [0], [], [0] * 32000, [])))
    yield read_call(encode(shaped(1, 1, [], [0], [], [0], []))[:-3] + b"\6\377\377" + bytes(9000))
    # lent places: one too short, all longer than asked; 1 comes before every other number
    for short in range(1, 12):
        for _ in range(6):
            yield read_call(some_bytes(rng), short)
        yield read_call(encode(rj.job_a()), short)
        yield read_call(b"", short)
    yield read_call(encode(rj.longest_job(rng)), 11)
    yield read_call(encode(rj.longest_job(rng)), 1)


def again_and_after_calls(rng):
    for _ in range(150):
        yield again_call(encode(a_good_job(rng)))
    for _ in range(30):
        yield again_call(some_bytes(rng))
    for _ in range(3):
        yield again_call(encode(rj.longest_job(rng)))
    for _ in range(120):
        yield after_call(some_bytes(rng), some_bytes(rng))
    longest = encode(rj.longest_job(rng))
    other = encode(rj.longest_job(rng))
    for first, second in [(longest, encode(rj.job_a())), (encode(rj.job_a()), longest), (longest, other), (other, longest)]:
        yield after_call(first, second)
    yield after_call(longest, b"")


# ---- calls of write


def spare_places(rng, job):
    """A job's lists, some with places behind those that count."""
    lists = columns(job)
    for k, values in enumerate(lists):
        if rng.random() < 0.5:
            room = max(0, MOST_PLACES[k] - len(values))
            width = 256 if k in BYTE_LISTS else 65536
            values += [rng.randrange(width) for _ in range(min(room, rng.randrange(6)))]
    return lists


def write_job(rng, job, buffer_length=jobs.LONGEST_JOB):
    return write_call(buffer_length, counts(job), [values[:most] for values, most in zip(spare_places(rng, job), MOST_PLACES)])


def write_calls(rng):
    for job in hand_jobs():
        if rng.random() < 0.25 or jobs.number_of_parts(job) != 4:
            yield write_job(rng, job)
    for _ in range(200):
        yield write_job(rng, a_good_job(rng), rng.choice([8188, 8188, 8189, 8200]))
    for damage in rj.ALL_DAMAGES:
        for _ in range(8):
            yield write_job(rng, rj.damaged(rng, a_good_job(rng), [damage]))
    for _ in range(120):
        yield write_job(rng, a_damaged_job(rng))
    for gate_count in (400, 400, 401):
        yield write_job(rng, rj.longest_job(rng, gate_count))
    # 1 comes before every other number
    for length in (0, 1, 42, 4188, 8187, 8188):
        yield write_job(rng, rj.job_a(), length)
        yield write_job(rng, rj.longest_job(rng), length)
        for _ in range(6):
            yield write_job(rng, a_damaged_job(rng), length)
    # counts above their places, and counts that wrap in a byte, a half-word or a word
    for k in range(7):
        for count in (11, 21, 33, 255, 256, 258, 401, 419, 1000, 32768, 65534, LARGEST):
            job = rj.good_job(rng, 2, 1, 3, 3, 2, 2)
            asked = counts(job)
            asked[k] = count
            yield write_call(jobs.LONGEST_JOB, asked, columns(job))
    for k in range(10):
        for missing in (1, 2) if k not in SLOT_LISTS else (1, 2, 3, 4, 5):
            for job in (rj.good_job(rng, 3, 1, 4, 4, 3, 2), a_damaged_job(rng)):
                lists = [values[: 56 if i in SLOT_LISTS else 14] for i, values in enumerate(columns(job))]
                lists[k] = lists[k][: max(0, len(lists[k]) - missing)]
                yield write_call(jobs.LONGEST_JOB, counts(job), lists)


# ---- calls of read_sheet


def sheet_for(job, data):
    return sheet_call(job.targets, len(job.candidates), *columns(job)[8:], data)


def long_sheets(rng, job):
    """Many support nets: up to 15 have a table that a field can hold; 2^16 is 0 in two bytes."""
    for k, table in [(10, 1024), (11, 2048), (12, 4096), (15, 32768), (15, 32767), (16, 0), (16, 1), (16, 65), (17, 0)]:
        patch = sheets.Patch(list(range(k)), [0] * table, 0)
        yield sheet_for(job, sheets.encode(patch))
        for notes in (table, table - 1, table + 1):
            if 0 <= notes and table + notes < 40000:
                yield sheet_for(job, sheets.encode(replace(patch, notes=[0] * notes)))
    for k, table in [(31, 0), (32, 1), (32, 0), (33, 2), (63, 0), (64, 1), (64, 0), (65, 2), (256, 1), (300, 0), (8000, 1)]:
        patch = sheets.Patch([i % 65536 for i in range(k)], [0] * table, 0)
        yield sheet_for(job, sheets.encode(patch))


def note_sheets(rng):
    """(targets, nets, sheet): every number of notes around that of the readings, every byte in each place, and field 22 where
    it does not belong."""
    for k in range(4):
        patch = sheets.Patch(list(range(k)), [0] * 2**k, 0)
        for m in (0, 1, 4):
            for size in range(2 ** (k + 1) + 2):
                yield m, k, sheets.encode(replace(patch, notes=rs.some_notes(rng, size)))
        for place in range(2**k):
            for note in (0, 1, 2, 3, 4, 127, 128, 255):
                notes = rs.some_notes(rng, 2**k)
                notes[place] = note
                yield 1, k, sheets.encode(replace(patch, notes=notes))
                yield 1, k, sheets.encode(replace(patch, notes=notes, cost=1))
                yield 1, k, sheets.encode(replace(patch, notes=notes, table=[0] * (2**k - 1) + [2]))
        fields = rj.split(sheets.encode(replace(patch, notes=rs.some_notes(rng, 2**k))))
        for order in permutations(range(4)):
            yield 1, k, b"".join(fields[i] for i in order)
        for left in range(4):
            yield 1, k, b"".join(fields[:left] + fields[left + 1 :])
            yield 1, k, b"".join(fields[: left + 1] + fields[left:])
    for size in (0, 1, 255, 256, 257, 512):  # 256 readings
        patch = sheets.Patch(list(range(8)), [0] * 256, 0, rs.some_notes(rng, size))
        yield 2, 8, sheets.encode(patch)


def vector_sheets(rng):
    """(targets, nets, sheet): a field 19 in each place, of each length, with notes and without; and in any order of five fields, so
    also as card 1 had it. All of them are 7, also with a wrong cost, entry or net."""
    for k in range(4):
        plain = sheets.Patch(list(range(k)), [0] * 2**k, 0)
        for patch in (plain, replace(plain, notes=rs.some_notes(rng, 2**k))):
            for wrong in (patch, replace(patch, cost=1), replace(patch, table=[16] * 2**k), replace(patch, support=[9] * k)):
                for put in rs.VECTOR_FIELDS.values():
                    m = rng.randrange(5)
                    yield m, k, rs.with_vectors(sheets.encode(wrong), rng.sample(range(2**m), rng.randrange(1, 2**m + 1)), put)
        fields = rj.split(sheets.encode(patch)) + [jobs.field(19, b"\0\1")]
        for order in permutations(range(5)):
            yield 1, k, b"".join(fields[i] for i in order)
    for m in range(5):
        for size in (0, 1, 2**m - 1, 2**m, 2**m + 1, 255, 256, 257):
            for notes in (None, [rng.randrange(3)]):
                data = sheets.encode(sheets.Patch([], [0], 0, notes))
                for put in (rs.VECTOR_FIELDS["19 behind 18"], rs.VECTOR_FIELDS["19 at the end"]):
                    yield m, 0, rs.with_vectors(data, [0] * size, put)
        for entry in (2**m - 1, 2**m, 255):
            yield m, 0, rs.with_vectors(data, [entry], rs.VECTOR_FIELDS["19 behind 18"])


def sheet_calls(rng):
    sheet_a = sheets.Patch([0, 1], [0, 0, 0, 1], 7)
    job_a = rj.job_a()
    for notes in (None, [1, 1, 1, 1]):
        data = sheets.encode(replace(sheet_a, notes=notes))
        yield sheet_for(job_a, data)
        for at in range(len(data)):
            yield sheet_for(job_a, data[:at])
            for x in (0, 255, (data[at] + 1) % 256, (data[at] - 1) % 256):
                yield sheet_for(job_a, data[:at] + bytes([x]) + data[at + 1 :])
        for extra in (b"\0", b"\23\0\0", b"\23\0\2\0\1", b"\23\0\2\0\1\26\0\4\1\1\1\1", b"\24\0\4\0\0\0\0", b"\26", b"\26\0", b"\26\0\0", b"\26\0\4\0\1\2", data):
            yield sheet_for(job_a, data + extra)
    for m, k, data in note_sheets(rng):
        yield sheet_call(m, k, list(range(k)), [0] * k, data)
    for m, k, data in vector_sheets(rng):
        assert sheets.read(m, [Candidate(i, 0) for i in range(k)], data)[0] == 7
        yield sheet_call(m, k, list(range(k)), [0] * k, data)
    for m in range(5):
        for entry in (2**m - 1, 2**m, 255):
            yield sheet_call(m, 0, [], [], sheets.encode(sheets.Patch([], [entry], 0)))
            yield sheet_call(m, 0, [], [], sheets.encode(sheets.Patch([], [entry], 0, [1])))
    # an odd number of support bytes, with each table that the pairs among them could ask for
    for k in range(8):
        for table in (2 ** (k // 2), 2 ** ((k + 1) // 2), 2 ** ((k + 1) // 2 + 1)):
            body = b"".join(i.to_bytes(2, "big") for i in range(4))[:k]
            whole = jobs.field(16, body) + jobs.field(17, bytes(table)) + jobs.field(18, bytes(4))
            yield sheet_call(1, 4, [0, 1, 2, 3], [0, 0, 0, 0], whole)
    data = sheets.encode(sheet_a)
    for length in (0, 3, 5, 8):
        body = data.split(b"\22\0\4\0\0\0\7")
        yield sheet_for(job_a, body[0] + jobs.field(18, bytes(length)) + body[1])
    for _ in range(200):
        job = a_good_job(rng)
        yield sheet_for(job, sheets.encode(rs.good_patch(rng, job)))
    for damage in rs.ALL_SHEET_DAMAGES:
        for _ in range(25):
            job = rj.good_job(rng, n=6, priced=rng.randrange(1, 6))
            patch = rs.damaged_patch(rng, job, rs.good_patch(rng, job), [damage])
            yield sheet_for(job, sheets.encode(patch))
    for damage in rs.NOTE_FIELD_DAMAGES.values():
        for turn in range(20):
            job = rj.good_job(rng, n=6, priced=rng.randrange(1, 6))
            patch = rs.good_patch(rng, job)
            patch = replace(patch, notes=rs.some_notes(rng, len(patch.table)))
            also = [rng.choice(rs.SHEET_DAMAGES[8])] if turn % 2 else []
            data = sheets.encode(rs.damaged_patch(rng, job, patch, also))
            yield sheet_for(job, rs.damaged_fields(rng, data, damage))
    for damage in rs.NOTE_DAMAGES:
        for also in rs.SHEET_DAMAGES[8] * 3:
            job = rj.good_job(rng, n=6, priced=rng.randrange(2, 6))
            patch = rs.damaged_patch(rng, job, rs.good_patch(rng, job), [damage, also])
            yield sheet_for(job, sheets.encode(patch))
    for _ in range(120):
        job = rj.good_job(rng, n=6, priced=rng.randrange(1, 6))
        damages = rng.sample(rs.ALL_SHEET_DAMAGES, rng.randrange(2, 5))
        data = sheets.encode(rs.damaged_patch(rng, job, rs.good_patch(rng, job), damages))
        yield sheet_for(job, rng.choice(rj.BYTE_DAMAGES)(rng, data) if rng.random() < 0.3 else data)
    for damage in rj.BYTE_DAMAGES:
        for _ in range(12):
            job = a_good_job(rng)
            yield sheet_for(job, damage(rng, sheets.encode(rs.good_patch(rng, job))))
    for _ in range(20):
        yield sheet_for(a_good_job(rng), noise(rng))
    # the dearest sheet, and the longest: ten nets at 65,535 each
    dear = rj.good_job(rng, 20, 4, 0, 0, 1, 10)
    for candidate in dear.candidates:
        candidate.weight = 65535
    for nets in (9, 10):
        patch = rs.good_patch(rng, dear, nets)
        for patch.notes in (None, rs.some_notes(rng, 2**nets), rs.some_notes(rng, 2**nets - 1)):
            yield sheet_for(dear, sheets.encode(patch))
            yield sheet_for(dear, sheets.encode(replace(patch, cost=patch.cost % 65536)))
    yield from long_sheets(rng, dear)
    yield from long_sheets(rng, job_a)
    # counts outside their ranges or above their places
    data = sheets.encode(replace(sheet_a, notes=[1, 1, 1, 1]))
    for targets in (0, 1, 2, 5, 64, 65534, LARGEST):
        yield sheet_call(targets, 2, [0, 1], [3, 4], data)
    for priced in (0, 1, 2, 3, 10, 11, LARGEST):
        yield sheet_call(1, priced, [0, 1], [3, 4], data)
        yield sheet_call(1, priced, [0, 1, 5], [3, 4, 6], data)
        yield sheet_call(1, priced, [0, 1, 5], [3, 4], data)
        yield sheet_call(1, priced, [0, 1], [3, 4, 6], data)
        yield sheet_call(1, priced, [0, 1], [3], data)
        yield sheet_call(1, priced, [0], [3, 4], data)
        yield sheet_call(1, priced, [], [], b"")
    for priced in (10, 11):
        nets, weights = columns(dear)[8:]
        yield sheet_call(4, priced, nets + [40], weights + [1], sheets.encode(rs.good_patch(rng, dear)))


# ---- the other programs' files


def store_examples():
    a, blind, _, unfixable, *_, refused, _ = cases.jobs_of_cases()
    verdict = rectify(encode(a))
    for path in ("examples", "crates/patcher/data"):
        store(f"{path}/a.job", encode(a))
        store(f"{path}/a.sheet", verdict.chosen.sheet)
    store("examples/a.judged", verdict.judged.sheet)
    store("examples/a.shown", described(a))
    store("crates/rectify/stdin", encode(a))
    store("crates/rectify/stdout", said(verdict).replace(", ", "\n") + "\n")
    for name, job in (("blind", blind), ("unfixable", unfixable), ("refused", refused)):
        assert said(rectify(encode(job))).startswith(name)
        store(f"examples/{name}.job", encode(job))


def described(job):
    """What `patcher show` says of an accepted job: each count, and under it the nets, gates or candidates."""
    rows = [f"inputs {job.inputs}", f"targets {job.targets}"]
    for name, side in (("old", job.old), ("golden", job.golden)):
        rows.append(f"{name} gates {len(side.gates)}")
        for k, gate in enumerate(side.gates):
            words = [gates.NAMES[gate.kind]] + [str(net) for net in gate.operands()]
            rows.append(f"  net {job.first_gate_net(side) + k} " + " ".join(words))
        rows.append(f"{name} outputs {len(side.outputs)}")
        rows += [f"  net {net}" for net in side.outputs]
    rows.append(f"candidates {len(job.candidates)}")
    rows += [f"  net {c.net} weight {c.weight}" for c in job.candidates]
    return "".join(row + "\n" for row in rows)


def rows_said(table):
    """The rows of the simulator's table as run_gates is to print them: by the value on 0 and 1 where no operand is x, then
    by the value over 0, 1 and x."""
    rows = []
    for row in table.splitlines(keepends=True):
        name, *words = row.split()
        if name != "#":
            rows += [row] if "x" in words[:-2] else [row, row]
    return "".join(rows)


# ---- making and comparing


def made():
    rng = random.Random(SEED)
    found = []
    for calls in (read_calls, again_and_after_calls, write_calls, sheet_calls):
        found += list(calls(rng))
    # mixed, so that calls of every kind follow each other
    rng.shuffle(found)
    return found


def store(path, content):
    path = os.path.join(TOP, path)
    os.makedirs(os.path.dirname(path), exist_ok=True)
    with open(path, "wb") as file:
        file.write(content if isinstance(content, bytes) else content.encode())


def report(calls):
    tally = Counter(tuple(text.split()[:2]) for _, text in calls)
    for name in ("read", "again", "after", "write", "sheet"):
        print(name, " ".join(f"{n}:{tally[(name, str(n))]}" for n in range(9) if tally[(name, str(n))]))
    print(len(calls), "calls,", sum(len(data) for data, _ in calls), "bytes")


def compare(calls, path):
    with open(path, encoding="ascii") as file:
        lines = file.readlines()
    wrong = 0
    for k, (data, text) in enumerate(calls):
        got = lines[k] if k < len(lines) else "nothing\n"
        if got != text:
            wrong += 1
            print(f"call {k}: expected {text.strip()}, got {got.strip()}: {data[:200].hex()}")
    print(wrong, "lines differ,", len(lines) - len(calls), "lines too many")


def main():
    calls = made()
    if sys.argv[1:2] == ["--try"]:
        compare(calls, sys.argv[2])
        return
    store("crates/run_records/stdin", b"".join(data for data, _ in calls))
    store("crates/run_records/stdout", "".join(text for _, text in calls))
    with open(os.path.join(TOP, "crates/run_gates/stdin"), encoding="ascii") as file:
        store("crates/run_gates/stdout", rows_said(file.read()))
    store_examples()
    store("tools/bench/longest.job", encode(rj.longest_job(random.Random(SEED), most=2)))
    report(calls)


if __name__ == "__main__":
    main()
