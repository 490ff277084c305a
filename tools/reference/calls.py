"""The calls that the program run_records makes, as bytes of its standard input, and the line each must print.

A call is one byte, which service, a two-byte length, and that many bytes:

    1 read    one byte, which of the ten places is a place too short (0: none, 11: all are longer than asked), and a job
    2 write   two bytes, the buffer's length; seven counts of two bytes each; ten lists
    3 sheet   targets and candidates, two bytes each; nets and weights, a list each; and a sheet
    4 again   a job, which is read and then written from the places
    5 after   two bytes, a length; a job of that length, which is read first; and a second job, read into the same places

A list is a two-byte number of places and their values, two bytes each, kinds and operand counts one byte. A count of
65,535 stands for the largest number of its type, 2^64 - 1. The ten places are old kinds, operand counts, slots (the
operand places, four a gate, gate by gate) and outputs, the same four of the golden netlist, nets and weights, each the
start of 401 places, slots of 1,601; again and after lend all of them. A line has the service's name and the numbers of
its reply; read and after end in a hash of all places, write and again in a hash of a buffer of 8,200 bytes, of which
some are lent. Before each call every place and byte holds a pattern, so that one that should be untouched shows in the
hash if it is not.
"""

import gates
import job as jobs
import sheet as sheets

GATES, OUTPUTS, CANDIDATES = jobs.MAX_GATES, jobs.MAX_OUTPUTS, jobs.MAX_CANDIDATES
SLOTS = gates.PLACES * GATES
SIZES = [GATES, GATES, SLOTS, OUTPUTS, GATES, GATES, SLOTS, OUTPUTS, CANDIDATES, CANDIDATES]
BYTE_LISTS = (0, 1, 4, 5)
SLOT_LISTS = (2, 6)
PLACES = [SLOTS + 1 if k in SLOT_LISTS else GATES + 1 for k in range(10)]
MOST_PLACES = [1620 if k in SLOT_LISTS else 420 for k in range(10)]  # of a list in a call of write
BUFFER = 8200
LARGEST = 2**64 - 1


def two(x):
    return x.to_bytes(2, "big")


def call(service, payload):
    assert len(payload) < 65536
    return bytes([service]) + two(len(payload)) + payload


# ---- places


def pattern(which, size, width):
    return [(i * 7 + 13 * which) % width for i in range(size)]


def patterned():
    """The ten lists of places; of each only some are lent."""
    return [pattern(k + 1, size, 256 if k in BYTE_LISTS else 65536) for k, size in enumerate(PLACES)]


def hash_of(lists):
    h = 0
    for values in lists:
        for x in values:
            h = (h * 16777619 + x + 1) % 2**32
    return h


def columns(job):
    """A job's ten lists."""
    side_lists = [
        [
            [g.kind for g in side.gates],
            [g.count for g in side.gates],
            [net for g in side.gates for net in g.places],
            list(side.outputs),
        ]
        for side in (job.old, job.golden)
    ]
    return side_lists[0] + side_lists[1] + [[c.net for c in job.candidates], [c.weight for c in job.candidates]]


def counts(job):
    return [
        job.inputs,
        job.targets,
        len(job.old.gates),
        len(job.old.outputs),
        len(job.golden.gates),
        len(job.golden.outputs),
        len(job.candidates),
    ]


def read_into(places, lent, data):
    """Reads with so many of each of the places lent: the number and the counts; the places are changed."""
    if any(length < size for length, size in zip(lent, SIZES)):
        return [1] + [0] * 7
    refusal, job = jobs.read(data)
    if refusal:
        return [refusal] + [0] * 7
    for values, column in zip(places, columns(job)):
        values[: len(column)] = column
    return [0] + counts(job)


def gates_of(kinds, operand_counts, slots):
    """The gates of three lists."""
    return [jobs.Gate(*parts) for parts in zip(kinds, operand_counts, jobs.pieces(slots, gates.PLACES))]


def written(buffer_length, asked, lists):
    """The number and the bytes written, from lists of places of which the first so many are asked for."""
    if buffer_length < jobs.LONGEST_JOB:
        return 1, b""
    n, m, old_gates, old_outputs, golden_gates, golden_outputs, priced = asked
    needed = [old_gates, old_gates, gates.PLACES * old_gates, old_outputs]
    needed += [golden_gates, golden_gates, gates.PLACES * golden_gates, golden_outputs, priced, priced]
    if any(count > len(values) for count, values in zip(needed, lists)):
        return 3, b""
    kept = [values[:count] for count, values in zip(needed, lists)]
    return jobs.write(
        jobs.Job(
            n,
            m,
            jobs.Netlist(gates_of(*kept[0:3]), kept[3]),
            jobs.Netlist(gates_of(*kept[4:7]), kept[7]),
            [jobs.Candidate(*c) for c in zip(*kept[8:10])],
        )
    )


# ---- one function a service: the call's bytes and the line


def line(name, numbers):
    return name + "".join(f" {x}" for x in numbers) + "\n"


def read_call(data, short=0):
    places = patterned()
    lent = [size + (1 if short == 11 else -1 if short == k + 1 else 0) for k, size in enumerate(SIZES)]
    reply = read_into(places, lent, data)
    return call(1, bytes([short]) + data), line("read", reply + [hash_of(places)])


def write_call(buffer_length, asked, lists):
    payload = two(buffer_length) + b"".join(two(min(c, 65535)) for c in asked)
    assert all(len(values) <= most for values, most in zip(lists, MOST_PLACES))
    for k, values in enumerate(lists):
        payload += two(len(values)) + b"".join(bytes([x]) if k in BYTE_LISTS else two(x) for x in values)
    refusal, data = written(buffer_length, asked, lists)
    buffer = pattern(11, BUFFER, 256)
    buffer[: len(data)] = data
    return call(2, payload), line("write", [refusal, len(data), hash_of([buffer])])


def sheet_call(targets, priced, nets, weights, data):
    payload = two(min(targets, 65535)) + two(min(priced, 65535))
    for values in (nets, weights):
        payload += two(len(values)) + b"".join(two(x) for x in values)
    if targets > jobs.MAX_TARGETS or priced > min(jobs.MAX_CANDIDATES, len(nets), len(weights)):
        refusal, patch = 3, None
    else:
        candidates = [jobs.Candidate(*c) for c in zip(nets, weights)][:priced]
        refusal, patch = sheets.read(targets, candidates, data)
    if refusal:
        reply = [refusal] + [0] * 13
    else:
        spare = [0] * (10 - len(patch.support))
        reply = [0, len(patch.support)] + patch.support + spare + [sheets.table_start(patch), patch.cost]
    return call(3, payload + data), line("sheet", reply)


def again_call(data):
    places = patterned()
    reply = read_into(places, PLACES, data)
    refusal, back = written(jobs.LONGEST_JOB, reply[1:], places)
    assert (reply[0] == 0) == (refusal == 0) and (refusal or back == data)
    buffer = pattern(11, BUFFER, 256)
    buffer[: len(back)] = back
    return call(4, data), line("again", [reply[0], refusal, len(back), hash_of([buffer])])


def after_call(first, second):
    places = patterned()
    read_into(places, PLACES, first)
    reply = read_into(places, PLACES, second)
    return call(5, two(len(first)) + first + second), line("after", reply + [hash_of(places)])
