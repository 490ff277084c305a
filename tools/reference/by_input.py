"""One input at a time, gate by gate: the second way beside simulate.py, which takes all inputs at once.

    values_at(job, side, x, vector)   the values of all nets of a side at an input
    fixing_at(job, x)                 the vectors that fix an input
    left_at(job, nets)                for each reading of these nets that inputs give, the vectors that fix them all
"""

import gates


def values_at(job, side, x, vector):
    values = [x >> i & 1 for i in range(job.inputs)]
    values += [vector >> t & 1 for t in range(job.targets)] if side is job.old else []
    for gate in side.gates:
        values.append(gates.value(gate.kind, [values[net] for net in gate.operands()]))
    return values


def fixing_at(job, x):
    golden = values_at(job, job.golden, x, 0)
    found = set()
    for vector in range(2**job.targets):
        old = values_at(job, job.old, x, vector)
        if [old[net] for net in job.old.outputs] == [golden[net] for net in job.golden.outputs]:
            found.add(vector)
    return found


def left_at(job, nets):
    """Of each reading that an input gives, the vectors that fix this one too are left."""
    left = {}
    for x in range(2**job.inputs):
        fixing, old = fixing_at(job, x), values_at(job, job.old, x, 0)
        reading = sum(old[net] << i for i, net in enumerate(nets))
        left[reading] = left.get(reading, fixing) & fixing
    return left
