"""Values of nets on all inputs at once (document 01, "Nets and gates"; card 6 of document 02).

A set of inputs is one integer of 2^n bits: bit x is 1 where input x is in the set. A net's values are such an integer
too, the set of inputs at which it is 1. So a gate is a few operations on integers, and a question about every input is
one comparison; nothing is searched, skipped or packed by hand.

    every_input(job)                   the set of all inputs
    input_values(job)                  the values of the inputs' nets
    gate_values(every, kind, operands) the values of a gate's net
    net_values(job, side, targets)     the values of all nets of a side; targets are the values of the target nets
    output_values(job, side, targets)  the values of its outputs
    vector_values(job, vector)         the values of the target nets where every input has this vector
    readings(values, inputs)           (reading, the inputs of a set that give it) for each that some of them gives, ascending
    smallest(inputs)                   the smallest input of a set
"""


def every_input(job):
    return 2 ** (2**job.inputs) - 1


def input_values(job):
    """Input i is 1 on every second run of 2^i inputs."""
    found = []
    for i in range(job.inputs):
        run = 2**i
        values = (2**run - 1) << run
        width = 2 * run
        while width < 2**job.inputs:
            values |= values << width
            width *= 2
        found.append(values)
    return found


def gate_values(every, kind, operands):
    if kind == 0:
        return 0
    if kind == 1:
        return every
    if kind == 2:
        return operands[0]
    if kind == 3:
        return every ^ operands[0]
    plain = operands[0]
    for operand in operands[1:]:
        plain = (plain & operand, plain | operand, plain ^ operand)[(kind - 4) // 2]
    return every ^ plain if kind % 2 else plain


def net_values(job, side, targets):
    every = every_input(job)
    values = input_values(job) + (targets if side is job.old else [])
    for gate in side.gates:
        values.append(gate_values(every, gate.kind, [values[net] for net in gate.operands()]))
    return values


def output_values(job, side, targets):
    values = net_values(job, side, targets)
    return [values[net] for net in side.outputs]


def vector_values(job, vector):
    every = every_input(job)
    return [every if vector >> t & 1 else 0 for t in range(job.targets)]


def readings(values, inputs, above=0):
    """values are those of the nets that are read, ascending, so the last one's bit is the highest."""
    if inputs == 0:
        return
    if not values:
        yield above, inputs
        return
    ones = inputs & values[-1]
    yield from readings(values[:-1], inputs ^ ones, above)
    yield from readings(values[:-1], ones, above + 2 ** (len(values) - 1))


def smallest(inputs):
    return (inputs & -inputs).bit_length() - 1
