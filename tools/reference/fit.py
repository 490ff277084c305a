"""Fit (document 01, "Fitting and comparing"; cards 2 and 6 of document 02): the patched netlist of a job and a patch sheet by anyone.

    fit(job_data, sheet_data, buffer_length)   (0, the three fields) or (1 to 9, b"")
    patched(job, patch)                        the patched netlist, of any size
"""

import job as jobs
from compare import accepted
from job import Gate, Netlist

LONGEST_NETLIST = 4075
ZERO, ONE, BUF, NOT, AND, OR = 0, 1, 2, 3, 4, 6


def emit(gates, first_net, gate):
    """Appends a gate; the net that it drives."""
    gates.append(gate)
    return first_net + len(gates) - 1


def tree(gates, first_net, support, column):
    """Appends the tree of a column over the support's new nets; the net of its root. A half that is constant, where the halves
    differ, has no gate of its own."""

    def put(kind, *operands):
        return emit(gates, first_net, Gate.of(kind, *operands))

    def build(half):
        return tree(gates, first_net, support[:-1], half)

    if not any(column):
        return put(ZERO)
    if all(column):
        return put(ONE)
    s = support[-1]
    low, high = column[: len(column) // 2], column[len(column) // 2 :]
    if low == high:
        return build(low)
    if not any(low) and all(high):
        return put(BUF, s)
    if all(low) and not any(high):
        return put(NOT, s)
    if not any(low):
        high_net = build(high)
        return put(AND, s, high_net)
    if not any(high):
        low_net = build(low)
        not_s = put(NOT, s)
        return put(AND, not_s, low_net)
    if all(low):
        high_net = build(high)
        not_s = put(NOT, s)
        return put(OR, not_s, high_net)
    if all(high):
        low_net = build(low)
        return put(OR, s, low_net)
    low_net = build(low)
    high_net = build(high)
    not_s = put(NOT, s)
    low_part = put(AND, not_s, low_net)
    high_part = put(AND, s, high_net)
    return put(OR, low_part, high_part)


def patched(job, patch):
    reached = jobs.reached_from_target(job)
    new_net = {net: net for net in range(job.inputs)}
    gates = []

    def move(group):
        """Appends old gates, given with their old nets, each used operand by its new net; an unused place stays 0."""
        for net, gate in group:
            operands = [new_net[operand] for operand in gate.operands()]
            new_net[net] = emit(gates, job.inputs, Gate.of(gate.kind, *operands))

    old = list(enumerate(job.old.gates, job.first_gate_net(job.old)))
    move([(net, gate) for net, gate in old if net not in reached])
    support = [new_net[net] for net in patch.support]
    for t, net in enumerate(job.target_nets()):
        new_net[net] = tree(gates, job.inputs, support, [entry >> t & 1 for entry in patch.table])
    move([(net, gate) for net, gate in old if net in reached])
    return Netlist(gates, [new_net[net] for net in job.old.outputs])


def fit(job_data, sheet_data, buffer_length=LONGEST_NETLIST):
    if buffer_length < LONGEST_NETLIST:
        return 1, b""
    number, job, patch = accepted(job_data, sheet_data)
    if number:
        return number, b""
    netlist = patched(job, patch)
    if len(netlist.gates) > jobs.MAX_GATES:
        return 9, b""
    return 0, (
        jobs.field(1, bytes([job.inputs, 0]))
        + jobs.field(2, jobs.gate_body(netlist))
        + jobs.field(3, jobs.output_body(netlist))
    )
