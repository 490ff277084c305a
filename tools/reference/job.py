"""Jobs (document 01, "Nets and gates", "Bytes" and "Numbers given when a call is declined"; card 6 of document 02).

    Job, Netlist, Gate, Candidate   a job's parts
    number_of_parts(job)            the first of 3 to 6 that applies to the parts, else 0
    read(data)                      (0, the job) or (the first of 2 to 6 that applies, None)
    write(job)                      (0, the bytes) or (the first of 3 to 6 that applies, b"")
    encode(job)                     the six fields of any parts, good or not
    reached_from_target(job)        the old nets to which a path of gates leads from a target

Numbers 1 (lent places, reply buffer) depend on the caller's places and stand in calls.py.
"""

from dataclasses import dataclass

import gates

MAX_INPUTS = 20
MAX_TARGETS = 4
MAX_GATES = 400
MAX_OUTPUTS = 32
MAX_CANDIDATES = 10
GATE_BYTES = 10
LONGEST_JOB = 8188


@dataclass
class Gate:
    kind: int
    count: int
    places: list  # four

    @staticmethod
    def of(kind, *operands):
        """The gate of a kind with these operands; the other places hold 0."""
        return Gate(kind, len(operands), list(operands) + [0] * (gates.PLACES - len(operands)))

    def operands(self):
        """The operands that are used."""
        return self.places[: self.count]

    def fillers(self):
        """The operand places that are not used."""
        return self.places[self.count :]


@dataclass
class Netlist:
    gates: list
    outputs: list


@dataclass
class Candidate:
    net: int
    weight: int


@dataclass
class Job:
    inputs: int
    targets: int
    old: Netlist
    golden: Netlist
    candidates: list

    def first_gate_net(self, side):
        """The net that gate 0 of a side drives."""
        return self.inputs + (self.targets if side is self.old else 0)

    def net_count(self, side):
        return self.first_gate_net(side) + len(side.gates)

    def target_nets(self):
        return range(self.inputs, self.inputs + self.targets)


# ---- fields


def number(data):
    """A number of any width, the high byte first."""
    return int.from_bytes(data, "big")


def walk(data, tags):
    """The bodies of the fields with these tags, in this order and with nothing after; None if they are not there."""
    bodies = []
    for tag in tags:
        if len(data) < 3 or data[0] != tag:
            return None
        length = number(data[1:3])
        if len(data) < 3 + length:
            return None
        bodies.append(data[3 : 3 + length])
        data = data[3 + length :]
    return bodies if not data else None


def field(tag, body):
    return bytes([tag]) + len(body).to_bytes(2, "big") + body


def pieces(body, size):
    return [body[i : i + size] for i in range(0, len(body), size)]


def netlist_of(gate_body, output_body):
    return Netlist(
        [Gate(p[0], p[1], [number(place) for place in pieces(p[2:], 2)]) for p in pieces(gate_body, GATE_BYTES)],
        [number(p) for p in pieces(output_body, 2)],
    )


def two(x):
    return x.to_bytes(2, "big")


def gate_body(side):
    return b"".join(bytes([g.kind, g.count]) + b"".join(two(net) for net in g.places) for g in side.gates)


def output_body(side):
    return b"".join(two(net) for net in side.outputs)


def encode(job):
    return (
        field(1, bytes([job.inputs, job.targets]))
        + field(2, gate_body(job.old))
        + field(3, output_body(job.old))
        + field(4, gate_body(job.golden))
        + field(5, output_body(job.golden))
        + field(6, b"".join(two(c.net) + two(c.weight) for c in job.candidates))
    )


# ---- the numbers


def counts_in_range(job):
    sides = (job.old, job.golden)
    return (
        0 <= job.inputs <= MAX_INPUTS
        and 0 <= job.targets <= MAX_TARGETS
        and all(len(side.gates) <= MAX_GATES for side in sides)
        and all(1 <= len(side.outputs) <= MAX_OUTPUTS for side in sides)
        and len(job.candidates) <= MAX_CANDIDATES
    )


def gates_good(job, side):
    for k, gate in enumerate(side.gates):
        own_net = job.first_gate_net(side) + k
        if gate.kind > 9 or gate.count not in gates.operand_counts(gate.kind):
            return False
        if any(net >= own_net for net in gate.operands()):
            return False
        if any(place != 0 for place in gate.fillers()):
            return False
    return True


def outputs_good(job):
    for side in (job.old, job.golden):
        if any(net >= job.net_count(side) for net in side.outputs):
            return False
    return len(job.old.outputs) == len(job.golden.outputs)


def reached_from_target(job):
    """A search along the gates, from the targets on; a target itself is not counted as reached by a path of gates."""
    readers = {}
    for k, gate in enumerate(job.old.gates):
        for net in gate.operands():
            readers.setdefault(net, []).append(job.first_gate_net(job.old) + k)
    reached = set()
    to_visit = list(job.target_nets())
    while to_visit:
        for net in readers.get(to_visit.pop(), []):
            if net not in reached:
                reached.add(net)
                to_visit.append(net)
    return reached


def candidates_good(job):
    nets = [c.net for c in job.candidates]
    if any(later <= earlier for earlier, later in zip(nets, nets[1:])):
        return False
    reached = reached_from_target(job)
    for net in nets:
        if net >= job.net_count(job.old) or net in job.target_nets() or net in reached:
            return False
    return True


def number_of_parts(job):
    if not counts_in_range(job):
        return 3
    if not (gates_good(job, job.old) and gates_good(job, job.golden)):
        return 4
    if not outputs_good(job):
        return 5
    if not candidates_good(job):
        return 6
    return 0


# ---- the services


def read(data):
    bodies = walk(data, [1, 2, 3, 4, 5, 6])
    if bodies is None or len(bodies[0]) != 2:
        return 2, None
    if any(len(body) % size for body, size in zip(bodies[1:], [GATE_BYTES, 2, GATE_BYTES, 2, 4])):
        return 2, None
    job = Job(
        bodies[0][0],
        bodies[0][1],
        netlist_of(bodies[1], bodies[2]),
        netlist_of(bodies[3], bodies[4]),
        [Candidate(number(p[:2]), number(p[2:])) for p in pieces(bodies[5], 4)],
    )
    refusal = number_of_parts(job)
    return refusal, None if refusal else job


def write(job):
    refusal = number_of_parts(job)
    return refusal, b"" if refusal else encode(job)
