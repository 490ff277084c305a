"""Judge (document 01, "Verdicts"; card 7 of document 02), by plain enumeration: every vector is tried as the document words it,
each over all inputs at once (simulate.py says how).

    judge(data, buffer_length)   the reply: number, judgement, the input it names, and the sheet's bytes
    judgement_of(job)            the judgement on an accepted job
    fixed_inputs(job)            for each vector the set of inputs that it fixes
    vector_list(job, fixed)      (the list, None), or (the list, the unfixable input)
"""

from dataclasses import dataclass

import job as jobs
import simulate

LONGEST_SHEET = 26


@dataclass
class Judgement:
    number: int
    name: str  # fixable, unfixable or declined
    value: int  # the input; None where there is none
    sheet: bytes
    vectors: list


def fixed_inputs(job):
    every = simulate.every_input(job)
    golden = simulate.output_values(job, job.golden, [])
    found = []
    for vector in range(2**job.targets):
        differing = 0
        for old_output, golden_output in zip(simulate.output_values(job, job.old, simulate.vector_values(job, vector)), golden):
            differing |= old_output ^ golden_output
        found.append(every ^ differing)
    return found


def vector_list(job, fixed):
    found = [0]
    while True:
        left = simulate.every_input(job)
        for vector in found:
            left &= ~fixed[vector]
        if left == 0:
            return found, None
        x = simulate.smallest(left)
        fixing = [vector for vector in range(2**job.targets) if fixed[vector] >> x & 1]
        if not fixing:
            return found, x
        found.append(fixing[0])


def judgement_of(job):
    vectors, unfixable = vector_list(job, fixed_inputs(job))
    vector_field = jobs.field(19, bytes(vectors))
    if unfixable is None:
        return Judgement(0, "fixable", None, vector_field, vectors)
    return Judgement(0, "unfixable", unfixable, jobs.field(20, unfixable.to_bytes(4, "big")) + vector_field, vectors)


def judge(data, buffer_length=LONGEST_SHEET):
    number, job = (1, None) if buffer_length < LONGEST_SHEET else jobs.read(data)
    return judgement_of(job) if number == 0 else Judgement(number, "declined", None, b"", [])
