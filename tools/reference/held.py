"""Ranges of inputs on which every vector does, as where a job's outputs are held at 0 on both sides, and what they have to do with the
notes (card 1 of document 02): their inputs narrow no reading's vectors, but give readings. cases.py tries the notes of such jobs;
random_verdicts.py stores jobs of each class.

    ranges(job)              the ranges of 2^15 inputs of which every vector fixes every input
    alone(job, nets, held)   how many readings of these nets only inputs of the held ranges give
    held_class(job, patch)   what the notes have to tell, in words
"""

import cut_jobs as cj
import simulate
from judge import fixed_inputs


def ranges(job):
    """Each has the inputs from a multiple of 2^15 on."""
    fixed = simulate.every_input(job)
    for inputs in fixed_inputs(job):
        fixed &= inputs
    size = 2**cj.RANGE_INPUTS
    found = [(2**size - 1) << start for start in range(0, 2**job.inputs, size)]
    return [inputs for inputs in found if fixed & inputs == inputs]


def alone(job, nets, held):
    others = simulate.every_input(job) ^ sum(held)
    values = simulate.net_values(job, job.old, simulate.vector_values(job, 0))
    found = simulate.readings([values[net] for net in nets], simulate.every_input(job))
    return sum(inputs & others == 0 for _, inputs in found)


def held_class(job, patch):
    """With targets, a support and held ranges: whether there are readings that no input gives, readings that only inputs of held ranges
    give, or both, and whether more than 16 or more than 64 are of these two sorts. Else None."""
    held = ranges(job) if job.targets and patch.support and job.inputs > cj.RANGE_INPUTS else []
    if not held:
        return None
    given, unseen = alone(job, patch.support, held), patch.notes.count(0)
    if not given and not unseen:
        return "held: no reading unseen"
    name = "both" if given and unseen else "unseen readings" if unseen else "readings that held inputs alone give"
    passed = [limit for limit in (64, 16) if given + unseen > limit]
    return "held: " + name + (f", more than {passed[0]}" if passed else "")
