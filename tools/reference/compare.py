"""Compare (document 01, "Fitting and comparing"): a job and a patch sheet by anyone.

    compare(job_data, sheet_data)      (0, None) where equal, (0, the smallest differing input), or (2 to 8, None)
    accepted(job_data, sheet_data)     (0, the job, the patch) or (2 to 8, None, None)
    driven_outputs(job, patch)         the old outputs' values where the table drives the targets
    smallest_difference(job, patch)    the smallest input at which they differ from the golden ones, or None
"""

import job as jobs
import sheet as sheets
import simulate


def accepted(job_data, sheet_data):
    number, job = jobs.read(job_data)
    if number:
        return number, None, None
    number, patch = sheets.read(job.targets, job.candidates, sheet_data)
    return (number, None, None) if number else (0, job, patch)


def driven_outputs(job, patch):
    """A target is 1 at the inputs that give a reading whose entry has its bit."""
    values = simulate.net_values(job, job.old, simulate.vector_values(job, 0))
    support = [values[net] for net in patch.support]
    targets = [0] * job.targets
    for reading, inputs in simulate.readings(support, simulate.every_input(job)):
        for t in range(job.targets):
            if patch.table[reading] >> t & 1:
                targets[t] |= inputs
    return simulate.output_values(job, job.old, targets)


def smallest_difference(job, patch):
    differing = 0
    for driven, golden in zip(driven_outputs(job, patch), simulate.output_values(job, job.golden, [])):
        differing |= driven ^ golden
    return simulate.smallest(differing) if differing else None


def compare(job_data, sheet_data):
    number, job, patch = accepted(job_data, sheet_data)
    return (number, None) if number else (0, smallest_difference(job, patch))
