"""Choose (document 01, "Verdicts"; cards 1, 5 and 7 of document 02), by plain enumeration: every reading and every set of priced
nets is tried as the document words it, each over all inputs at once (simulate.py says how).

    choose(data, buffer_length)   the reply: number, choice, what it names, and the sheet's bytes
    choice_of(job)                the choice on an accepted job, fixable or not
    shared_vectors(job, fixed)    for each reading of all priced nets that occurs, the vectors that fix all its inputs
    table_of(job, shared, places) a support's table, or None where it is not sound
    cheapest(job, shared)         the sound supports of lowest cost, each with its table
    patch_gates(job, table)       how many gates a table's trees have, summed over all targets
    rank(job, places, table)      of supports of equal cost the smallest wins: gates, number of nets, nets
    notes_of(job, fixed, nets)    a sound support's notes, one a reading

A support's reading is a part of the reading of all priced nets: the inputs that give it are those of all the readings
that agree on the support. So the vectors are tried once a reading of all of them, and a support only meets those sets.
"""

from dataclasses import dataclass
from functools import lru_cache
from itertools import combinations, groupby

import job as jobs
import sheet as sheets
import simulate
from fit import tree
from judge import fixed_inputs

LONGEST_SHEET = 2084


@dataclass
class Choice:
    number: int
    name: str  # patch, blind or declined
    value: int  # the cost or the reading; None where there is none
    sheet: bytes
    patch: sheets.Patch = None


def shared_vectors(job, fixed):
    values = simulate.net_values(job, job.old, simulate.vector_values(job, 0))
    priced = [values[c.net] for c in job.candidates]
    broken = [simulate.every_input(job) ^ inputs for inputs in fixed]
    return {
        reading: {vector for vector in range(2**job.targets) if inputs & broken[vector] == 0}
        for reading, inputs in simulate.readings(priced, simulate.every_input(job))
    }


@lru_cache(maxsize=None)
def parts(count, places):
    """For each reading of so many priced nets, ascending, the reading of the support whose nets have these places among them."""
    found = [0]
    for place in range(count):
        bit = 2 ** places.index(place) if place in places else 0
        found += [own + bit for own in found]
    return found


def table_of(job, shared, places):
    part, left = parts(len(job.candidates), places), {}
    for reading, vectors in shared.items():
        own = part[reading]
        left[own] = left.get(own, vectors) & vectors
        if not left[own]:
            return None
    return [min(left[own]) if own in left else 0 for own in range(2 ** len(places))]


def cost_of(job, places):
    return sum(job.candidates[place].weight for place in places)


def supports(job):
    """All of them, as ascending places among the priced nets."""
    priced = range(len(job.candidates))
    return [places for size in range(len(priced) + 1) for places in combinations(priced, size)]


def cheapest(job, shared):
    def cost(places):
        return cost_of(job, places)

    for _, equal in groupby(sorted(supports(job), key=cost), cost):
        found = [(places, table) for places in equal if (table := table_of(job, shared, places)) is not None]
        if found:
            return found
    return []


def patch_gates(job, table):
    """The trees of card 2, which fit builds; how many gates they have does not depend on the numbers of the nets."""
    gates, nets = [], range(len(table).bit_length() - 1)
    for t in range(job.targets):
        tree(gates, len(nets), nets, [entry >> t & 1 for entry in table])
    return len(gates)


def rank(job, places, table):
    return patch_gates(job, table), len(places), places


def notes_of(job, fixed, nets):
    """0 where no input gives the reading, 1 where exactly one vector fixes all inputs that give it, 2 where several do."""
    values = simulate.net_values(job, job.old, simulate.vector_values(job, 0))
    notes = [0] * 2 ** len(nets)
    for reading, inputs in simulate.readings([values[net] for net in nets], simulate.every_input(job)):
        fixing = [vector for vector in range(2**job.targets) if inputs & ~fixed[vector] == 0]
        notes[reading] = 1 if len(fixing) == 1 else 2
    return notes


def choice_of(job):
    fixed = fixed_inputs(job)
    shared = shared_vectors(job, fixed)
    stuck = [reading for reading, left in shared.items() if not left]
    if stuck:
        return Choice(0, "blind", min(stuck), jobs.field(21, min(stuck).to_bytes(2, "big")))
    places, table = min(cheapest(job, shared), key=lambda found: rank(job, *found))
    nets = [job.candidates[place].net for place in places]
    patch = sheets.Patch(nets, table, cost_of(job, places), notes_of(job, fixed, nets))
    return Choice(0, "patch", patch.cost, sheets.encode(patch), patch)


def choose(data, buffer_length=LONGEST_SHEET):
    number, job = (1, None) if buffer_length < LONGEST_SHEET else jobs.read(data)
    return choice_of(job) if number == 0 else Choice(number, "declined", None, b"")
