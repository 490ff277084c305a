"""Random patch sheets for a job, good and damaged.

    good_patch(rng, job)        a patch that is accepted, with or without notes; its table need not be sound, nor the notes true
    some_notes(rng, size)       so many notes, each 0, 1 or 2
    SHEET_DAMAGES               changes of a patch's parts, by the number that each alone gives
    NOTE_DAMAGES                those of 7 that concern the notes
    NOTE_FIELD_DAMAGES          changes of the bytes of a sheet with notes, by name; number 7
    VECTOR_FIELDS               a field 19 put into a sheet, with or without notes, by name; number 7
"""

import copy

import random_jobs as rj
from job import field, number
from sheet import Patch


def some_notes(rng, size):
    return [rng.randrange(3) for _ in range(size)]


def good_patch(rng, job, nets=None):
    k = rng.randrange(len(job.candidates) + 1) if nets is None else nets
    chosen = sorted(rng.sample(range(len(job.candidates)), min(k, len(job.candidates))))
    return Patch(
        [job.candidates[i].net for i in chosen],
        [rng.randrange(2**job.targets) for _ in range(2 ** len(chosen))],
        sum(job.candidates[i].weight for i in chosen),
        some_notes(rng, 2 ** len(chosen)) if rng.random() < 0.5 else None,
    )


def short_table(rng, job, patch):
    patch.table = patch.table[:-1] if rng.random() < 0.5 else patch.table[: len(patch.table) // 2]


def long_table(rng, job, patch):
    patch.table = patch.table + (patch.table if rng.random() < 0.5 else [0])


def table_of_other_size(rng, job, patch):
    """More or fewer support nets than the table has readings for."""
    patch.support = patch.support + [rng.randrange(30)] if rng.random() < 0.5 or not patch.support else patch.support[1:]


def sized_notes(rng, patch, size):
    patch.notes = some_notes(rng, size)


def short_notes(rng, job, patch):
    """Some are missing, but not all; of a single one, two are there."""
    size = len(patch.table)
    sized_notes(rng, patch, rng.choice([1, size // 2, size - 1]) if size > 1 else 2)


def long_notes(rng, job, patch):
    sized_notes(rng, patch, len(patch.table) + rng.choice([1, 1, 2, len(patch.table), 256]))


def empty_notes(rng, job, patch):
    patch.notes = []


def wrong_note(rng, job, patch):
    sized_notes(rng, patch, max(1, len(patch.table)))
    patch.notes[rng.choice([0, -1, rng.randrange(len(patch.notes))])] = rng.choice([3, 3, 3, 4, 128, 255])


def wrong_entry(rng, job, patch):
    if patch.table:
        patch.table[rng.randrange(len(patch.table))] = rng.choice([2**job.targets, 255])


def wrong_cost(rng, job, patch):
    patch.cost = rng.choice([patch.cost + 1, max(0, patch.cost - 1), patch.cost + 65536, 2**32 - 1, 0])


def not_a_candidate(rng, job, patch):
    others = [net for net in range(40) if net not in [c.net for c in job.candidates]]
    if patch.support:
        patch.support[rng.randrange(len(patch.support))] = rng.choice(others + [65535])
        if rng.random() < 0.7:
            patch.support.sort()


def repeated_support(rng, job, patch):
    if len(patch.support) >= 2:
        k = rng.randrange(len(patch.support) - 1)
        patch.support[k + 1] = patch.support[k]
        weights = {c.net: c.weight for c in job.candidates}
        patch.cost = sum(weights.get(net, 0) for net in patch.support)


def swapped_support(rng, job, patch):
    if len(patch.support) >= 2:
        k = rng.randrange(len(patch.support) - 1)
        patch.support[k], patch.support[k + 1] = patch.support[k + 1], patch.support[k]


NOTE_DAMAGES = [short_notes, long_notes, empty_notes, wrong_note]
SHEET_DAMAGES = {
    7: [short_table, long_table, table_of_other_size] + NOTE_DAMAGES,
    8: [wrong_entry, wrong_cost, not_a_candidate, repeated_support, swapped_support],
}
ALL_SHEET_DAMAGES = [damage for damages in SHEET_DAMAGES.values() for damage in damages]


def damaged_patch(rng, job, patch, damages):
    patch = copy.deepcopy(patch)
    for damage in damages:
        damage(rng, job, patch)
    return patch


# ---- damage to the bytes of a sheet with notes


def twice(rng, fields):
    return fields + [rng.choice([fields[3], field(22, b"")])]


def moved(rng, fields):
    """Before another field."""
    place = rng.randrange(3)
    return fields[:place] + [fields[3]] + fields[place:3]


def cut_short(rng, fields):
    return fields[:3] + [fields[3][: rng.randrange(1, len(fields[3]))]]


def bytes_behind(rng, fields):
    more = [b"\0", b"\26", b"\26\0", bytes([rng.randrange(256)]), fields[2], field(23, b""), fields[3][1:]]
    return fields + [rng.choice(more)]


def other_tag(rng, fields):
    return fields[:3] + [bytes([rng.choice([0, 16, 19, 20, 21, 23, 150])]) + fields[3][1:]]


def other_length(rng, fields):
    """The length does not say how many notes there are."""
    length = number(fields[3][1:3])
    others = [other for other in (length - 1, length + 1, length ^ 256, 256 * (length % 256), 65535) if other not in (length, -1)]
    return fields[:3] + [fields[3][:1] + rng.choice(others).to_bytes(2, "big") + fields[3][3:]]


NOTE_FIELD_DAMAGES = {
    "notes twice": twice,
    "notes moved": moved,
    "notes cut short": cut_short,
    "bytes behind the notes": bytes_behind,
    "another tag for 22": other_tag,
    "another length for 22": other_length,
}


def damaged_fields(rng, data, damage):
    """The bytes of a sheet with notes, damaged."""
    fields = rj.split(data)
    assert len(fields) == 4
    return b"".join(damage(rng, fields))


# ---- a field 19 (fields: those of the sheet, three or four; listed: a field 19 as judge writes it)


VECTOR_FIELDS = {
    "19 behind 18": lambda fields, listed: fields[:3] + [listed] + fields[3:],  # the form of card 1
    "19 at the end": lambda fields, listed: fields + [listed],
    "19 in place of 22": lambda fields, listed: fields[:3] + [listed],
    "19 at the front": lambda fields, listed: [listed] + fields,
    "19 behind 16": lambda fields, listed: fields[:1] + [listed] + fields[1:],
    "19 behind 17": lambda fields, listed: fields[:2] + [listed] + fields[2:],
    "19 in place of 18": lambda fields, listed: fields[:2] + [listed] + fields[3:],
    "19 twice": lambda fields, listed: fields[:3] + [listed, listed] + fields[3:],
    "19 around 22": lambda fields, listed: fields[:3] + [listed] + fields[3:] + [listed],
    "an empty 19": lambda fields, listed: fields[:3] + [field(19, b"")] + fields[3:],
    "an empty 19 at the end": lambda fields, listed: fields + [field(19, b"")],
    "19 alone": lambda fields, listed: [listed],
    "19 with the notes": lambda fields, listed: fields[:3] + [field(19, b"".join(part[3:] for part in fields[3:]))],
    "19 over 22": lambda fields, listed: fields[:3] + [field(19, listed[3:] + b"".join(fields[3:]))],
}


def with_vectors(data, vectors, put):
    """The bytes of a sheet with a field 19 put into it."""
    fields = rj.split(data)
    assert len(fields) in (3, 4)
    return b"".join(put(fields, field(19, bytes(vectors))))
