"""Patch sheets (document 01, "Verdicts" and "Numbers given when a call is declined"; cards 1 and 7 of document 02).

    Patch                             a sheet's parts; notes is None where it has no field 22
    read(targets, candidates, data)   (0, the patch) or (7 or 8, whichever applies first, None)
    encode(patch)                     the three or four fields of any parts, good or not
    table_start(patch)                where the table's bytes start in the sheet
"""

from dataclasses import dataclass

from job import field, number, pieces, walk


@dataclass
class Patch:
    support: list
    table: list
    cost: int
    notes: list = None


def encode(patch):
    three = (
        field(16, b"".join(net.to_bytes(2, "big") for net in patch.support))
        + field(17, bytes(patch.table))
        + field(18, patch.cost.to_bytes(4, "big"))
    )
    return three if patch.notes is None else three + field(22, bytes(patch.notes))


def table_start(patch):
    """Field 16 comes first, then the tag and the length of field 17."""
    return 3 + 2 * len(patch.support) + 3


def read(targets, candidates, data):
    bodies = walk(data, [16, 17, 18]) or walk(data, [16, 17, 18, 22])
    if bodies is None:
        return 7, None
    support_body, table_body, cost_body, *note_bodies = bodies
    if len(support_body) % 2:
        return 7, None
    support = [number(p) for p in pieces(support_body, 2)]
    if len(table_body) != 2 ** len(support):
        return 7, None
    if len(cost_body) != 4:
        return 7, None
    if any(len(notes) != len(table_body) or max(notes) > 2 for notes in note_bodies):
        return 7, None

    weights = {c.net: c.weight for c in candidates}
    if any(later <= earlier for earlier, later in zip(support, support[1:])):
        return 8, None
    if any(net not in weights for net in support):
        return 8, None
    if any(entry >= 2**targets for entry in table_body):
        return 8, None
    cost = number(cost_body)
    if cost != sum(weights[net] for net in support):
        return 8, None
    return 0, Patch(support, list(table_body), cost, *map(list, note_bodies))
