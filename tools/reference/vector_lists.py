"""The sentences of card 8 of document 02, tried on this reference's own judge and choose. cases.py runs it.

    check_list(job)          no vector is listed twice, there are at most 2^m, each after the first fixes an input that none
                             before it fixes; one input at a time
    check_orders(rng, job)   with both output lists in other orders, up to four outputs in every order, both sheets are the same bytes
    check_random(rng)        both on random jobs; what they cover
"""

from collections import Counter
from itertools import permutations

import cut_jobs as cj
import output_orders
from by_input import fixing_at
from choose import choose
from job import encode
from judge import judge


def check_list(job):
    vectors = judge(encode(job)).vectors
    assert len(set(vectors)) == len(vectors) <= 2**job.targets, job
    fixing = [fixing_at(job, x) for x in range(2**job.inputs)]
    for k, vector in enumerate(vectors[1:], 1):
        assert any(vector in found and found.isdisjoint(vectors[:k]) for found in fixing), job
    return len(vectors)


def sheets_of(job):
    data = encode(job)
    judged, chosen = judge(data), choose(data)
    assert judged.number == chosen.number == 0, job
    return judged.sheet, chosen.sheet


def orders_of(rng, count):
    if count <= 4:
        return list(permutations(range(count)))
    return [output_orders.backwards(rng, count)] + [output_orders.mixed(rng, count) for _ in range(5)]


def check_orders(rng, job):
    sheets = sheets_of(job)
    orders = orders_of(rng, len(job.old.outputs))
    for order in orders:
        assert sheets_of(output_orders.reordered(job, order)) == sheets, (job, order)
    return len(orders)


def check_random(rng, count):
    found = Counter()
    for turn in range(count):
        job = cj.cut_job(rng, turn % 7, turn // 7 % 5, rng.random() < 0.5)
        if turn % 3 == 0:
            job = output_orders.with_repeats(rng, job, rng.choice([1, 2, 4, output_orders.up_to_most(rng, job)]))
        found["jobs"] += 1
        found["of three vectors and more"] += check_list(job) > 2
        found["with repeated output nets"] += any(len(set(side.outputs)) < len(side.outputs) for side in (job.old, job.golden))
        found["orders"] += check_orders(rng, job)
    return dict(found)
