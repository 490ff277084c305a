#!/usr/bin/env python3
"""Makes again, from a fixed seed, the jobs that tools/bench/run measures judge and choose on:

    python3 tools/reference/bench_jobs.py

    tools/bench/decide_VERDICT_N.job   full-size jobs: 20 inputs, 4 targets, 400 gates a side, 32 outputs, 10 priced nets
    tools/bench/four_VERDICT_N.job     the same, nearly every gate with four operands; the last with two to four
    tools/bench/unseen_VERDICT_N.job   the same, with a support of which most readings do not occur

Nothing in them can be left out early: every output depends on every input and every target, mostly by xor; a patch needs
nearly all priced nets; an unfixable input is among the last; the vector list is long. It prints what each job has.
"""

import os
import random

import cut_jobs as cj
import job as jobs
from rectify import rectify

SEED = 1364
TOP = os.path.dirname(os.path.dirname(os.path.dirname(os.path.abspath(__file__))))
WANTED = [
    ("decide", "patch", 1.0, (2,)),
    ("decide", "patch", 0.95, (2,)),
    ("decide", "patch", 0.85, (2,)),
    ("decide", "unfixable", 0.95, (2,)),
    ("decide", "blind", 1.0, (2,)),
    ("decide", "blind", 0.9, (2,)),
    ("four", "patch", 0.95, (4,)),
    ("four", "blind", 0.9, (2, 3, 4)),
    ("unseen", "patch", 0.95, (2,)),
]


def cone_of_output(job, side, net):
    """The nets that lead to an output."""
    first = job.first_gate_net(side)
    return cj.cone(first, side.gates, [net])


def all_to_all(job):
    """Every output is reached from every input, and in the old netlist from every target."""
    return all(
        set(range(job.first_gate_net(side))) <= set(cone_of_output(job, side, net))
        for side in (job.old, job.golden)
        for net in side.outputs
    )


def hard(job, verdict):
    if verdict.name == "patch" and len(verdict.patch.support) < 9:
        return False
    return all_to_all(job) and len(verdict.vectors) == 16


def main():
    rng = random.Random(SEED)
    for k, (start, name, xor_share, counts) in enumerate(WANTED, 1):
        while True:
            related = start == "unseen"
            job = cj.full_job(rng, name, used=10, xor_share=xor_share, late=18, counts=counts, related=related)
            verdict = rectify(jobs.encode(job))
            if verdict.name == name and hard(job, verdict):
                break
        with open(os.path.join(TOP, f"tools/bench/{start}_{name}_{k}.job"), "wb") as file:
            file.write(jobs.encode(job))
        read = len({net for output in job.old.outputs for net in cone_of_output(job, job.old, output)}) - 24
        kinds = sum(gate.kind >= cj.XOR for gate in job.old.gates)
        operands = sum(gate.count for gate in job.old.gates) / len(job.old.gates)
        about = f"{read} old gates lead to outputs, {kinds} are xor or xnor, {operands:.2f} operands a gate"
        if verdict.patch:
            about += f", {verdict.patch.notes.count(0)} readings do not occur"
        print(f"{start}_{name}_{k}: {name} {verdict.value}, sheets of {len(verdict.judged.sheet)} and {len(verdict.chosen.sheet)} bytes; {about}")


if __name__ == "__main__":
    main()
