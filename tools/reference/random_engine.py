#!/usr/bin/env python3
"""Makes again, from fixed seeds, the calls that the program run_engine is run on and the lines it must write (verdict_calls.py and
fit_calls.py have their form):

    python3 tools/reference/random_engine.py

    crates/run_engine/stdin, stdout   the calls of random_verdicts.py, of output_orders.py, then of random_fit.py, and the lines that this reference gives

It prints how many calls of each class there are. With --try FILE, a file of lines that run_engine wrote, it compares them with its own
and prints each line that differs with its call.
"""

import sys

import output_orders
import random_fit
import random_verdicts
from make_samples import compare, store


def main():
    judged, jobs_and_verdicts, sheet_names = random_verdicts.made()
    orders, paired = output_orders.made()
    named, parts = random_fit.made()
    calls = judged + paired + [call for _, call in named]
    if sys.argv[1:2] == ["--try"]:
        compare(calls, sys.argv[2])
        return
    store("crates/run_engine/stdin", b"".join(data for data, _ in calls))
    store("crates/run_engine/stdout", "".join(text for _, text in calls))
    random_verdicts.report(judged, jobs_and_verdicts, sheet_names)
    output_orders.report(orders, paired)
    random_fit.report(named, parts)


if __name__ == "__main__":
    main()
