"""The calls of judge, choose and compare that the program run_engine makes, as bytes of its standard input, and the line each must
print.

A call is one byte, which service, a two-byte length, and that many bytes:

    1 judge     two bytes, how much of judge's buffer is lent; two bytes, how much of choose's; and a job, which is judged and
                then chosen for, each into a buffer of its own
    2 compare   two bytes, a length; a job of that length; and a patch sheet
    3 order     two lengths of two bytes each; two jobs of these lengths and a third. Each in turn is judged and then chosen for,
                all three into the same two buffers, of which 26 and 2,084 bytes are lent

The lines, with a verdict's value where there is one:

    judge NUMBER LENGTH fixable|unfixable|declined [INPUT] HASH choose NUMBER LENGTH patch|blind|declined [COST|READING] HASH
    compare NUMBER equal|differs|declined [INPUT]
    order, then for each of the three jobs
        NUMBER LENGTH fixable|unfixable|declined [INPUT]     of judge
        NUMBER LENGTH patch|blind|declined [COST|READING]    of choose
    then HASH of judge's buffer and HASH of choose's

HASH is that of a whole buffer, 2,200 bytes, which holds a pattern before each call, so that a byte that should be
untouched shows in the hash if it is not.
"""

import choose as choosing
import judge as judging
from calls import call, hash_of, pattern, two
from compare import compare
from rectify import choose, judge

BUFFER = 2200


def line(words):
    return " ".join(str(word) for word in words) + "\n"


def replied(buffer, reply):
    """Puts a reply's sheet at the start of the buffer: the words of the line."""
    buffer[: len(reply.sheet)] = reply.sheet
    return [reply.number, len(reply.sheet), reply.name] + ([] if reply.value is None else [reply.value])


def judge_call(data, judge_lent=judging.LONGEST_SHEET, choose_lent=choosing.LONGEST_SHEET):
    words = []
    for name, reply in (("judge", judge(data, judge_lent)), ("choose", choose(data, choose_lent))):
        buffer = pattern(11, BUFFER, 256)
        words += [name] + replied(buffer, reply) + [hash_of([buffer])]
    return call(1, two(judge_lent) + two(choose_lent) + data), line(words)


def compared(job_data, sheet_data):
    """The words of the line."""
    number, x = compare(job_data, sheet_data)
    return [number, "declined"] if number else [0, "equal"] if x is None else [0, "differs", x]


def compare_call(job_data, sheet_data):
    return call(2, two(len(job_data)) + job_data + sheet_data), line(["compare"] + compared(job_data, sheet_data))


def order_call(first, second, third):
    judged, chosen = pattern(11, BUFFER, 256), pattern(11, BUFFER, 256)
    words = []
    for data in (first, second, third):
        words += replied(judged, judge(data)) + replied(chosen, choose(data))
    payload = two(len(first)) + two(len(second)) + first + second + third
    return call(3, payload), line(["order"] + words + [hash_of([judged]), hash_of([chosen])])
