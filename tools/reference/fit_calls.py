"""The calls of fit, and of choose, fit and compare in a row, that the program run_engine makes, as bytes of its standard input, and
the line each must print.

A call is one byte, which service, a two-byte length, and that many bytes:

    4 fit    two bytes, how much of the buffer is lent; two bytes, a length; a job of that length; and a patch sheet
    5 row    two bytes, a length; a job of that length; and a second job. Each in turn is chosen for into one buffer, of which
             2,084 bytes are lent, then fitted with the sheet that stands there into a second one, of which 4,075 are lent,
             then compared with that sheet

The lines, with a verdict's value and a differing input where there is one:

    fit NUMBER LENGTH HASH
    row, then for each of the two jobs
        NUMBER LENGTH patch|blind|declined [COST|READING]   of choose
        NUMBER LENGTH                                       of fit
        NUMBER equal|differs|declined [INPUT]               of compare
    then HASH of the sheets' buffer and HASH of the netlists'

HASH is that of a whole buffer, 4,200 bytes, which holds a pattern before each call, so that a byte that should be
untouched shows in the hash if it is not.
"""

from calls import call, hash_of, pattern, two
from fit import LONGEST_NETLIST, fit
from rectify import choose
from verdict_calls import compared, line, replied

BUFFER = 4200


def fitted(buffer, lent, job_data, sheet_data):
    """Fits into the start of the buffer, which is changed: the words of the line."""
    number, fields = fit(job_data, sheet_data, lent)
    buffer[: len(fields)] = fields
    return [number, len(fields)]


def fit_call(job_data, sheet_data, lent=LONGEST_NETLIST):
    buffer = pattern(11, BUFFER, 256)
    words = fitted(buffer, lent, job_data, sheet_data)
    payload = two(lent) + two(len(job_data)) + job_data + sheet_data
    return call(4, payload), line(["fit"] + words + [hash_of([buffer])])


def row_call(first, second):
    sheet_buffer, buffer = pattern(11, BUFFER, 256), pattern(11, BUFFER, 256)
    words = []
    for data in (first, second):
        reply = choose(data)
        words += replied(sheet_buffer, reply)
        sheet = bytes(sheet_buffer[: len(reply.sheet)])
        words += fitted(buffer, LONGEST_NETLIST, data, sheet) + compared(data, sheet)
    hashes = [hash_of([sheet_buffer]), hash_of([buffer])]
    return call(5, two(len(first)) + first + second), line(["row"] + words + hashes)
