"""Gates (document 01, "Nets and gates"; card 6 of document 02): kinds, operands and values on 0 and 1.

    NAMES                     the kinds by number; 2 to 9 have the names of IEEE 1364's primitives
    PLACES                    how many operand places a gate has, used or not
    operand_counts(k)         how many operands kind k may have, ascending
    value(k, operands)        the value that a gate of kind k drives
    partial_value(k, operands)    the same where an operand may be "x", not yet known; so may the value
"""

from itertools import product

NAMES = ("zero", "one", "buf", "not", "and", "nand", "or", "nor", "xor", "xnor")
PLACES = 4


def operand_counts(kind):
    if kind in (0, 1):
        return [0]
    if kind in (2, 3):
        return [1]
    return [2, 3, 4]


def value(kind, operands):
    name = NAMES[kind]
    ones = sum(operands)
    if name == "zero":
        return 0
    if name == "one":
        return 1
    if name == "buf":
        return ones
    if name == "not":
        return 1 - ones
    if name in ("and", "nand"):
        plain = int(ones == len(operands))
    elif name in ("or", "nor"):
        plain = int(ones > 0)
    else:
        plain = ones % 2
    return 1 - plain if name in ("nand", "nor", "xnor") else plain


def partial_value(kind, operands):
    """Known where every completion of the operands, each taken on its own, gives the same value."""
    completions = product(*([0, 1] if operand == "x" else [operand] for operand in operands))
    values = {value(kind, completion) for completion in completions}
    return values.pop() if len(values) == 1 else "x"
