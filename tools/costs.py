#!/usr/bin/env python3
"""What sequences of a job cost, in Python: straight from the definitions, and the least costs by trying every sequence.
It shares no code with the proved planner, but has the same author.

    tools/costs.py

It prints what it finds of the worked jobs, whose answers are known, and ends with status 1 at the first that differs.

A job is its rows, sheet 0 first, and its dues, order 0 first. A row is a number whose bit j is 1 where the sheet serves
order j, and a due of 0 is no due step. A sequence names each sheet once, and its steps count from 1."""
import itertools
import sys


def is_sequence(rows, sheets):
    """Whether the list names each sheet of the job exactly once."""
    return sorted(sheets) == list(range(len(rows)))


def steps_of(rows, sequence, order):
    """The steps whose sheet serves the order."""
    return [step for step, sheet in enumerate(sequence, 1) if rows[sheet] >> order & 1]


def first(rows, sequence, order):
    return min(steps_of(rows, sequence, order))


def last(rows, sequence, order):
    return max(steps_of(rows, sequence, order))


def open_orders(rows, dues, sequence, step):
    """The orders that are open in a step: it lies from their first to their last, both included."""
    return [j for j in range(len(dues)) if first(rows, sequence, j) <= step <= last(rows, sequence, j)]


def peak(rows, dues, sequence):
    """The largest number of orders open in one step."""
    return max(len(open_orders(rows, dues, sequence, step)) for step in range(1, len(sequence) + 1))


def spread(rows, dues, sequence):
    """The steps in which an order is open, added up over the orders."""
    return sum(last(rows, sequence, j) - first(rows, sequence, j) + 1 for j in range(len(dues)))


def lateness(rows, dues, sequence):
    """The steps from its due step to its last, added up over the orders that are due before their last."""
    return sum(max(last(rows, sequence, j) - due, 0) for j, due in enumerate(dues) if due)


def least(cost, rows, dues):
    """The least cost of all sequences, and how many have it. It tries n! sequences: n up to 7 or so."""
    costs = [cost(rows, dues, sequence) for sequence in itertools.permutations(range(len(rows)))]
    return min(costs), costs.count(min(costs))


COSTS = (peak, spread, lateness)

# name, rows, dues, and what is known: for each of the three costs the least, and how many sequences have it
WORKED = [
    ("job A", [3, 6, 1], [2, 0, 3], [(2, 4), (5, 2), (0, 2)]),
    ("job B", [3, 6, 1, 56], [0] * 6, [(3, 12), (8, 4), (0, 24)]),
    ("one sheet", [1], [0], [(1, 1), (1, 1), (0, 1)]),
    ("three sheets with the same one order", [1, 1, 1], [0], [(1, 6), (3, 6), (0, 6)]),
]


def expect(what, found, known):
    if found != known:
        sys.exit(f"{what}: found {found}, known {known}")


def check_one_sequence():
    """Job A in the sequence 1, 2, 0, which is worked by hand: order 0 stands in steps 2 and 3, order 1 in all, order 2 in step 1."""
    _, rows, dues, _ = WORKED[0]
    sequence = [1, 2, 0]
    expect("firsts", [first(rows, sequence, j) for j in range(3)], [2, 1, 1])
    expect("lasts", [last(rows, sequence, j) for j in range(3)], [3, 3, 1])
    expect("open", [open_orders(rows, dues, sequence, step) for step in (1, 2, 3)], [[1, 2], [0, 1], [0, 1]])
    expect("costs", [cost(rows, dues, sequence) for cost in COSTS], [2, 6, 1])


def main():
    check_one_sequence()
    for name, rows, dues, known in WORKED:
        for cost, answer in zip(COSTS, known):
            found = least(cost, rows, dues)
            print(f"{name}: least {cost.__name__} {found[0]}, sequences {found[1]}")
            expect(f"least {cost.__name__} of {name}", found, answer)


if __name__ == "__main__":
    main()
