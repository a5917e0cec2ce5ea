#!/usr/bin/env python3
"""Writes the table of cost cases, crates/costtests/src/cases.rt, with the answers of tools/costs.py.
Run at the top of the repository, and `rt fmt` after it."""
import itertools
import random

import costs
import jobs
import make_examples

RNG = random.Random(1991)


def every(rows):
    return list(itertools.permutations(range(len(rows))))


def some(rows, count):
    """Up, down, and others by chance."""
    up = list(range(len(rows)))
    return [up, up[::-1]] + [RNG.sample(up, len(up)) for _ in range(count - 2)]


def generated(sheets, orders):
    """Each order is on one to three sheets, each sheet has at least one order, and half of the orders are due."""
    rows = [1 << sheet for sheet in range(sheets)]
    for order in range(sheets, orders):
        for sheet in RNG.sample(range(sheets), RNG.randint(1, 3)):
            rows[sheet] |= 1 << order
    for order in range(sheets):
        rows[RNG.randrange(sheets)] |= 1 << order
    return rows, [RNG.randint(1, sheets) if order % 2 else 0 for order in range(orders)]


def large():
    """The rows and dues of examples/large.job."""
    sheets, dues, _ = jobs.read(make_examples.large())
    return [sum(1 << order for order in orders) for orders in sheets], [due or 0 for due in dues]


def table():
    """Name in the table, what the job is, rows, dues, and sequences."""
    for name, (what, rows, dues, _) in zip(["A", "B", "ONE", "SAME"], costs.WORKED):
        yield name, what, rows, dues, every(rows)
    rows, dues = generated(5, 10)
    yield "FIVE", "five sheets and ten orders", rows, dues, some(rows, 12)
    rows, dues = large()
    yield "LARGE", "16 sheets and 64 orders", rows, dues, some(rows, 8)
    rows, dues = [2**64 - 1] * 16, [1] * 64
    yield "FULL", "16 sheets that serve 64 orders each, all due in step 1", rows, dues, some(rows, 2)


UP = list(range(16))

# lists that name no sequence of the job, with a step that no rule permits
FORBIDDEN = {
    "A": [[0, 0, 1], [1, 2, 1], [2, 2, 2], [0, 1, 3], [3, 1, 0], [255, 1, 2], [0, 1, 2, 0], [0, 1, 2, 3], [1, 1], [3]],
    "ONE": [[1], [0, 0], [0, 1], [255]],
    "LARGE": [UP[:15] + [sheet] for sheet in (0, 14, 16, 31, 32, 47, 63, 64, 255)] + [UP + [0], UP + [16], UP + [32], [64]],
}

# lists that end too early, with no forbidden step
SHORT = {"A": [[], [2], [0, 1], [2, 1]], "ONE": [[]], "LARGE": [[], [15], UP[:15], UP[:0:-1]]}


HEAD = """// Cases for what sequences cost, with the answers of a second program. Written by tools/make_cost_cases.py.

// A sequence, and what it costs.
pub struct Case {
    pub list: &'static [u8],
    pub peak: u16,
    pub spread: u32,
    pub lateness: u32,
}

// A job, and lists of its sheets.
pub struct Cases {
    pub file: &'static [u8],
    pub sequences: &'static [Case],
    // no sequences, with a step that no rule permits
    pub forbidden: &'static [&'static [u8]],
    // no sequences, since they end too early
    pub short: &'static [&'static [u8]],
}
"""


def in_list(sheets):
    return "&[%s]" % ", ".join(map(str, sheets))


def file_line(rows, dues):
    data = jobs.make(rows, dues, [bytes([33 + order]) for order in range(len(dues))])
    jobs.read(data)
    return '    file: b"%s",' % "".join("\\x%02x" % byte for byte in data)


def case_lines(rows, dues, sequences):
    yield "    sequences: &["
    for sequence in sequences:
        assert costs.is_sequence(rows, sequence)
        answers = [cost(rows, dues, sequence) for cost in costs.COSTS]
        yield "        Case { list: %s, peak: %d, spread: %d, lateness: %d }," % (in_list(sequence), *answers)
    yield "    ],"


def other_lines(field, rows, lists):
    yield f"    {field}: &["
    for sheets in lists:
        assert not costs.is_sequence(rows, sheets)
        yield "        %s," % in_list(sheets)
    yield "    ],"


def job_lines(name, what, rows, dues, sequences):
    return [
        f"// {what}",
        f"pub const {name}: Cases = Cases {{",
        file_line(rows, dues),
        *case_lines(rows, dues, sequences),
        *other_lines("forbidden", rows, FORBIDDEN.get(name, [])),
        *other_lines("short", rows, SHORT.get(name, [])),
        "};",
    ]


def main():
    with open("crates/costtests/src/cases.rt", "w", encoding="utf-8") as file:
        file.write(HEAD)
        for job in table():
            file.write("\n" + "\n".join(job_lines(*job)) + "\n")


if __name__ == "__main__":
    main()
