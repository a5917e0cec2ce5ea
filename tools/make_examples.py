#!/usr/bin/env python3
"""Writes the example job files, and what jobinfo is run on in the gate. Run at the top of the repository."""
import os
import struct

import jobs


def large():
    """16 sheets and 64 orders, by a fixed rule: the largest job that the format has."""
    state = 2026
    rows = []
    for sheet in range(16):
        row = 0
        for order in range(64):
            state = (state * 1103515245 + 12345) % 2**31
            if state >> 16 & 7 == 0 or order % 16 == sheet:
                row |= 1 << order
        rows.append(row)
    dues = [(order * 5) % 17 for order in range(64)]
    labels = [b"Kitchen/%02d" % order if order % 4 == 0 else b"T%d" % order for order in range(64)]
    return jobs.make(rows, dues, labels)


def gaps():
    """Labels that share bytes, the first right after the header, the last at the end; gaps; records before rows."""
    labels_at, records_at, rows_at, length = 12, 19, 52, 80
    data = bytearray(b"\xee" * length)
    struct.pack_into("<6H", data, 0, 1, 3, 5, rows_at, records_at, length)
    data[labels_at : labels_at + 6] = b"DOOR12"
    data[length - 1 :] = b"Z"
    records = [(0, 12, 4), (3, 12, 6), (1, 13, 3), (2, 16, 2), (0, 79, 1)]  # DOOR, DOOR12, OOR, 12, Z
    for order, record in enumerate(records):
        struct.pack_into("<3H", data, records_at + 6 * order, *record)
    for sheet, row in enumerate([0b00011, 0b01110, 0b11001]):
        struct.pack_into("<Q", data, rows_at + 8 * sheet, row)
    return bytes(data)


def main():
    worked = jobs.WORKED
    assert worked[:12].hex(" ") == "01 00 03 00 03 00 0c 00 24 00 3c 00"
    files = {
        "worked.job": worked,
        "four.job": jobs.make([3, 6, 1, 56], [0] * 6, [b"A1", b"A2", b"A3", b"B1", b"B2", b"B3"]),
        "one.job": jobs.make([1], [1], [b"A"]),
        "large.job": large(),
        "gaps.job": gaps(),
        "late.job": jobs.make([3, 6, 1], [2, 0, 4], [b"K7", b"M2", b"R9"]),
    }
    for name, data in files.items():
        with open(os.path.join("examples", name), "wb") as out:
            out.write(data)
    with open("crates/jobinfo/stdin", "wb") as out:
        out.write(files["gaps.job"])
    with open("crates/jobinfo/stdout", "wb") as out:
        out.write(jobs.info(files["gaps.job"])[0])


if __name__ == "__main__":
    main()
