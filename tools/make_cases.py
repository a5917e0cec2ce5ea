#!/usr/bin/env python3
"""Writes the table of reader cases, crates/jobtests/src/cases.rt, with the answers of the second reader.
Run at the top of the repository, and `rt fmt` after it."""
import jobs

# what is changed in the worked job: how many bytes it has, and (offset, byte) patches
PATCHED = [
    ("the worked job itself", 60, []),
    ("no bytes at all", 0, []),
    ("one byte short of a header", 11, []),
    ("a header and no more", 12, [(10, 12)]),
    ("edition 0", 60, [(0, 0)]),
    ("edition 2", 60, [(0, 2)]),
    ("edition 257: both bytes count", 60, [(1, 1)]),
    ("one byte short", 59, []),
    ("one byte more", 61, []),
    ("a stated length one off", 60, [(10, 61)]),
    ("a stated length off by 256", 60, [(11, 1)]),
    ("no sheets", 60, [(2, 0)]),
    ("17 sheets", 60, [(2, 17)]),
    ("259 sheets", 60, [(3, 1)]),
    ("16 sheets, whose rows do not fit", 60, [(2, 16)]),
    ("no orders", 60, [(4, 0)]),
    ("65 orders", 60, [(4, 65)]),
    ("259 orders", 60, [(5, 1)]),
    ("64 orders, whose records do not fit", 60, [(4, 64)]),
    ("rows in the header", 60, [(6, 11)]),
    ("rows that end at the end", 60, [(6, 36)]),
    ("rows that end past the end", 60, [(6, 37)]),
    ("rows far past the end", 60, [(6, 255), (7, 255)]),
    ("records in the header", 60, [(8, 11)]),
    ("records right after the header, over the rows", 60, [(8, 12)]),
    ("records that end at the end", 60, [(8, 42)]),
    ("records that end past the end", 60, [(8, 43)]),
    ("rows over the records", 60, [(6, 30)]),
    ("an empty row, the first", 60, [(12, 0)]),
    ("an empty row, the last", 60, [(28, 0)]),
    ("a row with the last order only", 60, [(12, 4), (28, 3)]),
    ("a row with order 3 of 3", 60, [(12, 11)]),
    ("a row with order 63", 60, [(27, 128)]),
    ("a row whose second byte has an order", 60, [(13, 1)]),
    ("order 0 in no row", 60, [(12, 2), (28, 2)]),
    ("order 2 in no row", 60, [(20, 2)]),
    ("due in the last step", 60, [(36, 3)]),
    ("due after the last step", 60, [(36, 4)]),
    ("due 256 steps after that", 60, [(37, 1)]),
    ("a label of no bytes", 60, [(40, 0)]),
    ("a label of no bytes, in the header", 60, [(38, 3), (40, 0)]),
    ("a label of 17 bytes", 60, [(38, 43), (40, 17)]),
    ("a label of 258 bytes", 60, [(41, 1)]),
    ("a label in the header", 60, [(38, 11), (40, 1)]),
    ("a label of the last byte", 60, [(38, 59), (40, 1)]),
    ("a label that ends past the end", 60, [(38, 59), (40, 2)]),
    ("a label past the end", 60, [(38, 60), (40, 1)]),
    ("a label far past the end", 60, [(38, 255), (39, 255)]),
    ("a label with a space", 60, [(55, 32)]),
    ("a label with the first printable byte", 60, [(55, 33)]),
    ("a label with the last printable byte", 60, [(55, 126)]),
    ("a label with byte 127", 60, [(55, 127)]),
    ("a label whose first byte is 0", 60, [(54, 0)]),
    ("a label with a byte above 127", 60, [(59, 200)]),
    ("the label of order 0 again", 60, [(44, 54)]),
    ("the same bytes at another offset", 60, [(56, 75), (57, 55)]),
    ("the label of order 1 again", 60, [(50, 56)]),
    ("a label that begins with another", 60, [(46, 1), (56, 75)]),
    ("a label that is part of another", 60, [(44, 54), (46, 1)]),
    # several faults at once: the order of the checks decides
    ("edition and length", 61, [(0, 2)]),
    ("length and sheets", 61, [(2, 0)]),
    ("sheets and orders", 60, [(2, 0), (4, 0)]),
    ("orders and rows", 60, [(4, 0), (6, 11)]),
    ("rows and records", 60, [(6, 11), (8, 11)]),
    ("records and an empty row", 60, [(8, 11), (12, 0)]),
    ("a strange order on sheet 0, an empty row on sheet 1", 60, [(13, 1), (20, 0)]),
    ("an empty row on sheet 1, a strange order on sheet 2", 60, [(20, 0), (29, 1)]),
    ("a strange order on sheet 2, order 2 in no row", 60, [(20, 2), (29, 1)]),
    ("order 0 in no row, and due too late", 60, [(12, 2), (28, 2), (36, 4)]),
    ("order 0 due too late, order 2 in no row", 60, [(36, 4), (20, 2)]),
    ("due too late, and an empty label", 60, [(36, 4), (40, 0)]),
    ("a label past the end, and a space in it", 60, [(38, 59), (40, 2), (59, 32)]),
    ("a space, and the same label twice", 60, [(44, 54), (55, 32)]),
    ("order 1 with a taken label, order 2 due too late", 60, [(44, 54), (48, 4)]),
    ("order 1 due too late and with a taken label", 60, [(44, 54), (42, 4)]),
]

# clean files: sheets, orders, bytes of each label
BUILT = [(1, 1, 2), (16, 1, 2), (17, 1, 2), (1, 64, 2), (1, 65, 2), (16, 64, 2), (17, 64, 2), (16, 65, 2), (2, 3, 16), (2, 3, 17), (16, 64, 16)]


def patched(size, patches):
    data = bytearray((jobs.WORKED + bytes(size))[:size])
    for at, byte in patches:
        if at < size:
            data[at] = byte
    return bytes(data)


def built(sheets, orders, size):
    """Every sheet serves every order, up to 64; the label of an order is its number in two letters, filled up."""
    row = 2 ** min(orders, 64) - 1
    labels = [bytes([65 + j // 16, 65 + j % 16]) + b"-" * (size - 2) for j in range(orders)]
    return jobs.make([row] * sheets, [0] * orders, labels)


def refusal(data):
    """What the second reader answers, as the table has it: layer, number and place, or None for a file that is taken."""
    try:
        jobs.read(data)
        return "None"
    except jobs.Refused as refused:
        layer = "File" if refused.number < 11 else "Job"
        return "Some((Layer::%s, %d, %d))" % (layer, refused.number, refused.place)


def row(kind, fields):
    return ["    %s {" % kind, *("        %s: %s," % field for field in fields), "    },"]


def main():
    out = [
        "// Cases for the reader, with the answers of a second reader. Written by tools/make_cases.py.",
        "use crate::built::Built;",
        "use crate::patched::Patched;",
        "use faults::Layer;",
        "",
        'pub const WORKED: &[u8; %d] = b"%s";' % (len(jobs.WORKED), "".join("\\x%02x" % byte for byte in jobs.WORKED)),
        "",
        "pub const PATCHED: [Patched; %d] = [" % len(PATCHED),
    ]
    for name, size, patches in PATCHED:
        changes = ", ".join("(%d, %d)" % patch for patch in patches)
        answer = refusal(patched(size, patches))
        out += row("Patched", [("about", '"%s"' % name), ("bytes", size), ("changes", "&[%s]" % changes), ("refusal", answer)])
    out += ["];", "", "pub const BUILT: [Built; %d] = [" % len(BUILT)]
    for sheets, orders, size in BUILT:
        answer = refusal(built(sheets, orders, size))
        out += row("Built", [("sheets", sheets), ("orders", orders), ("label_bytes", size), ("refusal", answer)])
    out.append("];")
    with open("crates/jobtests/src/cases.rt", "w", encoding="utf-8") as file:
        file.write("\n".join(out) + "\n")


if __name__ == "__main__":
    main()
