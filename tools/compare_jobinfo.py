#!/usr/bin/env python3
"""Runs jobinfo beside the second reader on the examples and on many generated files, whole and damaged.

    tools/compare_jobinfo.py [FILES] [SEED]

Run at the top of the repository after `rt run` in crates/jobinfo. It compares what is printed and the exit status,
wants standard error to stay empty, says how often each answer came, and ends with status 1 at the first file on which the two differ."""
import collections
import glob
import random
import subprocess
import sys

import jobs

PROGRAM = "crates/jobinfo/out/jobinfo"


def generated(rng):
    """A clean file of a random job, in most cases with a few bytes changed, added or cut."""
    sheets = rng.choice([1, 2, 3, 5, 16, 17])
    orders = rng.choice([1, 2, 3, 8, 63, 64, 65])
    few = rng.random() < 0.5
    rows = []
    for _ in range(sheets):
        row = rng.getrandbits(min(orders, 64))
        rows.append(row & rng.getrandbits(64) if few else row)
    if rng.random() < 0.8:
        for order in range(min(orders, 64)):
            rows[rng.randrange(sheets)] |= 1 << order
        rows = [row or 1 for row in rows]
    dues = [rng.choice([0, 0, 1, sheets, sheets + (rng.random() < 0.02)]) for _ in range(orders)]
    labels = [bytes(rng.randrange(33, 127) for _ in range(rng.choice([1, 2, 3, 16]))) for _ in range(orders)]
    data = bytearray(jobs.make(rows, dues, labels))
    for _ in range(rng.choice([0, 0, 1, 1, 2, 3])):
        at = rng.choice([rng.randrange(12), rng.randrange(len(data)), len(data) - 1])
        data[at] = rng.choice([0, 1, 2, 11, 12, 32, 33, 126, 127, 255, rng.randrange(256)])
    if rng.random() < 0.1:
        data = data[: rng.randrange(len(data))]
    if rng.random() < 0.05:
        data += bytes(rng.randrange(256) for _ in range(rng.choice([1, 9000])))
    return bytes(data)


def main():
    count = int(sys.argv[1]) if len(sys.argv) > 1 else 3000
    rng = random.Random(int(sys.argv[2]) if len(sys.argv) > 2 else 1)
    files = [open(name, "rb").read() for name in sorted(glob.glob("examples/*.job"))]
    files += [generated(rng) for _ in range(count)]
    seen = collections.Counter()
    for data in files:
        text, status = jobs.info(data)
        run = subprocess.run([PROGRAM], input=data, capture_output=True)
        if (run.stdout, run.returncode, run.stderr) != (text, status, b""):
            print("differs on", data.hex())
            print("jobinfo:", run.returncode, run.stdout[:200], run.stderr[:200])
            print("second: ", status, text[:200])
            return 1
        seen[" ".join(text.decode().split()[:2]) if status else "accepted"] += 1
    for answer, times in sorted(seen.items()):
        print(f"{times:6} {answer}")
    print(f"{len(files)} files, all answered alike")
    return 0


if __name__ == "__main__":
    sys.exit(main())
