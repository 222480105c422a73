#!/usr/bin/env python3
"""The program `panelrun` beside the Rust, on inputs in pieces: run by hand.

    (cd crates/panelrun && rt run <stdin) && tests/rust/build.sh
    tests/panelrun/pieces.py [PROGRAM]      # default: crates/panelrun/out/panelrun

Each check stops at the first difference. What the program must write is what the Rust writes
(make.py, `panel`), and it must have written a record's answer before it is given the next record.
"""
import os
import pathlib
import random
import select
import subprocess
import sys
import time

HERE = pathlib.Path(__file__).resolve().parent
sys.path.insert(0, str(HERE))
from make import ORACLE, drawn, gen, long_input, panel, record  # noqa: E402

PROGRAM = sys.argv[1] if len(sys.argv) > 1 else str(HERE.parent.parent / "crates" / "panelrun" / "out" / "panelrun")


def fed(data, sizes):
    """What the program writes when its input comes in writes of these sizes, each after the one before was taken."""
    with subprocess.Popen([PROGRAM], stdin=subprocess.PIPE, stdout=subprocess.PIPE, bufsize=0) as p:
        out, at = [], 0
        os.set_blocking(p.stdout.fileno(), False)

        def take():
            while select.select([p.stdout], [], [], 0)[0]:
                got = p.stdout.read(65536)
                if not got:
                    return False
                out.append(got)
            return True

        for n in sizes:
            if at >= len(data) or not take():
                break
            try:
                p.stdin.write(data[at:at + n])
            except BrokenPipeError:
                break
            at += n
        try:
            p.stdin.close()
        except BrokenPipeError:
            pass
        os.set_blocking(p.stdout.fileno(), True)
        out.append(p.stdout.read())
    return b"".join(out)


def whole(data):
    return subprocess.run([PROGRAM], input=data, capture_output=True, check=True).stdout


def same(what, got, want):
    if got != want:
        at = next((i for i, (a, b) in enumerate(zip(got, want)) if a != b), min(len(got), len(want)))
        sys.exit(f"{what}: different at byte {at} of {len(want)}, written {len(got)}")


def answered_at_once(rows):
    """Each record's answer is there before the next record is given."""
    with subprocess.Popen([PROGRAM], stdin=subprocess.PIPE, stdout=subprocess.PIPE, bufsize=0) as p:
        seen, given = b"", b""
        for row in rows:
            given += row
            p.stdin.write(row)
            want = panel(given)
            while len(seen) < len(want):
                if not select.select([p.stdout], [], [], 5)[0]:
                    sys.exit(f"no answer within 5 s: {len(seen)} of {len(want)} bytes")
                seen += p.stdout.read(len(want) - len(seen))
            same("at once", seen, want)
        p.stdin.close()
        same("at once, end", p.stdout.read(), b"")


def main():
    r = random.Random(7)
    began = time.time()
    stored = long_input()
    want = panel(stored)
    same("stored", whole(stored), want)
    same("stored, byte by byte", fed(stored, (1 for _ in stored)), want)
    same("stored, in pieces", fed(stored, iter(lambda: r.choice([1, 2, 3, 100, 5000, 40000]), None)), want)
    print("stored input: whole, byte by byte, in pieces")

    answered_at_once([record(now, e) for now, e in drawn(3, 120, 5)])
    print("each answer before the next record: 120 records")

    short = b"".join(record(now, e) for now, e in drawn(4, 6, 0))
    for n in range(len(short) + 1):
        same(f"cut at {n}", whole(short[:n]), panel(short[:n]))
    print(f"cut at each of {len(short) + 1} places")

    first = record(0, gen.up(2))
    for tail in [b"\x80\x00\x00", b"\x00\x80\x00", b"\xff" * 9 + b"\x02\x00", b"\xff" * 10 + b"\x00", b"\x80" * 9 + b"\x01\x00", b"\x00" + b"\x80" * 9 + b"\x01",
                 b"\x00\x80\x80\x01", b"\x00\x80\x80\x01" + b"\x03" * 16384, b"\x00\x81\x80\x01" + b"\x03" * 16385, b"\x00\x81\x80", b"\x00\x80\x81", b"\x00\x80\x80\x80",
                 b"\x00\x80\x80", b"\x00", b""]:
        for data in [tail, first + tail, first + tail + first]:
            same(f"ends {tail[:12].hex()}", whole(data), panel(data))
            same(f"ends {tail[:12].hex()}, in pieces", fed(data, (1 for _ in data)), panel(data))
    print("records that are cut, too wide, not shortest, too long")

    for seed in range(100, 140):
        data = b"".join(record(now, e) for now, e in drawn(seed, 300, 8))
        same(f"seed {seed}", fed(data, iter(lambda: r.choice([1, 7, 64, 3000]), None)), panel(data))
    print("40 drawn inputs of 300 records, in pieces")

    rows = [record(now, e) for now, e in drawn(9, 4000, 1)]
    data = bytearray()
    while len(data) < 10_000_000:
        data += r.choice(rows)
    start = time.time()
    got = whole(data)
    took = time.time() - start
    same("10 MB", got, panel(data))
    print(f"10 MB: {len(data)} bytes in {took:.1f} s")
    print(f"all the same, {time.time() - began:.0f} s")


if __name__ == "__main__":
    main()
