#!/usr/bin/env python3
"""Measures what reading an image takes beside its bytes, by the statements that it holds, and prints a table for docs/PERFORMANCE.md.

    bench/images.py [PROGRAM]

PROGRAM is the built program (crates/som/out/som if none is given). It is run by hand and is no part of the gate. A text of so many statements would
be too long, so the images are made by bytes: that of a client whose main returns, with many statements in place of this one. `show` reads an
image whole before it looks at a rule, so that statements which are refused then (status 5) are measured too. Memory is the peak of one run, without
that of an image with one statement.
"""
import os
import pathlib
import subprocess
import sys
import tempfile

import timing

COUNT = 1_000_000
NESTED = 31
INTERFACE = "#include <somobj.idl>\ninterface Box : SOMObject { long add(in long a); };\n"
BODY = "Box::add(a) { return a + 1; }\n"
NIL = b"\x23"
METHOD = b"\x00\x04\x00\x00"


def block(*statements):
    return len(statements).to_bytes(4, "big") + b"".join(statements)


def nested(inner, times):
    """A return, in so many statements `if`."""
    for _ in range(times):
        inner = b"\x04" + NIL + block(inner) + block()
    return inner


STATEMENTS = {
    "`return;`": b"\x06",
    "`return nil;`": b"\x07" + NIL,
    "`print nil;`": b"\x08" + NIL,
    "`var x : long = nil;`": b"\x01\x01" + NIL,
    "a local set to nil": b"\x02\x00\x00" + NIL,
    "`if (nil) { }`": b"\x04" + NIL + block() + block(),
    "`if` within `if`, 31 deep, around a `return;`": nested(b"\x06", NESTED),
    "`print` of minus of minus .., 30 deep": b"\x08" + b"\x27\x00" * 30 + NIL,
    "`print nil + nil;`": b"\x08\x28\x00" + NIL + NIL,
    "`print \"\";`": b"\x08\x21\x00\x00",
    "`print \"a\";`": b"\x08\x21\x00\x01a",
    "`print 1;`": b"\x08\x20\x00\x00\x00\x01",
    "`print new Box;`": b"\x08\x29\x00\x04",
    "a call by reference on nil": b"\x0a\x2f" + METHOD + NIL + b"\x00",
    "a call by reference with 16 times nil": b"\x0a\x2f" + METHOD + NIL + b"\x10" + NIL * 16,
    "a call by the name `a`": b"\x0a\x30\x00\x00\x01a" + NIL + b"\x00",
    "a call of all parents' methods": b"\x0a\x33" + METHOD + b"\x00",
}


def kilobytes(som, folder, name):
    with tempfile.NamedTemporaryFile("r") as told:
        ended = subprocess.run([timing.TIME, "-q", "-o", told.name, "-f", "%M", som, "show", name], cwd=folder, stdout=subprocess.PIPE)
        if ended.returncode not in (0, 5) or ended.stdout.startswith(b"image ") and not ended.stdout.startswith(b"image S"):
            sys.exit(f"show ends with {ended.returncode}: {ended.stdout!r}")
        return int(told.read().split()[-1])


def main():
    som = os.path.abspath(sys.argv[1] if len(sys.argv) > 1 else "crates/som/out/som")
    with tempfile.TemporaryDirectory() as folder:
        at = pathlib.Path(folder)
        for name, text in (("b.idl", INTERFACE), ("b.bod", BODY), ("c.main", "main { return; }\n")):
            (at / name).write_text(text)
        subprocess.run([som, "library", "b", "b.idl", "b.bod"], cwd=folder, check=True)
        subprocess.run([som, "client", "c", "b", "c.main"], cwd=folder, check=True)
        small = (at / "c").read_bytes()
        if not small.endswith(block(b"\x06")):
            sys.exit("main stands at another place")
        front, least = small[:-5], kilobytes(som, folder, "c")
        print("| A million statements, or fewer where these are long | MB | Peak MB | Times the bytes |\n|---|---|---|---|")
        for what, statement in STATEMENTS.items():
            count = min(COUNT, 8_000_000 // len(statement))
            image = front + count.to_bytes(4, "big") + statement * count
            (at / "big").write_bytes(image)
            peak = kilobytes(som, folder, "big")
            print(f"| {what} | {len(image) / 1e6:.2f} | {peak / 1024:.0f} | {(peak - least) * 1024 / len(image):.0f} |", flush=True)


if __name__ == "__main__":
    main()
