#!/usr/bin/env python3
"""Measures what `witness` takes beside `check` where a release of 4,096 classes is refused, and prints a table for docs/PERFORMANCE.md.

    bench/refused.py [PROGRAM] [--rounds N]

PROGRAM is the built program (crates/som/out/som if none is given). It is run by hand and is no part of the gate. The releases are those of
`classes.py`, and in the newer one the last class breaks a rule, or its least entry does. Time and memory are the least and the peak of so
many runs.

  K1  the last class has another name
  K4  the last class has its attribute before its method
  K5  the last class's method takes an object in the place of a number
"""
import argparse
import os
import pathlib
import subprocess
import sys
import tempfile

import classes
import timing

COUNT = 4096
LAST = COUNT - 1
BREAKS = {
    "K1": (f"interface G{LAST} :", f"interface H{LAST} :"),
    "K4": (f"releaseorder: m{LAST}, _get_a{LAST},", f"releaseorder: _get_a{LAST}, m{LAST},"),
    "K5": (f"long m{LAST}(in long n)", f"long m{LAST}(in G0 n)"),
}


def made(som, folder, shape, rule):
    """Makes the images of both releases."""
    older = classes.interfaces(shape, COUNT, False)
    old, new = BREAKS[rule]
    newer = older.replace(old, new)
    bodies = "".join(f"G{k}::tell() {{ return {k}; }}\nG{k}::m{k}(n) {{ return {k}; }}\n" for k in range(COUNT))
    if newer == older:
        sys.exit(f"nothing of {rule} is changed")
    for name, text, body in (("old", older, bodies), ("new", newer, bodies.replace(f"G{LAST}::", f"H{LAST}::") if rule == "K1" else bodies)):
        pathlib.Path(folder, f"{name}.idl").write_text(text)
        pathlib.Path(folder, f"{name}.bod").write_text(body)
        subprocess.run([som, "library", name, f"{name}.idl", f"{name}.bod"], cwd=folder, check=True)


def main():
    words = argparse.ArgumentParser(description="Measures witness beside check.")
    words.add_argument("program", nargs="?", default="crates/som/out/som")
    words.add_argument("--rounds", type=int, default=5)
    asked = words.parse_args()
    som = os.path.abspath(asked.program)
    timing.set_limits()
    print("| Shape | Breach | `check`, seconds, MB | `witness`, seconds, MB | Times |\n|---|---|---|---|---|")
    for shape in ("tree", "ladder"):
        for rule in BREAKS:
            with tempfile.TemporaryDirectory() as folder:
                made(som, folder, shape, rule)
                check = timing.measure([som, "check", "old", "new"], folder, asked.rounds, good=(4,))
                witness = timing.measure([som, "witness", "w", "old", "new"], folder, asked.rounds, good=(0,))
                told = subprocess.run([som, "witness", "w", "old", "new"], cwd=folder, capture_output=True, text=True, check=True).stdout.split("\n")[0]
            cells = [f"{timing.seconds_text(it)}, {it.megabytes:.0f}" for it in (check, witness)]
            print(f"| {shape} | {told} | {cells[0]} | {cells[1]} | {witness.seconds / check.seconds:.2f} |", flush=True)


if __name__ == "__main__":
    sys.exit(main())
