#!/usr/bin/env python3
"""Measures what the commands on towers take beside those on one library of the same classes, and prints a table for docs/PERFORMANCE.md.

    bench/towers.py [PROGRAM] [--rounds N]

PROGRAM is the built program (crates/som/out/som if none is given). It is run by hand and is no part of the gate. The classes are those of
`classes.py`. A tower has eight levels: seven of 256 classes, which is as many as a level above another may have, and under them one of
the rest; the shape goes on across the levels. The client makes two objects of each class and calls both methods. The newer release is
that of the topmost level, or of the library. Time and memory are the least and the peak of so many runs.
"""
import argparse
import os
import pathlib
import subprocess
import sys
import tempfile

import classes
import timing

LEVELS = 8
MOST = 256
COUNTS = (2048, 4000)


def level_ranges(count):
    """The numbers of the classes of each level, from the lowest up."""
    lowest = count - (LEVELS - 1) * MOST
    starts = [0, *(lowest + k * MOST for k in range(LEVELS - 1))]
    return [range(start, end) for start, end in zip(starts, [*starts[1:], count])]


def texts(shape, numbers, is_newer):
    """The interfaces of some classes, and their bodies."""
    interfaces = "#include <somobj.idl>\n" + "".join(classes.interface(shape, k, is_newer) for k in numbers)
    extra = "G{0}::x{0}() {{ return {0}; }}\n" if is_newer else ""
    body = "G{0}::tell() {{ return {0}; }}\nG{0}::m{0}(n) {{ somThis.a{0} = n; return n + {0}; }}\n" + extra
    return interfaces, "".join(body.format(k) for k in numbers)


def write(folder, name, shape, numbers, is_newer):
    """Writes the texts of some classes, and answers the names of their files."""
    for ending, text in zip(("idl", "bod"), texts(shape, numbers, is_newer)):
        pathlib.Path(folder, f"{name}.{ending}").write_text(text)
    return [f"{name}.idl", f"{name}.bod"]


def made(som, folder, shape, count):
    """Makes the images of both, and answers the names of the levels."""
    def put(*words):
        subprocess.run([som, *words], cwd=folder, check=True)
    pathlib.Path(folder, "c.main").write_text(classes.main_of(count))
    put("library", "flat", *write(folder, "flat", shape, range(count), False))
    put("library", "newer", *write(folder, "newer", shape, range(count), True))
    put("client", "c", "flat", "c.main")
    levels = []
    for k, numbers in enumerate(level_ranges(count)):
        words = ["tower", "make", f"l{k}", *levels] if levels else ["library", f"l{k}"]
        put(*words, *write(folder, f"l{k}", shape, numbers, False))
        levels.append(f"l{k}")
    put("tower", "make", "top", *levels[:-1], *write(folder, "top", shape, level_ranges(count)[-1], True))
    put("tower", "make", "t", *levels, "c.main")
    return levels


def main():
    words = argparse.ArgumentParser(description="Measures towers beside libraries.")
    words.add_argument("program", nargs="?", default="crates/som/out/som")
    words.add_argument("--rounds", type=int, default=5)
    asked = words.parse_args()
    som = os.path.abspath(asked.program)
    timing.set_limits()
    print("| Classes | Shape | One library: command, seconds, MB | Eight levels: command, seconds, MB | Times |\n|---|---|---|---|---|")
    for count in COUNTS:
        for shape in ("tree", "ladder"):
            with tempfile.TemporaryDirectory() as folder:
                levels = made(som, folder, shape, count)
                wanted = classes.sum_of(count)
                fuel = ["--fuel", "1000000000"]
                for command in (["run", "c", "flat", *fuel], ["tower", "run", "t", *levels, *fuel]):
                    if timing.run_once([som, *command], folder, is_printed=True).printed != wanted:
                        sys.exit(f"{' '.join(command)} prints another sum")
                pairs = [(["run", "c", "flat", *fuel], ["tower", "run", "t", *levels, *fuel]),
                         (["check", "flat", "newer"], ["tower", "check", levels[-1], "top"]),
                         (["client", "o", "flat", "c.main"], ["tower", "make", "o", *levels, "c.main"]),
                         (["client", "o", "flat", "c.main"], ["tower", "make", "o", *levels[:-1], "top.idl", "top.bod"])]
                for one, tower in pairs:
                    first = timing.measure([som, *one], folder, asked.rounds)
                    second = timing.measure([som, *tower], folder, asked.rounds)
                    told = [f"`{' '.join(words[:2 if words[0] == 'tower' else 1])}`, {timing.seconds_text(it)}, {it.megabytes:.0f}"
                            for words, it in ((one, first), (tower, second))]
                    what = " of a level" if tower[-1] == "top.bod" else ""
                    print(f"| {count:,} | {shape} | {told[0]} | {told[1]}{what} | {second.seconds / first.seconds:.2f} |", flush=True)


if __name__ == "__main__":
    main()
