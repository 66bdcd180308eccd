#!/usr/bin/env python3
"""Measures how long a run takes to lay the rows of variables and of proxies, on made texts, and prints a table for docs/PERFORMANCE.md.

    bench/rows.py [PROGRAM] [--rounds N] [--only WORD]

PROGRAM is the built program (crates/som/out/som if none is given). It is run by hand and is no part of the gate. Time and memory are
those of `run`, the least and the peak of so many runs, which read both images, test them, and lay the rows.

  ladder  two classes a level, each under both of the level above, with so many variables each; an object of the last, or of each
  proxy   a chain of classes with so many attributes each, and so two methods for each, and so many operations, and a proxy of an object of the last
"""
import argparse
import itertools
import os
import pathlib
import sys
import tempfile

import names
import timing


def write(folder, name, content):
    pathlib.Path(folder, name).write_text(content)


def head():
    return "#include <somobj.idl>\n"


def parents(k):
    level = (k - 1) // 2
    return "SOMObject" if k == 0 else "G0" if level == 0 else f"G{2 * level - 1}, G{2 * level}"


def ladder(folder, count, variables, objects):
    own = "".join(f" long v{i};" for i in range(variables))
    write(folder, "a.idl", head() + "".join(f"interface G{k} : {parents(k)} {{ implementation {{{own} }}; }};\n" for k in range(count)))
    write(folder, "a.bod", "")
    write(folder, "a.main", "main {\n" + "".join(f"(new G{k}).somGetClass();\n" for k in range(count - objects, count)) + "}\n")


def proxy(folder, count, attributes, operations):
    given, classes, bodies = names.names(), [], []
    for k in range(count):
        own = [f"attribute long {','.join(itertools.islice(given, attributes))};"] if attributes else []
        for name in itertools.islice(given, operations):
            own.append(f"void {name}();")
            bodies.append(f"G{k}::{name}(){{}}")
        classes.append(f"interface G{k} : {f'G{k - 1}' if k else 'SOMObject'} {{{''.join(own)}}};\n")
    write(folder, "a.idl", head() + "".join(classes))
    write(folder, "a.bod", "".join(bodies))
    write(folder, "a.main", f"main {{ proxy(G{count - 1}, new G{count - 1}).somGetClass(); }}\n")


SHAPES = {
    "ladder of 4,096 with a variable each, an object of each": (ladder, (4096, 1, 4096)),
    "ladder of 1,024 with 64 variables each, an object of the last": (ladder, (1024, 64, 1)),
    "ladder of 4,096 with 64 variables each, an object of the last": (ladder, (4096, 64, 1)),
    "a proxy of an object of the last of 740 classes with 256 methods each": (proxy, (740, 64, 128)),
    "a proxy of an object of the last of 740 classes with two methods each": (proxy, (740, 1, 0)),
}


def row(program, name, make, sizes, rounds):
    with tempfile.TemporaryDirectory() as folder:
        make(folder, *sizes)
        for words in (["library", "a", "a.idl", "a.bod"], ["client", "c", "a", "a.main"]):
            ended = timing.run_once([program, *words], folder, is_printed=True)
            if ended.status:
                return f"| {name} | {words[0]} ended with {ended.status}: {ended.printed.decode().strip()} |"
        size = sum(os.path.getsize(os.path.join(folder, it)) for it in os.listdir(folder) if "." in it)
        taken = timing.measure([program, "run", "c", "a"], folder, rounds, good=(0,))
    memory = f"{taken.megabytes:.0f}" if isinstance(taken, timing.Taken) else ""
    return f"| {name} | {size / 1e6:.2f} | {timing.seconds_text(taken)} | {memory} |"


def main():
    words = argparse.ArgumentParser(description="Measures the rows of variables and of proxies.")
    words.add_argument("program", nargs="?", default="crates/som/out/som")
    words.add_argument("--rounds", type=int, default=3)
    words.add_argument("--only", default="")
    asked = words.parse_args()
    timing.set_limits()
    print("| Texts | MB | Seconds | Peak MB |\n|---|---|---|---|")
    for name, (make, sizes) in SHAPES.items():
        if asked.only in name:
            print(row(os.path.abspath(asked.program), name, make, sizes, asked.rounds), flush=True)


if __name__ == "__main__":
    sys.exit(main())
