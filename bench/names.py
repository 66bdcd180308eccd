#!/usr/bin/env python3
"""Measures how long it takes to find the names in bodies, on made texts, and prints a table for docs/PERFORMANCE.md.

    bench/names.py [PROGRAM] [--rounds N] [--only WORD]

PROGRAM is the built program (crates/som/out/som if none is given). It is run by hand and is no part of the gate. Time and memory are
the least and the peak of so many runs.

  operations  one interface that declares so many operations, each with a body: too many entries, which is told after S14
  overrides   the same, where another class overrides all of them
  calls       a chain of classes with so many attributes each, and calls of a method of the first class on an object of the last
  client      the same, where the calls stand in the client's main
  names       a chain of classes, as many classes beside it that introduce a name of the chain's first class, and calls of it
"""
import argparse
import itertools
import os
import pathlib
import sys
import tempfile

import timing

FIRST = "BCDFGHJKLMNPQRSTVWXZ"
OTHERS = FIRST + "0123456789"


def names():
    """Names of four letters that are no words of the language, each once."""
    return ("".join(letters) for letters in itertools.product(FIRST, OTHERS, OTHERS, OTHERS))


def write(folder, name, content):
    pathlib.Path(folder, name).write_text(content)


def head():
    return "#include <somobj.idl>\n"


# ---- operations and overrides

def operations_of(count):
    return "".join(f"void m{k}();" for k in range(count))


def bodies_of(name, count):
    return "".join(f"{name}::m{k}(){{}}" for k in range(count))


def operations(folder, count):
    write(folder, "a.idl", f"{head()}interface A : SOMObject\n{{{operations_of(count)}}};\n")
    write(folder, "a.bod", bodies_of("A", count))
    return ["library", "a", "a.idl", "a.bod"]


def overrides(folder, count):
    replaced = "".join(f"m{k}:override;" for k in range(count))
    own = f"\n#ifdef __SOMIDL__\nimplementation{{{replaced}}};\n#endif\n"
    write(folder, "a.idl", f"{head()}interface A : SOMObject\n{{{operations_of(count)}}};\ninterface B : A\n{{{own}}};\n")
    write(folder, "a.bod", bodies_of("A", count) + bodies_of("B", count))
    return ["library", "a", "a.idl", "a.bod"]


# ---- calls

def chain(count, attributes):
    """The classes G0, G1 and so on, each under the one before it; the first has a method q, and the last a method r."""
    given = names()
    for k in range(count):
        above = f"G{k - 1}" if k else "SOMObject"
        own = ",".join(itertools.islice(given, attributes))
        methods = ("void q();" if k == 0 else "") + (f"void r(in G{k} x);" if k == count - 1 else "")
        yield f"interface G{k} : {above}\n{{{f'attribute long {own};' if own else ''}{methods}}};\n"


def calls(folder, count, attributes, number):
    write(folder, "a.idl", head() + "".join(chain(count, attributes)))
    write(folder, "a.bod", f"G0::q(){{}}\nG{count - 1}::r(x){{{'x.q();' * number}}}\n")
    return ["library", "a", "a.idl", "a.bod"]


def client(folder, count, attributes, number):
    write(folder, "a.idl", head() + "".join(chain(count, attributes)))
    write(folder, "a.bod", f"G0::q(){{}}\nG{count - 1}::r(x){{}}\n")
    write(folder, "a.main", f"main{{var x:G{count - 1}=new G{count - 1};{'x.q();' * number}}}\n")
    return ["client", "c", "a", "a.main"]


def many(folder, count, number):
    others = "".join(f"interface H{k} : SOMObject\n{{void q();}};\n" for k in range(count))
    write(folder, "a.idl", head() + "".join(chain(count, 0)) + others)
    own = "".join(f"H{k}::q(){{}}" for k in range(count))
    write(folder, "a.bod", f"G0::q(){{}}\n{own}\nG{count - 1}::r(x){{{'x.q();' * number}}}\n")
    return ["library", "a", "a.idl", "a.bod"]


SHAPES = {
    "10,000 operations": (operations, (10_000,)),
    "40,000 operations": (operations, (40_000,)),
    "10,000 overrides": (overrides, (10_000,)),
    "20,000 overrides": (overrides, (20_000,)),
    "512 classes with 64 attributes, 20,000 calls": (calls, (512, 64, 20_000)),
    "4,096 classes with 64 attributes, 450,000 calls": (calls, (4096, 64, 450_000)),
    "4,096 classes with 64 attributes, 690,000 calls of a client": (client, (4096, 64, 690_000)),
    "2,000 classes and as many that introduce the name, 400,000 calls": (many, (2000, 400_000)),
}


def row(program, name, make, sizes, rounds):
    with tempfile.TemporaryDirectory() as folder:
        words = make(folder, *sizes)
        if words[0] == "client":
            timing.run_once([program, "library", "a", "a.idl", "a.bod"], folder)
        size = sum(os.path.getsize(os.path.join(folder, it)) for it in os.listdir(folder) if "." in it)
        taken = timing.measure([program, *words], folder, rounds, good=(0, 11))
    seconds = timing.seconds_text(taken)
    memory = f"{taken.megabytes:.0f}" if isinstance(taken, timing.Taken) else ""
    return f"| {name} | {size / 1e6:.2f} | {seconds} | {memory} |"


def main():
    words = argparse.ArgumentParser(description="Measures how names in bodies are found.")
    words.add_argument("program", nargs="?", default="crates/som/out/som")
    words.add_argument("--rounds", type=int, default=3)
    words.add_argument("--only", default="")
    asked = words.parse_args()
    timing.set_limits()
    print("| Texts | MB | Seconds | Peak MB |\n|---|---|---|---|")
    for name, (make, sizes) in SHAPES.items():
        if asked.only in name:
            print(row(os.path.abspath(asked.program), name, make, sizes, asked.rounds), flush=True)


if __name__ == "__main__":
    sys.exit(main())
