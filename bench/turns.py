#!/usr/bin/env python3
"""Measures what a turn of `tasks` takes beside a unit of `run` of the same client, and prints a table for docs/PERFORMANCE.md.

    bench/turns.py [PROGRAM]

PROGRAM is the built program (crates/som/out/som if none is given). It is run by hand and is no part of the gate. Seconds are those of
the processor, and the least of three runs; ten clients take a thousand turns a round, ten thousand rounds, so ten million turns.

  zoo    the zoo's client, which is over after some turns: most turns find an ended client
  loop   a client that counts, and has a unit for each turn of its loop
  call   a client that calls a method in each turn of its loop, and has a unit for the loop and one for the body
"""
import os
import pathlib
import subprocess
import sys
import tempfile

import timing

TOP = pathlib.Path(__file__).resolve().parent.parent
ZOO = TOP / "examples" / "zoo"
CLIENTS, DIGITS, ROUNDS = 10, 1_000, 10_000
TURNS = DIGITS * ROUNDS
RUNS = 3

BOX = "#include <somobj.idl>\ninterface Box : SOMObject { long add(in long a); };\n"
BODY = "Box::add(a) { return a + 1; }\n"
LOOP = "main { var i : long = 0; while (i < 2000000000) { i = i + 1; } }\n"
CALL = "main { var c : Box = new Box; var i : long = 0; while (i < 2000000000) { i = c.add(i); } }\n"


def made(som, folder):
    """Makes the images."""
    for name, text in {"box.idl": BOX, "box.bod": BODY, "loop.main": LOOP, "call.main": CALL}.items():
        (folder / name).write_text(text)
    zoo = [str(ZOO / name) for name in ("zoo1.idl", "zoo1.bod")]
    pup = [str(ZOO / name) for name in ("pup.idl", "pup.bod", "pup.main")]
    for words in (["library", "box", "box.idl", "box.bod"], ["client", "loop", "box", "loop.main"], ["client", "call", "box", "call.main"],
                  ["library", "zoo1", *zoo], ["client", "pup", "zoo1", *pup]):
        subprocess.run([som, *words], cwd=folder, check=True)


def least(command, folder):
    """The least processor seconds of some runs."""
    return min(timing.run_once(command, folder).seconds for _ in range(RUNS))


def main():
    som = os.path.abspath(sys.argv[1] if len(sys.argv) > 1 else TOP / "crates" / "som" / "out" / "som")
    pattern = "".join(str(k) for k in range(CLIENTS)) * (DIGITS // CLIENTS)
    print(f"| Client | {TURNS:,} turns of `tasks`, seconds | Nanoseconds a turn | {TURNS:,} units of `run`, seconds | Nanoseconds a unit | Turn to unit |")
    print("|---|---|---|---|---|---|")
    with tempfile.TemporaryDirectory() as folder:
        folder = pathlib.Path(folder)
        made(som, folder)
        for name, library, client in (("zoo", "zoo1", "pup"), ("loop", "box", "loop"), ("call", "box", "call")):
            turns = least([som, "tasks", library, pattern, str(ROUNDS), *[client] * CLIENTS], folder)
            row = f"| {name} | {turns:.2f} | {turns / TURNS * 1e9:.0f} |"
            if name != "zoo":
                units = least([som, "run", client, library, "--fuel", str(TURNS)], folder)
                row += f" {units:.2f} | {units / TURNS * 1e9:.0f} | {turns / units:.1f} |"
            print(row if name != "zoo" else f"{row} | | |", flush=True)


main()
