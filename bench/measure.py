#!/usr/bin/env -S python3 -B
"""Measures som on made inputs beside what people use instead, and writes the tables of docs/PERFORMANCE.md.

    bench/measure.py PROGRAM [--rounds N] [--only WORD..] [--page FILE]

PROGRAM is the built program. It is run by hand, as `make bench`, and is no part of the gate. It needs Python's standard library
and GNU /usr/bin/time, and takes the rest where it is installed: omniidl, g++, abidiff. A command that isn't there has no row.

Seconds are those of the processor, the user's and the system's, as wait4 tells them: the least of several runs. Memory is the peak
of one run, as /usr/bin/time tells it. Each command has a minute of the processor, 2 GB and a native stack of 8 MB. Temporary
files stand in a folder that is deleted. `classes.py` says what the releases are, `clients.py` what the loops of the runner are,
`timing.py` how a growth is fitted.

--only measures just some of the tables `classes`, `loops`, `growth`, and prints them; the page is written where all are measured.
"""
import argparse
import dataclasses
import os
import pathlib
import platform
import shutil
import subprocess
import sys
import tempfile

import classes
import clients
import timing

SHAPES = ("tree", "ladder")
SIZES = (1, 25, 100, 400, 1000, 4000)
TURNS = {"som": 200_000, "C++": 10_000_000, "Python": 3_000_000}
SLOW_TURNS = 200_000
TOTAL_CALLS = 819_200
DEPTHS = (16, 256, 1024, 4096)
AMOUNTS = (1_000, 10_000, 100_000, 1_000_000)
MOST_CLASSES = 4096
BEGIN = "<!-- from here written by make bench -->"
END = "<!-- to here written by make bench -->"
ABIDIFF_STATUSES = (0, 4, 8, 12)
COMPILE = ["g++", "-O2", "-g"]
LOOPS = ["g++", "-O2", "-fno-optimize-sibling-calls"]


@dataclasses.dataclass(frozen=True)
class Step:
    """A command of the table of classes: the files that it needs, the file that it makes, its good statuses, what it prints."""
    name: str
    command: list
    needs: tuple = ()
    makes: str = ""
    good: tuple = (0,)
    prints: bytes = None


def is_installed(command):
    return shutil.which(command[0]) is not None


def write(folder, name, content):
    pathlib.Path(folder, name).write_text(content)


def environment(folder):
    """Where a C++ client finds its library, and Python its modules."""
    return {**os.environ, "LD_LIBRARY_PATH": folder, "PYTHONPATH": folder}


# ---- the table of classes

def write_classes(folder, shape, count):
    write(folder, "somobj.idl", "interface SOMObject {};\n")
    for name, is_newer in (("old", False), ("new", True)):
        write(folder, f"{name}.idl", classes.interfaces(shape, count, is_newer))
        write(folder, f"{name}.bod", classes.bodies(count, is_newer))
        write(folder, f"{name}.h", classes.header(shape, count, is_newer))
        write(folder, f"{name}.cpp", classes.source(name, count, is_newer))
    write(folder, "c.main", classes.main_of(count))
    write(folder, "client.cpp", classes.client_source(count))
    write(folder, "release.py", classes.module(shape, count))
    write(folder, "client.py", classes.client_module(count))


def class_steps(program, shape, count):
    """The commands in an order in which each finds its files. One without a name isn't measured."""
    shared = [*COMPILE, "-fPIC", "-shared", "-o"]
    total = classes.sum_of(count)
    yield Step("som library", [program, "library", "old", "old.idl", "old.bod"], makes="old")
    yield Step("", [program, "library", "new", "new.idl", "new.bod"], makes="new")
    yield Step("omniidl", ["omniidl", "-I.", "old.idl"])
    yield Step("omniidl -bcxx", ["omniidl", "-I.", "-bcxx", "old.idl"])
    yield Step("g++ -shared", [*shared, "libold.so", "old.cpp"], makes="libold.so")
    yield Step("som client", [program, "client", "c", "old", "c.main"], ("old",), "c")
    yield Step("g++ of a client", [*COMPILE, "-o", "client", "client.cpp", "-L.", "-lold"], ("libold.so",), "client")
    yield Step("som check", [program, "check", "old", "new"], ("old", "new"), prints=b"accepted\n")
    yield Step("", [*shared, "libnew.so", "new.cpp"], ("libold.so",), "libnew.so")
    yield Step("abidiff", ["abidiff", "libold.so", "libnew.so"], ("libold.so", "libnew.so"), good=ABIDIFF_STATUSES)
    yield Step("som show", [program, "show", "new"], ("new",))
    yield Step("som run", [program, "run", "c", "new"], ("c", "new"), prints=total)
    yield Step("C++ run", ["./client"], ("client",), prints=total)
    yield Step("Python run", [sys.executable, "-c", "import client"], prints=total)
    if shape == "tree":
        yield Step("som generate", [program, "generate", str(count)])


def is_ready(step, folder, failed):
    """Whether a command is there, its files are, and no smaller size was too much for it."""
    needs = all(pathlib.Path(folder, name).exists() for name in step.needs)
    return needs and step.name not in failed and (step.name.startswith("C++") or is_installed(step.command))


def take_step(step, folder, rounds):
    """What a command takes, once it printed what it has to."""
    if step.prints is not None:
        ended = timing.run_once(step.command, folder, environment(folder), is_printed=True)
        if not ended.is_late and ended.status == 0 and ended.printed != step.prints:
            sys.exit(f"{' '.join(step.command)} printed {ended.printed[:80]}, not {step.prints}")
    taken = timing.measure(step.command, folder, rounds, environment(folder), step.good)
    if not isinstance(taken, timing.Taken) and step.makes:
        pathlib.Path(folder, step.makes).unlink(missing_ok=True)
    return taken


def measure_shape(program, shape, rounds):
    """What each command takes of each size: a map from its name to one from the sizes."""
    rows, failed = {}, set()
    for count in SIZES:
        with tempfile.TemporaryDirectory() as folder:
            write_classes(folder, shape, count)
            for step in class_steps(program, shape, count):
                if not is_ready(step, folder, failed):
                    continue
                taken = take_step(step, folder, rounds if step.name else 0)
                print(shape, count, step.name, taken, file=sys.stderr, flush=True)
                if step.name:
                    rows.setdefault(step.name, {})[count] = taken
                if not isinstance(taken, timing.Taken):
                    failed.add(step.name)
    return rows


def class_row(shape, name, sizes):
    """A row of the table: seconds of each size, memory at the largest, and the growth."""
    cells = [timing.seconds_text(sizes[count]) if count in sizes else "" for count in SIZES]
    taken = [cell for _, cell in sorted(sizes.items()) if isinstance(cell, timing.Taken)]
    memory = f"{taken[-1].megabytes:.0f}" if taken else ""
    return f"| {name} | {shape} | {' | '.join(cells)} | {memory} | {timing.growth(sizes)} |"


def class_table(program, rounds):
    yield "| Command | Shape | " + " | ".join(f"{count:,}" for count in SIZES) + " | Peak MB | Growth |"
    yield "|---" * (len(SIZES) + 4) + "|"
    for shape in SHAPES:
        for name, sizes in measure_shape(program, shape, rounds).items():
            if any(isinstance(cell, timing.Taken) for cell in sizes.values()) or name != "som generate":
                yield class_row(shape, name, sizes)


# ---- the runner's loops

def built_loops(program, folder):
    """Writes and builds what the loops need. Whether g++ is there."""
    for name, content in clients.FILES.items():
        write(folder, name, content)
    subprocess.run([program, "library", "r", "r.idl", "r.bod"], cwd=folder, check=True)
    if not is_installed(["g++"]):
        return False
    subprocess.run([*LOOPS, "-fPIC", "-shared", "-o", "libcells.so", "cells.cpp"], cwd=folder, check=True)
    subprocess.run([*LOOPS, "-o", "loops", "loops.cpp", "-L.", "-lcells"], cwd=folder, check=True)
    return True


def som_loop(program, folder, main, fuel, name="l"):
    """The command that runs a main, once it is compiled."""
    write(folder, "l.main", main)
    subprocess.run([program, "client", name, "r", "l.main"], cwd=folder, check=True)
    return [program, "run", name, "r", "--fuel", str(fuel)]


def cpp_loop(key, turns, depth=0):
    return ["./loops", key, str(turns), str(depth)]


def python_loop(key, turns, depth=0):
    words = ["loops", key, str(turns), str(depth)]
    return [sys.executable, "-c", f"import loops; loops.main({words})"]


def measured(command, folder, rounds):
    return timing.measure(command, folder, rounds, environment(folder))


def check_units(program, folder, key, client):
    """Whether a loop takes just the units that it is said to take."""
    command = som_loop(program, folder, clients.main_of(client, 1000), clients.units_of(client, 1000))
    less = [*command[:-1], str(int(command[-1]) - 1)]
    statuses = [timing.run_once(words, folder).status for words in (command, less)]
    if statuses != [0, 9]:
        sys.exit(f"the loop {key} takes other units: statuses {statuses}")


def a_turn(commands, turns, folder, rounds):
    """Nanoseconds that a turn takes, from the commands of no turn and of so many, and the peak of memory."""
    none, many = (measured(command, folder, rounds) for command in commands)
    if not isinstance(none, timing.Taken) or not isinstance(many, timing.Taken):
        return None
    return max(0.0, many.seconds - none.seconds) / turns * 1e9, many.megabytes


def loop_row(program, folder, key, has_cpp, rounds):
    client = clients.CLIENTS[key]
    check_units(program, folder, key, client)
    fuel = clients.units_of(client, TURNS["som"])
    many = som_loop(program, folder, clients.main_of(client, TURNS["som"]), fuel, "many")
    none = som_loop(program, folder, clients.main_of(client, 0), fuel)
    nanoseconds, megabytes = a_turn((none, many), TURNS["som"], folder, rounds)
    cells = [client.name, str(client.units), f"{nanoseconds:,.0f}", f"{client.units / nanoseconds * 1e3:.1f}", f"{megabytes:.1f}"]
    for language, text, loop in (("C++", client.cpp if has_cpp else "", cpp_loop), ("Python", client.python, python_loop)):
        turns = TURNS[language] if key not in ("line", "kept") else SLOW_TURNS
        taken = a_turn((loop(key, 0), loop(key, turns)), turns, folder, rounds) if text else None
        cells.append(f"{taken[0]:,.1f}" if taken else "")
    print(cells, file=sys.stderr, flush=True)
    return "| " + " | ".join(cells) + " |"


def loop_table(program, rounds):
    yield "| A turn of the loop | Units | Nanoseconds | Million units a second | Peak MB | C++ nanoseconds | Python nanoseconds |"
    yield "|---|---|---|---|---|---|---|"
    with tempfile.TemporaryDirectory() as folder:
        has_cpp = built_loops(program, folder)
        for key in clients.CLIENTS:
            yield loop_row(program, folder, key, has_cpp, rounds)


# ---- how a run grows

def growth_row(name, size, commands, folder, rounds):
    """A row with seconds and memory of som, C++ and Python."""
    cells = [measured(command, folder, rounds) if command else None for command in commands]
    texts = [f"{timing.seconds_text(cell)}, {cell.megabytes:.1f}" if isinstance(cell, timing.Taken) else cell or "" for cell in cells]
    print(name, size, texts, file=sys.stderr, flush=True)
    return f"| {name} | {size:,} | {' | '.join(texts)} |"


def amounts_of(program, folder, key, name, has_cpp, rounds):
    client = clients.CLIENTS[key]
    for amount in AMOUNTS:
        som = som_loop(program, folder, clients.main_of(client, amount), clients.units_of(client, amount))
        peers = [cpp_loop(key, amount) if has_cpp else None, python_loop(key, amount)]
        yield growth_row(name, amount, [som, *peers], folder, rounds)


def depths_of(program, folder, has_cpp, rounds):
    """Calls to a depth, as many in all at each depth; one deeper than the deepest has to be a fault."""
    fuel = 4 * TOTAL_CALLS
    too_deep = som_loop(program, folder, clients.deep_main(DEPTHS[-1] + 1, 1), fuel)
    deepest = timing.run_once(too_deep, folder, is_printed=True)
    if (deepest.status, deepest.printed) != (1, b"fault Depth in Cell::down\n"):
        sys.exit(f"one call too deep ended with {deepest.status} and {deepest.printed[:80]}")
    for depth in DEPTHS:
        turns = TOTAL_CALLS // depth
        som = som_loop(program, folder, clients.deep_main(depth, turns), fuel)
        peers = [cpp_loop("deep", turns, depth) if has_cpp else None, python_loop("deep", turns, depth)]
        yield growth_row(f"depth of {TOTAL_CALLS:,} calls", depth, [som, *peers], folder, rounds)


def most_classes(program, folder, rounds):
    """A run on a library with as many classes as one may have, in a ladder: an object of the last, and two of each."""
    write(folder, "most.idl", classes.interfaces("ladder", MOST_CLASSES, False))
    write(folder, "most.bod", classes.bodies(MOST_CLASSES, False))
    subprocess.run([program, "library", "most", "most.idl", "most.bod"], cwd=folder, check=True)
    last = MOST_CLASSES - 1
    one = f"main {{ print (new G{last}).m{last}(0); print (new G{last}).tell(); }}\n"
    for name, main in (("ladder, an object of the last class", one), ("ladder, two objects of each class", classes.main_of(MOST_CLASSES))):
        write(folder, "m.main", main)
        subprocess.run([program, "client", "m", "most", "m.main"], cwd=folder, check=True)
        yield growth_row(name, MOST_CLASSES, [[program, "run", "m", "most"], None, None], folder, rounds)


def growth_table(program, rounds):
    yield "| What grows | To | som: seconds, MB | C++: seconds, MB | Python: seconds, MB |"
    yield "|---|---|---|---|---|"
    with tempfile.TemporaryDirectory() as folder:
        has_cpp = built_loops(program, folder)
        yield from depths_of(program, folder, has_cpp, rounds)
        yield from amounts_of(program, folder, "kept", "objects alive", has_cpp, rounds)
        yield from amounts_of(program, folder, "freed", "objects made and freed", has_cpp, rounds)
        yield from amounts_of(program, folder, "line", "lines printed", has_cpp, rounds)
        yield from amounts_of(program, folder, "turn", "turns of a loop", False, rounds)
        yield from most_classes(program, folder, rounds)


# ---- the page

def version(command):
    """The first line in which a command tells its version."""
    told = subprocess.run(command, capture_output=True, text=True)
    return (told.stdout or told.stderr).split("\n")[0]


def machine(rounds):
    """The machine, how busy it is, and the versions of what is measured beside som."""
    model = next((line.split(":")[1].strip() for line in open("/proc/cpuinfo") if line.startswith("model name")), platform.machine())
    peers = [["omniidl", "-V"], ["g++", "--version"], ["abidiff", "--version"], [sys.executable, "--version"]]
    told = "; ".join(version(command) for command in peers if is_installed(command))
    return f"{os.cpu_count()} processors, {model}; the least of {rounds} runs or more; load {os.getloadavg()[0]:.0f} at the beginning. {told}."


TABLES = {"classes": ("Classes", class_table), "loops": ("Loops", loop_table), "growth": ("Growth of a run", growth_table)}


def put_on_page(page, text):
    """Puts the tables between the two marks of the page."""
    old = page.read_text()
    if BEGIN not in old or END not in old:
        sys.exit(f"{page} has no place for the tables")
    page.write_text(old[:old.index(BEGIN) + len(BEGIN)] + "\n\n" + text + "\n" + old[old.index(END):])


def main():
    here = pathlib.Path(__file__).resolve().parent
    words = argparse.ArgumentParser(description="Measures som.")
    words.add_argument("program")
    words.add_argument("--rounds", type=int, default=3)
    words.add_argument("--only", nargs="+", choices=list(TABLES), default=list(TABLES))
    words.add_argument("--page", type=pathlib.Path, default=here.parent / "docs" / "PERFORMANCE.md")
    asked = words.parse_args()
    program = os.path.abspath(asked.program)
    if not os.access(timing.TIME, os.X_OK):
        sys.exit(f"{timing.TIME} isn't there: install GNU time")
    timing.set_limits()
    parts = [machine(asked.rounds)]
    for name in asked.only:
        title, table = TABLES[name]
        parts.append(f"### {title}\n\n" + "\n".join(table(program, asked.rounds)))
    text = "\n\n".join(parts) + "\n"
    print(text)
    if set(asked.only) == set(TABLES):
        put_on_page(asked.page, text)


main()
