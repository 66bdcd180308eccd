#!/usr/bin/env python3
"""Measures linking and laying on made images, and prints a table for docs/PERFORMANCE.md.

    bench/laying.py [PROGRAM]

PROGRAM is the built program (crates/som_test_kernel/out/som_test_kernel if none is given). It is run by hand and is no part of the gate. Time and
memory are those of GNU /usr/bin/time, each of one run.

  ladder  two classes a level, each under both of the level above, the last of them the client's
  towers  twelve chains of metaclasses, each the metaclass of the next, and classes under two to twelve of the last ones
"""
import itertools
import os
import struct
import subprocess
import sys
import tempfile

TIME = "/usr/bin/time"
TOWERS = 12
PART = b"\0\0\0"


def text(value):
    return struct.pack(">H", len(value)) + value.encode()


def face(name, parents, metaclass=None):
    head = text(name) + struct.pack(">IIB", 1, 0, len(parents)) + struct.pack(f">{len(parents)}H", *parents)
    return head + (b"\0" if metaclass is None else b"\1" + struct.pack(">H", metaclass)) + b"\0\0"


def library(faces):
    return b"SOML\x01" + struct.pack(">H", len(faces)) + b"".join(faces) + PART * len(faces)


def client(faces, own):
    base = b"SOMC\x01" + struct.pack(">H", len(faces)) + b"".join(faces)
    return base + struct.pack(">H", len(own)) + b"".join(own) + PART * len(own) + struct.pack(">I", 0)


def ladder(count, own):
    """The images of a ladder of so many classes, and of a client with so many more at its foot."""
    def parents(k):
        level = (k - 1) // 2
        return [0] if k == 0 else [4] if level == 0 else [4 + 2 * level - 1, 4 + 2 * level]
    faces = [face(f"G{k}", parents(k)) for k in range(count)]
    return library(faces), client(faces, [face(f"H{k}", parents(k)) for k in range(count, count + own)])


def towers(height, below):
    """The images of twelve chains of so many metaclasses, and of so many classes under classes that have the last ones."""
    faces, last = [], []
    for tower in range(TOWERS):
        metaclass = None
        for k in range(height):
            faces.append(face(f"M{tower}x{k}", [1], metaclass))
            metaclass = 3 + len(faces)
        faces.append(face(f"A{tower}", [0], metaclass))
        last.append(3 + len(faces))
    sets = (chosen for size in range(2, TOWERS + 1) for chosen in itertools.combinations(last, size))
    faces += [face(f"X{k}", list(chosen)) for k, chosen in enumerate(itertools.islice(sets, below))]
    return library(faces), client(faces, [])


def measured(program, images, word):
    with tempfile.TemporaryDirectory() as folder:
        paths = [os.path.join(folder, name) for name in ("library.img", "client.cli")]
        for path, image in zip(paths, images):
            with open(path, "wb") as file:
                file.write(image)
        run = subprocess.run([TIME, "-f", "%U %S %M", program, f"{word}:{paths[1]}:{paths[0]}"], capture_output=True, text=True, check=True)
    user, system, kilobytes = run.stderr.split()
    return run.stdout.split("\n")[0], float(user) + float(system), int(kilobytes) / 1024


def main():
    here = os.path.dirname(os.path.dirname(os.path.abspath(__file__)))
    program = os.path.abspath(sys.argv[1]) if len(sys.argv) > 1 else os.path.join(here, "crates/som_test_kernel/out/som_test_kernel")
    inputs = [(f"ladder of {n + own}", ladder(n, own)) for n, own in ((1024, 16), (2048, 16), (4096, 256))]
    inputs += [(f"towers of {height}", towers(height, below)) for height, below in ((40, 1000), (80, 2000), (150, 2284))]
    for name, images in inputs:
        for word in ("lay", "make"):
            told, seconds, megabytes = measured(program, images, word)
            print(f"| {name} | {told} | {word} | {seconds:.2f} | {megabytes:.0f} |", flush=True)


main()
