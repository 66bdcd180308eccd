"""Clients whose main is one loop, for how fast a run goes and how it grows, with the same loops in C++ and in Python where these
have such a thing."""
import dataclasses

INTERFACES = """#include <somobj.idl>
interface Cell : SOMObject
{
  attribute Cell next;
  attribute long n;
  long add(in long a);
  long down(in long depth);
};
interface Below : Cell
{
  implementation { add: override; };
};
interface Log : SOMMBeforeAfter
{
  implementation { sommBeforeMethod: override; sommAfterMethod: override; };
};
interface Logged : SOMObject
{
  long add(in long a);
  implementation { metaclass = Log; };
};
"""

BODIES = """Cell::add(a) { return a + 1; }
Cell::down(depth) { if (depth > 1) { return self.down(depth - 1); } return depth; }
Below::add(a) { return parent Cell.add(a); }
Log::sommBeforeMethod(object, name) { }
Log::sommAfterMethod(object, name) { }
Logged::add(a) { return a + 1; }
"""

HEADER = """#pragma once
struct Root { virtual ~Root(); };
class Cell : public Root
{
  Cell *next = nullptr;
  int n = 0;
public:
  Cell();
  virtual Cell *get_next();
  virtual void set_next(Cell *value);
  virtual int get_n();
  virtual void set_n(int value);
  virtual int add(int a);
  virtual int down(int depth);
};
class Below : public Cell
{
public:
  Below();
  int add(int a) override;
};
class Forward : public Cell
{
  Cell *target;
public:
  explicit Forward(Cell *target);
  int add(int a) override;
};
Cell *make_cell();
Cell *make_below();
Cell *make_forward(Cell *target);
"""

SOURCE = """#include "cells.h"
Root::~Root() {}
Cell::Cell() {}
Cell *Cell::get_next() { return next; }
void Cell::set_next(Cell *value) { next = value; }
int Cell::get_n() { return n; }
void Cell::set_n(int value) { n = value; }
int Cell::add(int a) { return a + 1; }
__attribute__((noipa)) int Cell::down(int depth) { if (depth > 1) { return this->down(depth - 1); } return depth; }
Below::Below() {}
int Below::add(int a) { return Cell::add(a); }
Forward::Forward(Cell *target) : target(target) {}
int Forward::add(int a) { return target->add(a); }
Cell *make_cell() { return new Cell; }
Cell *make_below() { return new Below; }
Cell *make_forward(Cell *target) { return new Forward(target); }
"""

MODULE = """class Cell:
    def __init__(self):
        self.next = None
        self.n = 0
    def add(self, a):
        return a + 1
    def down(self, depth):
        if depth > 1:
            return self.down(depth - 1)
        return depth

class Below(Cell):
    def add(self, a):
        return super().add(a)

class Forward:
    def __init__(self, target):
        self.target = target
    def __getattr__(self, name):
        return getattr(self.target, name)
"""


@dataclasses.dataclass(frozen=True)
class Client:
    """A loop of so many turns: what stands before it and in it, and the units that these take. A turn that doesn't count by
    itself has `i = i + 1` in it. In C++ and Python the loop counts by itself, and an empty text says that there is no peer."""
    name: str
    before: str
    units_before: int
    turn: str
    units: int
    cpp: str
    python: str


CELL = "var c : Cell = new Cell;"
NEXT = "i = i + 1;"

CLIENTS = {
    "turn": Client("counts", "", 0, NEXT, 1, "", "pass"),
    "place": Client("calls a method by its place", CELL, 2, "i = c.add(i);", 2, "s = c->add(s);", "s = c.add(s)"),
    "name": Client("calls it by its name", CELL, 2, "i = lookup long c.add(i);", 2, "", "s = getattr(c, 'add')(s)"),
    "dispatch": Client("calls it by dispatch", CELL, 2, "i = dispatch long c.add(i);", 3, "", ""),
    "parent": Client(
        "calls a method that calls its parent's", "var b : Cell = new Below;", 2, "i = b.add(i);", 3, "s = b->add(s);", "s = b.add(s)"),
    "hooks": Client("calls one with a method before and one after", "var l : Logged = new Logged;", 2, "i = l.add(i);", 4, "", ""),
    "proxy": Client(
        "calls it through a proxy", "var p : Cell = proxy(Cell, new Cell);", 3, "i = p.add(i);", 3, "s = p->add(s);", "s = p.add(s)"),
    "attribute": Client(
        "gets an attribute and sets it", CELL, 2, f"c._set_n(c._get_n() + 1); {NEXT}", 3, "c->set_n(c->get_n() + 1);", "c.n = c.n + 1"),
    "freed": Client("makes an object and frees it", "", 0, f"free new Cell; {NEXT}", 5, "delete make_cell();", "Cell()"),
    "kept": Client(
        "makes an object that stays", "var last : Cell = nil;", 0, f"var o : Cell = new Cell; o._set_next(last); last = o; {NEXT}", 4,
        "Cell *o = make_cell(); o->set_next(last); last = o;", "o = Cell(); o.next = last; last = o"),
    "text": Client(
        "makes a text of a number and joins one to it", 'var t : string = "";', 0, f't = text(i) & "x"; {NEXT}', 1,
        't = std::to_string(i) + "x";', "t = str(i) + 'x'"),
    "line": Client("prints a line", "", 0, f"print i; {NEXT}", 1, "std::cout << i << std::endl;", "print(i, flush=True)"),
}


def main_of(client, turns):
    """The main of a client of som."""
    return f"main\n{{\n  var i : long = 0;\n  {client.before}\n  while (i < {turns}) {{ {client.turn} }}\n}}\n"


def units_of(client, turns):
    """The units that it takes."""
    return client.units_before + client.units * turns


def deep_main(depth, turns):
    """A main that so often calls a method which calls itself down to a depth."""
    return f"main\n{{\n  {CELL}\n  var i : long = 0;\n  while (i < {turns}) {{ c.down({depth}); {NEXT} }}\n}}\n"


def cpp_main():
    """One program with all loops: its words are the name of one, the turns and the depth."""
    loops = "".join(f'  if (name == "{key}") {{ for (int i = 0; i < turns; i++) {{ {client.cpp} }} }}\n'
                    for key, client in CLIENTS.items() if client.cpp)
    deep = '  if (name == "deep") { for (int i = 0; i < turns; i++) { s += c->down(depth); } }\n'
    before = "  Cell *c = make_cell(), *b = make_below(), *p = make_forward(c), *last = nullptr;\n  std::string t;\n  int s = 0;\n"
    words = "  std::string name = words[1];\n  int turns = std::atoi(words[2]), depth = std::atoi(words[3]);\n"
    end = "  return last == c || t == \"y\" || s == -1;\n"
    head = '#include "cells.h"\n#include <cstdlib>\n#include <iostream>\n#include <string>\n'
    return f"{head}int main(int, char **words)\n{{\n{words}{before}{loops}{deep}{end}}}\n"


def python_main():
    """The same as a module; each loop is a function of its own."""
    loops = "".join(f"def {key}(turns, depth):\n{python_before(key)}    for i in range(turns):\n        {client.python}\n\n"
                    for key, client in CLIENTS.items() if client.python)
    deep = "def deep(turns, depth):\n    c = Cell()\n    for i in range(turns):\n        c.down(depth)\n\n"
    main = "def main(words):\n    sys.setrecursionlimit(10000)\n    globals()[words[1]](int(words[2]), int(words[3]))\n"
    return f"import sys\nfrom cells import *\n\n{loops}{deep}{main}"


def python_before(key):
    cell, below, proxy = "c = Cell()", "b = Below()", "p = Forward(Cell())"
    before = {"place": cell, "name": cell, "attribute": cell, "parent": below, "proxy": proxy, "kept": "last = None"}
    return f"    s = 0\n    {before.get(key, 'pass')}\n"


FILES = {
    "r.idl": INTERFACES, "r.bod": BODIES, "cells.h": HEADER, "cells.cpp": SOURCE, "loops.cpp": cpp_main(), "cells.py": MODULE,
    "loops.py": python_main(),
}
