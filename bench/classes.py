"""Two releases of N classes and a client of the first, as texts of som, of omniidl, of C++ and of Python.

Class k of a tree stands under class (k-1)/2. In a ladder two classes stand on each level, each under both of the level above, so
that there is a diamond at every level. Each class has an attribute, which is two methods and a variable, a method that sets it, and
overrides the method `tell` of the first class. The newer release has one more method in each class. The client makes two objects
of each class, calls both methods, and prints a sum.
"""


def parents(shape, k):
    """The classes above class k."""
    if k == 0:
        return []
    if shape == "tree":
        return [(k - 1) // 2]
    level = (k - 1) // 2
    return [0] if level == 0 else [2 * level - 1, 2 * level]


# ---- som, and omniidl, which reads over what only som knows

def interface(shape, k, is_newer):
    above = ", ".join(f"G{parent}" for parent in parents(shape, k)) or "SOMObject"
    names = ([] if k else ["tell"]) + [f"m{k}", f"_get_a{k}", f"_set_a{k}"] + ([f"x{k}"] if is_newer else [])
    root = "" if k else "  long tell();\n"
    extra = f"  long x{k}();\n" if is_newer else ""
    override = " tell: override;" if k else ""
    own = f"#ifdef __SOMIDL__\n  implementation {{ releaseorder: {', '.join(names)};{override} }};\n#endif\n"
    return f"interface G{k} : {above}\n{{\n  attribute long a{k};\n{root}  long m{k}(in long n);\n{extra}{own}}};\n"


def interfaces(shape, count, is_newer):
    return "#include <somobj.idl>\n" + "".join(interface(shape, k, is_newer) for k in range(count))


def bodies(count, is_newer):
    extra = (lambda k: f"G{k}::x{k}() {{ return {k}; }}\n") if is_newer else (lambda k: "")
    return "".join(f"G{k}::tell() {{ return {k}; }}\nG{k}::m{k}(n) {{ somThis.a{k} = n; return n + {k}; }}\n{extra(k)}"
                   for k in range(count))


def main_of(count):
    calls = "".join(f"  s = host wrapadd(s, (new G{k}).m{k}({k}));\n  s = host wrapadd(s, (new G{k}).tell());\n"
                    for k in range(count))
    return f"main\n{{\n  var s : long = 0;\n{calls}  print s;\n}}\n"


def sum_of(count):
    """What the client prints."""
    return f"{sum(3 * k for k in range(count))}\n".encode()


# ---- C++, whose classes inherit virtually where two ways lead to one

def header_class(shape, k, is_newer):
    way = "public virtual" if shape == "ladder" else "public"
    above = ", ".join(f"{way} G{parent}" for parent in parents(shape, k)) or f"{way} Root"
    extra = f"  virtual int x{k}();\n" if is_newer else ""
    methods = f"  virtual int tell();\n  virtual int m{k}(int n);\n  virtual int get_a{k}();\n  virtual void set_a{k}(int n);\n"
    return f"class G{k} : {above}\n{{\n  int a{k} = 0;\npublic:\n  G{k}();\n{methods}{extra}}};\n"


def header(shape, count, is_newer):
    return "#pragma once\nstruct Root { virtual ~Root(); };\n" + "".join(header_class(shape, k, is_newer) for k in range(count))


def source_class(k, is_newer):
    own = f"G{k}::G{k}() {{}}\nint G{k}::tell() {{ return {k}; }}\nint G{k}::m{k}(int n) {{ a{k} = n; return n + {k}; }}\n"
    accessors = f"int G{k}::get_a{k}() {{ return a{k}; }}\nvoid G{k}::set_a{k}(int n) {{ a{k} = n; }}\n"
    return own + accessors + (f"int G{k}::x{k}() {{ return {k}; }}\n" if is_newer else "")


def source(name, count, is_newer):
    return f'#include "{name}.h"\nRoot::~Root() {{}}\n' + "".join(source_class(k, is_newer) for k in range(count))


def client_source(count):
    """Objects come from a function that the compiler doesn't look into, so that the calls go by the tables of methods."""
    number = "static_cast<unsigned>"
    calls = "".join(f"  s += {number}(made<G{k}>()->m{k}({k}));\n  s += {number}(made<G{k}>()->tell());\n" for k in range(count))
    made = "template <class T> __attribute__((noipa)) T *made() { return new T; }\n"
    end = "  std::cout << static_cast<int>(s) << std::endl;\n"
    return f'#include "old.h"\n#include <iostream>\n{made}int main()\n{{\n  unsigned s = 0;\n{calls}{end}}}\n'


# ---- Python

def module_class(shape, k):
    above = ", ".join(f"G{parent}" for parent in parents(shape, k)) or "object"
    init = "    def __init__(self):\n        self.a0 = 0\n" if k == 0 else ""
    tell = f"    def tell(self):\n        return {k}\n"
    return f"class G{k}({above}):\n{init}{tell}    def m{k}(self, n):\n        self.a{k} = n\n        return n + {k}\n"


def module(shape, count):
    return "".join(module_class(shape, k) for k in range(count))


def client_module(count):
    calls = "".join(f"    s = wrapadd(s, G{k}().m{k}({k}))\n    s = wrapadd(s, G{k}().tell())\n" for k in range(count))
    head = "from release import *\n\ndef wrapadd(a, b):\n    return (a + b + 2147483648) % 4294967296 - 2147483648\n\n"
    return f"{head}def main():\n    s = 0\n{calls}    print(s)\n\nmain()\n"
