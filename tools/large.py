"""Large hierarchies that checks make up, as lines of `som show`."""

# How many classes a library may have.
CLASSES = 4096


def made():
    """Large hierarchies, by what each class has below it or beside it, as lines of show."""
    parents = {
        "beside one another": lambda i: "SOMObject",
        "two below each": lambda i: f"A{(i - 1) // 2}" if i else "SOMObject",
        "one below each": lambda i: f"A{i - 1}" if i else "SOMObject",
        "sixteen above each": lambda i: ",".join(f"A{k}" for k in range(i - 1, max(i - 17, -1), -1)) or "SOMObject",
        "in sixty columns": lambda i: f"A{i - 60}" if i >= 60 else "SOMObject",
        "below any two": lambda i: f"A{i % 90},A{(i * 7 + 1) % 89}" if i >= 90 and i % 90 != (i * 7 + 1) % 89 else "SOMObject",
        "with parents near and far": lambda i: f"A{i * i % 7919 % i},A{i - 1}" if i > 9 and i * i % 7919 % i != i - 1 else "SOMObject",
    }
    for said, parents_of in parents.items():
        rows = [f"class A{i} 1.{i % 3} : {parents_of(i)}\n" + "  metaclass M\n" * (i % 50 == 9) + f"  0 long a{i}(string,A{i})\n" for i in range(CLASSES - 1)]
        own = [f"class C{i} 0.0 : A{i * 17 % CLASSES - 1},M\n" if i % 2 else f"class C{i} 0.0 : {f'C{i - 1}' if i % 4 else f'A{i * 5}'}\n" for i in range(200)]
        yield said, f"library {CLASSES}\nclass M 0.0 : SOMMBeforeAfter\n{''.join(rows)}client {len(own)}\n{''.join(own)}"
