"""The check of reports: pages of the examples, of a witness and of large releases, whose facts are compared with the lines of `som`; and the record of these."""
import pathlib
import re
import shutil
import subprocess
import sys
import tempfile
import time

import asking
import facts
import large
import page
import report_facts

TOP = pathlib.Path(__file__).resolve().parent.parent
RECORD = TOP / "tools" / "data" / "examples.record"
EXAMPLES = ("hello", "zoo", "shop", "document", "plugin")
HELLO = ["library hello.img hello.idl hello.bod", "client hello.cli hello.img hello.main", "check hello.img hello.img"]

# How many commands the record has at least that the pages of the examples show too.
MEET = 10

# The large hierarchies of which reports are made.
SHAPES = ("beside one another", "one below each", "with parents near and far")

# What the program would say of pairs of releases, each with what check and witness say.
WITNESSES = {
    "Bell": (
        "class Bell 0.0 : SOMObject\n  0 void ring()\n  1 void stop()\n",
        "class Bell 0.0 : SOMObject\n  0 void stop()\n  1 void ring()\n",
        "K4 Bell ring 0",
        "file w.idl\ninterface W0 : Bell { implementation { ring: override; }; };\nfile w.bod\nW0::ring() { }\nfile w.main\nmain { }\n",
    ),
    "Dog": (
        "class Dog 0.0 : SOMObject\n  0 void speak()\n",
        "class Dog 0.0 : SOMObject\n  0 void speak(long)\n",
        "K5 Dog speak 0",
        "file w.idl\ninterface W0 : SOMObject { void g(in Dog c); };\nfile w.bod\nW0::g(c) { c.speak(); }\nfile w.main\nmain { }\n",
    ),
    "C": (
        "class C 0.0 : SOMObject\n  0 long f()\n",
        "class C 0.0 : SOMObject\n  0 string f()\n",
        "K5 C f 0",
        "file w.idl\ninterface W0 : SOMObject { long g(in C c); };\nfile w.bod\nW0::g(c) { return c.f(); }\nfile w.main\nmain { }\n",
    ),
    "Pet": ("class Pet 0.0 : SOMObject\n", "class Cat 0.0 : SOMObject\n", "K1 Pet - 0", "file w.idl\ninterface W0 : Pet { };\nfile w.main\nmain { }\n"),
    "Toy": ("class Toy 0.0 : SOMObject\nclass Dog 0.0 : Toy\n", "class Toy 0.0 : SOMObject\nclass Dog 0.0 : SOMObject\n", "K3 Dog Toy 1", "no text\n"),
    "Two": ("class Two 1.2 : SOMObject\n", "class Two 2.0 : SOMObject\n", "K2 Two - 0", ""),
    "Minor": ("class Two 1.2 : SOMObject\n", "class Two 1.1 : SOMObject\n", "K2 Two - 0", ""),
    "Named": (
        "class A 0.0 : SOMObject\n  0 void f() namelookup\nclass B 0.0 : A\n  0 f -> A\n  1 void g()\n",
        "class A 0.0 : SOMObject\n  0 void h()\n  1 void f() namelookup\nclass B 0.0 : A\n  0 f -> A\n  1 void g()\n",
        "K4 A f 0",
        "file w.idl\ninterface W0 : A { implementation { f: override; }; };\nfile w.bod\nW0::f() { }\nfile w.main\nmain { }\n",
    ),
    "Fewer": (
        "class A 0.0 : SOMObject\n  0 void f(long,A) namelookup\n",
        "class A 0.0 : SOMObject\n  0 void f(A)\n",
        "K5 A f 0",
        "no text\n",
    ),
    "Log": (
        "class Log 0.0 : SOMClass\nclass Box 0.0 : SOMObject\n  metaclass Log\n",
        "class Log 0.0 : SOMClass\nclass Box 0.0 : SOMObject\n",
        "K6 Box Log 0",
        "file w.idl\ninterface W0 : SOMObject { Log g(); };\nfile w.bod\nW0::g() { return class Box; }\nfile w.main\nmain { }\n",
    ),
}


def library(classes):
    """Classes as show prints those of a library."""
    return f"library {len(re.findall('^class ', classes, re.M))}\n{classes}"


class Double:
    """A stand-in for the program, for tests alone: it says of two releases what it was told to say."""

    def __init__(self, old, new, breach="", witness=None):
        self.told = {("show", "old"): (old, 0), ("show", "new"): (new, 0)}
        self.told["check", "old", "new"] = (f"incompatible {breach} in new\n", 4) if breach else ("accepted\n", 0)
        self.runs = {"old": ("", 0), "new": (f"incompatible {breach} in new\n", 4)}
        if witness is not None:
            self.told["witness", "old", "new"] = (f"breach {breach}\n{witness}", 0)

    def __call__(self, *words):
        if words[0] == "run":
            return asking.Answer(words, *self.runs[words[2]])
        known = words if words[0] != "witness" else (words[0], *words[2:])
        return asking.Answer(words, *self.told.get(known, ("som: bad command line\n", 2)))


# ---- the examples


def commands_of(name):
    """The commands of an example."""
    path = TOP / "examples" / name / f"{name}.commands"
    return [line.split() for line in (path.read_text().splitlines() if path.exists() else HELLO) if line.startswith(("library ", "client ", "check "))]


def reports_of(name):
    """The reports of an example: each pair of releases that is checked, with the clients of the older one and of those before it."""
    commands, found = commands_of(name), {}
    clients = [words[1:3] for words in commands if words[0] == "client"]
    for words in [words for words in commands if words[0] == "check"]:
        for place in range(2, len(words)):
            found[words[place - 1], words[place]] = tuple(client for client, library in clients if library in words[1:place])
    return found


def compiled(som, name, folder):
    """Makes the images of an example in a folder."""
    shutil.copytree(TOP / "examples" / name, folder, dirs_exist_ok=True)
    for words in [words for words in commands_of(name) if words[0] != "check"]:
        if subprocess.run([som, *words], cwd=folder, capture_output=True).returncode:
            sys.exit(f"{name}: som {' '.join(words)} is refused")


class Within:
    """The program, run in a folder."""

    def __init__(self, som, folder):
        self.som, self.folder = str(pathlib.Path(som).resolve()), folder

    def __call__(self, *words):
        run = subprocess.run([self.som, *words], cwd=self.folder, stdin=subprocess.DEVNULL, capture_output=True)
        return asking.Answer(words, run.stdout.decode(), run.returncode)


def asked_of(som, word=""):
    """What the program says of each report of the examples whose name has a word."""
    for name in EXAMPLES:
        reports = {pair: clients for pair, clients in reports_of(name).items() if word in " ".join(pair)}
        with tempfile.TemporaryDirectory() as folder:
            if reports:
                compiled(som, name, folder)
            for (old, new), clients in reports.items():
                yield f"{old} {new}", asking.asked(Within(som, folder), old, new, clients)


def kept(text, answers):
    """Whether a record has these answers."""
    record = asking.Record(text)
    return all(record.answers.get(it.words) == it for it in answers)


def record(som):
    """Writes what the program says of the examples."""
    answers = {answer.words: answer for _, asked in asked_of(som) for answer in asked.answers}
    RECORD.parent.mkdir(exist_ok=True)
    RECORD.write_text("What som says of the examples, as reports ask it; tools/report --record writes it.\n\n" + asking.recorded(answers.values()))


# ---- what is compared


def recorded_pages():
    """What the record says of each report of the examples."""
    som = asking.Record(RECORD.read_text())
    for name in EXAMPLES:
        for (old, new), clients in reports_of(name).items():
            yield f"{old} {new}", asking.asked(som, old, new, clients)


def witness_pages():
    """Reports with what the program says of made up witnesses."""
    for name, (old, new, breach, witness) in WITNESSES.items():
        yield f"the witness of {name}", asking.asked(Double(library(old), library(new), breach, witness), "old", "new", ())


def large_pages():
    """Reports of large releases: some classes have an entry more in the new one, one class is gone and one new, and one slot breaks a rule."""
    for said, text in [(said, text) for said, text in large.made() if said in SHAPES]:
        classes = text.partition("client ")[0].partition("\n")[2]
        older = re.sub(r"^  0 long (a\d*7)\(.*\n", "", classes, flags=re.M)
        newer = re.sub(r"^  0 long a40\(.*\n", "  0 long b40()\n", classes, flags=re.M)
        newer = re.sub(r"^class A4094 .*\n(?:  .*\n)*", "class B0 0.0 : A3\n  0 void b0()\n", newer, flags=re.M)
        yield f"classes {said}", asking.asked(Double(library(older), library(newer), "K4 A40 a40 0"), "old", "new", ())


def is_seen(asked):
    """Whether the comparison sees what is false: pages in which one fact was changed."""
    text = page.page(asked)
    false = [text.replace("</pre>", " </pre>", 1), re.sub(r'<figure class="run">', "", text, count=1), re.sub(r"<td><code>", "<td><code>x", text, count=1)]
    false += [re.sub(r'(<path d="M\d+) (\d+)V', lambda found: f"{found[1]} {int(found[2]) + 3}V", text, count=1), text.replace("− gone", "+ new", 1), text.replace("+ new", "− gone", 1)]
    return all(it == text or report_facts.differences(it, asked.answers) for it in false)


def record_differs():
    """What the record has otherwise than the examples' own pages, which the gate compares with the program: the classes, and what clients print."""
    record, told = asking.Record(RECORD.read_text()), {}
    for path in TOP.glob("examples/*/*.expected"):
        told |= {("show", name): (text, 0) for name, text in facts.shown_in(path).items()}
        for client, library, lines, status in re.findall(r"^\$ som run (\S+) (\S+)\n((?:(?!\$ |# |status |\n).*\n)*)(?:status (\d+)\n)?", path.read_text(), re.M):
            told["run", client, library, "--fuel", str(asking.FUEL)] = lines, int(status or 0)
    known = [words for words in told if words in record.answers]
    if len(known) < MEET:
        yield f"the record and the examples have only {len(known)} commands together"
    yield from (f"the record has something else of {' '.join(words)}" for words in known if (record.answers[words].text, record.answers[words].status) != told[words])


def pipeline_differs(som):
    """Whether docs/CI.md shows what the pipeline prints, and, where there is a program, whether it prints that."""
    expected = (TOP / "examples" / "pipeline" / "pipeline.expected").read_text()
    for block in re.findall(r"^```\n(.*?)^```$", (TOP / "docs" / "CI.md").read_text(), re.M | re.S):
        if block not in expected:
            yield "docs/CI.md: a block that isn't in examples/pipeline/pipeline.expected"
    if pathlib.Path(som).is_file():
        with tempfile.TemporaryDirectory() as folder:
            run = subprocess.run([TOP / "examples" / "pipeline" / "run", som, pathlib.Path(folder) / "pipeline"], capture_output=True, text=True)
        if run.returncode:
            yield f"examples/pipeline/run: status {run.returncode}\n{run.stdout}{run.stderr}"


def check(som):
    """Compares pages with lines; returns the status, or what is wrong."""
    wrong, counts, slowest = [*record_differs(), *pipeline_differs(som)], [], 0
    asks = list(asked_of(som)) if pathlib.Path(som).is_file() else []
    for reports in (recorded_pages(), witness_pages(), large_pages(), asks):
        found = list(reports)
        counts.append(len(found))
        for name, asked in found:
            begun = time.process_time()
            text = page.page(asked)
            slowest = max(slowest, time.process_time() - begun)
            wrong += [f"{name}: {it}" for it in report_facts.differences(text, asked.answers)]
    wrong += [f"{name}: a false page is taken for a true one" for name, asked in [*recorded_pages(), *witness_pages()] if not is_seen(asked)]
    wrong += [f"{name}: the record has something else; tools/report --record writes it" for name, asked in asks if not kept(RECORD.read_text(), asked.answers)]
    images = f"{counts[3]} of images" if asks else "none of images, since there is no program"
    print(f"reports: {counts[0]} of the record, {counts[1]} of witnesses, {counts[2]} of {large.CLASSES} classes, the slowest made in {slowest:.1f} s, {images}: {len(wrong)} differences")
    return "\n".join(wrong) or 0
