"""What `som` says of two releases and their clients: each command with its lines and its status, asked of the program once, or taken from a record."""
import dataclasses
import pathlib
import re
import subprocess
import sys
import tempfile

import hierarchy
from changes import Breach, Release

# How many units a client of a report may take, where nobody says otherwise, and how many bytes may be printed.
FUEL, LONGEST = 1_000_000, 1 << 25

BREACH = re.compile(r"incompatible (K[1-6]) (\S+) (\S+) (\d+) in .*\n")


@dataclasses.dataclass(frozen=True)
class Answer:
    """A command's words, what it printed, and its status."""
    words: tuple
    text: str
    status: int


class Refused(Exception):
    """A command that ended otherwise than a report can be made of."""

    def __init__(self, answer):
        super().__init__(f"som {' '.join(answer.words)}: status {answer.status}\n{answer.text}".rstrip())
        self.status = answer.status


class Program:
    """The program, which is run for each command. What it says on standard error is its usage, which a report has no need of."""

    def __init__(self, path):
        self.path = path

    def __call__(self, *words):
        try:
            run = subprocess.Popen([self.path, *words], stdin=subprocess.DEVNULL, stdout=subprocess.PIPE, stderr=subprocess.DEVNULL)
        except OSError:
            sys.exit(f"no program {self.path}: make hello builds it, or --som names one")
        with run:
            printed = run.stdout.read(LONGEST + 1)
            if len(printed) > LONGEST:
                run.kill()
                sys.exit(f"som {' '.join(words)}: prints more than {LONGEST} bytes; --fuel may be less")
        if run.returncode < 0:
            sys.exit(f"som {' '.join(words)}: ended by signal {-run.returncode}")
        return Answer(words, hierarchy.printable(printed), run.returncode)


class Record:
    """Answers that were written down, as text: a line `$ WORDS`, the lines that were printed, each after four blanks, and `= STATUS`."""

    def __init__(self, text):
        self.answers = {}
        for words, lines, status in re.findall(r"^\$ (.*)\n((?:    .*\n)*)= (\d+)$", text, re.M):
            self.answers[tuple(words.split())] = Answer(tuple(words.split()), re.sub(r"^    ", "", lines, flags=re.M), int(status))

    def __call__(self, *words):
        words = tuple("w" if word.startswith("/") and word.endswith("/w") else word for word in words)
        return self.answers.get(words) or Answer(words, "som: bad command line\n", 2)


def recorded(answers):
    """Answers as the text of a record."""
    return "".join(f"$ {' '.join(it.words)}\n{re.sub('^', '    ', it.text, flags=re.M).removesuffix('    ')}= {it.status}\n" for it in answers)


@dataclasses.dataclass(frozen=True)
class Witness:
    """What witness tells: the text of each of the client's files by its name, or none; and what its run says on both releases, where there is an image."""
    answer: Answer
    files: dict
    runs: tuple = ()


@dataclasses.dataclass(frozen=True)
class Client:
    """A client, with what it prints on both releases, and its traces there."""
    name: str
    runs: tuple
    traces: tuple


@dataclasses.dataclass(frozen=True)
class Asked:
    """All that a report says of two releases. There is no witness where the program has no such command; answers are in the order in which they were asked."""
    old: Release
    new: Release
    breach: Breach | None
    witness: Witness | None
    clients: tuple
    answers: tuple


class Asker:
    """Asks each command once, and keeps what was said. The image of a witness, which stands in a folder that is removed, has another name in what is kept."""

    def __init__(self, som, out, called):
        self.som, self.out, self.called, self.answers = som, out, called, []

    def ask(self, *words, wanted=None, spared=()):
        """The answer to these words, which ends with one of the statuses that are wanted; one with a status that is spared isn't kept."""
        known = tuple(self.called if word == self.out else word for word in words)
        asked = next((it for it in self.answers if it.words == known), None)
        answer = asked or dataclasses.replace(self.som(*words), words=known)
        if wanted and answer.status not in (*wanted, *spared):
            raise Refused(answer)
        if not asked and answer.status not in spared:
            self.answers.append(answer)
        return answer

    def classes(self, image, name):
        """The classes of a release."""
        shown = hierarchy.read(self.ask("show", image, wanted=(0,)).text)
        if any(one.room == "client" for one in shown):
            raise hierarchy.NotShown("it is the image of a client")
        return Release(name, shown)

    def breach(self, old, new):
        """What the newer release doesn't keep, or nothing where it is accepted."""
        answer = self.ask("check", old, new, wanted=(0, 4))
        found = BREACH.fullmatch(answer.text)
        if (answer.status == 0) != (answer.text == "accepted\n") or answer.status == 4 and not found:
            raise Refused(answer)
        return Breach(found[1], found[2], found[3], int(found[4])) if found else None

    def runs(self, client, images, fuel, *more):
        """What a client prints on each image."""
        return tuple(self.ask("run", client, image, "--fuel", str(fuel), *more) for image in images)

    def witness(self, images, fuel):
        """What witness tells, with the runs of its image; nothing where the program has no such command."""
        answer = self.ask("witness", self.out, *images, wanted=(0,), spared=(2,))
        if answer.status == 2:
            return None
        is_put = answer.text.startswith("breach ") and not answer.text.startswith("breach K2 ")
        return Witness(answer, witness_files(answer.text), self.runs(self.out, images, fuel) if is_put else ())


def witness_files(text):
    """The files that witness tells, by their names."""
    files, name = {}, ""
    for line in text.splitlines():
        found = re.fullmatch(r"file (w\.(?:idl|bod|main))", line)
        if found:
            name = found[1]
            files[name] = ""
        elif name:
            files[name] += f"{line}\n"
    return files


def names_of(paths):
    """Names of files that tell them apart: the last parts of their paths, or the paths."""
    last = [pathlib.Path(path).name for path in paths]
    return last if len(set(last)) == len(last) else [str(path) for path in paths]


def asked(som, old, new, clients, fuel=FUEL):
    """Asks all that a report says."""
    called = next(name for name in ("w", "w.witness", *(f"w{number}" for number in range(len(clients) + 1))) if name not in (old, new, *clients))
    with tempfile.TemporaryDirectory() as folder:
        asker, names = Asker(som, str(pathlib.Path(folder) / "w"), called), names_of([old, new])
        breach = asker.breach(old, new)
        releases = [asker.classes(image, name) for image, name in zip((old, new), names)]
        witness = asker.witness((old, new), fuel) if breach else None
        found = []
        for client, name in zip(clients, names_of(clients)):
            runs = asker.runs(client, (old, new), fuel)
            found.append(Client(name, runs, asker.runs(client, (old, new), fuel, "--trace")))
    return Asked(*releases, breach, witness, tuple(found), tuple(asker.answers))
