"""The manual page som(1), made of docs/COMMANDS.md: its tables and its text as roff."""
import re

# The parts of the page that speak of scripts of the repository, which aren't installed.
LEFT_OUT = ("What draws it", "What reports it", "What tells where", "What is installed")


def commands(page):
    """The commands, by their words, with what they do and print, of the first table of the page."""
    table = page.partition("|---|")[2].partition("\n\n")[0]
    return [tuple(cell.strip() for cell in line.strip("|").split(" | ")) for line in table.splitlines()[1:]]


def plain(text):
    """A text of the page without its marks."""
    return re.sub(r"\[([^\]]*)\]\([^)]*\)", r"\1", text.replace("**", "")).replace("`", "")


def safe(text):
    """A text so that roff takes it as it is."""
    text = text.replace("\\", "\\e").replace("-", "\\-").replace("…", "...").replace("–", "\\(en")
    return f"\\&{text}" if text[:1] in (".", "'") else text


def styled(text):
    """A text with its code in bold and its stress in italics."""
    text = re.sub(r"\[([^\]]*)\]\([^)]*\)", r"\1", text)
    pieces = re.split(r"(`[^`]*`|\*\*(?:[^*]|\*(?!\*))*\*\*)", text)
    made = []
    for piece in pieces:
        code, stress = re.fullmatch(r"`([^`]*)`", piece), re.fullmatch(r"\*\*(.*)\*\*", piece)
        made.append(f"\\fB{safe(plain(code[1] if code else stress[1]))}\\fR" if code or stress else safe(piece) if piece else "")
    line = "".join(made)
    return f"\\&{line}" if line[:1] in (".", "'") else line


def table(lines):
    """A table: each row under its first cells, what they mean behind."""
    rows = [[cell.strip() for cell in line.strip().strip("|").split(" | ")] for line in lines]
    heads, rows = rows[0], rows[2:]
    for row in rows:
        yield ".TP"
        yield styled(row[0] if len(row) < 3 or not row[0].isdigit() else f"{row[0]}: {row[1]}")
        said = row[1:] if len(row) < 3 or not row[0].isdigit() else row[2:]
        yield styled("; ".join([said[0], *[f"{head.lower()}: {cell}" for head, cell in zip(heads[-len(said) + 1 :], said[1:])]]))


def blocks(text):
    """The blocks of a text: its paragraphs, lists, tables and code, each as its lines."""
    for block in re.findall(r"^```\n.*?^```$|(?:^(?!```).+\n?)+", text, re.M | re.S):
        for part in re.split(r"\n\s*\n", block) if not block.startswith("```") else [block]:
            if part.strip():
                yield part.strip("\n").splitlines()


def block_roff(lines):
    """A block as roff."""
    if lines[0] == "```":
        return [".PP", ".nf", *[safe(line) for line in lines[1:-1]], ".fi"]
    if lines[0].startswith("|"):
        return list(table(lines))
    if lines[0].startswith("- "):
        return [it for line in lines for it in (".IP \\(bu 2", styled(line[2:]))]
    return [".PP", styled(" ".join(lines))]


def manual(page):
    """The manual page."""
    head, *parts = re.split(r"^## ", page.partition("\n")[2], flags=re.M)
    made = [".TH SOM 1", ".SH NAME", "som \\- compiles libraries and clients, holds releases against each other, and runs clients", ".SH SYNOPSIS", ".nf"]
    made += [f"\\fBsom\\fR {safe(plain(words))}" for words, _, _ in commands(page)] + [".fi", ".SH DESCRIPTION"]
    made += [line for lines in blocks(head) for line in block_roff(lines)]
    for part in parts:
        title, _, text = part.partition("\n")
        if title not in LEFT_OUT:
            made += [f".SH {safe(plain(title)).upper()}", *[line for lines in blocks(text) for line in block_roff(lines)]]
    return "\n".join(made) + "\n"
