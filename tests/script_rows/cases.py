"""The cases of a rows file: the script of each, and the lines that it prints. tests/scripts says what a row is."""
import io
import os
import re
import subprocess
import sys

HERE = os.path.dirname(os.path.abspath(__file__))
BYTE = re.compile(r"%([0-9A-Fa-f]{2})")
PLACE = re.compile(r"\{(\w+)((?:[-+*]\d+)*)(?::(\d+))?\}")
STEP = re.compile(r"([-+*])(\d+)")
COPIES = re.compile(r"\{([^{}^]+)\^(\d+)\}")


class Case:
    """A script, the words behind it on the command line, and the lines that it prints, each with the number of its row."""

    def __init__(self, file, line, title, texts):
        self.file, self.line, self.title, self.texts = file, line, title, dict(texts)
        self.words, self.manifest, self.events, self.printed = [], None, [], []
        self.fault, self.status, self.seconds = False, None, None

    def script(self):
        """Returns the bytes of the script."""
        return plain("".join(f"{line}\n" for line in [*self.manifest, "--", *self.events]))

    def output(self):
        """Returns the bytes that the script prints."""
        return plain("".join(f"{text}\n" for _, text in self.printed))

    def wanted_status(self):
        return int(self.fault) if self.status is None else self.status


def wrong(file, line, text):
    sys.exit(f"{file}:{line}: {text}")


def plain(text):
    """Returns the bytes that a text of a row stands for."""
    if "%" in text:
        text = BYTE.sub(lambda found: chr(int(found[1], 16)), text)
    return text.encode("latin-1")


def filled(text, counts):
    """Returns a text with the numbers of the `each` around it, and with its copies."""

    def number(found):
        if found[1] not in counts:
            return found[0]
        count = counts[found[1]]
        for sign, by in STEP.findall(found[2]):
            count = count * int(by) if sign == "*" else count + int(sign + by)
        return str(count).zfill(int(found[3] or 0))

    return COPIES.sub(lambda found: found[1] * int(found[2]), PLACE.sub(number, text) if counts else text)


def to_the_end(rows, file, line):
    """Returns the rows up to the `end` of an `each`."""
    inner, depth = [], 1
    for at, row in rows:
        depth += row.startswith("each ") - (row == "end")
        if depth == 0:
            return inner
        inner.append((at, row))
    return wrong(file, line, "no end")


def expanded(rows, counts, file):
    """Tells each row as often as the `each` around it say, but for comments."""
    for line, row in rows:
        if row.startswith("each "):
            words, inner = filled(row, counts).split(" "), to_the_end(rows, file, line)
            if len(words) != 4:
                wrong(file, line, "each NAME FIRST LAST")
            for count in range(int(words[2]), int(words[3]) + 1):
                yield from expanded(iter(inner), {**counts, words[1]: count}, file)
        elif row and row[0] != "#":
            yield line, filled(row, counts) if "{" in row else row


def put(case, line, row):
    """Adds a row to its case."""
    word, _, rest = row.partition(" ")
    if word == "manifest":
        if rest[1:] not in case.texts:
            wrong(case.file, line, "no such text")
        case.manifest = case.texts[rest[1:]]
    elif word == "words" and not case.events:
        case.words = rest.split(" ")
    elif word == "seconds" and not case.events:
        case.seconds = int(rest)
    elif word == "fault:":
        case.printed.append((line, row))
        case.fault = True
    elif word == "status":
        case.status = int(rest)
    elif word == "=":
        case.printed.append((line, rest))
    else:
        event, sign, printed = row.partition(" = ")
        case.events.append(event)
        if sign:
            case.printed.append((line, printed))


def cases_in(file, lines):
    """Tells the cases of a file with these lines."""
    rows = ((at, line.removesuffix("\n")) for at, line in enumerate(lines, 1))
    texts, case = {}, None
    for line, row in expanded(rows, {}, file):
        if row.startswith("case "):
            if case:
                yield case
            case = Case(file, line, row.removeprefix("case "), texts)
        elif row[0] == "|":
            name, _, rest = row[1:].partition(" ")
            known = case.texts if case else texts
            known[name] = [*known.get(name, []), rest]
        elif case:
            put(case, line, row)
        else:
            wrong(file, line, "no case")
    if case:
        yield case


def files():
    """Returns all files of rows, and the models whose rows stand in no file."""
    names = sorted(name for name in os.listdir(HERE) if name.endswith(".rows"))
    models = sorted(name for name in os.listdir(f"{HERE}/models") if name.endswith(".py"))
    known = {name.removesuffix(".rows") for name in names}
    models = [name for name in models if name.removesuffix(".py") not in known]
    return [*(f"{HERE}/{name}" for name in names), *(f"{HERE}/models/{name}" for name in models)]


def lines_of(path):
    """Tells the lines of a file, or of what a model prints."""
    how = {"encoding": "latin-1", "newline": "\n"}
    if not path.endswith(".py"):
        with open(path, **how) as file:
            yield from file
        return
    with subprocess.Popen([sys.executable, path], stdout=subprocess.PIPE) as model:
        yield from io.TextIOWrapper(model.stdout, **how)
    if model.returncode != 0:
        sys.exit(f"{path}: status {model.returncode}")


def cases_of(path):
    """Tells the cases of a file of rows, or of the rows that a model prints."""
    for case in cases_in(os.path.relpath(path), lines_of(path)):
        if case.manifest is None:
            wrong(case.file, case.line, "no manifest")
        yield case
