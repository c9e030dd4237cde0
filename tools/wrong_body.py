"""Reads wrong bodies: the edits of crates/*/planted, and those of tests/wrong."""
import copy
import functools
import pathlib
import re

import copies
import stubs

CRATES = pathlib.Path("crates")


class WrongBody:
    """One edit: the function that has to be refused, when it is tried, and the texts that it changes.

    The crates' edits begin with two lines: 'fn: PATH' for the function, and 'part: N' or 'part: always'. A wrong
    definition, which stands in specs/, names the lowest function whose clause breaks.
    """

    def __init__(self, path):
        self.name = path.stem
        self.crate = path.parent.parent.name
        self.function = self.part = None
        self.pairs = []
        # Lines that no key begins: an edit changes texts of one line each.
        self.unread = []
        self.is_right = False
        file = old = None
        for line in path.read_text().splitlines():
            key, _, text = line.partition(": ")
            if key == "fn":
                self.function = text
            elif key == "part":
                self.part = text
            elif key == "file":
                file = text
            elif key == "old":
                old = text
            elif key == "new":
                self.pairs.append((file, old, text))
            else:
                self.unread.append(line)

    def is_definition(self):
        """Tells whether it changes what clauses say, and not a body alone."""
        return any(not file.startswith("src/") for file, _, _ in self.pairs)

    def is_shared(self):
        """Tells whether it may break several functions: whether it changes a definition, or a constant of several."""
        return self.is_definition() or any(self.is_outside(file, old) for file, old, _ in self.pairs)

    def is_outside(self, file, old):
        """Tells whether a text stands above its file's functions or is a constant, and no import or own constant."""
        above = (CRATES / self.crate / file).read_text().partition(old)[0]
        is_above = not re.search(r"^[^/\n]*\bfn\s", above + old, re.M)
        is_outside = is_above or bool(re.match(r"\s*(pub\S* )?(const|static) ", old))
        return is_outside and not old.startswith("use ") and not self.is_own_constant(old)

    def is_own_constant(self, old):
        """Tells whether a text is a private constant that its function names, and nothing else in the crate."""
        constant = re.match(r"\s*const (\w+): ", old)
        return bool(constant) and stubs.places_of(CRATES / self.crate, constant[1]) == {stubs.key_of(self.function)}

    @functools.cached_property
    def is_movable(self):
        """Tells whether a copy of its function can have it: it changes nothing else, and the function can be copied."""
        return bool(self.text_of_copy(CRATES / self.crate, self.function))

    def text_of_copy(self, folder, path):
        """Returns the text of a copy, at a path, of its function below the folder, with the wrong body, or none."""
        files = {file for file, _, _ in self.pairs}
        file = min(files)
        if len(files) > 1 or not file.startswith("src/"):
            return ""
        text = copies.text_of((folder / file).read_text().splitlines(), file, self.function)
        for _, old, new in self.pairs:
            # A function that an edit adds has its name once in a crate.
            if text.count(old) != 1 or re.search(r"\bfn \w", new):
                return ""
            text = text if self.is_right else text.replace(old, new)
        return "" if copies.calls_itself(text, self.function) else copies.renamed(text, self.function, path)

    def as_it_stands(self):
        """Returns the right body of its function, as if it were a wrong one."""
        right = copy.copy(self)
        right.name, right.is_right = f"{self.function}, as it stands", True
        return right

    def texts(self, folder):
        """Returns the texts of the files below the folder that it changes, with the wrong body in them."""
        texts = {}
        for file, old, new in self.pairs:
            source = folder / file
            text = texts[source] if source in texts else source.read_text() if source.is_file() else ""
            texts[source] = self.changed(text, file, old, new)
        return texts

    def changed(self, text, file, old, new):
        """Returns a file's text with one text changed, which stands there once, or else once in the function."""
        if text.count(old) == 1:
            return text.replace(old, new)
        lines = text.splitlines(keepends=True)
        place = copies.place_of([line.rstrip("\n") for line in lines], file, self.function or "") if file.startswith("src/") else range(0)
        own = "".join(lines[place.start : place.stop])
        if own.count(old) != 1:
            raise ValueError(f"{self.name}: its old text stands in {file} {text.count(old)} times, and not once")
        return "".join(lines[: place.start]) + own.replace(old, new) + "".join(lines[place.stop :])

    def apply(self, folder):
        """Writes the wrong body into the files below the folder."""
        for source, text in self.texts(folder).items():
            source.write_text(text)


def every_body():
    """Returns the wrong bodies of all crates, by crate and by name."""
    return [WrongBody(path) for path in sorted(CRATES.glob("*/planted/*.edit"))]


def faults(parts):
    """Tells what is wrong with the edits, as far as reading shows it."""
    known = {"always", *map(str, range(parts))}
    functions = {crate.name: stubs.keys_below(crate / "src") for crate in CRATES.iterdir()}
    edits = [(WrongBody(path), path.parent.parent) for path in sorted(CRATES.glob("*/planted/*.edit"))]
    for body, _ in edits:
        if stubs.key_of(body.function or "?") not in functions[body.crate]:
            yield f"{body.crate}: {body.name}: has no line 'fn: PATH' with a function of the crate"
        if body.part not in known:
            yield f"{body.crate}: {body.name}: has no line 'part: always' or 'part: N' with N below {parts}"
        if body.unread:
            yield f"{body.crate}: {body.name}: no key begins its line '{body.unread[0]}': a text has one line"
    edits += [(WrongBody(path), pathlib.Path(".")) for path in sorted(pathlib.Path("tests/wrong").glob("*.edit"))]
    for body, folder in edits:
        try:
            body.texts(folder)
        except ValueError as stale:
            yield f"{folder.name or 'tests/wrong'}: {stale}"
    for path in sorted(CRATES.glob("*/must-fail/*.edit")):
        yield f"{path}: the gate tries the edits of planted/, and none of must-fail/"
