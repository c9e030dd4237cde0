"""Copies a function of a crate under another name, so that several wrong bodies of it stand in one check.

A copy stands right behind its function, with the same head, clauses and proof files, and nothing calls it. Its goals are
those of the function, so a wrong body is refused in it for what would refuse it in place.
"""
import pathlib
import re
import shutil

import stubs


def name_of(function, number):
    """Returns the path of a copy of a function."""
    return f"{function}_planted_{number}"


def place_of(lines, file, function):
    """Returns the lines of a function in a file of `src`, with its attributes, or none if they are not just once there."""
    module = stubs.module_of(pathlib.PurePath(file).relative_to("src"))
    wholes = stubs.wholes_of(lines, module, stubs.key_of(function))
    return wholes[0] if len(wholes) == 1 else range(0)


def is_of_trait(lines, at):
    """Tells whether the function at a line is one of a trait, which has no others."""
    if not lines[at].startswith(" "):
        return False
    block = next(filter(None, map(stubs.IMPL.match, reversed(lines[:at]))), None)
    return block is None or block[1] is not None


def calls_itself(text, function):
    """Tells whether a function's text calls it, or says that it is in a cycle of calls. A copy would call the function."""
    above, _, name = function.rpartition("::")
    owner = above.rpartition("::")[2]
    of_method = rf"\b(?:self\.|(?:Self|{owner})::){name}"
    own = of_method if owner[:1].isupper() else rf"(?<!fn )(?<![.:\w])(?:{owner}::)?{name}"
    return "#[cycle" in text or bool(re.search(rf"{own}(?:::<[^()]*>)?\(", text))


def text_of(lines, file, function):
    """Returns a function's text, if it can be copied, or else none."""
    place = place_of(lines, file, function)
    text = "\n".join(lines[place.start : place.stop])
    return "" if not place or is_of_trait(lines, place.start) or calls_itself(text, function) else text


def renamed(text, function, path):
    """Returns a function's text under the name of the copy at a path."""
    last, name = (one.rpartition("::")[2] for one in (function, path))
    return re.sub(rf"\bfn {last}\b", f"fn {name}", text, count=1)


def put_behind(source, file, function, texts):
    """Writes copies into a file, behind their function."""
    lines = (source / file).read_text().splitlines()
    end = place_of(lines, file, function).stop
    for text in texts:
        lines[end:end] = ["", *text.splitlines()]
    (source / file).write_text("\n".join(lines) + "\n")


def copy_proofs(proofs, crate, function, path):
    """Copies a function's proof files for its copy at a path, whose goals they name then."""
    was, to = (proofs / one.replace("::", "/") for one in (function, path))
    if was.is_dir():
        shutil.copytree(was, to)
    of_function, of_copy = (one.replace("::", ".") for one in (function, path))
    theorem, of_theorem = (f"{one.name}_spec" for one in (was, to))
    named = re.compile(rf"(\bRattle\.{crate}\.(?:proofs|specs\.contracts)\.){re.escape(of_function)}(?![\w'+-])")
    for file in to.rglob("*.antt"):
        text = named.sub(rf"\g<1>{of_copy}", file.read_text())
        file.write_text(re.sub(rf"(?<![\w.]){theorem}\b", of_theorem, text))
