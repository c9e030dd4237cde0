"""Finds functions in a crate's sources, and empties them: a loop without an end stands in place of what they do.

The proof of a hole's function is not wanted. So neither are those of what it calls and drops, which would be read, too.
"""
import re

IMPL = re.compile(r"^impl(?:<[^{]*?>)? (?:(?:\w+::)*(\w+)(?:<(\w+)[^{]*?>)? for )?(?:\w+::)*(\w+)")
FUNCTION = re.compile(r"^((?: {4})?)(?:pub(?:\(\w+\))? )?fn (\w+)")


def key_of(path):
    """Returns a function's path, or only its type and name where it has a type: an impl may stand in any file."""
    words = path.split("::")
    return "::".join(words[-2:]) if len(words) > 1 and words[-2][0].isupper() else path


def functions_of(lines, module):
    """Tells of each function of a file, whose module is a beginning of paths, its line, its indent and its key."""
    of_type = ""
    for at, line in enumerate(lines):
        block, function = IMPL.match(line), FUNCTION.match(line)
        if block:
            of_type = f"{block[3]}{block[1] or ''}{block[2] or ''}"
        elif line == "}":
            of_type = ""
        elif function:
            indent, name = function.groups()
            yield at, indent, f"{of_type}::{name}" if indent else f"{module}{name}"


def files_of(source):
    """Tells of each file below `source` its path, its lines and its module."""
    for path in source.rglob("*.rt"):
        yield path, path.read_text().splitlines(), module_of(path.relative_to(source))


def keys_below(source):
    """Returns the keys of all functions below `source`."""
    return {key for _, lines, module in files_of(source) for _, _, key in functions_of(lines, module)}


def body_of(lines, at, indent):
    """Returns the lines between the braces of the function that begins in a line, or none if it is of one line."""
    for start in range(at, len(lines)):
        line = lines[start]
        if (start > at and FUNCTION.match(line)) or line == f"{indent}}}":
            break
        if re.match(rf"{indent}\S.*\{{$|{indent}\{{$", line):
            end = next((end for end in range(start + 1, len(lines)) if lines[end] == f"{indent}}}"), start + 1)
            return range(start + 1, end)
    return range(0)


def whole_of(lines, at, indent):
    """Returns the lines of the function that begins in a line, with its attributes, or none if it has no body."""
    body, start = body_of(lines, at, indent), at
    while start and lines[start - 1].startswith(f"{indent}#["):
        start -= 1
    return range(start, body.stop + 1) if body else range(0)


def wholes_of(lines, module, key):
    """Returns the lines of each function of a file that has the key."""
    found = [(at, indent) for at, indent, known in functions_of(lines, module) if known == key]
    return [whole_of(lines, at, indent) for at, indent in found]


def module_of(file):
    """Returns the module of a file below `src`, as a beginning of paths."""
    words = [word for word in file.with_suffix("").parts if word not in ("lib", "main", "mod")]
    return "".join(f"{word}::" for word in words)


def places_of(crate, constant):
    """Returns where a constant is named, but for its own line: keys of functions, or files where it stands elsewhere."""
    word, item = re.compile(rf"\b{constant}\b"), re.compile(rf"^\s*const {constant}: ")
    texts = [path for part in ("specs", "proofs") for path in (crate / part).rglob("*.antt")]
    places = {path.name for path in texts if word.search(path.read_text())}
    for path, lines, module in files_of(crate / "src"):
        functions = list(functions_of(lines, module))
        keys = {line: key for at, indent, key in functions for line in body_of(lines, at, indent)}
        named = [at for at, line in enumerate(lines) if word.search(line) and not item.match(line)]
        places.update(keys.get(at, path.name) for at in named)
    return places


def empty_functions(source, wanted, left):
    """Empties the functions of some paths below `source`, but for those that look like one of the paths `left`."""
    keys = {key_of(path) for path in wanted} - {key_of(path) for path in left}
    for path, lines, module in files_of(source):
        for at, indent, key in list(functions_of(lines, module)):
            body = body_of(lines, at, indent) if key in keys else range(0)
            for line in body:
                lines[line] = ""
            if body:
                lines[body[0]] = f"{indent}    loop {{}}"
        path.write_text("\n".join(lines) + "\n")
