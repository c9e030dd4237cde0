"""Proves a few functions of a crate with wrong bodies planted in them, and puts a hole in place of all other proofs.

A check of one function proves those that it calls, too. Here these are holes, which are taken by their contracts, as
callers take them anyway. The libraries below stand proved in crates/NAME/out/rlib, where `rt ci` leaves them.
"""
import collections
import json
import os
import pathlib
import re
import shutil
import subprocess
import tempfile

import copies
import stubs

HOLE = """use Rattle.{module}.Statement.{{statement}}

pub {last}_spec : {{M : Type 1}} → statement M
{last}_spec 𝓤 𝓛 𝓜 𝓡 wired = ?
"""
# The functions that may have a file of their own for a proof: those of a path of words, and how a type is dropped.
HAS_FILE = re.compile(r"\w+(::\w+)*|\w+(\+\+\w+)+\+Destruct::drop")
# A proof file at a path where the prover makes the module itself, as for a type that holds others of its kind.
MADE_BY_PROVER = re.compile(r"^\./proofs/(\S+)/Proof\.antt: error\[reserved-name\]", re.M)
REFUSED, LET_THROUGH = "refused", "LET THROUGH"
HIDDEN = "NOT TRIED: only what it stands on is refused"
UNKNOWN = "NOT TRIED: the check names no such function"


def kit():
    """Returns the folder of the toolchain: that of the page which `rt doc` prints."""
    page = subprocess.run(["rt", "doc"], capture_output=True, text=True, check=True).stdout.strip()
    return pathlib.Path(page).parent


def listed_crates():
    """Returns what crates.txt says: each crate with the libraries that it names."""
    rows = re.findall(r"^(\w+)(?: [^:\n]*)?:(.*)$", pathlib.Path("crates.txt").read_text(), re.M)
    return {name: libraries.split() for name, libraries in rows}


# A body, the function whose it is, and the path at which it stands: that of the function, or that of a copy of it.
Plant = collections.namedtuple("Plant", "body function path")


def plants_of(bodies):
    """Places bodies: the first wrong one of each function stands in it, the others and the right one in copies of it."""
    plants, seen = [], collections.Counter()
    for body in sorted(bodies, key=lambda body: body.is_right):
        number = max(seen[body.function], body.is_right)
        path = copies.name_of(body.function, number) if number else body.function
        plants.append(Plant(body, body.function, path))
        seen[body.function] = number + 1
    return plants


class Crate:
    """A crate whose wrong bodies are tried, over the libraries that stand proved in the repository `proved`."""

    def __init__(self, name, crates, toolchain, proved):
        self.name, self.crates, self.toolchain, self.proved = name, crates, toolchain, proved.resolve()
        self.folder = pathlib.Path("crates") / name
        code = self.rlib(name) / "toolchain" / "mir.json"
        # A program leaves no library, so all that it calls of its own is proved once more.
        self.functions = [path.split("::", 1)[1] for path, _ in json.loads(code.read_text())] if code.exists() else []

    def rlib(self, name):
        """Returns the folder of a proved library of the repository."""
        return self.proved / "crates" / name / "out" / "rlib" / f"{name}.rlib"

    def below(self):
        """Returns the crates of the repository that it stands on, also through others."""
        found, left = {}, [self.name]
        while left:
            for name in self.crates[left.pop()]:
                if name in self.crates and name not in found:
                    found[name] = True
                    left.append(name)
        return found

    def words(self, functions):
        """Returns the command that checks some functions by one job, in the words of `rt check`, with holes allowed."""
        of_kit = ["std", *(name for name in self.crates[self.name] if name not in self.crates)]
        rlibs = {name: self.toolchain / "rlibs" / f"{name}.rlib" for name in of_kit}
        rlibs.update((name, self.rlib(name)) for name in self.crates[self.name] if name in self.crates)
        folders = [self.toolchain / "rlibs", *(self.rlib(name).parent for name in self.below())]
        root = "src/lib.rt" if (self.folder / "src" / "lib.rt").exists() else "src/main.rt"
        words = [self.toolchain / "bin" / "rattle", "check", "--crate-name", self.name, root]
        for name, rlib in rlibs.items():
            words += ["--extern", f"{name}={rlib}"]
        for folder in folders:
            words += ["-L", f"dependency={folder}"]
        words += ["--antt-project", self.toolchain / "rattle" / "logic" / "antt-project.json"]
        words += ["--logic-built", self.toolchain / "logic_built", "--jobs", "1", "--allow-holes", "--short-goals"]
        for function in functions:
            words += ["--only", function]
        return words

    def dig(self, proofs, functions, left):
        """Puts a hole in place of each proof, but not of the functions, nor of those that are left, nor of closures. Returns
        whose they were."""
        dug = []
        for function in self.functions:
            folder = proofs / function.replace("::", "/")
            # An emptied function has no closures. A proof file of one that is not there lets the prover read all twice.
            is_kept = function in functions or function in left or "fn" in function.split("::")
            if is_kept or not HAS_FILE.fullmatch(function) or (folder / "Proof.antt").exists():
                continue
            folder.mkdir(parents=True, exist_ok=True)
            for file in ("Answers.antt", "Invariants.antt"):
                (folder / file).unlink(missing_ok=True)
            module = f"{self.name}.proofs.{function.replace('::', '.')}"
            (folder / "Proof.antt").write_text(HOLE.format(module=module, last=folder.name))
            dug.append(function)
        return dug

    def plant(self, room, plants):
        """Writes bodies into a copy of the crate. Raises ValueError where texts clash."""
        texts = collections.defaultdict(list)
        for body, function, path in plants:
            if path != function:
                texts[body.pairs[0][0], function].append(body.text_of_copy(room, path))
                copies.copy_proofs(room / "proofs", self.name, function, path)
        for body, function, path in plants:
            if body and path == function:
                body.apply(room)
        for (file, function), found in texts.items():
            copies.put_behind(room, file, function, found)

    def check(self, plants, left=frozenset()):
        """Checks bodies in a copy, amid holes but for those that are left. Returns what was said, and the seconds that it
        took."""
        in_place = sorted({function for _, function, path in plants if path == function})
        with tempfile.TemporaryDirectory() as name:
            room = pathlib.Path(name)
            for part in ("src", "specs", "proofs"):
                if (self.folder / part).is_dir():
                    shutil.copytree(self.folder / part, room / part)
            try:
                self.plant(room, plants)
            except ValueError as clash:
                return f"error: {clash}", 0.0
            stubs.empty_functions(room / "src", self.dig(room / "proofs", in_place, left), in_place)
            with open(room / "said", "w+", errors="replace") as said:
                words = self.words(sorted({path for _, _, path in plants}))
                process = subprocess.Popen(words, cwd=room, stdout=said, stderr=subprocess.STDOUT)
                _, status, usage = os.wait4(process.pid, 0)
                process.returncode = os.waitstatus_to_exitcode(status)
                said.seek(0)
                text, seconds = said.read(), usage.ru_utime + usage.ru_stime
        made = {path.replace("/", "::") for path in MADE_BY_PROVER.findall(text)} - left
        if made:
            text, more = self.check(plants, left | made)
            seconds += more
        return text, seconds

    def words_on(self, said):
        """Returns the prover's last word on each function, or None where the check did not come so far."""
        if not re.search(r"^only=\d+ holes=\d+$", said, re.M):
            return None
        return dict(re.findall(rf"^fn {self.name}::(\S+): (.*)$", said, re.M))

    def verdict(self, plant, word, said):
        """Judges the last word on a body: it is refused where a goal or an answer of its own fails."""
        if word is None:
            return UNKNOWN
        if word.startswith(("proved", "no holes", "depends on a hole")):
            return LET_THROUGH
        above, _, last = plant.path.replace("::", "/").rpartition("/")
        module = plant.path.replace("::", ".")
        # The folder of a function that calls itself has a plus before its name.
        folders = [f"./proofs/{above}/{name}/" for name in (last, f"+{last}")]
        if any(folder in word for folder in folders) or f"Rattle.{self.name}.proofs.{module}." in word:
            return REFUSED
        # An answer to a goal that the wrong body has not. A wrong body that keeps the names of goals shows more.
        if any(re.search(rf"^{re.escape(folder)}\w+\.antt:\d+:\d+: error", said, re.M) for folder in folders):
            return REFUSED
        is_refused = plant.body.is_definition() and re.search("did not prove|which antt refuses", word)
        return REFUSED if is_refused else HIDDEN

    def tried(self, bodies):
        """Tries bodies in one check. Returns each with its verdict, and the seconds.

        One that does not compile hides the others, so they are tried in halves then. Those whose functions are refused
        for what they call alone are tried once more without the others.
        """
        plants = plants_of(bodies)
        said, seconds = self.check(plants)
        words = self.words_on(said)
        verdicts = {one.body: self.verdict(one, words.get(one.path), said) for one in plants if words is not None}
        hidden = [body for body in bodies if verdicts.get(body) == HIDDEN]
        if len(bodies) == 1 and words is None:
            lines = said.splitlines() or ["nothing was said"]
            verdicts = {bodies[0]: f"NOT TRIED: {next((line for line in lines if 'error' in line), lines[-1])}"}
        if len(bodies) == 1:
            return verdicts, seconds
        if words is None:
            parts = [bodies[: len(bodies) // 2], bodies[len(bodies) // 2 :]]
        else:
            parts = [hidden] if len(hidden) < len(bodies) else [[body] for body in hidden]
        for part in filter(None, parts):
            more, took = self.tried(part)
            verdicts.update(more)
            seconds += took
        return verdicts, seconds

    def failing(self, functions):
        """Proves functions as they stand, amid holes. Returns those that are refused then, with the word on them."""
        said, _ = self.check([Plant(None, function, function) for function in functions])
        words = self.words_on(said)
        if words is None:
            return {self.name: said[-400:]}
        good = ("no holes", "depends on a hole")
        return {one: words.get(one) for one in functions if not (words.get(one) or "").startswith(good)}
