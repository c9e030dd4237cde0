#!/usr/bin/env python3
"""Prints the rows of data/tree_run.rows: 600 calls on a tree, chosen by dice, and what a plain list of links says.

After each call, `tree names` and `tree names_again` have to tell the names that give another file in the list than in
the manifest: those of the tree itself, and those of another tree that is made of its changes. Then one directory is listed
by `tree first`, from no file on and then behind each file that it told.
"""
NAMES = "abcd"
MANIFEST = ["commit 0123456789abcdef0123456789abcdef01234567", "dir a", "file 0644 12 a/a", "file 0755 0 a/b", "dir a/c",
            "file 0644 7 b"]
LINKS = {(1, "a"): 2, (2, "a"): 3, (2, "b"): 4, (2, "c"): 5, (1, "b"): 6}


class Plain:
    """The file of each name, the directories, linked or not, the made files, and the id that the next one gets."""

    def __init__(self):
        self.links, self.dirs, self.made, self.next = dict(LINKS), [1, 2, 5], [], 7

    def dir_of(self, file):
        return next((dir for (dir, _), other in self.links.items() if other == file), None)

    def has_names(self, dir):
        return any(place[0] == dir for place in self.links)

    def is_open(self, dir):
        """Returns whether a name may be added to the directory."""
        return dir in self.dirs and (dir == 1 or self.dir_of(dir) is not None)

    def is_at_or_above(self, file, other):
        while other is not None and other != file:
            other = self.dir_of(other)
        return other == file

    def create(self, place, kind):
        if not self.is_open(place[0]) or place in self.links:
            return "refused"
        file, self.next = self.next, self.next + 1
        self.links[place] = file
        self.made.append((file, kind))
        if kind == "dir":
            self.dirs.append(file)
        return file

    def remove(self, place):
        if place not in self.links or self.has_names(self.links[place]):
            return "refused"
        return self.links.pop(place)

    def rename(self, place, to):
        file, replaced = self.links.get(place), self.links.get(to)
        if file is None or not self.is_open(to[0]) or self.is_at_or_above(file, to[0]):
            return "refused"
        if replaced is not None and (replaced == file or self.has_names(replaced)
                                     or (replaced in self.dirs) != (file in self.dirs)):
            return "refused"
        del self.links[place]
        self.links[to] = file
        return "none" if replaced is None else replaced

    def names(self):
        """Returns the names that give another file than in the manifest, by directory and name."""
        changed = [(place, self.links.get(place)) for dir in self.dirs for place in [(dir, name) for name in NAMES]
                   if self.links.get(place) != LINKS.get(place)]
        return [f"name {dir} {name} {'none' if file is None else file}" for (dir, name), file in sorted(changed)]

    def changes(self):
        made = [f"made {file} {kind} 0755" for file, kind in self.made]
        return " ".join([f"next {self.next}", *made, *self.names()])


def listing(plain, dir):
    """Prints the rows that list a directory: its files in the order of their ids, each with its name."""
    least = 0
    for file, name in sorted((file, name) for (other, name), file in plain.links.items() if other == dir):
        print(f"tree first {dir} {least} = {file} {name}")
        least = file + 1
    print(f"tree first {dir} {least} = none")


def place(plain, dice):
    """Returns one of the first eight directories and one of four names."""
    index = dice // 4 % 8
    return plain.dirs[index] if index < len(plain.dirs) else 1, NAMES[dice % 4]


def step(plain, dice):
    """Makes the call that the dice choose on the list, and prints its row."""
    dir, name = place(plain, dice // 8 % 32)
    to_dir, to_name = place(plain, dice // 256 % 32)
    match dice % 8:
        case 0 | 1 as chosen:
            kind = ["file", "dir"][chosen]
            print(f"tree create {dir} {name} {kind} 0755 = {plain.create((dir, name), kind)}")
        case 2:
            print(f"tree remove {dir} {name} = {plain.remove((dir, name))}")
        case _:
            print(f"tree rename {dir} {name} {to_dir} {to_name} = {plain.rename((dir, name), (to_dir, to_name))}")


def main():
    print("# A long run of calls on a tree, and what a plain list of links says. Printed by models/tree_run.py.")
    print("case answers as a plain list does")
    for line in MANIFEST:
        print(f"|text {line}")
    print("manifest read @text = ok\ntree new = ok")
    plain, dice = Plain(), 20260
    for _ in range(600):
        dice = (dice * 6364136223846793005 + 1442695040888963407) % 2**64
        step(plain, dice // 2**31)
        names = plain.names()
        for call in ["names", "names_again"]:
            print(" ".join([f"tree {call} = {len(names)}", *names]))
        listing(plain, place(plain, dice // 2**44)[0])
    print(f"tree changes = {plain.changes()}\ntree again = {plain.changes()}")
    assert plain.next > 30 and len(plain.links) > 10


main()
