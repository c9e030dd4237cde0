#!/usr/bin/env python3
"""Prints the rows of data/map_run.rows: a thousand calls on an inode map, chosen by dice, and what a plain list says.

After each call, `map list` has to tell the entries of the list, its next number, and how many of its forgets were bad.
"""
NAMES = "abcd"
END = 2**64


class Entry:
    """A number under a name in a directory, or unlinked if `parent` is 0, with its count."""

    def __init__(self, number, parent, name):
        self.number, self.parent, self.name, self.count = number, parent, name, 1

    def place(self):
        return f"{self.parent} {self.name}" if self.parent else f"mark {self.number}"


class Plain:
    """The entries by rising number, the next number, how many forgets were bad, and how many numbers moved."""

    def __init__(self):
        self.entries, self.next, self.bad, self.moves = [], 2, 0, 0

    def get(self, number):
        return next((entry for entry in self.entries if entry.number == number), None)

    def at(self, parent, name):
        return next((entry for entry in self.entries if (entry.parent, entry.name) == (parent, name)), None)

    def has_kids(self, number):
        return any(entry.parent == number for entry in self.entries)

    def is_linked(self, number):
        entry = self.get(number)
        return entry is not None and entry.parent > 0

    def is_at_or_below(self, number, above):
        for _ in self.entries:
            if number == above:
                return True
            entry = self.get(number)
            number = entry.parent if entry else 0
        return False

    def is_dropped(self, entry):
        """Returns whether the entry goes once its whole count is forgotten."""
        return entry.count > 0 and not self.has_kids(entry.number)

    def strike(self):
        """Takes each entry away that has count 0 and no kids, until none is left."""
        while useless := [entry for entry in self.entries if entry.count == 0 and not self.has_kids(entry.number)]:
            self.entries.remove(useless[0])

    def give(self, parent, name):
        entry = self.at(parent, name)
        if entry:
            entry.count += 1
            return entry.number
        self.entries.append(Entry(self.next, parent, name))
        self.next += 1
        return self.next - 1

    def forget(self, number, count):
        if number == 1:
            return "Root"
        entry = self.get(number)
        if count == 0 or entry is None or entry.count < count:
            self.bad += 1
            return "Bad"
        entry.count -= count
        self.strike()
        return "Lowered" if self.get(number) else "Dropped"

    def unlink(self, number):
        if not self.is_linked(number) or not self.is_dropped(self.get(number)):
            return "refused"
        self.get(number).parent = 0
        self.strike()
        return "ok"

    def relink(self, number, parent, name):
        """Moves a number. What stands at the new name must be another entry without kids, whose number is marked."""
        there = self.at(parent, name)
        if not self.is_linked(number) or there and (there.number == number or not self.is_dropped(there)):
            return "refused"
        if there:
            there.parent = 0
        entry = self.get(number)
        entry.parent, entry.name = parent, name
        self.moves += 1
        self.strike()
        return "ok"

    def list(self):
        entries = [f"/ {entry.number} {entry.place()} {entry.count}" for entry in self.entries]
        return " ".join([f"{self.next} {self.bad}", *entries])


def give(plain, parent, name, is_reserved):
    """Gives a number, in room that was made before if `is_reserved`: a name that has a number needs no room."""
    call = "give"
    if is_reserved and plain.at(parent, name):
        print("map reserve = ok")
    elif is_reserved:
        call = "give_ready"
    print(f"map {call} {parent} {name} = {plain.give(parent, name)}")


def relink(plain, number, parent, name):
    """Moves a number, unless its new directory is below it. The file of each number has the number as its id. Where
    nothing stands, the map hears of a file 0 for half of the names, as if a file without a number stood there."""
    if plain.is_at_or_below(parent, number):
        return
    there = plain.at(parent, name)
    file = there.number if there else 0
    said = "none" if not there and ord(name) % 2 == 0 else file
    print(f"map move {number} {parent} {name} {said} = {plain.relink(number, parent, name)}")


def step(plain, dice):
    """Makes the call that the dice choose on the list, and prints its row."""
    number = (plain.next - dice // 8 % 16) % END
    other = dice // 128 % 4
    match dice % 8:
        case 0 | 1 | 2 | 3:
            give(plain, number if plain.is_linked(number) else 1, NAMES[other], dice % 2 == 0)
        case 4:
            print(f"map unlink {number} {number} = {plain.unlink(number)}")
        case 5:
            dir = (plain.next - dice // 512 % 16) % END
            relink(plain, number, dir if plain.is_linked(dir) else 1, NAMES[other])
        case _:
            print(f"map forget {number} {other} = {plain.forget(number, other)}")


def main():
    print("# A long run of calls on an inode map, and what a plain list says. Printed by models/map_run.py.")
    print("case answers as a plain list does")
    print("map new 4 = ok")
    plain, dice = Plain(), 20260
    for _ in range(1000):
        dice = (dice * 6364136223846793005 + 1442695040888963407) % END
        step(plain, dice // 2**31)
        print(f"map list = {plain.list()}")
    assert plain.next > 200 and plain.bad > 50 and plain.moves > 50 and len(plain.entries) > 10


main()
