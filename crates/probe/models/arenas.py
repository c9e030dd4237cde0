#!/usr/bin/env python3
"""Prints data/arenas_chance.rows: calls by chance of an arena of six values, with what a plain list gives."""

CAPACITY = 6
CALLS = 20_000


def numbers_by_chance():
    """Yields the numbers of a fixed sequence (Knuth's MMIX generator)."""
    state = 20_260_917
    while True:
        state = (state * 6_364_136_223_846_793_005 + 1_442_695_040_888_963_407) % 2**64
        yield state >> 40


def add(plain, value):
    """Prints a row that adds a value, at the first place that no value of the list has."""
    place = min(set(range(CAPACITY + 1)) - {place for place, _ in plain})
    if len(plain) == CAPACITY:
        print(f"arena add {place} {value} = back {value}")
    else:
        print(f"arena add {place} {value} = ok")
        plain.insert(0, (place, value))


def use(plain, index, is_kept):
    """Prints a row that touches or removes the value at an index of the list."""
    place, value = plain.pop(index % len(plain))
    if is_kept:
        print(f"arena touch {place} = ok")
        plain.insert(0, (place, value))
    else:
        print(f"arena remove {place} = {value}")


print("# Calls by chance of an arena of six values, as models/arenas.py prints them. After each, the arena agrees with a plain list,")
print("# whose values stand in the order of their last use, the last one first.")
print("\ncase agrees with a plain list")
print(f"arena new {CAPACITY} = {CAPACITY}")
entries = []  # the place and the value of each, the most recently used first
for _, action in zip(range(CALLS), numbers_by_chance()):
    if action % 8 < 4 or not entries:
        add(entries, action)
    else:
        use(entries, action // 8, action % 8 < 6)
    places = "".join(f" {place}" for place, _ in entries)
    values = "".join(f"{value} " for _, value in entries)
    print(f"arena agree{places} = {values}{len(entries)} yes")
