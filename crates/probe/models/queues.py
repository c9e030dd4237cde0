#!/usr/bin/env python3
"""Prints data/queues_any.rows: members leave a queue in an order by chance, and the rows have what a plain list gives."""

INDEXES_IN_A_ROW = 20


def numbers_by_chance():
    """Yields the numbers of a fixed sequence (Knuth's MMIX generator)."""
    state = 1
    while True:
        state = (state * 6_364_136_223_846_793_005 + 1_442_695_040_888_963_407) % 2**64
        yield state >> 33


def print_case(members, title):
    """Prints the rows of a queue from which all of so many members leave. Member N is 3 * N."""
    print(f"\ncase {title}")
    print(f"queue fill {members} 3 = ok")
    print(f"queue len = {members}")
    print(f"queue runs {members} 3 = yes")
    plain = [3 * number for number in range(members)]
    chance = numbers_by_chance()
    while plain:
        left = []
        for _ in range(min(INDEXES_IN_A_ROW, len(plain))):
            index = next(chance) % len(plain)
            left.append((index, plain.pop(index)))
        indexes = " ".join(str(index) for index, _ in left)
        print(f"queue remove {indexes} =", *(member for _, member in left))
    print("queue len = 0")
    print("queue remove 0 = none")


print("# Queues in blocks from which any member goes next, as models/queues.py prints them. A row removes the members at some")
print("# indexes, one after another.")
for count in [1, 63, 97, 576, 5_000]:
    print_case(count, f"any of {count} members leaves")
print_case(1_300, "any of 1300 members leaves where a block is refused")
