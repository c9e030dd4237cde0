#!/usr/bin/env python3
"""Prints rows of two asks and one forget, with their events in every order.

Of each order there are thirteen events: five of each ask, and three of the forget. In its end nothing is under way, so
daemon and kernel count alike, and requests show what each name and each number leads to. An order begins with a new
daemon, whose number is its generation too. A thousand of them make a script.
"""
import os
import sys

sys.dont_write_bytecode = True
sys.path.insert(0, os.path.dirname(os.path.dirname(os.path.abspath(__file__))))
from plain_world import World, print_text  # noqa: E402

SMALL = ["commit 0123456789abcdef0123456789abcdef01234567", "dir src", "file 0644 12 src/a", "file 0755 0 src/b",
         "file 0644 7 README"]
IN_A_SCRIPT = 1000
ONWARD = ("take {d}", "work {d} 1", "work {d} 2", "work {d} 3", "post {d} 1", "post {d} 2", "deliver")
MOVE_OVER, HELD = "rename 2 1 a/README", ("lookup 1 src", "lookup 2 a", "lookup 1 README")

# What is shown, the requests before, those that are issued and how often each, those in the end, and how many orders there
# are, which was computed separately. Where two asks are not alike there are twice as many. In the end `getattr N` stands
# for those of the numbers N on that the kernel holds.
TABLES = (
    ("ends evenly", HELD[:1], (("lookup 1 src", 2), ("forget 2 1", 1)), ("lookup 1 src",), (), 13375),
    ("moves a name", HELD[2:], (("rename 1 1 README/moved", 1), ("lookup 1 README", 1), ("forget 2 1", 1)),
     ("lookup 1 README", "lookup 1 moved"), (2, 3), 26750),
    ("replaces a file that is forgotten", HELD, ((MOVE_OVER, 1), ("lookup 1 README", 1), ("forget 4 1", 1)),
     ("lookup 2 a", "lookup 1 README"), (3, 4, 5), 26750),
    ("moves a file that is forgotten", HELD, ((MOVE_OVER, 1), ("lookup 1 README", 1), ("forget 3 1", 1)),
     ("lookup 2 a", "lookup 1 README"), (3, 5, 4), 26750),
)


def played(world, line):
    """Lets an event happen, and returns its rows with places for the daemon and for uniques."""
    told = world.play(line.format(d=1))
    words = told[0].split(" ", 2)
    if words[0] in ("asked", "took", "made", "posted", "answer") and words[-1] != "asked" and words[1] != "forgets":
        told[0] = " ".join([words[0], f"{{u[{words[1]}]}}", *words[2:]])
    elif words[0] in ("daemon", "mounted"):
        told[0] = f"{words[0]} {{d}}"
    elif words[0] == "seat":
        told[0] = f"seat {{d}} {{d}} {words[2].split(' ', 1)[1]}"
    return "\n= ".join([f"{line} = {told[0]}", *told[1:]]) + "\n"


def open_events(world, issued, left):
    """Tells the events that may come next, each with the index of the request that it issues, or none."""
    daemon = world.daemons[0]
    for index, (request, _) in enumerate(issued):
        if left[index]:
            yield f"issue {request}", index
    is_open = {
        "take": lambda _: world.asks or world.forgets,
        "work": lambda position: len(daemon.hand) >= position,
        "post": lambda position: len(daemon.unposted) >= position,
        "deliver": lambda _: world.posted,
    }
    for event in ONWARD:
        if is_open[event.split(" ")[0]](int(event[-1]) if event[-1].isdigit() else 0):
            yield event, None


def ended(world, ends, numbers):
    """Returns the rows behind an order."""
    rows = played(world, "show")
    rows += "".join(played(world, f"do getattr {number}") for number in numbers if world.held.get(number))
    return rows + "".join(played(world, f"do {request}") for request in ends) + "crash {d} = crashed\n"


def put_state(graph, world, left, table):
    """Puts into the graph the rows and the state behind each event that may come next, or the end. Returns the state's name:
    many orders lead to one state."""
    daemon, (_, _, issued, ends, numbers, _) = world.daemons[0], table
    parts = vars(world), vars(daemon), vars(daemon.served)
    name = repr((left, [{key: it for key, it in part.items() if key not in ("daemons", "served")} for part in parts]))
    if name not in graph:
        graph[name] = behind = []
        for event, index in open_events(world, issued, left):
            after, still = world.copy(), [count - (at == index) for at, count in enumerate(left)]
            rows = played(after, event)
            behind.append((rows, put_state(graph, after, still, table)))
        if not behind:
            behind.append((ended(world, ends, numbers), world.unique - 1))
    return name


def orders(graph, name, rows):
    """Tells the rows of each order that begins with some rows, and how many uniques it takes."""
    for told, after in graph[name]:
        if isinstance(after, int):
            yield rows + told, after
        else:
            yield from orders(graph, after, rows + told)


def main():
    print_text("small", SMALL)
    for table in TABLES:
        what, before, issued, _, _, wanted = table
        world, graph, begun, count, unique = World(SMALL), {}, "", 0, 1
        for line in ("start", "mount {d}", *(f"do {request}" for request in before)):
            begun += played(world, line)
        name = put_state(graph, world, [times for _, times in issued], table)
        for order, uniques in orders(graph, name, begun):
            if count % IN_A_SCRIPT == 0:
                print(f"case {what} in every order, from order {count + 1} on\nmanifest @small")
                unique = 1
            daemon = count % IN_A_SCRIPT + 1
            print(order.format(d=daemon, u=range(unique - 1, unique + uniques)), end="")
            count, unique = count + 1, unique + uniques
        assert count == wanted, (what, count)


if __name__ == "__main__":
    main()
