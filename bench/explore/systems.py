#!/usr/bin/env python3
"""Writes a system as text for `esync explore`, and the same in Promela for Spin.

    systems.py FOLDER KIND NUMBER REPEAT

writes FOLDER/KIND-NUMBER-REPEAT.system and .pml. KIND is one of

    one_order    NUMBER philosophers, of whom the last takes the forks in the other order, so that all take them in one
    two_orders   NUMBER philosophers who each take the left fork first
    consumers    NUMBER producers and NUMBER consumers at a channel of 2
    service      NUMBER clients of a service, over two channels of 1

and each does its acts REPEAT times. A step of Promela is an act: what a task waits for is the step's guard.
"""
import sys


def fork_steps(first, second):
    """A philosopher's acts: for each the line of a system, and the statement of Promela."""
    names = "abcdefgh"
    take = "atomic {{ fork[{0}] == 0 -> fork[{0}] = 1 }}"
    return [
        (f"{names[first]} lock as first", take.format(first)),
        (f"{names[second]} lock as second", take.format(second)),
        (f"{names[second]} end second", f"fork[{second}] = 0"),
        (f"{names[first]} end first", f"fork[{first}] = 0"),
    ]


def philosophers(number, repeat, turns_round):
    """Mutexes as the bits of an array."""
    objects = [f"object {name} mutex 1 0 0" for name in "abcdefgh"[:number]]
    tasks = []
    for left in range(number):
        forks = (left, (left + 1) % number)
        if turns_round and left == number - 1:
            forks = forks[::-1]
        tasks.append((f"philosopher{left}", repeat, fork_steps(*forks)))
    return objects, [f"bit fork[{number}]"], tasks


def consumers(number, repeat):
    """A channel of numbers as one of bytes."""
    produce, consume = ("queue send 7", "queue ! 7"), ("queue receive", "queue ? _")
    tasks = [(f"producer{it}", repeat, [produce]) for it in range(number)]
    tasks += [(f"consumer{it}", repeat, [consume]) for it in range(number)]
    return ["object queue channel 2"], ["chan queue = [2] of { byte }"], tasks


def service(number, repeat):
    serve = [("requests receive", "requests ? _"), ("answers send 1", "answers ! 1")]
    ask = [("requests send 1", "requests ! 1"), ("answers receive", "answers ? _")]
    tasks = [("service", number * repeat, serve)] + [(f"client{it}", repeat, ask) for it in range(number)]
    objects = ["object requests channel 1", "object answers channel 1"]
    return objects, [f"chan {name} = [1] of {{ byte }}" for name in ("requests", "answers")], tasks


KINDS = {
    "one_order": lambda number, repeat: philosophers(number, repeat, True),
    "two_orders": lambda number, repeat: philosophers(number, repeat, False),
    "consumers": consumers,
    "service": service,
}


def as_system(objects, tasks):
    lines = list(objects)
    for name, repeat, steps in tasks:
        lines += ["", f"task {name}", f"  repeat {repeat}"]
        lines += [f"    {line}" for line, _ in steps]
        lines.append("  again")
    return lines


def as_promela(globals_, tasks):
    """Each act stands as often as it is repeated, as in a system: no counter is part of a state."""
    lines = [f"{it};" for it in globals_]
    for name, repeat, steps in tasks:
        lines += ["", f"active proctype {name}() {{"]
        lines += [f"    {statement};" for _, statement in steps * repeat]
        lines.append("}")
    return lines


def main(folder, kind, number, repeat):
    objects, globals_, tasks = KINDS[kind](int(number), int(repeat))
    name = f"{folder}/{kind}-{number}-{repeat}"
    for path, lines in ((f"{name}.system", as_system(objects, tasks)), (f"{name}.pml", as_promela(globals_, tasks))):
        with open(path, "w", encoding="utf-8") as it:
            it.write("\n".join(lines) + "\n")


if __name__ == "__main__":
    if len(sys.argv) != 5 or sys.argv[2] not in KINDS:
        sys.exit(__doc__)
    main(*sys.argv[1:])
