"""Runs both programs on values of 1 MB and on small ones, and prints the ratios.

usage: compare.py PROGRAM BY_LIBRARY FOLDER ACCOUNT
"""

import os
import pathlib
import re
import subprocess
import sys

program, by_library, folder, account = sys.argv[1:]


def instructions(command):
    command = ["valgrind", "--tool=callgrind", "--callgrind-out-file=/dev/null", *command]
    done = subprocess.run(command, capture_output=True, text=True)
    assert done.returncode == 0, done.stderr
    return int(re.search(r"Collected : (\d+)", done.stderr)[1])


# The processor's time of a run, its own and the system's.
def seconds(command):
    process = subprocess.Popen(command)
    _, status, usage = os.wait4(process.pid, 0)
    process.returncode = os.waitstatus_to_exitcode(status)
    assert process.returncode == 0
    return usage.ru_utime + usage.ru_stime


# The least of several turns, in which the sides take turns too.
def times(sides, count):
    turns = [[seconds([*side, str(n)]) for side in sides for n in (0, count)] for _ in range(9)]
    idle, busy, other_idle, other_busy = map(min, zip(*turns))
    return busy - idle, other_busy - other_idle


# The first side over the other, each a program and its mode.
def ratio(side, other_side, registry, type_id, value, counted, timed):
    words = [str(registry), str(type_id), str(value)]
    sides = [[*side, *words], [*other_side, *words]]
    counts = [instructions([*side, str(counted)]) - instructions([*side, "0"]) for side in sides]
    ours, theirs = times(sides, timed)
    return f"{counts[0] / counts[1]:.2f} | {ours / theirs:.2f}"


# A number from 2^6 on.
def compact(number):
    return (number << 2 | 1).to_bytes(2, "little") if number < 1 << 14 else (number << 2 | 2).to_bytes(4, "little")


# Writes sequences of 1 MB that repeat the example's events and its account, and returns what `listed` does.
def repeated():
    types = pathlib.Path(account, "registry.scale").read_bytes()
    assert types[0] == 13 << 2
    registry = pathlib.Path(folder, "account.registry")
    # A fourteenth type is a sequence of accounts.
    registry.write_bytes(bytes([14 << 2]) + types[1:] + bytes([13 << 2, 0, 0, 2, 4 << 2, 0]))
    events, one = (pathlib.Path(account, f"{name}.scale").read_bytes() for name in ("events", "account"))
    for name, type_id, count, elements in ("events", 12, events[0] >> 2, events[1:]), ("accounts", 13, 1, one):
        copies = (1 << 20) // len(elements)
        value = pathlib.Path(folder, f"{name}.value")
        value.write_bytes(compact(copies * count) + copies * elements)
        yield f"sequence of {name}", registry, type_id, value


# The values of 1 MB: label, registry, position of the type, and file.
def listed():
    for line in pathlib.Path(folder, "list").read_text().splitlines():
        name, type_id, file, _, label = line.split(maxsplit=4)
        yield label, f"{folder}/{name}.registry", type_id, f"{folder}/{file}"


# The library's text over the crates', and its other calls over its decoder alone.
decoder = [by_library, "decoder"]
sides = [([by_library, "text"], [program, "text"]), ([by_library, "nodes"], decoder), ([by_library, "encode"], decoder)]
print("| value of 1 MB | text over text: instructions | time | nodes over the decoder alone: instructions | time "
      "| encode over the decoder alone: instructions | time |")
print("|---|---|---|---|---|---|---|")
for label, *words in [*listed(), *repeated()]:
    rates = [ratio(*pair, *words, 1, 40) for pair in sides]
    print(f"| {label} | {' | '.join(rates)} |", flush=True)

print()
print("| 10,000 small values | bytes each | a session: instructions | time | with its text: instructions | time | text over text: instructions | time |")
print("|---|---|---|---|---|---|---|---|")
for name, type_id in ("height", 6), ("deposit", 8), ("memo", 5), ("account", 4), ("events", 12):
    value = pathlib.Path(account, f"{name}.scale")
    words = [f"{account}/registry.scale", type_id, value, 10000, 100000]
    modes = ("decoder", "decoder"), ("text", "decoder"), ("text", "text")
    rates = [ratio([by_library, mode], [program, other], *words) for mode, other in modes]
    print(f"| {name} | {value.stat().st_size} | {' | '.join(rates)} |", flush=True)
