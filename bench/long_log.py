#!/usr/bin/env python3
"""Writes a log of at most BYTES bytes, nearly as long: bench/long_log.py LOG BYTES

It is of `examples/ring-of-three.toml`: cycles of 39 seconds, in which A, B and C are green for 10 seconds from seconds 0,
13 and 26 on, with an amber of 2 seconds after each green and a red-amber of 2 before it.
"""
import sys

CYCLE = 39
GREEN, AMBER, RED_AMBER = 10, 2, 2
STARTS = {"A": 0, "B": 13, "C": 26}


def aspect(start, second):
    since = (second - start) % CYCLE
    if since < GREEN:
        return "green"
    if since < GREEN + AMBER:
        return "amber"
    if since >= CYCLE - RED_AMBER:
        return "red_amber"
    return "red"


def main(log, limit):
    cycle = [",".join(aspect(start, second) for start in STARTS.values()) for second in range(CYCLE)]
    lines = ["second," + ",".join(STARTS)]
    size = len(lines[0]) + 1
    second = 0
    while True:
        line = f"{second},{cycle[second % CYCLE]}"
        size += len(line) + 1
        if size > limit:
            break
        lines.append(line)
        second += 1
    with open(log, "w") as file:
        file.write("\n".join(lines) + "\n")


main(sys.argv[1], int(sys.argv[2]))
