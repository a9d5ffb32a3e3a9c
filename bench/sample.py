#!/usr/bin/env python3
"""Writes the junction file of a sample, given by its number, to standard output.

A sample is drawn by a linear congruential generator. Its state begins as the number modulo 2^31; a draw
of n sets it to (1103515245 * state + 12345) modulo 2^31 and gives (state div 65536) modulo n.
"""
import sys

MODULUS = 2**31

# The undivided draws of sample 1 and its first minimum greens in seconds, by which the generator is known.
FIRST_DRAWS = [16838, 5758, 10113, 17515, 31051]
FIRST_GREENS = [7, 6, 8, 8]


class Draws:
    def __init__(self, number):
        self.state = number % MODULUS

    def whole(self):
        self.state = (1103515245 * self.state + 12345) % MODULUS
        return self.state // 65536

    def below(self, end):
        return self.whole() % end


def drawn(number):
    """The minimum greens, the lanes (group, arrival, saturation) and the conflicts (a, b, a_to_b, b_to_a)."""
    draws = Draws(number)
    groups = 8 + draws.below(9)
    greens = [5 + draws.below(4) for _ in range(groups)]
    lanes = []
    for group in range(groups):
        for _ in range(2):
            arrival = 20 + draws.below(120)
            lanes.append((group, arrival, 1700 + draws.below(301)))
    conflicts = []
    for i in range(groups):
        for j in range(i + 1, groups):
            if j == i + 1 or draws.below(3) == 0:
                a_to_b = 5 + draws.below(4)
                conflicts.append((i, j, a_to_b, 5 + draws.below(4)))
    return greens, lanes, conflicts


def see_that_the_generator_is_right():
    draws = Draws(1)
    assert [draws.whole() for _ in FIRST_DRAWS] == FIRST_DRAWS
    greens = drawn(1)[0]
    assert len(greens) == 16 and greens[:4] == FIRST_GREENS


def table(part, entries):
    return "\n[[%s]]\n" % part + "".join("%s = %s\n" % entry for entry in entries)


def text(value):
    return '"%s"' % value


def file_of(number):
    greens, lanes, conflicts = drawn(number)
    top = [("version", 1), ("name", text("sample %d" % number)), ("least_cycle", 60), ("greatest_cycle", 120)]
    parts = ["".join("%s = %s\n" % entry for entry in top)]
    for group, green in enumerate(greens):
        parts.append(table("group", [
            ("name", text("G%02d" % group)), ("min_green", green), ("amber", 3),
            ("red_amber", 2), ("start_lost", 2), ("end_gain", 1)]))
    for lane, (group, arrival, saturation) in enumerate(lanes):
        parts.append(table("lane", [
            ("name", text("L%02d" % lane)), ("group", text("G%02d" % group)),
            ("arrival", arrival), ("saturation", saturation), ("limit", 900)]))
    for a, b, a_to_b, b_to_a in conflicts:
        parts.append(table("conflict", [
            ("a", text("G%02d" % a)), ("b", text("G%02d" % b)), ("a_to_b", a_to_b), ("b_to_a", b_to_a)]))
    return "".join(parts)


def main():
    if len(sys.argv) != 2 or not sys.argv[1].isdecimal() or int(sys.argv[1]) >= 2**32:
        sys.exit("usage: bench/sample.py NUMBER")
    see_that_the_generator_is_right()
    sys.stdout.write(file_of(int(sys.argv[1])))


if __name__ == "__main__":
    main()
