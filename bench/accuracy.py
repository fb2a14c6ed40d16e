#!/usr/bin/env python3
"""Reads the lines of bench/src/bin/trig_values.rs and prints each routine's worst error against 60-digit arithmetic.

The sine and the cosine are held at x % TAU, which fmod gives exactly. The arctangent is held against the true angle, though the rule's own value has PI
and the quotient rounded once; so that rounding counts as an error here."""
import math
import struct
import sys

from mpmath import mp, mpf

mp.dps = 60
TAU = struct.unpack(">d", bytes.fromhex("401921fb54442d18"))[0]


def number(word):
    return struct.unpack(">d", bytes.fromhex(word))[0]


worst, count = {}, {}


def note(name, answer, exact, words):
    error = abs(mpf(answer) - exact)
    count[name] = count.get(name, 0) + 1
    if error >= worst.get(name, (mpf(0),))[0]:
        worst[name] = (error, words)


for line in sys.stdin:
    kind, *words = line.split()
    numbers = [number(w) for w in words]
    if not all(map(math.isfinite, numbers)):
        continue
    if kind == "s":
        r = mpf(math.fmod(numbers[0], TAU))
        if abs(numbers[1]) > 1 or abs(numbers[2]) > 1:
            sys.exit("outside of -1 to 1: " + line)
        note("sin", numbers[1], mp.sin(r), words)
        note("cos", numbers[2], mp.cos(r), words)
    elif kind == "t" and 0 not in numbers[:2]:
        note("atan2", numbers[2], mp.atan2(mpf(numbers[0]), mpf(numbers[1])), words)
    elif kind == "c":
        note("acos", numbers[1], mp.acos(mpf(numbers[0])), words)
for name, (error, words) in worst.items():
    print(f"{name}: {count[name]} arguments, worst error 2^{float(mp.log(error, 2)):.2f} at {' '.join(words)}")
