#!/usr/bin/env python3
"""The mix of bench_ledger.c as order lines for `desk`, all of extension 0, and the checksum of the replies.
  orders.py N [SEED]              the fill, to 320 groups and 2,048 pairs, and N orders of the mix
  orders.py --fill                the fill alone
  orders.py --doubled N [SEED]    the same as N [SEED], and before each order of the mix one that is refused at once behind the test of the written form
  orders.py --form N              N such orders alone
  orders.py --count N [SEED]      how many orders the mix has: N, or one more
  orders.py --checksum < REPLIES  bench_ledger.c's checksum of these replies"""
import itertools
import re
import sys

from lines import DEFINE, KINDS, SS_TYPE, line_of

ASKER, FIRST, GROUPS, ROOM = 100, 1000, 320, 128


def number(value):
    return f"{value:08X}/00000000"


def numbers(values):
    """A list in a frame: one number has number type 0, more have their count; each is an SSI."""
    kind = 0 if len(values) == 1 else len(values)
    return f"{kind:04b}" + "".join(f"01{value:024b}" for value in values)


def define(groups, radios, acknowledged):
    """O-bit 1, five options left out, the assignment, the acknowledgement where it is asked for, three more left out, no type 3."""
    bits = f"{SS_TYPE:06b}{KINDS[DEFINE][0]:04b}" + "1" + "0" + numbers(groups) + "1" + "00000" + "10" + numbers(radios)
    bits += ("10" if acknowledged else "0") + "000" + "0"
    return f"D {number(ASKER)} {ROOM:04X} {line_of(DEFINE, bits)}"


def define_one(i):
    return define([FIRST + i], range(1, 8 if i < 128 else 7), True)


def delete_one(i):
    return f"X {number(ASKER)} {ROOM:04X} 0:1.{FIRST + i:08X}.00000000 Y Y - N"


def mix(count, seed):
    x = seed

    def rnd(m):
        nonlocal x
        x = (x * 1664525 + 1013904223) % 2**32
        return (x >> 16) % m

    done = 0
    while done < count:
        op = rnd(16)
        if op < 6:
            groups = [FIRST + rnd(GROUPS), FIRST + rnd(GROUPS)]
            s = rnd(6)
            yield define(groups, [(s + k) % 6 + 1 for k in range(5)], rnd(2) == 1)
        elif op < 11:
            group, radio = FIRST + rnd(GROUPS), rnd(6) + 1
            yield f"A {number(radio)} {number(group)} {1 if rnd(8) else 2:02X} a"
        elif op == 11:
            yield "T 0001"
        elif op < 15:
            yield f"L {number(ASKER)} {number(FIRST + rnd(GROUPS))} {ROOM:04X}"
        else:
            i = rnd(GROUPS)
            yield delete_one(i)
            yield define_one(i)
            done += 1
        done += 1


def form():
    """An answer of a radio above 24 bits: 10, which comes next to 18."""
    return f"A {number(2**24)} {number(FIRST)} 01 a"


def checksum(replies):
    h = 2166136261

    def add(v):
        nonlocal h
        h = ((h ^ v) * 16777619) % 2**32

    for reply in replies:
        add(0 if reply[0] == "A" else int(reply[1:]))
        for radio, group in re.findall(r" [ad]:([0-9A-F]{6})/000000:([0-9A-F]{6})/000000", reply):
            add(int(radio, 16))
            add(int(group, 16))
        for radio, state in re.findall(r" ([0-9A-F]{6})/000000=([0-9A-F]+)", reply):
            add(int(radio, 16))
            add(int(state, 16))
    return f"{h:08X}"


def main(words):
    fill = map(define_one, range(GROUPS))
    if words[0] == "--checksum":
        print(checksum(sys.stdin.read().split("\n")[:-1]))
    elif words[0] == "--count":
        print(sum(1 for _ in mix(int(words[1]), int((words + ["1"])[2]))))
    elif words[0] == "--fill":
        print("\n".join(fill))
    elif words[0] == "--form":
        print("\n".join([form()] * int(words[1])))
    elif words[0] == "--doubled":
        orders = mix(int(words[1]), int((words + ["1"])[2]))
        print("\n".join(itertools.chain(fill, (line for order in orders for line in (form(), order)))))
    else:
        print("\n".join(itertools.chain(fill, mix(int(words[0]), int((words + ["1"])[1])))))


if __name__ == "__main__":
    main(sys.argv[1:])
