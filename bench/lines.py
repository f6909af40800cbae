#!/usr/bin/env python3
"""House text for tests and for the benchmark, and what the echo program has to say to it.
  lines.py COUNT [SEED]          COUNT lines: frames of all ten kinds, composed at random from the tables, some of them damaged
  lines.py --good COUNT [SEED]   whole frames alone
  lines.py --replies < LINES     the reply to each line, by a decoder of its own"""
import random
import sys

SS_TYPE = 0b010100
DEFINE = 0x01
LONGEST = 432  # digits of a line


class Refused(Exception):
    """A frame that is not taken: the refusal's number, and the bit at which the refused element begins."""


class Reading:
    """The elements of a frame, taken one after the other from its bits. Codes other than `codes` are reserved.
    `last` is where the last element begins, `at` where the next one does."""

    def __init__(self, bits):
        self.bits, self.last, self.at = bits, 0, 0

    def take(self, width, codes=None, chosen=None):
        self.last, self.at = self.at, self.at + width
        if len(self.bits) < self.at:
            self.refuse(1)
        code = int(self.bits[self.last:self.at], 2)
        if codes is not None and code not in codes:
            self.refuse(4)
        return code

    def refuse(self, number):
        raise Refused(number, self.last)


class Composing:
    """The elements of a frame, chosen at random and laid one after the other: among `codes`, or `chosen` where only those make a frame."""

    def __init__(self, rng):
        self.rng, self.bits = rng, ""

    def take(self, width, codes=None, chosen=None):
        codes = codes if chosen is None else chosen
        code = self.rng.getrandbits(width) if codes is None else self.rng.choice(codes)
        self.bits += format(code, f"0{width}b")
        return code

    def refuse(self, number):
        raise Refused(number)


def identity(frame):
    form = frame.take(2, range(3))
    frame.take(8 if form == 0 else 24)
    if form == 2:
        frame.take(24)


def numbers(frame):
    kind = frame.take(4, range(11))
    for _ in range({0: 1, 1: 2}.get(kind, kind)):
        identity(frame)


def options(frame, *elements, there=0):
    """What follows O-bit 1: each element behind its P-bit, then the M-bit. `there` elements came before, without P-bits."""
    for element in elements:
        if frame.take(1) == 1:
            there += 1
            element(frame)
    if frame.take(1, chosen=[0]) == 1:
        frame.refuse(7)
    if not there:
        frame.refuse(6)


def field(width):
    return lambda frame: frame.take(width)


def listed(frame):
    """A bit, and numbers where it is 0."""
    if frame.take(1) == 0:
        numbers(frame)


def name(frame):
    for _ in range(frame.take(4) + 1):
        frame.take(8)


def requested(frame):
    frame.take(1, [0])


def related(frame):
    """Call related, and the call identifier if it is."""
    call = frame.take(1) == 0
    if call:
        frame.take(14)
    return call


def define(frame):
    call = related(frame)
    if frame.take(1) == 0:
        numbers(frame)
    elif not call:
        frame.refuse(5)
    if frame.take(1) == 1:
        # set reference, owners, acknowledged call, broadcast, name, assignment, acknowledgement requested, class, lifetime, temporary
        options(frame, field(3), listed, field(1), field(1), name, listed, requested, field(3), field(2), field(3))


def acknowledged(frame):
    """Numbers, a result of 4 bits, and an O-bit that nothing can follow."""
    numbers(frame)
    frame.take(4)
    if frame.take(1, chosen=[0]) == 1:
        options(frame)


def define_ack(frame):
    related(frame)
    acknowledged(frame)


def cancel(frame):
    if not related(frame):
        identity(frame)
    identity(frame)


def cancel_ack(frame):
    if not related(frame):
        identity(frame)
    frame.take(1)


def assign(frame):
    numbers(frame)
    if frame.take(1) == 1:
        # acknowledged call, broadcast, name, acknowledgement requested, class, lifetime, temporary, visited system extension
        options(frame, field(1), field(1), name, requested, field(3), field(2), field(3), field(24))


def assigning_ack(frame):
    numbers(frame)
    frame.take(2)
    if frame.take(1) == 1:
        options(frame, field(1))  # attachment or detachment


def deassign(frame):
    numbers(frame)
    if frame.take(1) == 1:
        options(frame, requested)


def deassigning_ack(frame):
    numbers(frame)
    frame.take(4)


def delete(frame):
    numbers(frame)
    frame.take(1)
    removed = frame.take(1) == 0
    if frame.take(1) == 1:
        if removed:
            numbers(frame)
        options(frame, requested, there=removed)


# House kind: action type, and all that follows the head.
KINDS = {
    DEFINE: (0b0011, define),
    0x02: (0b0011, define_ack),
    0x03: (0b0110, cancel),
    0x04: (0b0110, cancel_ack),
    0x05: (0b0001, assign),
    0x06: (0b0001, assigning_ack),
    0x07: (0b0010, deassign),
    0x08: (0b0010, deassigning_ack),
    0x0C: (0b1010, delete),
    0x0D: (0b1010, acknowledged),
}


def read(kind, bits):
    """Refuses a run of bits that is no frame of that kind."""
    frame = Reading(bits)
    action, body = KINDS[kind]
    ss_type = frame.take(6)
    if frame.take(4) != action or ss_type != SS_TYPE:
        raise Refused(3, 6 if ss_type == SS_TYPE else 0)
    body(frame)
    if frame.at < len(bits):
        raise Refused(2, frame.at)


def reply(line):
    """What the echo program says to a line, given without its newline."""
    text = line.decode("latin-1")
    if not 6 <= len(text) <= LONGEST or any(c not in "0123456789ABCDEF" for c in text):
        return "R9"
    kind, count = int(text[:2], 16), int(text[2:6], 16)
    if kind not in KINDS or len(text) != 6 + 2 * ((count + 7) // 8):
        return "R9"
    bits = "".join(format(int(c, 16), "04b") for c in text[6:])[:count]
    try:
        read(kind, bits)
    except Refused as refusal:
        return "R%d %04X" % refusal.args
    return "A" + line_of(kind, bits)


def line_of(kind, bits):
    size = (len(bits) + 7) // 8
    spare = bits.ljust(8 * size, "0")
    return f"{kind:02X}{len(bits):04X}" + "".join(f"{int(spare[k:k + 8], 2):02X}" for k in range(0, 8 * size, 8))


# What is composed: two in eleven a DEFINE.
MIX = [DEFINE, *KINDS]


def compose(rng):
    """A frame: its kind and its bits. Choices that make no frame are made again."""
    while True:
        kind = rng.choice(MIX)
        action, body = KINDS[kind]
        frame = Composing(rng)
        frame.bits = format(SS_TYPE, "06b") + format(action, "04b")
        try:
            body(frame)
        except Refused:
            continue
        return kind, frame.bits


def flip(rng, kind, bits):
    at = rng.randrange(min(len(bits), rng.choice([20, 40, 2000])))
    return line_of(kind, bits[:at] + "10"[int(bits[at])] + bits[at + 1:])


def cut(rng, kind, bits):
    return line_of(kind, bits[:rng.randrange(len(bits))])


def extra(rng, kind, bits):
    return line_of(kind, bits + format(rng.getrandbits(8), "08b")[:rng.randint(1, 8)])


def other_kind(rng, kind, bits):
    return line_of(rng.choice([*range(16), 255]), bits)


def spare_bits(rng, kind, bits):
    line = line_of(kind, bits)
    return line[:-1] + rng.choice("0123456789ABCDEF")


def character(rng, kind, bits):
    line = line_of(kind, bits)
    at = rng.randrange(len(line))
    return line[:at] + rng.choice(["g", "a", "G", " ", "\r", "\0", "\xff", "/", ":", "@"]) + line[at + 1:]


def length(rng, kind, bits):
    line = line_of(kind, bits)
    return rng.choice([line[:-1], line[:-2], line + "0", line + "00", "", line * 9])


DAMAGE = [flip, flip, flip, cut, cut, extra, other_kind, spare_bits, character, length]


def lines(count, seed, damaged):
    rng = random.Random(seed)
    for _ in range(count):
        kind, bits = compose(rng)
        if rng.random() < damaged:
            yield rng.choice(DAMAGE)(rng, kind, bits)
        else:
            yield line_of(kind, bits)


def main(words):
    out = sys.stdout.buffer
    if words[:1] == ["--replies"]:
        text = sys.stdin.buffer.read()
        given = text.split(b"\n")
        if given[-1] == b"":
            given.pop()
        for line in given:
            out.write(reply(line).encode() + b"\n")
        return
    good = words[:1] == ["--good"]
    words = words[1:] if good else words
    if not words:
        sys.exit(__doc__)
    for line in lines(int(words[0]), int(words[1]) if len(words) > 1 else 1, 0 if good else 0.4):
        out.write(line.encode("latin-1") + b"\n")


if __name__ == "__main__":
    main(sys.argv[1:])
