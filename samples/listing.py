"""The listing program's run cases."""

import hashlib

import wire
from cases import Ending, File, bad, good, opaque, unlisted
from ranges import PRICE_LIMIT

LARGEST = 16_384
WINDOW = 65_536

HEARTBEAT = bytes.fromhex("00000003 00000000 00000003")
CHANNEL_HEARTBEAT = bytes.fromhex(
    "0005F3CF 0000000C 07DB" + "00" * 7 + "0A0000 000000BF")

TYPES = [number for number, _ in wire.TYPES.values()] + [
    1, 8, 390012, 390019, 390093, 300611, 4_294_967_295]


def noise(seed, length):
    """Fixed bytes without a pattern."""
    return hashlib.shake_256(seed.encode()).digest(length)


def some():
    """Good frames to stand before a refused one."""
    return [good("heartbeat"), good("channel heartbeat"), good("order"),
            unlisted(390019, b"market status")]


class Mixed:
    """Frames of mixed types and lengths, the same ones each time."""

    def __init__(self, seed):
        self.seed = seed
        self.cases = []
        self.length = 0

    def add(self, length):
        """One frame with a body of this length."""
        place = len(self.cases)
        kind = TYPES[noise(f"{self.seed} type {place}", 1)[0] % len(TYPES)]
        body = noise(f"{self.seed} body {place}", length)
        self.cases.append(opaque(kind, body))
        self.length += 12 + length

    def next_length(self):
        """Mostly short bodies, some long ones, now and then the largest."""
        pick = noise(f"{self.seed} length {len(self.cases)}", 4)
        value = int.from_bytes(pick[1:], "big")
        if pick[0] < 150:
            return value % 120
        if pick[0] < 225:
            return value % 2_000
        if pick[0] < 252:
            return value % (LARGEST + 1)
        return LARGEST

    def fill(self, place):
        """Frames up to this very place."""
        while self.length < place:
            left = place - self.length
            length = self.next_length()
            if left < length + 24:
                length = left - 12 if left <= LARGEST + 12 else LARGEST // 2
            self.add(length)
        assert self.length == place


def window():
    """Each edge of a 64 KiB window lies in another part of a frame."""
    mixed = Mixed("window")
    mixed.fill(WINDOW - 3)            # in a type
    mixed.add(100)
    mixed.fill(2 * WINDOW)            # between two frames
    mixed.fill(3 * WINDOW + 2 - 212)  # in a checksum
    mixed.add(200)
    for _ in range(3):
        mixed.add(LARGEST)
    mixed.fill(4 * WINDOW - 8)        # between header and body
    mixed.add(500)
    mixed.fill(5 * WINDOW + 4 - 62)   # between body and checksum
    mixed.add(50)
    mixed.add(0)
    return File("window", mixed.cases)


def window_even():
    """The input ends with the first window."""
    mixed = Mixed("window even")
    mixed.fill(WINDOW)
    return File("window_even", mixed.cases)


def window_cut():
    """The input ends in the middle of a frame that began a window before."""
    mixed = Mixed("window cut")
    mixed.fill(2 * WINDOW - 1_000)
    whole = wire.frame(390019, noise("window cut last", LARGEST))
    return File("window_cut", mixed.cases, Ending(whole[:12_000], 1))


def head(type_number, length):
    """The eight bytes of a header."""
    return wire.number(4, type_number) + wire.number(4, length)


def wrong_checksum(place):
    """A whole frame with one checksum byte wrong, and a good one behind."""
    whole = bytearray(good("trade").data)
    whole[len(whole) - 4 + place] ^= 1
    return Ending(bytes(whole) + HEARTBEAT, 3)


def two():
    """The rules' two accepted frames."""
    file = File("two", [good("heartbeat"), good("channel heartbeat")])
    assert file.cases[0].data == HEARTBEAT
    assert file.cases[1].data == CHANNEL_HEARTBEAT
    return file


def files():
    """Every run case of the listing."""
    order = good("order").data
    return [
        two(),
        File("empty", []),
        # 1: fewer than 8 bytes, or fewer than 12+L. The last line says how
        # many are missing.
        File("cut_one", some(), Ending(order[:1], 1)),
        File("cut_header", some(), Ending(order[:7], 1)),
        File("cut_after_header", some(), Ending(order[:8], 1)),
        File("cut_body", some(), Ending(order[:40], 1)),
        File("cut_before_checksum", some(), Ending(order[:-4], 1)),
        File("cut_checksum", some(), Ending(order[:-1], 1)),
        File("cut_first", [], Ending(HEARTBEAT[:11], 1)),
        File("cut_largest", some(), Ending(head(3, LARGEST), 1)),
        # 2: L above 16,384, with or without the bytes for it.
        File("l_over", some(), Ending(head(3, LARGEST + 1), 2)),
        File("l_over_whole", some(),
             Ending(wire.frame(3, bytes(LARGEST + 1)), 2)),
        File("l_max", some(), Ending(head(3, 4_294_967_295), 2)),
        # 2 before 1 needs the whole header: seven bytes are 1.
        File("l_max_cut", some(), Ending(head(3, 4_294_967_295)[:7], 1)),
        # 3: each of the four checksum bytes.
        File("sum_low", some(), wrong_checksum(3)),
        File("sum_third", some(), wrong_checksum(2)),
        File("sum_second", some(), wrong_checksum(1)),
        File("sum_top", some(), wrong_checksum(0)),
        File("sum_first", [], Ending(HEARTBEAT[:11] + b"\x04", 3)),
        File("sum_high", some(),
             Ending(HEARTBEAT[:8] + bytes.fromhex("00000103"), 3)),
        # 4 and 5 are not judged.
        File("unjudged", [
            bad(4, "channel heartbeat", short=1),
            bad(5, "channel heartbeat", end=2),
            bad(5, "order", price=PRICE_LIMIT + 1),
            bad(4, "snapshot", count=4_294_967_295)]),
        File("type_max", [
            unlisted(4_294_967_295, b"\xff" * 300), unlisted(0),
            unlisted(2_147_483_648, b"\x80"), unlisted(2_147_483_647)]),
        File("largest", some() + [
            unlisted(390019, noise("largest", LARGEST)),
            good("channel heartbeat")]),
        window(),
        window_even(),
        window_cut(),
    ]
