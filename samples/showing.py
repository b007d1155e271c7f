"""The decoding program's run cases."""

import entries
import wire
from cases import Ending, File, bad, category, entry, good, switch, unlisted
from ranges import (AT_LEAST_0, AT_LEAST_1, FREE_2, FREE_4, HIGHEST, LOWEST,
                    PRICE, PRICE_LIMIT, QUANTITY, TEXT_16, TEXT_3, TEXT_4,
                    TEXT_8, YES_NO, common, counts, ends, group_ends, lengths)


def heartbeats():
    """Heartbeat and channel heartbeat."""
    name = "channel heartbeat"
    cases = [good("heartbeat"),
             # A heartbeat with a body: all tail.
             good("heartbeat", tail=b"\x00"),
             good("heartbeat", tail=b"\xff" * 100)]
    cases += lengths(name)
    cases += ends(name, "channel", FREE_2)
    cases += ends(name, "last_number", AT_LEAST_0)
    cases += ends(name, "end", YES_NO)
    cases += [
        bad(4, name, end=2, short=1),
        bad(4, name, last_number=-1, short=1),
        bad(5, name, last_number=-1, end=2),
        # The rules' cases: end field 2, then eleven zeros.
        stated("0005F3CF 0000000C 07DB" + "00" * 7 + "0A0002 000000C1",
               bad(5, name, end=2)),
        stated("0005F3CF 0000000B" + "00" * 11 + "000000D2",
               bad(4, name, channel=0, last_number=0, short=1)),
        good("heartbeat"),
    ]
    return File("heartbeats", cases)


def stated(hexadecimal, case):
    """A case whose bytes the rules give."""
    assert case.data == bytes.fromhex(hexadecimal)
    return case


def resend():
    """Resend; the last frame's checksum is wrong."""
    name = "resend"
    cases = lengths(name)
    cases += ends(name, "resend_type", ((1, 2), (0, 3, 128, 255)))
    cases += ends(name, "channel", FREE_2)
    cases += ends(name, "first", AT_LEAST_0)
    cases += ends(name, "last", AT_LEAST_0)
    cases += ends(name, "news_id", TEXT_8)
    cases += ends(name, "status", ((0, 1, 2, 3, 4), (5, 128, 255)))
    cases += ends(name, "text", TEXT_16)
    cases += [
        # First above last is no field out of range.
        good(name, first=9, last=3),
        bad(4, name, resend_type=3, short=1),
        bad(4, name, status=5, short=16),
    ]
    broken = bytearray(good(name).data)
    broken[20] ^= 1
    return File("resend", cases, Ending(bytes(broken), 3))


def statistics():
    """Statistics; the last frame is cut."""
    name = "statistics"

    def group(stream="010", stock_number=2_310, phase="T"):
        return category(stream, stock_number, phase)

    cases = lengths(name) + lengths(name, [group(), group("900", 167, "E")])
    # 15k is 14 more than 4 GiB at 286,331,154.
    cases += counts(name, group, (286_331_154, 572_662_307))
    cases += ends(name, "channel", FREE_2)
    cases += group_ends(name, TEXT_3, lambda each: group(stream=each))
    cases += group_ends(name, FREE_4, lambda each: group(stock_number=each))
    cases += group_ends(name, TEXT_8, lambda each: group(phase=each))
    cases += [bad(5, name, [group()], time=-1),
              bad(4, name, [group()], time=-1, short=1)]
    return File("statistics", cases, Ending(good(name, [group()]).data[:20], 1))


def status():
    """Security status."""
    name = "security status"

    def group(kind=1, yes=1):
        return switch(kind, yes)

    cases = lengths(name) + lengths(name, [group(), group(31, 0)])
    # 4k is 4 GiB at 2 to the 30th.
    cases += counts(name, group, (1 << 30, (1 << 30) + 1, 1 << 31))
    for field, numbers in (
            ("channel", FREE_2), ("security", TEXT_8), ("source", TEXT_4),
            ("financial_status", TEXT_8)):
        cases += ends(name, field, numbers)
    cases += group_ends(name, FREE_2, lambda each: group(kind=each))
    cases += group_ends(name, YES_NO, lambda each: group(yes=each))
    cases += [bad(5, name, [group()], time=-1),
              bad(4, name, [group(yes=2), group()], short=1),
              # A group past the count is tail and has no range.
              good(name, [group(), group(yes=2)], count=1)]
    return File("status", cases)


def volume():
    """Volume index; the last frame's header is cut."""
    name = "volume index"
    cases = lengths(name) + common(name)
    cases += ends(name, "stock_number", FREE_4)
    return File("volume", cases, Ending(good(name).data[:7], 1))


def characters(name, field, held, broken):
    """A field of one character."""
    return ends(name, field, (tuple(held), tuple(broken)))


def order():
    """Order."""
    name = "order"
    cases = lengths(name)
    for field, numbers in (
            ("channel", FREE_2), ("number", AT_LEAST_1), ("stream", TEXT_3),
            ("security", TEXT_8), ("source", TEXT_4), ("price", PRICE),
            ("quantity", QUANTITY)):
        cases += ends(name, field, numbers)
    cases += characters(name, "side", "12GF", "034EHgfU \x00\x01\x02\xb1\xff")
    cases += characters(name, "order_type", "12U", "034TVuGF \x00\x01\x02\xff")
    cases += [bad(4, name, price=PRICE_LIMIT + 1, short=1),
              bad(4, name, number=0, side=" ", short=1),
              bad(5, name, number=0, side=" "),
              good(name, tail=b"\xff" * 15)]
    return File("order", cases)


def trade():
    """Trade; the last frame's checksum has a wrong upper byte."""
    name = "trade"
    cases = lengths(name)
    for field, numbers in (
            ("channel", FREE_2), ("number", AT_LEAST_1), ("stream", TEXT_3),
            ("bid_number", AT_LEAST_0), ("offer_number", AT_LEAST_0),
            ("security", TEXT_8), ("source", TEXT_4), ("price", PRICE),
            ("quantity", QUANTITY)):
        cases += ends(name, field, numbers)
    cases += characters(name, "execution_type", "4F",
                        "0135EGf12U \x00\x04\xb4\xff")
    cases += [bad(4, name, price=PRICE_LIMIT + 1, short=1),
              bad(4, name, number=0, execution_type=" ", short=8),
              # An order's 51 bytes are too few for a trade.
              bad(4, name, short=15)]
    whole = bytearray(good(name).data)
    whole[-2] = 1
    return File("trade", cases, Ending(bytes(whole), 3))


# Each part of a time at both ends, then one beyond.
TIMES = ((
    20261113091500000,
    20260101000000000,   # month 1, day 1, hour, minute, second 0
    20261231235960999,   # month 12, day 31, hour 23, minute 59, second 60
    20261231235959999,
    20260231120000000,   # day 31 in any month
    101000000000,        # year 0
    1231235960999,
    99990101000000000,   # year 9999
    99991231235960999,
), (
    20260013091500000,   # month 0
    20261313091500000,   # month 13
    20261100091500000,   # day 0
    20261132091500000,   # day 32
    20261113240000000,   # hour 24
    20261113096000000,   # minute 60
    20261113091561000,   # second 61
    20269913091500000,
    20261199091500000,
    20261113990000000,
    20261113099900000,
    20261113091599000,
    100000101000000000,  # year 10000
    120261113091500000,
    675621113091500000,  # 65,536 years more
    9_223_371_231_235_960_999,
    0,
    1,
    -1,
    -20261113091500000,
    -8886908500000,      # good parts counted up from year -1
    LOWEST,
    HIGHEST,
))


def times():
    """Every type with a time."""
    cases = []
    for name in ("statistics", "security status", "snapshot", "index",
                 "volume index", "order", "trade"):
        cases += ends(name, "time", TIMES)
    return File("times", cases)


def unknown():
    """Types beside the listed ones; the last frame's L is too large."""
    order_body = good("order").data[8:-4]
    cases = [unlisted(each, order_body) for each in (
        2, 4, 390012, 390014, 390089, 390091, 390093, 390096, 300110, 300112,
        309010, 309012, 309110, 309112, 300190, 300193)]
    # A listed type with a byte above it is another type.
    for number in (3, 390095, 390094, 390090, 390013, 300111, 309011, 309111,
                   300192, 300191):
        cases += [unlisted(number + 65_536, order_body),
                  unlisted(number + 16_777_216, order_body),
                  unlisted(number + 2_147_483_648)]
    cases += [
        good("order"),
        unlisted(0),
        unlisted(390019, b"market status"),
        unlisted(4_294_967_295, b"\xff"),
        unlisted(2_147_483_648, bytes(1_000)),
        unlisted(1, bytes(16_384)),
        good("heartbeat"),
    ]
    return File("unknown", cases, Ending(
        wire.number(4, 3) + wire.number(4, 16_385), 2))


def largest():
    """Bodies of 16,384 bytes."""
    shown = tuple(range(100, 100 + 2_035))
    many = [entry("0", 12340000 - 100 * place, 100 * place, place % 10 + 1,
                  place)
            for place in range(509)]
    over = entry("0", 12340000, 50000, 1, 1, shown, shown_count=2_036)
    cases = [
        good("snapshot", [entry("0", 12340000, 50000, 1, 2_035, shown)],
             tail=b"\xff" * 3),
        good("snapshot", many, tail=b"\xff" * 27),
        bad(4, "snapshot", [over], tail=b"\xff" * 3),
        bad(4, "snapshot", many, tail=b"\xff" * 27, count=510),
        good("heartbeat"),
    ]
    assert all(len(each.data) == 16_396 for each in cases[:-1])
    return File("largest", cases)


def files():
    """Every run case of the decoding."""
    return [heartbeats(), resend(), statistics(), status(),
            entries.snapshot(), entries.entries(), entries.auction(),
            entries.index(), volume(), order(), trade(), times(), unknown(),
            largest()]
