"""Ranges of fields, and the frames that try their ends."""

import wire
from cases import bad, good

HIGHEST = 9_223_372_036_854_775_807
LOWEST = -9_223_372_036_854_775_808
COUNT_HIGHEST = 4_294_967_295

# Prices lie within plus and minus these: an order's, a trade's and a previous
# close, then an entry's.
PRICE_LIMIT = 9_999_999_999_999
ENTRY_PRICE_LIMIT = 999_999_999_999_999_999

# Each range's two ends, then the numbers beyond them: (held, broken).
PRICE = ((0, 1, -1, 4_294_967_296, PRICE_LIMIT, -PRICE_LIMIT),
         (PRICE_LIMIT + 1, -PRICE_LIMIT - 1, HIGHEST, LOWEST))
# An order's ends, and what is beyond them, are prices of entries.
ENTRY_PRICE = ((0, 1, -1, 4_294_967_296, PRICE_LIMIT, -PRICE_LIMIT,
                PRICE_LIMIT + 1, -PRICE_LIMIT - 1, ENTRY_PRICE_LIMIT,
                -ENTRY_PRICE_LIMIT),
               (ENTRY_PRICE_LIMIT + 1, -ENTRY_PRICE_LIMIT - 1, HIGHEST, LOWEST))
QUANTITY = ((0, 1, 99, 4_294_967_296, 999_999_999_999_999),
            (-1, 1_000_000_000_000_000, HIGHEST, LOWEST))
AMOUNT = ((0, 1, 9_999, 999_999_999_999_999_999),
          (-1, 1_000_000_000_000_000_000, HIGHEST, LOWEST))
AT_LEAST_0 = ((0, 1, HIGHEST), (-1, LOWEST))
AT_LEAST_1 = ((1, 2, HIGHEST), (0, -1, LOWEST))
YES_NO = ((0, 1), (2, 255, 256, 257, 65_535))
FREE_2 = ((0, 1, 255, 256, 65_535), ())
FREE_4 = ((0, 1, 65_536, COUNT_HIGHEST), ())

TEXT_3 = ((" ", "010", "A\"\\", "\x00\x7f\xff", " 9", "~ \x1f"), ())
TEXT_4 = ((" ", "102", "\"\\~!", "\x00 \x00", " 02"), ())
TEXT_8 = ((" ", "00000001", " 000001", "\"a\\b\"", "\x00\x1f\x7f\x80\xff\n\t",
           "000001\x00\x00"), ())
TEXT_16 = ((" ", "0123456789abcdef", "a b  c", "\"\\\x00\x1f \x7f\xff", "\x00"),
           ())


def ends(name, field, numbers):
    """A fixed field at both ends of its range and beyond: 5."""
    held, broken = numbers
    return ([good(name, **{field: each}) for each in held]
            + [bad(5, name, **{field: each}) for each in broken])


def group_ends(name, numbers, make):
    """The same for a field of one of two groups."""
    held, broken = numbers
    first = make(held[0])
    return ([good(name, [first, make(each)]) for each in held]
            + [bad(5, name, [first, make(each)]) for each in broken]
            + [bad(5, name, [make(each), first]) for each in broken])


def lengths(name, groups=()):
    """The smallest body, tails, bodies too short: 4."""
    full = len(good(name, groups).data) - 12
    return [
        good(name, groups),
        good(name, groups, tail=b"\x00"),
        good(name, groups, tail=b"\xff" * 40),
        bad(4, name, groups, short=1),
        bad(4, name, groups, short=full // 2),
        bad(4, name, groups, short=full),
    ]


def counts(name, make, wrapping):
    """Group counts; `wrapping` ones need just over a multiple of 4 GiB."""
    two = [make(), make()]
    return [
        good(name),
        good(name, tail=b"\xff"),
        good(name, [make()]),
        good(name, two),
        good(name, two, tail=b"tail"),
        # Groups past the count are tail, as is half a group.
        good(name, two, count=1),
        good(name, two, count=0),
        good(name, two, tail=wire.group(name, make())[:-1]),
        bad(4, name, two, count=3),
        bad(4, name, two, count=3, tail=wire.group(name, make())[:-1]),
        bad(4, name, count=1),
        bad(4, name, two, count=COUNT_HIGHEST),
        bad(4, name, count=COUNT_HIGHEST),
        bad(4, name, two, count=2_147_483_648),
    ] + [bad(4, name, two, count=each, tail=bytes(64)) for each in wrapping]


def common(name):
    """The fields of the common part, but for time."""
    cases = []
    for field, numbers in (
            ("channel", FREE_2), ("stream", TEXT_3), ("security", TEXT_8),
            ("source", TEXT_4), ("phase", TEXT_8),
            ("previous_close", PRICE), ("trade_count", AT_LEAST_0),
            ("volume", QUANTITY), ("amount", AMOUNT)):
        cases += ends(name, field, numbers)
    # 4 is judged before 5.
    return cases + [
        bad(4, name, previous_close=PRICE_LIMIT + 1, short=1),
        bad(4, name, time=-1, volume=-1, short=1),
        # A tail has no range.
        good(name, tail=wire.number(8, -1) * 3)]
