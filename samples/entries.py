"""Run cases of the types with entries."""

import words
from cases import Ending, File, bad, entry, good, point
from ranges import (AT_LEAST_0, COUNT_HIGHEST, ENTRY_PRICE, ENTRY_PRICE_LIMIT,
                    FREE_2, HIGHEST, QUANTITY, common, counts, group_ends,
                    lengths)

# One beyond each end of an entry price's range.
BEYOND = (ENTRY_PRICE_LIMIT + 1, -ENTRY_PRICE_LIMIT - 1)


def snapshot():
    """Snapshot: its lengths, its counts, the ranges of its fields."""
    name = "snapshot"

    def group(price=12340000, size=50000, level=1, order_count=1,
              quantities=()):
        return entry("0", price, size, level, order_count, quantities)

    deep = group(quantities=(100, 200, 300))
    cases = lengths(name) + lengths(name, [deep, group()])
    cases += lengths(name, [group(), deep])
    # 32k is 4 GiB at 2 to the 27th.
    cases += counts(name, group, (1 << 27, (1 << 27) + 1, 1 << 31))
    cases += shown_counts(name)
    cases += common(name)
    cases += group_ends(name, ENTRY_PRICE, lambda each: group(price=each))
    cases += group_ends(name, QUANTITY, lambda each: group(size=each))
    cases += group_ends(name, FREE_2, lambda each: group(level=each))
    cases += group_ends(name, AT_LEAST_0, lambda each: group(order_count=each))
    cases += group_ends(
        name, QUANTITY, lambda each: group(quantities=(100, each)))
    cases += group_ends(
        name, QUANTITY, lambda each: group(quantities=(each, 100)))
    cases += [
        # 4 for the whole body, then 5.
        bad(4, name, [group(size=-1), group()], short=1),
        bad(4, name, [group(size=-1), group()], count=3),
        bad(4, name, [group(quantities=(-1,)), deep], short=1),
        # An entry past the count is tail and has no range.
        good(name, [group(), group(size=-1)], count=1),
    ]
    return File("snapshot", cases)


def shown_counts(name):
    """Shown counts that need more bytes than the body has: 4."""
    plain = entry("0", 12340000, 50000, 1, 1)

    def says(count, *quantities):
        return entry("0", 12340000, 50000, 1, 1, quantities, shown_count=count)

    return [
        good(name, [entry("0", 12340000, 50000, 1, 3, (1, 2, 3)), plain]),
        bad(4, name, [says(1)]),
        bad(4, name, [says(3, 100, 200)]),
        bad(4, name, [says(3, 100, 200)], tail=bytes(7)),
        # The last entry's quantities run past the end.
        bad(4, name, [plain, says(2, 100)]),
        bad(4, name, [plain, says(2, 100)], tail=bytes(7)),
        # The first entry's quantities swallow the second entry.
        bad(4, name, [says(5), plain]),
        bad(4, name, [says(4), plain]),
        bad(4, name, [says(COUNT_HIGHEST), plain]),
        bad(4, name, [plain, says(COUNT_HIGHEST)]),
        bad(4, name, [says(2_147_483_648), plain]),
        # 8n is 4 GiB at 2 to the 29th.
        bad(4, name, [says(1 << 29), plain]),
        bad(4, name, [plain, says(1 << 29)], tail=bytes(64)),
        bad(4, name, [says((1 << 29) + 1), plain]),
        bad(4, name, [plain, says(1 << 28), says(1 << 28)]),
        # Entry and quantities together are 4 GiB.
        bad(4, name, [says((1 << 29) - 4), plain]),
    ]


def said(expected, one):
    """An entry of 300111 and which of the seven things it says."""
    assert words.says("snapshot", one) == expected, one
    return one


def pointed(expected, one):
    """An entry of 309011 and what it says."""
    assert words.says("index", one) == expected, one
    return one


# Types that say nothing known in 300111; 0 and 1 are 30 20 and 31 20.
UNKNOWN = ("3", "5", "6", "a", "x", "X", " ", "x0", "xa", "xb", "xc", "xd",
           "xh", "xi", "xl", "xz", "X1", "XE", "00", "01", "10", "0x", "1x",
           "2x", " 0", " 1", "0\x00", "1\x00", "\x000", "\x001", "xE", "xF",
           "xG", "\xb0 ", "0\xa0", "\x00\x00", "\xff\xff", "\"\\", "/", ":")

PLAIN = ("2", "4", "7", "8", "9", "x1", "x2", "x5", "x6", "x7", "x8", "x9",
         "xj", "xk", "xe", "xf")


def every_type(price, level, size, more):
    """Every entry type of 300111 with one price."""
    return ([said(level, entry(each, price, size, 1, 3, more))
             for each in ("0", "1")]
            + [said("price", entry(each, price, size, 1, 3, more))
               for each in PLAIN]
            + [said("size", entry("xg", price, size, 1, 3, more))]
            + [said("price and size", entry(each, price, size, 1, 3, more))
               for each in ("x3", "x4")]
            + [said("unknown", entry(each, price, size, 1, 3, more))
               for each in UNKNOWN])


def limits():
    """`xe` and `xf` at, beside and with the other's mark."""
    up, down = words.NO_UPPER_LIMIT, words.NO_LOWER_LIMIT
    return [
        said("no limit", entry("xe", up)),
        said("price", entry("xe", up - 1)),
        said("price", entry("xe", up + 1)),
        said("price", entry("xe", down)),
        said("price", entry("xe", down - 1)),
        said("price", entry("xe", down + 1)),
        said("no limit", entry("xf", down)),
        said("price", entry("xf", down - 1)),
        said("price", entry("xf", down + 1)),
        said("price", entry("xf", up)),
        said("price", entry("xf", up - 1)),
        said("price", entry("xf", up + 1)),
        # The marks have nines in four of the six decimals.
        said("price", entry("xe", up + 99)),
        said("price", entry("xf", down - 99)),
        # As numbers of four decimals they are a hundred times smaller.
        said("price", entry("xe", up // 100)),
        said("price", entry("xf", down // 100)),
        # 000 drops a nine.
        said("price", entry("xe", 99_999_999_999_900)),
        said("price", entry("xf", -99_999_999_999_900)),
        said("no limit", entry("xe", up, 500, 2, 7, (100, 200))),
        said("no limit", entry("xf", down, 500, 2, 7, (100,))),
        # The marks mean nothing elsewhere.
        said("level", entry("0", up, 1, 1)),
        said("level", entry("1", down, 1, 1)),
        said("price", entry("2", up)),
        said("price", entry("xk", down)),
        said("price and size", entry("x3", up, 1)),
        said("size", entry("xg", down, 1)),
        said("unknown", entry("xh", up)),
    ]


def meaningless():
    """Fields without meaning for an entry still obey their ranges."""
    name, cases = "snapshot", []
    for kind in ("0", "1", "2", "xe", "xg", "x3", "xz", "\x00\x00"):
        for each in BEYOND:
            cases.append(bad(5, name, [entry(kind, each)]))
        for each in (-1, 1_000_000_000_000_000):
            cases.append(bad(5, name, [entry(kind, 0, each)]))
            cases.append(bad(5, name, [entry(kind, 1, 1, 1, 1, (each,))]))
        cases.append(bad(5, name, [entry(kind, 0, 0, 0, -1)]))
        cases.append(good(name, [entry(kind, 0, 0, 65_535, HIGHEST)]))
    return cases


def entries():
    """What an entry says; the file ends in a frame with a wrong checksum."""
    name, level, bare = "snapshot", "level", "level without a price"
    cases = [
        good(name, every_type(12340000, level, 50000, ())),
        good(name, every_type(0, bare, 70000, ())),
        good(name, every_type(-12340000, level, 0, ())),
        good(name, every_type(1, level, 1, (100,))),
        good(name, every_type(0, bare, 0, (100, 40000))),
        # No end of the range is a mark.
        good(name, every_type(ENTRY_PRICE_LIMIT, level, 50000, ())),
        good(name, every_type(-ENTRY_PRICE_LIMIT, level, 50000, ())),
        good(name, limits()),
        # Entries of every width between two levels.
        good(name, [said(level, entry("0", 12340000, 50000, 1, 2,
                                      (20000, 30000))),
                    said("unknown", entry("xz", 5, 6, 7, 8, (1, 2, 3, 4, 5))),
                    said(level, entry("1", 12350000, 60000, 1, 1, (60000,)))],
             tail=b"tail"),
        # A price is seen in all eight bytes.
        good(name, [said(level, entry("0", 1 << shift, 100, 1, 1))
                    for shift in range(0, 64, 8)]),
    ] + meaningless()
    ending = good(name, limits()).data[:-4] + bytes.fromhex("01000000")
    return File("entries", cases, Ending(ending, 3))


def auction():
    """The rules' auction case."""
    return File("auction", [good("snapshot", [
        said("level", entry("0", 12340000, 50000, 1)),
        said("level without a price", entry("0", 0, 70000, 2))])])


def index():
    """Index."""
    name = "index"

    def group(price=10500000000, kind="3"):
        return point(kind, price)

    known = ("3", "xa", "xb", "xc", "xd")
    free = ("0", "1", "2", "4", "7", "8", "9", "x1", "x2", "x3", "x4", "x5",
            "x6", "x7", "x8", "x9", "xe", "xf", "xg", "xj", "xk", "x0", "x",
            "3\x00", " 3", "33", "xA", "Xa", "\xff\xff", "\x00\x00", " ")
    cases = lengths(name) + lengths(name, [group(), group(kind="xa")])
    # 10k is 4 more than 4 GiB at 429,496,730.
    cases += counts(name, group, (429_496_730, 858_993_460))
    for price in (10500000000, 0, -10500000000, words.NO_UPPER_LIMIT,
                  words.NO_LOWER_LIMIT, ENTRY_PRICE_LIMIT,
                  -ENTRY_PRICE_LIMIT):
        cases.append(good(name, [pointed("price", point(each, price))
                                 for each in known]
                          + [pointed("unknown", point(each, price))
                             for each in free]))
    cases += common(name)
    cases += group_ends(name, ENTRY_PRICE, group)
    cases += [bad(5, name, [point(each, price)])
              for each in ("3", "xd", "0", "\x00\x00")
              for price in BEYOND]
    cases += [bad(4, name, [group(BEYOND[0]), group()], short=1),
              good(name, [group(), group(BEYOND[0])], count=1)]
    return File("index", cases)
