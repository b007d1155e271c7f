"""Two lines of the same feed, each of which lost other messages."""

from cases import File, entry, good
from opening import at, heard, order

# What each line lost of each channel.
LOST_BY_A = {
    2011: {6, 7, *range(10, 16), *range(18, 23), 25, 26, 29, 30},
    2012: {5, 6, 11},
}
LOST_BY_B = {
    2011: {2, 4, 5, *range(12, 15), *range(17, 20), *range(21, 24), 26, 27},
    2012: {1, 3, 8, 9},
}

# How many messages at the feed's end line B has no part in.
BEHIND_B = 3


def orders(channel, numbers, second):
    """Orders of a channel: each with its channel and number."""
    return [(channel, number,
             order(channel, number, "12"[number % 2], 123_000 + 100 * number,
                   10_000 * number, at(second, number)))
            for number in numbers]


def others(*messages):
    """Messages without a number, which neither line loses."""
    return [(None, None, message) for message in messages]


def feed():
    """All messages; number 9 of channel 2012 stands behind 10."""
    return [
        *others(good("heartbeat")),
        *orders(2011, range(1, 9), 1),
        *orders(2012, range(1, 7), 2),
        *others(heard(2012, 6)),
        *orders(2011, range(9, 17), 3),
        *others(good("snapshot", [
            entry("0", 12340000, 50000, 1, 1, (50000,)),
            entry("0", 0, 70000, 2),
            entry("1", 12350000, 20000, 1, 1, (20000,)),
        ], time=at(3))),
        *orders(2012, (7, 8, 10, 9, 11, 12), 4),
        *orders(2011, range(17, 29), 5),
        *others(heard(2012, 12)),
        *orders(2011, (29, 30), 6),
        *others(heard(2011, 30, 1)),
    ]


def line(name, messages, lost):
    """What is left of the messages."""
    return File(name, [message for channel, number, message in messages
                       if number not in lost.get(channel, ())])


def files():
    """Both lines."""
    return [line("line_a", feed(), LOST_BY_A),
            line("line_b", feed()[:-BEHIND_B], LOST_BY_B)]
