"""A small capture of an opening auction."""

from cases import File, category, entry, good, point, switch, unlisted
from words import NO_UPPER_LIMIT

# Market status, which is left to the host: a time, a channel, a market.
MARKET_STATUS = 390019
MARKET = (20261113091503000).to_bytes(8, "big") + b"\x03\xf3XHKG    1   1   "


def at(second, millisecond=0, minute=15):
    """A time of the auction, from 09:15 on."""
    return 20261113090000000 + minute * 100_000 + second * 1_000 + millisecond


def order(channel, number, side, price, quantity, time, **more):
    """An order of the auction."""
    return good("order", channel=channel, number=number, side=side,
                price=price, quantity=quantity, time=time, **more)


def trade(channel, number, bid, offer, price, quantity, time, **more):
    """A trade or a cancelled order."""
    return good("trade", channel=channel, number=number, bid_number=bid,
                offer_number=offer, price=price, quantity=quantity,
                time=time, **more)


def heard(channel, last, end=0):
    """A channel heartbeat."""
    return good("channel heartbeat", channel=channel, last_number=last,
                end=end)


def before():
    """What comes before the first order."""
    return [
        good("heartbeat"),
        good("security status", [switch(1, 1), switch(2, 0), switch(23, 1)],
             time=at(0), financial_status="D"),
        good("statistics", [category("010", 2_310, "T"),
                            category("900", 167, "T")], time=at(0)),
        good("snapshot", [
            entry("xe", 13430000),
            entry("xf", 10990000),
            entry("x5", 9870000),
        ], time=at(0), phase="S0"),
        heard(2011, 0),
        heard(2012, 0),
    ]


def first_orders():
    """Number 3 of channel 2012 comes late, and number 4 twice."""
    other = {"security": "000002"}
    return [
        order(2011, 1, "1", 123400, 50000, at(1, 10)),
        order(2011, 2, "2", 123400, 20000, at(1, 40)),
        order(2012, 1, "1", 251000, 10000, at(1, 50), **other),
        order(2012, 2, "2", 250500, 30000, at(1, 90), **other),
        order(2011, 3, "1", 123400, 70000, at(1, 120)),
        order(2012, 4, "2", 250900, 20000, at(1, 370), **other),
        order(2012, 3, "1", 251500, 20000, at(1, 130), **other),
        order(2012, 4, "2", 250900, 20000, at(1, 370), **other),
    ]


def later_orders():
    """The first orders for a board that joins at noon."""
    return [
        order(2011, 4, "2", 123400, 30000, at(2, 0)),
        order(2011, 5, "2", 124000, 15000, at(2, 70)),
        heard(2011, 5),
        unlisted(MARKET_STATUS, MARKET),
        good("security status", [switch(1, 1)], time=at(3),
             security="000002"),
    ]


def auction():
    """The auction as the snapshot shows it; 2011 has no number 6 for us."""
    return [
        good("snapshot", [
            entry("0", 12340000, 50000, 1, 1, (50000,)),
            entry("0", 0, 70000, 2),
            entry("1", 12340000, 50000, 1, 2, (20000, 30000)),
            entry("1", 0, 0, 2),
            entry("2", 12210000),
            entry("xj", -1250000),
            entry("x3", 12340000, 120000),
            entry("x4", 12353846, 65000),
            entry("xe", NO_UPPER_LIMIT),
            entry("xf", 10990000),
            entry("xg", 0, 1_250_000),
            entry("xz", 77, 88),
        ], time=at(3)),
        good("index", [point("3", 10499871200), point("xa", 10500000000),
                       point("xb", 0), point("xz", 5)], time=at(3)),
        good("volume index", time=at(3), stock_number=2_310),
        heard(2011, 6),
        order(2011, 7, "1", 122900, 20000, at(3, 310)),
        trade(2011, 8, 0, 5, 0, 15000, at(4, 20), execution_type="4"),
        heard(2012, 4),
        # The answer for number 6: not to be had.
        good("resend", channel=2011, first=6, last=6, status=4,
             text="20033"),
        good("heartbeat"),
    ]


def opened():
    """The auction's trades, and the end of channel 2011."""
    open_time = at(0, minute=25)
    other = {"security": "000002"}
    return [
        order(2011, 9, "1", 123300, 40000, at(58, 900, 24)),
        trade(2011, 10, 1, 2, 123400, 20000, open_time),
        trade(2011, 11, 1, 4, 123400, 30000, open_time),
        trade(2012, 5, 3, 2, 250900, 20000, open_time, **other),
        trade(2012, 6, 1, 2, 250900, 10000, open_time, **other),
        good("snapshot", [
            entry("0", 12340000, 70000, 1, 1, (70000,)),
            entry("0", 12330000, 40000, 2, 1, (40000,)),
            entry("0", 12290000, 20000, 3, 1),
            entry("1", 12400000, 80000, 1, 1, (80000,)),
            entry("2", 12340000),
            entry("4", 12340000),
            entry("7", 12340000),
            entry("8", 12340000),
            entry("x1", 130000),
            entry("x2", 0),
        ], time=open_time, phase="B0", trade_count=2, volume=50000,
            amount=61700000),
        good("index", [point("3", 10501003300), point("xa", 10500000000),
                       point("xb", 10501003300), point("xc", 10501003300),
                       point("xd", 10501003300)],
             time=open_time, phase="B0", trade_count=4, volume=80000,
             amount=136970000),
        good("volume index", time=open_time, phase="B0", trade_count=4,
             volume=80000, amount=136970000, stock_number=2_310),
        good("statistics", [category("010", 2_310, "T"),
                            category("900", 167, "T"),
                            category("910", 21, "T")], time=open_time),
        heard(2012, 6),
        good("heartbeat"),
        heard(2011, 11, 1),
    ]


def file():
    """The capture."""
    return File("opening", before() + first_orders() + noon().cases)


def noon():
    """The rest of it, which is all that a board gets that joins then."""
    return File("noon", later_orders() + auction() + opened())
