"""Writes a capture for the benchmark: bench_capture.py N_MEGABYTES FILE.

Valid frames as a line has them on a trading day, with losses, late numbers
and repeats; a block of about one megabyte, over and over.
"""

import sys
from collections import deque
from itertools import count

sys.dont_write_bytecode = True

from cases import entry, good, point, unlisted

MEGABYTE = 1 << 20
DAY = 20261113_000000000
CHANNELS = 4


def clock(step):
    """Times from 09:30 on, a hundredth of a second apart."""
    second, hundredth = divmod(step, 100)
    minute, second = divmod(second, 60)
    hour, minute = divmod(30 + minute, 60)
    return (DAY + (9 + hour) * 10_000_000 + minute * 100_000
            + second * 1_000 + hundredth * 10)


def numbered(tick):
    """The channel and number of a tick: the channels take turns."""
    return {"channel": 2011 + tick % CHANNELS, "number": tick // CHANNELS + 1}


def an_order(step, tick):
    """An order of 51 body bytes."""
    return good("order", **numbered(tick),
                security=f"{step * 7 % 2_800 + 1:06d}",
                price=100_000 + step * 37 % 200_000,
                quantity=100 * (100 + step * 13 % 9_900),
                side="12"[step % 2], time=clock(step))


def a_trade(step, tick):
    """A trade of 66 body bytes; one in four is a cancelled order."""
    cancelled = step % 4 == 0
    return good("trade", **numbered(tick),
                bid_number=step, offer_number=0 if cancelled else step + 1,
                security=f"{step * 7 % 2_800 + 1:06d}",
                price=0 if cancelled else 100_000 + step * 37 % 200_000,
                quantity=100 * (100 + step * 13 % 9_900),
                execution_type="4" if cancelled else "F", time=clock(step))


def a_snapshot(step, _):
    """A snapshot of 24 or 26 entries; one in eight has no offers."""
    levels = 9 + step // 7 % 2
    price = 10_000_000 + step * 3_700 % 20_000_000
    entries = [entry(each, price) for each in ("2", "4", "7", "8", "x1", "x2")]
    entries += [entry("0", price - 10_000 * level, 5000 * level, level,
                      1 + level) for level in range(1, levels + 1)]
    offered = step // 3 % 8 > 0
    entries += [entry("1", offered * (price + 10_000 * level), offered * 5000,
                      level, offered * 2) for level in range(1, levels + 1)]
    shown = step // 11 % 12
    entries[6]["quantities"] = tuple(range(100, 100 + 100 * shown, 100))
    return good("snapshot", entries, security=f"{step * 7 % 2_800 + 1:06d}",
                time=clock(step), phase="T0", trade_count=step,
                volume=10_000 * step, amount=price * step)


def an_index(step, _):
    """An index of five entries."""
    points = [point(each, 10_500_000_000 + 100 * step)
              for each in ("3", "xa", "xb", "xc", "xd")]
    return good("index", points, time=clock(step), phase="T0",
                trade_count=step, volume=10_000 * step)


def a_heartbeat(*_):
    """A frame without a body."""
    return good("heartbeat")


def a_channel_heartbeat(_, tick):
    """The number of a channel's last tick."""
    at = numbered(tick)
    return good("channel heartbeat", channel=at["channel"],
                last_number=at["number"])


def a_notice(step, _):
    """A type that is not listed."""
    return unlisted(390012, step.to_bytes(8, "big") * 5)


# Of a hundred frames.
MIX = (45 * [an_order] + 40 * [a_trade] + 10 * [a_snapshot] + 2 * [an_index]
       + [a_heartbeat, a_channel_heartbeat, a_notice])


def feed():
    """Frames without end.

    Six of 211 ticks are lost; of four such losses three come 60 frames later.
    One tick in 97 comes twice.
    """
    tick, late = 0, deque()
    for step in count():
        while late and late[0][0] <= step:
            yield late.popleft()[1]
        make = MIX[step * 37 % 100]
        frame = make(step, tick).data
        if make not in (an_order, a_trade):
            yield frame
            continue
        tick += 1
        lost, place = divmod(tick, 211)
        if place < 6 and lost % 4:
            late.append((step + 60, frame))
        elif place >= 6:
            yield frame
            if tick % 97 == 0:
                yield frame


def block():
    """About one megabyte of whole frames."""
    frames, length = [], 0
    for frame in feed():
        frames.append(frame)
        length += len(frame)
        if length >= MEGABYTE:
            return b"".join(frames)


def main():
    """Writes the block as often as asked."""
    if len(sys.argv) != 3:
        sys.exit("usage: bench_capture.py N_MEGABYTES FILE")
    content = block()
    with open(sys.argv[2], "wb") as out:
        for _ in range(int(sys.argv[1])):
            out.write(content)


main()
