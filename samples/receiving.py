"""What examples/receiver.c prints of one or two captures, from the bytes.

It shares nothing with the modules that build the captures: a second walk,
with the numbers that came kept as sets. Two lines are joined as such sets.
"""

import struct

# Each channel's first number.
FIRST_NUMBERS = {2011: 4, 2012: 3}

ENTRY_PRICE_DECIMALS = 6
SIZE_DECIMALS = 2


def decimal(number, decimals):
    """A number with so many decimals."""
    sign = "-" if number < 0 else ""
    whole, part = divmod(abs(number), 10 ** decimals)
    return f"{sign}{whole}.{part:0{decimals}}"


def levels(body):
    """The lines of a snapshot's levels."""
    count, = struct.unpack_from(">I", body, 65)
    place = 69
    for _ in range(count):
        kind, price, size, level, _, shown = struct.unpack_from(
            ">2sqqHqI", body, place)
        place += 32 + 8 * shown
        if kind in (b"0 ", b"1 "):
            side = "bid" if kind == b"0 " else "offer"
            quoted = decimal(price, ENTRY_PRICE_DECIMALS) if price else "-"
            held = decimal(size, SIZE_DECIMALS)
            yield f"  {side} {level}: {quoted} {held}"


class Channel:
    """The numbers of a channel that came, and the highest known."""

    def __init__(self, first):
        self.first = first
        self.came = set()
        self.highest = first - 1
        self.ended = False

    def runs(self):
        """The runs of numbers that never came."""
        found = []
        for number in range(self.first, self.highest + 1):
            if number in self.came:
                continue
            if found and found[-1][1] == number - 1:
                found[-1][1] = number
            else:
                found.append([number, number])
        return found


def request(channel, runs):
    """The bytes that ask for the first run, or its first 200 numbers."""
    first, last = runs[0]
    last = min(last, first + 199)
    body = struct.pack(">BHqq8sB16s", 1, channel, first, last, b" " * 8, 0,
                       b" " * 16)
    frame = struct.pack(">II", 390094, len(body)) + body
    frame += struct.pack(">I", sum(frame) % 256)
    return frame.hex(" ").upper()


def arrivals(kind, body):
    """The channel, number, and end of an arrival, and whether it is a tick."""
    if kind in (300191, 300192):
        channel, number = struct.unpack_from(">Hq", body)
        return channel, number, False, True
    if kind == 390095:
        channel, number, end = struct.unpack_from(">HqH", body)
        return channel, number, end == 1, False
    return None


def arrived(state, offset, channel, number, end, tick):
    """The lines of an arrival."""
    record = state[channel]
    if tick and number < record.first:
        yield f"{offset} channel {channel} number {number} before start"
        return
    before = len(record.runs())
    if tick and number <= record.highest:
        answer = "duplicate" if number in record.came else "late"
        yield f"{offset} channel {channel} number {number} {answer}"
    if tick:
        record.came.add(number)
    record.highest = max(record.highest, number)
    record.ended = record.ended or end
    if len(record.runs()) > before:
        asked = request(channel, record.runs())
        yield f"{offset} request for channel {channel}: {asked}"


def nothing_came():
    """The channels before the first arrival."""
    return {channel: Channel(first)
            for channel, first in FIRST_NUMBERS.items()}


def frames_of(data, state):
    """The lines of a capture's frames, none of which is refused."""
    offset = frames = 0
    while offset < len(data):
        kind, length = struct.unpack_from(">II", data, offset)
        body = data[offset + 8:offset + 8 + length]
        if kind == 300111:
            time, = struct.unpack_from(">q", body)
            security = body[13:21].decode("ascii")
            yield f"{offset} snapshot of {security} at {time}"
            yield from levels(body)
        found = arrivals(kind, body)
        if found:
            yield from arrived(state, offset, *found)
        offset += 12 + length
        frames += 1
    yield f"{offset} end {frames}"


def channels(state):
    """The line of each channel."""
    for channel, record in state.items():
        ended = ", ended" if record.ended else ""
        runs = " ".join(f"{a}-{b}" for a, b in record.runs()) or "nothing"
        yield (f"channel {channel}: from {record.first}, "
               f"highest {record.highest}{ended}, missing {runs}")


def received(data, state):
    """All lines of a capture."""
    yield from frames_of(data, state)
    yield from channels(state)


def joined(state, other):
    """What either got; a number that neither got is missing."""
    both = nothing_came()
    for channel, record in both.items():
        one, two = state[channel], other[channel]
        record.came = one.came | two.came
        record.highest = max(one.highest, two.highest)
        record.ended = one.ended or two.ended
    return both


def both_lines(data, other_data):
    """All lines of two captures."""
    state, other = nothing_came(), nothing_came()
    yield "line 1"
    yield from received(data, state)
    yield "line 2"
    yield from received(other_data, other)
    yield "both lines"
    both = joined(state, other)
    yield from channels(both)
    for channel, record in both.items():
        if record.runs():
            asked = request(channel, record.runs())
            yield f"request for channel {channel}: {asked}"


def text(data):
    """The whole text of a capture."""
    return "".join(line + "\n" for line in received(data, nothing_came()))


def text_of_two(data, other_data):
    """The whole text of two lines."""
    return "".join(line + "\n" for line in both_lines(data, other_data))
