"""A second look at every file: a walk over its bytes alone.

It shares nothing with the modules that build the files and their text.
"""

import re
import struct

PRICE = (-9_999_999_999_999, 9_999_999_999_999)
ENTRY_PRICE = (-999_999_999_999_999_999, 999_999_999_999_999_999)
QUANTITY = (0, 999_999_999_999_999)
AMOUNT = (0, 999_999_999_999_999_999)
NATURAL = (0, 9_223_372_036_854_775_807)
POSITIVE = (1, 9_223_372_036_854_775_807)
YES_NO = (0, 1)
TIME = "a time"
FREE = None

COMMON = ">qH3s8s4s8sqqqq"
COMMON_RULES = [TIME, FREE, FREE, FREE, FREE, FREE, PRICE, NATURAL, QUANTITY,
                AMOUNT]

# By type: the fixed part and its rules, then a group and its rules.
LAYOUTS = {
    3: (">", [], None, None),
    390095: (">HqH", [FREE, NATURAL, YES_NO], None, None),
    390094: (">BHqq8sB16s",
             [(1, 2), FREE, NATURAL, NATURAL, FREE, (0, 4), FREE], None, None),
    390090: (">qHI", [TIME, FREE, FREE], ">3sI8s", [FREE, FREE, FREE]),
    390013: (">qH8s4s8sI", [TIME, FREE, FREE, FREE, FREE, FREE],
             ">HH", [FREE, YES_NO]),
    300111: (COMMON + "I", COMMON_RULES + [FREE], ">2sqqHqI",
             [FREE, ENTRY_PRICE, QUANTITY, FREE, NATURAL, FREE]),
    309011: (COMMON + "I", COMMON_RULES + [FREE], ">2sq",
             [FREE, ENTRY_PRICE]),
    309111: (COMMON + "I", COMMON_RULES + [FREE], None, None),
    300192: (">Hq3s8s4sqqcqc",
             [FREE, POSITIVE, FREE, FREE, FREE, PRICE, QUANTITY, b"12GF",
              TIME, b"12U"], None, None),
    300191: (">Hq3sqq8s4sqqcq",
             [FREE, POSITIVE, FREE, NATURAL, NATURAL, FREE, FREE, PRICE,
              QUANTITY, b"4F", TIME], None, None),
}


def is_time(value):
    """YYYYMMDDHHMMSSsss with each part in its range."""
    if value < 0:
        return False
    value //= 1000
    value, second = divmod(value, 100)
    value, minute = divmod(value, 100)
    value, hour = divmod(value, 100)
    value, day = divmod(value, 100)
    year, month = divmod(value, 100)
    return (second <= 60 and minute <= 59 and hour <= 23 and 1 <= day <= 31
            and 1 <= month <= 12 and year <= 9999)


def holds(rule, value):
    """Whether a field is in its range."""
    if rule is FREE:
        return True
    if rule == TIME:
        return is_time(value)
    if isinstance(rule, bytes):
        return value in rule
    return rule[0] <= value <= rule[1]


def judge(kind, body):
    """0, 4 or 5 for a frame; the whole body is measured first."""
    if kind not in LAYOUTS:
        return 0
    fixed, rules, group, group_rules = LAYOUTS[kind]
    place = struct.calcsize(fixed)
    if place > len(body):
        return 4
    values = struct.unpack_from(fixed, body)
    judged = list(zip(rules, values))
    for _ in range(values[-1] if group else 0):
        if place + struct.calcsize(group) > len(body):
            return 4
        values = struct.unpack_from(group, body, place)
        place += struct.calcsize(group)
        judged += zip(group_rules, values)
        if kind == 300111:
            if place + 8 * values[-1] > len(body):
                return 4
            shown = struct.unpack_from(f">{values[-1]}q", body, place)
            place += 8 * values[-1]
            judged += [(QUANTITY, each) for each in shown]
    return 0 if all(holds(rule, value) for rule, value in judged) else 5


def walk(data):
    """Each frame's offset, type and body; then the last line's words."""
    offset, count = 0, 0
    while offset < len(data):
        left = data[offset:]
        if len(left) < 8:
            return (yield from last(offset, "refused", 1, 8 - len(left)))
        kind, length = struct.unpack_from(">II", left)
        if length > 16_384:
            return (yield from last(offset, "refused", 2))
        lacks = length + 12 - len(left)
        if lacks > 0:
            return (yield from last(offset, "refused", 1, lacks))
        told, = struct.unpack_from(">I", left, 8 + length)
        if told != sum(left[:8 + length]) & 255:
            return (yield from last(offset, "refused", 3))
        yield offset, kind, left[8:8 + length]
        offset += 12 + length
        count += 1
    yield from last(offset, "end", count)


def last(offset, word, *numbers):
    """The end of a walk."""
    yield offset, word, " ".join(str(each) for each in numbers)


def head_lines(text):
    """The lines of a text that stand for a frame or the end."""
    return [line for line in text.splitlines() if not line.startswith("  ")]


def check_listing(data, text):
    """A listing is the walk itself."""
    walked = [f"{offset} {kind} {len(rest)}" if isinstance(kind, int)
              else f"{offset} {kind} {rest}"
              for offset, kind, rest in walk(data)]
    assert text.splitlines() == walked


def check_showing(data, text):
    """Offsets, refusals and the last line are those of the walk."""
    walked, lines = list(walk(data)), head_lines(text)
    assert len(walked) == len(lines)
    *frames, (offset, word, numbers) = walked
    assert lines[-1] == f"{offset} {word} {numbers}"
    for (offset, kind, body), line in zip(frames, lines):
        refusal = judge(kind, body)
        assert line.startswith(f"{offset} "), line
        assert line.endswith(f": refused {refusal}") == (refusal != 0), line
        assert (": refused " in line) == (refusal != 0), line
        assert (" unknown: type " in line) == (kind not in LAYOUTS), line


def came(frames, channel):
    """A channel's numbers, its last numbers, and whether it says end."""
    numbers, lasts, ends = set(), set(), set()
    for _, kind, body in frames:
        if kind not in (300191, 300192, 390095):
            continue
        at, number, *others = struct.unpack_from(LAYOUTS[kind][0], body)
        if at == channel and kind == 390095:
            lasts.add(number)
            ends.update(others)
        elif at == channel:
            numbers.add(number)
    return numbers, lasts, 1 in ends


def check_channel(frames, line):
    """A channel's line, by all that came, in whatever order."""
    channel, first, highest, ended, runs = re.fullmatch(
        r"channel (\d+): from (\d+), highest (\d+)(, ended)?, missing (.+)",
        line).groups()
    numbers, lasts, end = came(frames, int(channel))
    start = int(first)
    known = max(numbers | lasts | {start - 1})
    assert known == int(highest) and end == (ended is not None), line
    told = []
    for a, b in re.findall(r"(\d+)-(\d+)", runs):
        told += range(int(a), int(b) + 1)
    missing = sorted(set(range(start, known + 1)) - numbers)
    assert told == missing and (runs == "nothing") == (not missing), line


def check_receiving(data, text):
    """Offsets and the end are those of the walk, and nothing is refused."""
    *frames, (offset, word, count) = walk(data)
    assert not any(judge(kind, body) for _, kind, body in frames)
    lines = head_lines(text)
    end = lines.index(f"{offset} end {count}")
    told = [int(line.split()[0]) for line in lines[:end]]
    assert told == sorted(told) and {*told} <= {each[0] for each in frames}
    for line in lines[end + 1:]:
        check_channel(frames, line)


def asked(line):
    """The channel and the numbers that a request asks for."""
    told, data = re.fullmatch(r"request for channel (\d+): (.+)",
                              line).groups()
    (_, kind, body), _ = walk(bytes.fromhex(data))
    assert kind == 390094 and judge(kind, body) == 0, line
    one, channel, first, last, *_ = struct.unpack(LAYOUTS[kind][0], body)
    assert (one, channel) == (1, int(told)), line
    return channel, first, last


def check_lines(data, other_data, text):
    """Both lines are as one that has the frames of both, in any order."""
    one, two, both = re.fullmatch(
        r"line 1\n(.*)line 2\n(.*)both lines\n(.*)", text,
        re.DOTALL).groups()
    check_receiving(data, one)
    check_receiving(other_data, two)
    frames = [*walk(data)][:-1] + [*walk(other_data)][:-1]
    told = re.findall(r"^channel .*", both, re.MULTILINE)
    for line in told:
        check_channel(frames, line)
    # Of each channel's runs the first, none of which has above 200 numbers.
    first_runs = re.findall(r"^channel (\d+): .* missing (\d+)-(\d+)", both,
                            re.MULTILINE)
    requests = [asked(line) for line in both.splitlines()[len(told):]]
    assert requests == [tuple(map(int, run)) for run in first_runs]
