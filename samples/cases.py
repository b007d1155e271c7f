"""Frames with what is expected of them."""

from collections import namedtuple

import wire
import words

# A frame's bytes, its expected lines in both programs' text, and the frame
# that comes of it where it is read and written again: nothing where it is
# refused or not listed.
Case = namedtuple("Case", "data listed shown again", defaults=(b"",))

# What ends a run of frames: bytes that are refused, and by which number.
Ending = namedtuple("Ending", "data number")

# A file's name, its frames and what ends it.
File = namedtuple("File", "name cases ending", defaults=(None,))

TIME = 20261113091500000

COMMON = {
    "time": TIME, "channel": 1011, "stream": "010", "security": "000001",
    "source": "102", "phase": "O0", "previous close": 122100,
    "trade count": 0, "volume": 0, "amount": 0,
}

# Values for the fields that a case does not name.
USUAL = {
    "heartbeat": {},
    "channel heartbeat": {"channel": 2011, "last number": 10, "end": 0},
    "resend": {
        "resend type": 1, "channel": 2011, "first": 3, "last": 4,
        "news id": "", "status": 0, "text": "",
    },
    "statistics": {"time": TIME, "channel": 1011},
    "security status": {
        "time": TIME, "channel": 1011, "security": "000001",
        "source": "102", "financial status": "",
    },
    "snapshot": COMMON,
    "index": {**COMMON, "stream": "900", "security": "399001",
              "previous close": 105000000},
    "volume index": {**COMMON, "stream": "910", "security": "395001",
                     "previous close": 0, "stock number": 500},
    "order": {
        "channel": 2011, "number": 1, "stream": "011",
        "security": "000001", "source": "102", "price": 123400,
        "quantity": 50000, "side": "1", "time": TIME, "order type": "2",
    },
    "trade": {
        "channel": 2011, "number": 3, "stream": "011", "bid number": 1,
        "offer number": 2, "security": "000001", "source": "102",
        "price": 123400, "quantity": 50000, "execution type": "F",
        "time": TIME,
    },
}


def entry(kind, price=0, size=0, level=0, order_count=0, quantities=(),
          **stated):
    """An entry of 300111; `stated` may hold a shown count of its own."""
    values = {"type": kind, "price": price, "size": size, "level": level,
              "order count": order_count, "quantities": quantities}
    if "shown_count" in stated:
        values["shown count"] = stated["shown_count"]
    return values


def point(kind, price=0):
    """An entry of 309011."""
    return {"type": kind, "price": price}


def category(stream, stock_number, phase):
    """A group of statistics."""
    return {"stream": stream, "stock number": stock_number, "phase": phase}


def switch(kind, yes):
    """A group of a security status."""
    return {"switch type": kind, "yes/no": yes}


def values_of(name, groups, changes):
    """A record's fields: the usual ones with a case's changes."""
    values = dict(USUAL[name])
    if name in wire.GROUPS:
        values["count"] = len(groups)
    for key, value in changes.items():
        key = key.replace("_", " ")
        assert key in dict(wire.TYPES[name][1]), key
        values[key] = value
    return values


def case(type_number, content, lines):
    """A whole frame and the lines expected for it."""
    listed = f"{type_number} {len(content)}"
    return Case(wire.frame(type_number, content), listed, lines)


def good(name, groups=(), tail=b"", **changes):
    """An accepted record; a tail is ignored, groups past the count too."""
    values = values_of(name, groups, changes)
    content = wire.body(name, values, groups) + tail
    told = groups[:values.get("count", 0)]
    number = wire.TYPES[name][0]
    again = wire.frame(number, wire.body(name, values, told))
    return case(number, content,
                words.record(name, values, told))._replace(again=again)


def bad(refusal, name, groups=(), tail=b"", short=0, **changes):
    """A refused record; `short` bytes are missing at its body's end."""
    values = values_of(name, groups, changes)
    content = wire.body(name, values, groups) + tail
    content = content[:len(content) - short]
    return case(wire.TYPES[name][0], content, [f"{name}: refused {refusal}"])


def unlisted(type_number, content=b""):
    """A frame whose type is not listed."""
    assert type_number not in [each for each, _ in wire.TYPES.values()]
    line = f"unknown: type {type_number}, body length {len(content)}"
    return case(type_number, content, [line])


def opaque(type_number, content):
    """A frame for the listing alone, which judges neither 4 nor 5."""
    return case(type_number, content, None)


def last_line(offset, count, ending):
    """A file's last line; behind 1 stands how many bytes are missing."""
    if ending is None:
        return f"{offset} end {count}"
    line = f"{offset} refused {ending.number}"
    if ending.number == 1:
        line += f" {wire.missing(ending.data)}"
    return line


def bytes_of(file):
    """A file's bytes."""
    rest = b"" if file.ending is None else file.ending.data
    return b"".join(each.data for each in file.cases) + rest


def text_of(file, lines_of):
    """A file's expected text."""
    offset, text = 0, []
    for each in file.cases:
        first, *others = lines_of(each)
        text += [f"{offset} {first}", *others]
        offset += len(each.data)
    text.append(last_line(offset, len(file.cases), file.ending))
    return "".join(line + "\n" for line in text)


def listing(file):
    """What the listing program prints."""
    return text_of(file, lambda each: [each.listed])


def showing(file):
    """What the decoding program prints."""
    return text_of(file, lambda each: each.shown)


def again(file):
    """The file's frames, read and written again."""
    return b"".join(each.again for each in file.cases)
