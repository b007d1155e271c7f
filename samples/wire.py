"""Frames and fields in wire layout, as the rules give them."""

# Widths: every field's width in bytes, and how it is held.
# "signed" and "unsigned" are big-endian numbers; "characters" are filled
# up with spaces on the right.
WIDTHS = {
    "channel": (2, "unsigned"),
    "record number": (8, "signed"),
    "reference number": (8, "signed"),
    "stream": (3, "characters"),
    "security": (8, "characters"),
    "source": (4, "characters"),
    "phase": (8, "characters"),
    "financial status": (8, "characters"),
    "price": (8, "signed"),
    "entry price": (8, "signed"),
    "quantity": (8, "signed"),
    "amount": (8, "signed"),
    "trade count": (8, "signed"),
    "time": (8, "signed"),
    "side": (1, "characters"),
    "order type": (1, "characters"),
    "execution type": (1, "characters"),
    "entry type": (2, "characters"),
    "level": (2, "unsigned"),
    "order count": (8, "signed"),
    "group count": (4, "unsigned"),
    "stock number": (4, "unsigned"),
    "switch type": (2, "unsigned"),
    "yes/no": (2, "unsigned"),
    "resend type": (1, "unsigned"),
    "resend status": (1, "unsigned"),
    "news id": (8, "characters"),
    "reject text": (16, "characters"),
}

# The common part of the three snapshots: field name and width's name.
COMMON = (
    ("time", "time"),
    ("channel", "channel"),
    ("stream", "stream"),
    ("security", "security"),
    ("source", "source"),
    ("phase", "phase"),
    ("previous close", "price"),
    ("trade count", "trade count"),
    ("volume", "quantity"),
    ("amount", "amount"),
)

COUNT = (("count", "group count"),)

# The table of types: number, and fields in order.
TYPES = {
    "heartbeat": (3, ()),
    "channel heartbeat": (390095, (
        ("channel", "channel"),
        ("last number", "reference number"),
        ("end", "yes/no"),
    )),
    "resend": (390094, (
        ("resend type", "resend type"),
        ("channel", "channel"),
        ("first", "reference number"),
        ("last", "reference number"),
        ("news id", "news id"),
        ("status", "resend status"),
        ("text", "reject text"),
    )),
    "statistics": (390090, (
        ("time", "time"),
        ("channel", "channel"),
    ) + COUNT),
    "security status": (390013, (
        ("time", "time"),
        ("channel", "channel"),
        ("security", "security"),
        ("source", "source"),
        ("financial status", "financial status"),
    ) + COUNT),
    "snapshot": (300111, COMMON + COUNT),
    "index": (309011, COMMON + COUNT),
    "volume index": (309111, COMMON + (
        ("stock number", "stock number"),
    )),
    "order": (300192, (
        ("channel", "channel"),
        ("number", "record number"),
        ("stream", "stream"),
        ("security", "security"),
        ("source", "source"),
        ("price", "price"),
        ("quantity", "quantity"),
        ("side", "side"),
        ("time", "time"),
        ("order type", "order type"),
    )),
    "trade": (300191, (
        ("channel", "channel"),
        ("number", "record number"),
        ("stream", "stream"),
        ("bid number", "reference number"),
        ("offer number", "reference number"),
        ("security", "security"),
        ("source", "source"),
        ("price", "price"),
        ("quantity", "quantity"),
        ("execution type", "execution type"),
        ("time", "time"),
    )),
}

# What stands behind the count, per group. An entry of 300111 has its shown
# count and the shown quantities behind these.
GROUPS = {
    "statistics": (
        ("stream", "stream"),
        ("stock number", "stock number"),
        ("phase", "phase"),
    ),
    "security status": (
        ("switch type", "switch type"),
        ("yes/no", "yes/no"),
    ),
    "snapshot": (
        ("type", "entry type"),
        ("price", "entry price"),
        ("size", "quantity"),
        ("level", "level"),
        ("order count", "order count"),
    ),
    "index": (
        ("type", "entry type"),
        ("price", "entry price"),
    ),
}


def number(width, value):
    """A big-endian number; a negative one in two's complement."""
    top = 1 << (8 * width)
    assert -(top >> 1) <= value < top, value
    return (value % top).to_bytes(width, "big")


def characters(width, value):
    """Characters, filled up with spaces on the right."""
    held = value.encode("latin-1").ljust(width, b" ")
    assert len(held) == width, value
    return held


def field(width_name, value):
    """One field in wire layout."""
    width, held = WIDTHS[width_name]
    if held == "characters":
        return characters(width, value)
    return number(width, value)


def fields(layout, values):
    """The fields of a layout, in order."""
    return b"".join(field(kind, values[name]) for name, kind in layout)


def group(name, values):
    """One group or entry in wire layout."""
    wire = fields(GROUPS[name], values)
    if name == "snapshot":
        shown = values["quantities"]
        wire += field("group count", values.get("shown count", len(shown)))
        wire += b"".join(field("quantity", each) for each in shown)
    return wire


def body(name, values, groups=()):
    """A body: the fixed fields, then the groups."""
    fixed = fields(TYPES[name][1], values)
    return fixed + b"".join(group(name, each) for each in groups)


def checksum(data):
    """The sum of all bytes, modulo 256, held in four bytes."""
    return number(4, sum(data) % 256)


def frame(type_number, content):
    """Type, body length, body, checksum."""
    head = number(4, type_number) + number(4, len(content))
    return head + content + checksum(head + content)


def missing(cut):
    """How many bytes a cut header lacks, or the frame behind a whole one."""
    whole = 8 if len(cut) < 8 else 12 + int.from_bytes(cut[4:8], "big")
    assert len(cut) < whole, cut
    return whole - len(cut)
