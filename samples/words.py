"""How records are shown as text."""

import wire

# The marks: `xe` and `xf` holding these say no limit.
NO_UPPER_LIMIT = 999_999_999_999_900
NO_LOWER_LIMIT = -999_999_999_999_900

# The fields with decimals, by their width's name, and how many.
DECIMALS = {"price": 4, "entry price": 6, "quantity": 2, "amount": 4}

# What an entry says, by its two type characters.
LEVELS = ("0 ", "1 ")
PRICES = ("2 ", "4 ", "7 ", "8 ", "9 ", "x1", "x2", "x5", "x6", "x7", "x8",
          "x9", "xj", "xk", "xe", "xf")
SIZES = ("xg",)
PRICES_AND_SIZES = ("x3", "x4")
INDEX_PRICES = ("3 ", "xa", "xb", "xc", "xd")


def decimals(places, value):
    """A number with a fixed count of decimals."""
    whole, part = divmod(abs(value), 10 ** places)
    return f"{'-' if value < 0 else ''}{whole}.{part:0{places}d}"


def clock(value):
    """A time, YYYYMMDDHHMMSSsss as one number."""
    t = f"{value:017d}"
    return f"{t[:4]}-{t[4:6]}-{t[6:8]} {t[8:10]}:{t[10:12]}:{t[12:14]}.{t[14:]}"


def quoted(value):
    """A text in quotes, without the spaces on its right."""
    plain = (c if " " <= c <= "~" and c not in '"\\' else f"\\x{ord(c):02X}"
             for c in value.rstrip(" "))
    return '"' + "".join(plain) + '"'


def shown(kind, value):
    """One field's value, by its width's name."""
    if kind in DECIMALS:
        return decimals(DECIMALS[kind], value)
    if kind == "time":
        return clock(value)
    width, held = wire.WIDTHS[kind]
    if held == "characters" and width > 1:
        return quoted(value)
    return str(value)


def listed(layout, values):
    """Fields in order, as `name value, name value`."""
    return ", ".join(f"{name} {shown(kind, values[name])}"
                     for name, kind in layout)


def says(name, entry):
    """Which of the seven things an entry says."""
    kind, price = entry["type"].ljust(2), entry["price"]
    if name == "index":
        return "price" if kind in INDEX_PRICES else "unknown"
    if kind in LEVELS:
        return "level" if price != 0 else "level without a price"
    if (kind, price) in (("xe", NO_UPPER_LIMIT), ("xf", NO_LOWER_LIMIT)):
        return "no limit"
    if kind in PRICES:
        return "price"
    if kind in SIZES:
        return "size"
    if kind in PRICES_AND_SIZES:
        return "price and size"
    return "unknown"


def entry_line(name, place, entry):
    """One entry's line."""
    said = says(name, entry)
    price = "price " + shown("entry price", entry["price"])
    size = "size " + shown("quantity", entry.get("size", 0))
    behind = f"level {entry.get('level')}, order count {entry.get('order count')}"
    content = {
        "level": f"{price}, {size}, {behind}",
        "level without a price": f"price -, {size}, {behind}",
        "price": price,
        "size": size,
        "price and size": f"{price}, {size}",
        "no limit": "no limit",
        "unknown": "unknown",
    }[said]
    line = f"  entry {place}: type {quoted(entry['type'])}, {content}"
    if entry.get("quantities"):
        line += ", quantities " + " ".join(
            shown("quantity", each) for each in entry["quantities"])
    return line


def group_line(name, place, values):
    """One group's line."""
    if name in ("snapshot", "index"):
        return entry_line(name, place, values)
    return f"  group {place}: {listed(wire.GROUPS[name], values)}"


def record(name, values, groups):
    """A record's lines; the offset is put before the first of them."""
    layout = wire.TYPES[name][1]
    if not layout:
        return [name]
    lines = [f"{name}: {listed(layout, values)}"]
    return lines + [group_line(name, place, each)
                    for place, each in enumerate(groups)]
