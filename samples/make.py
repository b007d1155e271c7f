"""Writes the samples and their expected texts: make.py DIR.

Every value is built from the rules' fields; nothing is read back from a
program that these samples check.
"""

import sys

sys.dont_write_bytecode = True

import pathlib

import cases
import check
import lines
import listing
import opening
import receiving
import showing


def received(capture):
    """What the example prints, and how it is checked."""
    text = receiving.text(cases.bytes_of(capture))
    return text, check.check_receiving


def two_lines():
    """Both lines of a feed; the text of the two is checked by both."""
    one, two = map(cases.bytes_of, lines.files())
    yield "line_a.bin", one, {}
    yield "line_b.bin", two, {"lines.receiver": (
        receiving.text_of_two(one, two),
        lambda _, text: check.check_lines(one, two, text))}


def made():
    """Every generated file's name, bytes, and which text it is checked by."""
    capture = opening.file()
    yield "opening.bin", cases.bytes_of(capture), {
        "opening.list": (cases.listing(capture), check.check_listing),
        "opening.show": (cases.showing(capture), check.check_showing),
        "opening.receiver": received(capture),
    }
    capture = opening.noon()
    yield "noon.bin", cases.bytes_of(capture), {
        "noon.receiver": received(capture)}
    yield from two_lines()
    for file in listing.files():
        yield f"list/{file.name}.bin", cases.bytes_of(file), {
            f"list/{file.name}.out": (cases.listing(file),
                                      check.check_listing)}
    for file in showing.files():
        yield f"show/{file.name}.bin", cases.bytes_of(file), {
            f"show/{file.name}.out": (cases.showing(file),
                                      check.check_showing)}


def write(folder, name, data):
    """One file, in its place below the folder."""
    path = folder / name
    path.parent.mkdir(parents=True, exist_ok=True)
    path.write_bytes(data)


def main():
    """Checks every file, then writes it."""
    if len(sys.argv) != 2:
        sys.exit("usage: make.py DIR")
    folder = pathlib.Path(sys.argv[1])
    for name, data, texts in made():
        for text_name, (text, look) in texts.items():
            look(data, text)
            write(folder, text_name, text.encode("ascii"))
        write(folder, name, data)
    for file, name in [(opening.file(), "opening.again")] + [
            (each, f"show/{each.name}.again") for each in showing.files()]:
        write(folder, name, cases.again(file))


main()
