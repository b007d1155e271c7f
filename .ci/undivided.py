"""Holds the checksum to what a board without a divide instruction wants: it does not divide, whatever a compiler makes of that.

    python3 .ci/undivided.py FILE FUNCTION MIR..

FILE, the function's, has no '%' and no '/' but in comments. The function, as the compiler takes it in (its MIR), has no division and
no remainder, and neither has any function that its calls lead to. MIR are the files of the libraries that have these functions,
`toolchain/mir.json` of each library as it is built: from them the functions are linked.
"""

import json
import re
import sys
from pathlib import Path

DIVIDES = re.compile(r"\w*(?:Div|Rem)")
"""The operations on numbers, on floats and on vectors that divide: Div, Rem, FloatDiv, FloatRem."""


def parts(value):
    """All that stands in a part of a function: the words by which it names what it does, and what stands behind each."""
    if isinstance(value, dict):
        for word, behind in value.items():
            yield word, behind
            yield from parts(behind)
    elif isinstance(value, list):
        for one in value:
            yield from parts(one)
    elif isinstance(value, str):
        yield value, None


def called(name, body):
    """The functions that a body calls, or passes to those that it calls; a call that names none cannot be looked into."""
    for word, behind in parts(body):
        if word.startswith("Call") and not (word == "Call" and "Fn" in behind[0]):
            sys.exit(f"gate: {name} calls what nobody can look into: {str(behind)[:200]}")
        if word in ("Fn", "Impl"):
            yield behind[0]


def along(name, known, before=frozenset()):
    """The names of a function and of all that its calls lead to."""
    if name not in known:
        sys.exit(f"gate: nobody can look into {name}")
    below = set(called(name, known[name]["body"])) - before - {name}
    return {name}.union(*(along(call, known, before | {name}) for call in below))


def main(path, function, *files):
    for line in re.sub(r"//.*", "", Path(path).read_text()).splitlines():
        if re.search("[%/]", line):
            sys.exit(f"gate: {path} divides: {line.strip()}")
    known = {name: made for file in files for name, made in json.loads(Path(file).read_text())}
    reached = sorted(along(function, known))
    for name in reached:
        if found := [word for word, _ in parts(known[name]["body"]) if DIVIDES.fullmatch(word)]:
            sys.exit(f"gate: {function} divides, in {name}: {found[0]}")
    print(f"no division in {', '.join(reached)}, nor a sign of one in {path}")


main(*sys.argv[1:])
