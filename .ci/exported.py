"""Holds the exports of `orizhgum_c` to the calls of `orizhgum`, on whose promises the demands rest: each call is exported once, by a
function with the same parameters and the same promise, in names that are imported from the same places.

    python3 .ci/exported.py
"""

import re
import sys
from pathlib import Path

CALLS, EXPORTS = Path("crates/orizhgum/src"), Path("crates/orizhgum_c/src")
CALL = re.compile(r"^pub fn (orizhgum_\w+)(.*?)^\{$", re.M | re.S)
EXPORT = re.compile(r'^#\[unsafe\(no_mangle\)\]\npub extern "C" fn (\w+)(.*?)^\{\n(.*?)^\}$', re.M | re.S)
IMPORT = re.compile(r"^(ghost use|use) ([^;{]*?)(?:(?:::|\.)\{([^}]*)\})?;", re.M)


def imports(text):
    """What a file imports, each name with its place."""
    found = set()
    for kind, place, names in IMPORT.findall(text):
        path, apart, name = place.rpartition("::" if kind == "use" else ".")
        if names:
            found |= {(kind, place, name.strip()) for name in names.split(",") if name.strip()}
        else:
            found.add((kind, path, name) if apart else (kind, "", place))
    return found


def head(text):
    """Parameters and promise, however they are laid out."""
    return re.sub(r",\)", ")", re.sub(r"\s+", "", text))


def passes_on(name, module, parameters, body):
    """Whether a body is the call of that name, with the parameters in their order."""
    names = re.findall(r"(\w+): ", parameters.split("->")[0])
    return head(body) == f"orizhgum::{'' if module == 'lib' else module + '::'}{name}({','.join(names)})"


def fail(text):
    sys.exit(f"gate: {text}")


def main():
    calls, exports = 0, 0
    for path in sorted({path.name for folder in (CALLS, EXPORTS) for path in folder.glob("*.rt")}):
        if not (CALLS / path).exists() or not (EXPORTS / path).exists():
            fail(f"{path} stands in one of {CALLS} and {EXPORTS} alone")
        of, over = (CALLS / path).read_text(), (EXPORTS / path).read_text()
        wanted = {name: head(text) for name, text in CALL.findall(of)}
        found = EXPORT.findall(over)
        if sorted(wanted) != sorted(name for name, _, _ in found) or over.count(" fn ") != len(found):
            fail(f"{EXPORTS / path} does not export each call of {CALLS / path}, once, and nothing else")
        for name, text, body in found:
            if head(text) != wanted[name]:
                fail(f"{name} promises something else in {EXPORTS / path} than in {CALLS / path}")
            if not passes_on(name, path.removesuffix(".rt"), text, body):
                fail(f"{name} of {EXPORTS / path} is not just the call")
        own = {(kind, place.replace("crate", "orizhgum"), name) for kind, place, name in imports(of)}
        for kind, place, name in imports(over) - own:
            declared = re.search(rf"^pub struct {name}\b", of, re.M) and place == ("orizhgum" if path == "lib.rt" else f"orizhgum::{path[:-3]}")
            if kind == "ghost use" or not declared:
                fail(f"{EXPORTS / path} has {name} from {place}, and {CALLS / path} has not")
        calls, exports = calls + len(wanted), exports + len(found)
    print(f"{exports} exports, each with the parameters and the promise of its call")


main()
