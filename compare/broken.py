"""Broken builds of the archive, each compared with the second program.

What rt builds is proved, so that a wrong program of a lower crate, which breaks
the promise that those above stand on, can't be built. The exports can: no code
stands on them. Each edit of crates/orizhgum_c/must-fail is applied to a copy of
that crate from which the promises are taken, with the laws over them, and
`rt lib` makes the archive. A line for each edit says on which call the
comparison differed first.

    python3 compare/broken.py [EDIT...]
"""

import os
import re
import shutil
import subprocess
import sys
import tempfile
from pathlib import Path

TOP = Path(__file__).resolve().parent.parent
EXPORTS = Path("crates/orizhgum_c")
RUN = ["200000", "20170401"]
TARGET = os.environ.get("CARGO_BUILD_TARGET")


def of_target(name):
    """A variable of cargo's for the target, as `.ci/run` sets it."""
    return os.environ[f"CARGO_TARGET_{TARGET.upper().replace('-', '_')}_{name}"]


def edited(folder, edit):
    """Replaces each old text of an edit, which is there once, by its new one."""
    path, old = None, None
    for word, rest in re.findall(r"^(file|old|new): ?(.*)$", edit.read_text(), flags=re.M):
        if word == "file":
            path = folder / rest
        elif word == "old":
            old = rest
        else:
            text = path.read_text()
            if text.count(old) != 1:
                sys.exit(f"{edit}: its old text is in {path.name} {text.count(old)} times")
            path.write_text(text.replace(old, rest))


def unpromised(folder):
    """Takes the promises from a crate's code, what they alone import, and the laws over them; gives the code that is left."""
    shutil.rmtree(folder / "proofs", ignore_errors=True)
    for path in folder.glob("src/*.rt"):
        lines = path.read_text().splitlines(keepends=True)
        path.write_text("".join(line for line in lines if not re.match(r" *(?:requires|ensures)\b|ghost use\b", line)))
    return {path.name: path.read_text() for path in folder.glob("src/*.rt")}


def sources_with(scratch, edit):
    """Copies the sources, with an edit or as they are; gives the code of the exports."""
    sources = scratch / "sources"
    shutil.rmtree(sources, ignore_errors=True)
    shutil.copytree(TOP / "crates", sources / "crates", ignore=shutil.ignore_patterns("out"))
    shutil.copy(TOP / "crates.txt", sources)
    if edit:
        edited(sources / EXPORTS, edit)
    return unpromised(sources / EXPORTS)


def archive(scratch, edit):
    """The archive of the copied sources."""
    sources = scratch / "sources"
    ran = subprocess.run(["rt", "lib"], cwd=sources / EXPORTS, stdout=subprocess.PIPE, stderr=subprocess.STDOUT, text=True)
    if ran.returncode != 0:
        sys.exit(f"{ran.stdout}{edit or 'the crate as it is'}: rt builds no archive")
    shutil.copy(sources / EXPORTS / "out/liborizhgum_c.a", scratch / "liborizhgum.a")


def rustc(*words):
    """Runs the Rust compiler as cargo does for a release, and by its variables."""
    flags = ["--edition", "2021", "-O", "-C", "overflow-checks=on"]
    if TARGET:
        flags += ["--target", TARGET, "-C", f"linker={of_target('LINKER')}"]
    subprocess.run([os.environ.get("RUSTC", "rustc"), *flags, *words], check=True, cwd=TOP / "compare")


def first_difference(scratch):
    """The call of the first difference between archive and second program."""
    words = ["--extern", f"compare={scratch}/libcompare.rlib", "-o", scratch / "longer"]
    rustc("src/bin/longer.rs", *words, "-C", f"link-arg={scratch}/liborizhgum.a")
    runner = [of_target("RUNNER")] if TARGET else []
    ran = subprocess.run([*runner, scratch / "longer", *RUN], capture_output=True, text=True)
    told = re.search(r"^difference at input (\d+) .*?^call: +(.*?)$", ran.stdout, re.M | re.S)
    if told:
        return f"{re.split(r' on Tracker| on Stream| Cursor', told[2])[0]} (input {told[1]})"
    return "no difference" if ran.returncode == 0 else f"ended with {ran.returncode}"


def main(wanted):
    with tempfile.TemporaryDirectory() as folder:
        scratch = Path(folder)
        rustc("src/lib.rs", "--crate-type", "rlib", "--crate-name", "compare", "-o", scratch / "libcompare.rlib")
        for edit in [None, *sorted((TOP / EXPORTS / "must-fail").glob("*.edit"))]:
            label = edit.stem if edit else "as it is"
            if edit and wanted and label not in wanted:
                continue
            code = sources_with(scratch, edit)
            if edit is None:
                plain = code
            elif code == plain:
                print(f"{label}: changes a promise alone, which no archive has", flush=True)
                continue
            archive(scratch, edit)
            print(f"{label}: {first_difference(scratch)}", flush=True)


main(sys.argv[1:])
