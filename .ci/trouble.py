"""Where a read or a write fails, list and show tell it on standard error, and no line says that they came to the end.

    python3 .ci/trouble.py CAPTURE FOLDER [RUNNER]

FOLDER has the programs; RUNNER is a program that runs them.
"""

import fcntl
import os
import signal
import subprocess
import sys
import tempfile
from pathlib import Path

CAPTURE, FOLDER = Path(sys.argv[1]), Path(sys.argv[2])
RUNNER = sys.argv[3].split() if len(sys.argv) > 3 else []
ROUNDS = 400
"""The capture so often is more than a pipe holds, and more than a program gathers."""


def start(name, stdin, stdout, ignored=False):
    """Starts a program; with SIGPIPE ignored, or as the system has it."""
    meant = signal.SIG_IGN if ignored else signal.SIG_DFL
    return subprocess.Popen(
        [*RUNNER, FOLDER / name],
        stdin=stdin,
        stdout=stdout,
        stderr=subprocess.PIPE,
        restore_signals=False,
        preexec_fn=lambda: signal.signal(signal.SIGPIPE, meant),
    )


def told(program):
    """What a program tells, once it has ended."""
    return program.stderr.read().decode(), program.wait(timeout=120)


def full(name, capture):
    """Standard output has no room."""
    with open(capture, "rb") as stdin, open("/dev/full", "wb") as stdout:
        return b"", *told(start(name, stdin, stdout))


def closed(name, capture, ignored=True):
    """Nobody reads the pipe, and SIGPIPE is ignored."""
    out, into = os.pipe()
    os.close(out)
    with open(capture, "rb") as stdin, open(into, "wb") as stdout:
        return b"", *told(start(name, stdin, stdout, ignored))


def unread(name, capture):
    """Nobody reads the pipe, and SIGPIPE is as the system has it: the program ignores it."""
    return closed(name, capture, ignored=False)


def slow(name, capture):
    """The pipe does not wait, and is read only when it is full."""
    out, into = os.pipe()
    fcntl.fcntl(into, fcntl.F_SETFL, fcntl.fcntl(into, fcntl.F_GETFL) | os.O_NONBLOCK)
    with open(capture, "rb") as stdin, open(into, "wb") as stdout:
        program = start(name, stdin, stdout)
    tells, status = told(program)
    with open(out, "rb") as written:
        return written.read(), tells, status


def folder(name, capture):
    """Standard input is a directory."""
    stdin = os.open("/", os.O_RDONLY)
    try:
        program = start(name, stdin, subprocess.PIPE)
        wrote = program.stdout.read()
        return wrote, *told(program)
    finally:
        os.close(stdin)


CASES = [
    (full, "standard output: No space left on device"),
    (closed, "standard output: Broken pipe"),
    (unread, "standard output: Broken pipe"),
    (slow, "standard output: Resource temporarily unavailable"),
    (folder, "standard input: Is a directory"),
]


def clean(wrote):
    """Whether some output looks like one that came to the end of its input, or to a refusal."""
    last = wrote.rstrip(b"\n").rsplit(b"\n", 1)[-1].split()
    return len(last) in (3, 4) and last[1] in (b"end", b"refused")


def judge(case, name, capture, wanted):
    """Fails where a program does not tell, tells something else, or looks as if it had come to the end."""
    wrote, tells, status = case(name, capture)
    line = f"{name}: {wanted}\n"
    if tells != line or status != 0 or clean(wrote):
        sys.exit(f"gate: {name}, {case.__doc__} It told {tells!r} and ended with {status}, behind {wrote[-80:]!r}")
    print(f"{tells.strip()}, behind {len(wrote)} bytes")


with tempfile.NamedTemporaryFile() as capture:
    capture.write(CAPTURE.read_bytes() * ROUNDS)
    capture.flush()
    for name in ["list", "show"]:
        for case, wanted in CASES:
            judge(case, name, capture.name, wanted)
