"""What an archive asks of its host, held to what header and README say: the stack of each call, the functions that it links, and
no divider.

    python3 .ci/asked.py ARCHIVE [OBJDUMP]

A call's stack is the frames of all functions along its calls; what the host's own take is not counted. A call by a pointer, a
call that goes round and a frame of no fixed size fail: nothing could be added up. A divide instruction fails, and so does a
compiler's routine in place of one, but in what the bench's calls alone lead to.
"""

import re
import subprocess
import sys

SET_UP = {"orizhgum_set_up": 5000}
OTHERS = 1000
"""The header's figures, in bytes: of the set-up, which answers with a whole tracker, and of every other call."""

HOST = {"memcpy", "memmove", "memset"}

BENCH = set()
"""The calls that a bench makes and a board does not, so that they may divide: none yet."""

ROUTINE = re.compile(r"__\w*(?:div|mod)\w*")
"""The names of compilers' routines for division, as __udivdi3, __umodti3 and __aeabi_uldivmod."""

WORD = 8
"""The bytes of a return address, and of what a push takes."""


def functions(archive, objdump):
    """Each function's own frame, the names that it calls, those that have a divide instruction, and what is linked."""
    words = [objdump, "-tdr", "--no-show-raw-insn", archive]
    name, frames, calls, divided, linked = None, {}, {}, set(), set()
    for line in subprocess.run(words, capture_output=True, text=True, check=True).stdout.splitlines():
        if begins := re.match(r"[0-9a-f]+ <(.+)>:$", line):
            name = begins[1]
            frames[name], calls[name] = WORD, set()
        elif re.search(r"\tpush\s", line):
            frames[name] += WORD
        elif taken := re.search(r"\tsub\s+\$0x([0-9a-f]+),%rsp", line):
            frames[name] += int(taken[1], 16)
        elif called := re.search(r"R_X86_64_PLT32\s+(?:\.text\.)?(.+)-0x4$", line):
            calls[name].add(called[1])
        elif wanted := re.search(r"\*UND\*\s+0+ (.+)$", line):
            linked.add(wanted[1])
        elif re.match(r"\s*[0-9a-f]+:\t(?:[\w.]+ )*(?:[a-z]*div|fprem)", line):
            divided.add(name)
        elif re.search(r"\tcall\s+\*|\tsub\s+%\w+,%rsp", line):
            sys.exit(f"gate: {name} has a call by a pointer, or a frame of no fixed size: {line.strip()}")
    return frames, calls, divided, linked - set(frames)


def stack(name, frames, calls, above=()):
    """What a function and those below it take."""
    if name in above:
        sys.exit(f"gate: {name} is called from itself")
    below = [stack(call, frames, calls, (*above, name)) for call in calls.get(name, ())]
    return frames.get(name, 0) + max(below, default=0)


def along(name, calls):
    """A function and all that its calls lead to."""
    return {name}.union(*(along(call, calls) for call in calls.get(name, ())))


def main(archive, objdump="objdump"):
    frames, calls, divided, linked = functions(archive, objdump)
    if linked - HOST:
        sys.exit(f"gate: {archive} links {', '.join(sorted(linked - HOST))}")
    taken = {name: stack(name, frames, calls) for name in frames if name.startswith("orizhgum_")}
    if not taken:
        sys.exit(f"gate: {archive} has no calls")
    for name, most in ((name, SET_UP.get(name, OTHERS)) for name in taken):
        if taken[name] > most:
            sys.exit(f"gate: {name} takes {taken[name]} bytes of the stack, and {most} are said")
    board = taken.keys() - BENCH
    apart = set().union(*(along(name, calls) for name in BENCH)).difference(*(along(name, calls) for name in board))
    if dividing := sorted(name for name in frames.keys() - apart if name in divided or ROUTINE.fullmatch(name)):
        sys.exit(f"gate: a small board has no divider, and these divide: {', '.join(dividing)}")
    others = [name for name in taken if name not in SET_UP]
    name = max(others, key=taken.get)
    print(f"{len(taken)} calls take at most {taken[name]} bytes of the stack ({name}), and link {', '.join(sorted(linked))}")
    print(f"{len(board)} of them are for a small board too, and divide nowhere")


main(*sys.argv[1:])
