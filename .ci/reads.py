"""Runs a program on a capture, and hands it the right bytes only where it reads what is missing, no more and no less.

    python3 .ci/reads.py CAPTURE PROGRAM...

Standard input is a socket that keeps messages apart: a read gets from one of them alone, and what it leaves of it is lost. A frame
comes in two messages, its header and all else, each with bytes behind it that are not the capture's. So who reads more than is
missing gets these, and who reads less lacks some: twice a frame, and exactly what is missing, is the only way to read it.
"""

import socket
import struct
import subprocess
import sys
from pathlib import Path

HEADER, CHECKSUM = 8, 4
BEHIND = b"not the capture's"


def parts(data):
    """The header of each frame, and all else of it."""
    offset = 0
    while offset < len(data):
        body = offset + HEADER
        _, length = struct.unpack_from(">II", data, offset)
        offset = body + length + CHECKSUM
        yield data[body - HEADER:body]
        yield data[body:offset]


ours, theirs = socket.socketpair(socket.AF_UNIX, socket.SOCK_SEQPACKET)
program = subprocess.Popen(sys.argv[2:], stdin=theirs)
theirs.close()
try:
    for part in parts(Path(sys.argv[1]).read_bytes()):
        ours.send(part + BEHIND)
except ConnectionError:
    pass  # the program has ended, and its status tells
ours.close()
sys.exit(program.wait())
