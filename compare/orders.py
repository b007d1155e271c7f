"""What `compare/bench` printed for several orders of the program's functions, as one table.

    python3 compare/orders.py FILE

The least times of all, and of the ratios the middle one, the least and the greatest.
"""

import re
import statistics
import sys
from pathlib import Path

ROW = re.compile(r"^(\S.*?)\s+([\d.]+) ns\s+([\d.]+) ns\s", re.M)

rows = {}
for name, receiver, rust in ROW.findall(Path(sys.argv[1]).read_text()):
    rows.setdefault(name, []).append((float(receiver), float(rust)))
if not rows:
    sys.exit("no row was timed")
print(f"{'':<36}{'receiver':>13}{'Rust':>13}{'middle':>8}{'least':>8}{'most':>8}")
for name, times in rows.items():
    receiver, rust = map(min, zip(*times))
    ratios = sorted(a / b for a, b in times)
    middle = statistics.median(ratios)
    print(f"{name:<36}{receiver:>10.1f} ns{rust:>10.1f} ns{middle:>8.2f}{ratios[0]:>8.2f}{ratios[-1]:>8.2f}")
