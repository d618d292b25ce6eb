"""Writes the sample plans: make_plans.py FOLDER.

Format: docs/FORMAT.md, "Plan file". A task here is
(name, wcet, period_min, period_max, deadline_cap, weight), in ticks of 100
microseconds, highest priority first; in a plan of version 2 blocking and jitter
come behind the weight.
"""

import struct
import sys
from pathlib import Path

HEADER = 16


def plan_file(tasks):
    """Rows right after the header, names right after the rows."""
    version = 1 if all(len(task) == 6 for task in tasks) else 2
    row = struct.Struct("<5I" if version == 1 else "<7I")
    rows = b"".join(row.pack(*fields) for _, *fields in tasks)
    names = b"".join(name.encode("ascii").ljust(16, b"\0") for name, *_ in tasks)
    at_names = HEADER + len(rows)
    total = at_names + len(names)
    return struct.pack("<HHIII", version, len(tasks), HEADER, at_names, total) + rows + names


# Plan P of docs/FORMAT.md: cost 6, rounds 4, periods 2 and 4.
P = [
    ("gauge", 1, 1, 6, 1000, 1),
    ("radio", 2, 1, 8, 1000, 1),
]

# Plan S of docs/FORMAT.md: stops with 34, cost 4877, bound 1448, rounds 13,870.
S = [(f"job-{k}", 10 * (k + 1), 1, 1000, 1000, 1) for k in range(1, 7)]

# P with radio's low bound above its high bound: rule 9, place 2.
REFUSED = [P[0], ("radio", 2, 9, 8, 1000, 1)]

# A quay box of sixteen tasks. The four sampling tasks may choose their period;
# what a protocol, a partner or the almanac fixes has equal bounds. So bounded it
# is answered after 798 rounds. With temperature at 400 to 500 and mean-level at
# 500 to 600 as well, the 16,000 numbers (1,000 open nodes) fill first.
QUAY_BOX = [
    ("watchdog", 1, 100, 100, 50, 0),
    ("gauge", 12, 60, 90, 1_000_000, 900),
    ("pressure", 9, 70, 110, 1_000_000, 400),
    ("wind", 15, 90, 130, 1_000_000, 250),
    ("radio", 20, 250, 250, 200, 0),
    ("sonde", 18, 120, 180, 1_000_000, 120),
    ("serial", 10, 400, 400, 400, 0),
    ("temperature", 8, 400, 400, 1_000_000, 30),
    ("mean-level", 30, 500, 500, 1_000_000, 60),
    ("battery", 4, 1000, 1000, 1000, 0),
    ("clock-sync", 12, 1000, 1000, 1000, 0),
    ("display", 40, 1000, 1000, 1000, 10),
    ("logger", 50, 2000, 2000, 2000, 0),
    ("tide-model", 120, 2000, 2000, 1_000_000, 5),
    ("archive", 150, 5000, 5000, 5000, 0),
    ("self-test", 200, 10000, 10000, 10000, 0),
]

# A box with the serial driver, in version 2. The logger keeps those above it waiting
# for up to 15 ticks while it sends a record, the battery check the logger for 3; the
# sonde may come up 3 ticks late. The answer costs 75,620 after 336 rounds: gauge 36,
# pressure 50, radio 250, sonde 131, logger 250, battery 1,000. Without that late it
# would cost 75,260 after 380, with sonde at 128; without the holds, too, 73,310 after
# 812: gauge 32, sonde 117, logger 349, the others the same.
SERIAL_BOX = [
    ("gauge", 12, 30, 90, 1_000_000, 900, 15, 0),
    ("pressure", 9, 40, 110, 1_000_000, 400, 15, 0),
    ("radio", 20, 250, 250, 120, 0, 15, 0),
    ("sonde", 18, 60, 180, 1_000_000, 120, 15, 3),
    ("logger", 60, 250, 350, 1_000_000, 30, 3, 0),
    ("battery", 5, 1000, 1000, 1000, 0, 0, 0),
]

SAMPLES = {
    "P.plan": plan_file(P),
    "S.plan": plan_file(S),
    "refused.plan": plan_file(REFUSED),
    "quay-box.plan": plan_file(QUAY_BOX),
    "serial-box.plan": plan_file(SERIAL_BOX),
}


def main():
    if len(sys.argv) != 2:
        sys.exit("usage: make_plans.py FOLDER")
    folder = Path(sys.argv[1])
    folder.mkdir(parents=True, exist_ok=True)
    for name, content in SAMPLES.items():
        (folder / name).write_bytes(content)


if __name__ == "__main__":
    main()
