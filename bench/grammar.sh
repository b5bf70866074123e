#!/bin/sh
# How fast and in how much memory whole files are read into trees, also those made to be slow: brackets nested as deep as
# the grammar allows, many statements, parentheses that nothing closes; where PHP is installed, what its tokenizer takes
# with its parser. It generates its own input in a folder of its own, and changes nothing here but out/. Outside the gate.
# Needs rt and python3.
. "$(dirname "$0")/program.sh"
python3 - "$program" <<'MEASURE'
import sys
from kinds import KINDS
from measure import SIZES, lines, php, upgrade

SLOW = (
    ("statements", lines(b"$a = f(1);\n")),
    ("arrays", lines(b"$a = [$b, 'k' => 1];\n")),
    ("[ nested before =", lines(b"[" * 240 + b"$a" + b"]" * 240 + b" = 1;\n")),
    ("[ nested 499 deep", lines(b"[" * 499 + b"1" + b"]" * 499 + b";\n")),
    ("\"{$a[ nested", lines(b'"{$a[' * 160 + b"1" + b']}"' * 160 + b";\n")),
    ("( never closed", lambda size: b"<?php " + b"(" * (size - 6)),
)

def shown(seconds):
    return "      -" if seconds is None else f"{seconds:7.3f}"

print("source                 bytes       s    MB/s  peak KB  php parsed")
for name, source_of in KINDS + SLOW:
    for size in SIZES:
        source = source_of(size)
        seconds, peak = upgrade(sys.argv[1], source, (0, 2, 65), 3)
        parsed = shown(php("source/a.php", True))
        print(f"{name:19} {len(source):8} {seconds:7.3f} {len(source) / seconds / 1e6:7.2f} {peak:8} {parsed:>11}")
MEASURE
