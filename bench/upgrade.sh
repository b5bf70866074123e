#!/bin/sh
# How fast and in how much memory the program upgrades one file of some kind, from 64 KB to 1 MB; where PHP is
# installed, what its own tokenizer takes for the same file, alone and with its parser. It generates its own input in a
# folder of its own, and changes nothing here but out/. Outside the gate. Needs rt and python3.
. "$(dirname "$0")/program.sh"
python3 - "$program" <<'MEASURE'
import sys
from kinds import KINDS
from measure import SIZES, php, upgrade

def shown(seconds):
    return "      -" if seconds is None else f"{seconds:7.3f}"

print("source               bytes       s    MB/s  peak KB  memory a byte  php tokens  php parsed")
for name, source_of in KINDS:
    for size in SIZES:
        source = source_of(size)
        seconds, peak = upgrade(sys.argv[1], source, (0, 2))
        tokens, parsed = (php("source/a.php", parse) for parse in (False, True))
        print(f"{name:19} {len(source):7} {seconds:7.3f} {len(source) / seconds / 1e6:7.2f} {peak:8} "
              f"{peak * 1024 / len(source):14.0f} {shown(tokens):>11} {shown(parsed):>11}")
MEASURE
