#!/bin/sh
# How fast and in how much memory the program upgrades a folder: 2,000 files, 4 MB in all, and a quarter and a half of that.
# Each file declares functions and a class, which extends one of another file, and includes the file before it. A tool
# without steps that grow faster than their input keeps its MB/s. It generates its own input in a folder of its own, and
# changes nothing here but out/. Outside the gate. Needs rt and python3.
. "$(dirname "$0")/program.sh"
python3 - "$program" <<'MEASURE'
import os
import shutil
import sys
from measure import run

PART = """
function find_user_%d_%d(array $users, $name, $limit = 0x1F)
{
    foreach ($users as $key => $user) { # the first one
        if ($user{'name'} === $name || $key >= $limit) {
            return "found ${name} at {$user['place']['city']}" . $key;
        }
    }
    return one($limit, -$limit * 4 + 5) ?? (real)$limit;
}
"""

def fill(count):
    shutil.rmtree("source", ignore_errors=True)
    shutil.rmtree("target", ignore_errors=True)
    open("s.toml", "w").close()
    total = 0
    for n in range(count):
        folder = f"source/part{n // 100}"
        os.makedirs(folder, exist_ok=True)
        text = f"<?php\nnamespace Part{n // 100};\n\nuse function Other\\{{one, two}};\n"
        if n % 100:
            text += f"require_once __DIR__ . '/file{n - 1}.php';\n"
            text += f"class User{n} extends User{n - 1}\n{{\n    public $name = '';\n}}\n"
        else:
            text += f"class User{n}\n{{\n    public $name = '';\n}}\n"
        while len(text) + len(PART) < 2_090:
            text += PART % (n, len(text))
        with open(f"{folder}/file{n}.php", "w") as file:
            total += file.write(text)
    return total

print("files    bytes       s    MB/s  peak KB  memory a byte")
for count in (500, 1000, 2000):
    size = fill(count)
    seconds, peak = run([sys.argv[1], "upgrade", "--settings", "s.toml"], ".", (0, 2), 3)
    print(f"{count:5} {size:8} {seconds:7.3f} {size / seconds / 1e6:7.2f} {peak:8} {peak * 1024 / size:14.0f}")
MEASURE
