#!/bin/sh
# How fast and in how much memory sources are lexed, from 64 KB to 1 MB, beside sources made to be slow.
# It generates its own input, builds a program of its own in a copy of the repository, and changes nothing here.
# Outside the gate. Needs rt and python3; with php on the path, PHP's own tokenizer is timed too.
set -eu
top=$(cd "$(dirname "$0")/.." && pwd)
work=$(mktemp -d)
trap 'rm -rf "$work"' EXIT
(cd "$top" && tar cf - --exclude out crates crates.txt HANDLES) | tar xf - -C "$work"
cd "$work"
echo 'lex_once: php_lexer php_terminals php_spellings php_tree span_edits sqlite_items thiserror' >> crates.txt
mkdir -p crates/lex_once/src crates/lex_once/data
: > crates/lex_once/stdin
: > crates/lex_once/stdout
cat > crates/lex_once/src/main.rt <<'PROGRAM'
// Lexes a file, and prints how many tokens it has.
#![tactic(auto)]

use php_lexer::lex_marks;
use php_tree::Version;
use std::fs;
use std::io;

fn main(rt: HostRuntime) -> io::Result<()> {
    let data = fs::read(&rt, "source.php")?;
    match lex_marks(rt.alloc(), Version::V74, data.as_slice()) {
        Ok(found) => println!(rt; "{} tokens", found.len())?,
        Err(fault) => println!(rt; "{fault:?}")?,
    }
    Ok(())
}
PROGRAM
cd crates/lex_once
rt run > build.log 2>&1 || true
test -x out/lex_once || { tail -20 build.log; exit 1; }
cat > measure.py <<'MEASURE'
import os, resource, shutil, subprocess

BODY = b"""// a comment of one line
function find_user(array $users, $name, $limit = 0x1F) {
    /* over
     * all */
    foreach ($users as $key => $user) {
        if ($user['name'] === $name && !empty($user["mail"]) || $key >= 12.5e3) {
            return "found $user[name] at {$user['place']['city']} for $name->title\\n" . $key;
        }
    }
    $text = <<<EOT
  some $text with {$parts[0]} and lines
  EOT;
    return \\App\\Users::query()->where((int) $limit, [1, 2, 3])->first() ?? null;
}
"""

def mixed(n):
    return b"<?php\n" + BODY * ((n - 6) // len(BODY))

def repeated(front, part):
    return lambda n: front + part * ((n - len(front)) // len(part))

def run(source):
    open("data/source.php", "wb").write(source)
    best = None
    for _ in range(5):
        child = os.fork()
        if child == 0:
            os.chdir("data")
            os.dup2(os.open("/dev/null", os.O_WRONLY), 1)
            os.execv("../out/lex_once", ["lex_once"])
        _, _, used = os.wait4(child, 0)
        seconds = used.ru_utime + used.ru_stime
        if best is None or seconds < best[0]:
            best = (seconds, used.ru_maxrss)
    return best

print("source            bytes       s    MB/s  peak KB")
kinds = [("mixed", mixed), ("`<<<`", repeated(b"<?php ", b"<<<")),
         ("`$x[` in quotes", repeated(b'<?php "', b"$x[")),
         ("open quotes", repeated(b"<?php ", b'"a {$b["')),
         ("open heredocs", repeated(b"<?php ", b'<<<A\nx {$b["')),
         ("blank lines", repeated(b"<?php <<<A\n", b" " * 1000 + b"\n"))]
for name, made in kinds:
    for size in ([64, 256, 1024] if name == "mixed" else [256, 1024]):
        source = made(size * 1024)
        seconds, peak = run(source)
        rate = len(source) / 1e6 / seconds if seconds else 0
        print(f"{name:15} {len(source):8} {seconds:7.3f} {rate:7.0f} {peak:8}")

if shutil.which("php"):
    open("data/source.php", "wb").write(mixed(1024 * 1024))
    code = ('$s=file_get_contents("data/source.php");$a=getrusage();token_get_all($s);$b=getrusage();'
            'echo "php: ",round(($b["ru_utime.tv_sec"]-$a["ru_utime.tv_sec"])+($b["ru_utime.tv_usec"]'
            '-$a["ru_utime.tv_usec"])/1e6+($b["ru_stime.tv_usec"]-$a["ru_stime.tv_usec"])/1e6,3)," s for 1 MB\\n";')
    subprocess.run(["php", "-d", "memory_limit=-1", "-r", code])
MEASURE
python3 measure.py
