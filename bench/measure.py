"""Times one program on one file, best of some runs, and PHP's own tokenizer on the same file."""
import os
import shutil
import subprocess

SIZES = (1 << 16, 1 << 18, 1 << 20)

# the best of three runs, in seconds
PHP = """$s = file_get_contents($argv[1]); $flags = $argv[2] === 'parse' ? TOKEN_PARSE : 0; $best = INF;
for ($i = 0; $i < 3; $i++) { $t = hrtime(true); token_get_all($s, $flags); $best = min($best, hrtime(true) - $t); }
echo $best / 1e9;"""


def lines(part, front=b"<?php\n"):
    """What makes sources of a size of one part, over and over."""
    return lambda size: front + part * ((size - len(front)) // len(part))


def run(words, folder, statuses, repeats=5):
    """Seconds of the processor and peak kilobytes of the best of some runs in a folder."""
    best = None
    for _ in range(repeats):
        child = os.fork()
        if child == 0:
            os.chdir(folder)
            os.dup2(os.open("/dev/null", os.O_WRONLY), 1)
            os.execv(words[0], words)
        _, status, used = os.wait4(child, 0)
        if os.waitstatus_to_exitcode(status) not in statuses:
            raise SystemExit(f"{words[0]}: status {os.waitstatus_to_exitcode(status)}")
        seconds = used.ru_utime + used.ru_stime
        if best is None or seconds < best[0]:
            best = (seconds, used.ru_maxrss)
    return best


def upgrade(program, source, statuses=(0,), repeats=5):
    """The same of the upgrade of one file, in the current folder."""
    os.makedirs("source", exist_ok=True)
    open("s.toml", "w").close()
    with open("source/a.php", "wb") as out:
        out.write(source)
    return run([program, "upgrade", "--settings", "s.toml"], ".", statuses, repeats)


def php(path, parse):
    """Seconds that PHP's tokenizer takes for a file, with its parser or alone; none where there is no PHP."""
    for name in ("php8.2", "php"):
        if shutil.which(name):
            words = [name, "-d", "memory_limit=-1", "-r", PHP, path, "parse" if parse else "tokens"]
            done = subprocess.run(words, capture_output=True, text=True)
            return float(done.stdout) if done.stdout else None
    return None
