# Read by the scripts beside it: builds the program once with the script `upgrader`, and goes to a folder of its own.
# Sets `program`, and the path on which python3 finds measure.py.
set -eu
top=$(cd "$(dirname "$0")/.." && pwd)
work=$(mktemp -d)
trap 'rm -rf "$work"' EXIT
"$top/upgrader" > /dev/null || test $? -eq 64
program=$(ls -t "$top"/out/upgrader-* | head -1)
export PYTHONPATH="$top/bench" PYTHONDONTWRITEBYTECODE=1
cd "$work"
