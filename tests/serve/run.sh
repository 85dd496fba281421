#!/bin/sh
# run.sh [PROGRAM]
# Sends requests that end the program crates/plush_serve, each after one that is answered, and holds the replies, the line on standard
# error and the exit status to what docs/FORMAT.md says. Without PROGRAM it is proved and built first. Needs Python 3. Outside the gate,
# since a program's run there has one input.
set -e
here=$(cd "$(dirname "$0")" && pwd)
top=$(cd "$here/../.." && pwd)
program=$1
if [ -z "$program" ]; then
    (cd "$top/crates/plush_serve" && rt run < /dev/null > /dev/null 2>&1) || { echo "plush_serve is not proved"; exit 1; }
    program=$top/crates/plush_serve/out/plush_serve
fi
exec python3 "$here/broken.py" "$program"
