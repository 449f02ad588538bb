#!/usr/bin/env bash
# program.sh NAME: proves and builds the program crates/NAME, and puts it at target/bin/NAME. With no change since, it proves nothing again.
set -euo pipefail
cd "$(dirname "$0")/.."
[ $# = 1 ] && [ -f "crates/$1/src/main.rt" ] || { echo "usage: program.sh NAME, where crates/NAME is a program" >&2; exit 2; }
command -v rt >/dev/null 2>&1 || { echo "program.sh: the Rattle kit's command rt is not on the PATH" >&2; exit 2; }
mkdir -p target/bin
log=target/$1.log
# the program is run once, on its own sample
if ! (cd "crates/$1" && rt run <stdin) >"$log" 2>&1; then
    tail -n 5 "$log" >&2
    exit 1
fi
cp -u "crates/$1/out/$1" "target/bin/$1"
