#!/usr/bin/env bash
# copies.sh: how many bytes each exported call copies (docs/DECISIONS.md, the table's record).
set -euo pipefail
cd "$(dirname "$0")/../.."
. examples/x86.sh
[ $# = 0 ] || fail "usage: copies.sh"
tests/archive.sh
c_compiler
mkdir -p target/bench
# the program's own copies of a record by an instruction, so that they are not counted
$cc -std=c11 -O2 -Wall -Wextra -static -mmemcpy-strategy=rep_8byte:-1:noalign -Wl,--wrap=memcpy,--wrap=memmove -Iinclude \
    tests/bench/copies.c target/staticlib/libembed.a -o target/bench/copies
run target/bench/copies
