#!/usr/bin/env bash
# run.sh [--count] [RUST]: what a call costs here and in the Rust, from the same inputs in one run, both optimised (docs/BENCHMARKS.md).
# It is timed on x86-64, which means something on a machine that does nothing else. With --count, and on any other processor, the
# instructions of the x86-64 program are counted. RUST is the folder that holds the Rust's src/ (default ../shared/docs).
set -euo pipefail
cd "$(dirname "$0")/../.."
. examples/x86.sh
rust=../shared/docs meter=clock
for word in "$@"; do
    case $word in
    --count) meter=count ;;
    -*) fail "usage: run.sh [--count] [RUST]" ;;
    *) rust=$word ;;
    esac
done
[ "$machine" = x86_64 ] || meter=count
[ -f "$rust/src/qpack/dynamic.rs" ] || fail "$rust holds no src/qpack/dynamic.rs"
rust_compiler
tests/archive.sh
[ -f target/oracle/wraps/libh3.rlib ] || RUSTC=$rustc tests/oracle/build.sh "$rust" >&2
mkdir -p target/bench
"$rustc" --crate-name qpack_table --crate-type rlib --edition 2021 -O --cap-lints allow -L native=target/staticlib -l static=embed \
    -o target/bench/libqpack_table.rlib rust/src/lib.rs
build() { # NAME FLAG..
    "$rustc" --crate-name bench --edition 2021 -O --cap-lints allow -L target/oracle/wraps -L native=target/staticlib \
        --extern h3=target/oracle/wraps/libh3.rlib --extern bytes=target/oracle/wraps/libbytes.rlib \
        --extern qpack_table=target/bench/libqpack_table.rlib -o "target/bench/$1" "${@:2}" tests/bench/main.rs
}
if [ $meter = clock ]; then
    build timed
    exec target/bench/timed
fi
# Debian's emulator: the kit's takes no plugin
need qemu-x86_64 qemu-user
qemu-x86_64 -help | grep -q '^-plugin' || fail "$(command -v qemu-x86_64) takes no plugin; that of Debian 12's package qemu-user does"
need cc gcc libc6-dev
cc -O2 -Wall -Wextra -fPIC -shared tests/bench/count.c -o target/bench/count.so
build counted -C target-feature=+crt-static
# a plain processor: on one with erms the C library copies by an instruction that the emulator executes once for each byte
exec qemu-x86_64 -cpu qemu64 -plugin target/bench/count.so target/bench/counted count
