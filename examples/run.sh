#!/usr/bin/env bash
# Builds and runs an example: examples/run.sh c, or examples/run.sh rust. It makes the archive libembed.a first, and
# installs what is missing from Debian's packages. The archive is for x86-64: on another processor the example is
# built for x86-64 too, and runs under the kit's emulator.
set -euo pipefail
cd "$(dirname "$0")/.."
case "$*" in c | rust) ;; *) echo "usage: examples/run.sh c|rust" >&2; exit 2 ;; esac
. examples/x86.sh
tests/archive.sh
out=target/examples
mkdir -p $out

c() {
    c_compiler
    $cc -std=c11 -O2 -Wall -Wextra -static -Iinclude examples/c/b2.c target/staticlib/libembed.a -o $out/b2-c
    run $out/b2-c
}

rust() {
    if [ "$machine" = x86_64 ]; then
        need cc gcc libc6-dev
        need cargo cargo
        CARGO_TARGET_DIR=target/cargo cargo run --offline --quiet --manifest-path examples/rust/Cargo.toml
        return
    fi
    rust_compiler
    "$rustc" --edition 2021 --crate-type rlib --crate-name qpack_table -L native=target/staticlib -l static=embed --out-dir $out rust/src/lib.rs
    "$rustc" --edition 2021 --extern qpack_table=$out/libqpack_table.rlib -o $out/b2-rust examples/rust/src/emulated.rs
    run $out/b2-rust
}

"$1"
