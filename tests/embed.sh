#!/usr/bin/env bash
# Tests what links the archive: the C header in C++ too, its layout against the Rust crate's, the crate's tests, the recorded lists, both examples.
# On a processor that is not x86-64 the programs are built for x86-64 and emulated.
set -euo pipefail
cd "$(dirname "$0")/.."
. examples/x86.sh
tests/archive.sh
mkdir -p target/embed
need c++ g++
c++ -std=c++17 -Wall -Wextra -fsyntax-only -x c++ include/qpack_table.h
c_compiler
$cc -std=c11 -Wall -Wextra -static -Iinclude tests/embed/layout.c -o target/embed/layout
run target/embed/layout >target/embed/layout.txt
export QPACK_LAYOUT=$PWD/target/embed/layout.txt

# The crate's tests by cargo.
native() {
    need cargo cargo
    CARGO_TARGET_DIR=$PWD/target/cargo cargo test --offline --quiet --manifest-path rust/Cargo.toml -- --nocapture
}

# The same without cargo, under Debian's emulator: the kit's stops at the start of a Rust program.
emulated() {
    local name archive="-L native=target/staticlib -l static=embed"
    rust_compiler
    need qemu-x86_64 qemu-user
    export CARGO_MANIFEST_DIR=$PWD/rust
    # shellcheck disable=SC2086
    "$rustc" --edition 2021 --crate-type rlib --crate-name qpack_table $archive --out-dir target/embed rust/src/lib.rs
    for name in src/lib tests/replay tests/table; do
        # shellcheck disable=SC2086
        "$rustc" --edition 2021 --test --crate-name "test_${name##*/}" $archive --extern qpack_table=target/embed/libqpack_table.rlib \
            -o "target/embed/${name##*/}" "rust/$name.rs"
        qemu-x86_64 "target/embed/${name##*/}" --nocapture --test-threads=1
    done
}

if [ "$machine" = x86_64 ]; then native; else emulated; fi
for example in c rust; do
    examples/run.sh $example | diff examples/expected -
    echo "example $example: ok"
done
