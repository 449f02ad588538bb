#!/usr/bin/env bash
# Makes target/staticlib/libembed.a. With no change since, it proves nothing again.
set -eu
cd "$(dirname "$0")/.."
command -v rt >/dev/null || { echo "archive.sh: the Rattle kit's command rt is not on the PATH" >&2; exit 2; }
mkdir -p target/staticlib
log=$PWD/target/staticlib.log
(cd crates/embed_c && rt lib) >"$log" 2>&1 || { tail -n 5 "$log" >&2; exit 1; }
cp -u crates/embed_c/out/libembed_c.a target/staticlib/libembed.a
