#!/usr/bin/env bash
# Proves and builds the program qpack_table, and runs it on a sample: the encoder stream of RFC 9204 B.2.
set -eu
cd "$(dirname "$0")"
[ $# -eq 0 ] || { echo "usage: ./sample.sh" >&2; exit 2; }
tests/program.sh qpack_table
exec target/bin/qpack_table <crates/qpack_table/stdin
