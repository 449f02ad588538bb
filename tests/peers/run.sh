#!/usr/bin/env bash
# run.sh [SEED [SECTIONS]]: nghttp3 and this library read each other's encoder streams, sections and reports.
# Installs libnghttp3-dev from Debian's packages, and builds the program replay.
set -euo pipefail
cd "$(dirname "$0")/../.."
fail() { echo "run.sh: $*" >&2; exit 2; }
tests/program.sh replay >&2 || fail "the program replay is not proved"
archive() { dpkg -L libnghttp3-dev 2>/dev/null | grep '/libnghttp3\.a$' || true; }
if [ -z "$(archive)" ]; then
    { apt-get update && apt-get install -y --no-install-recommends gcc libnghttp3-dev; } >/dev/null 2>&1 ||
        fail "libnghttp3-dev cannot be installed"
fi
mkdir -p target/peers
# plain strings: the count of Huffman bytes is never the smaller one
gcc -O1 -Wall -o target/peers/nghttp3 tests/peers/nghttp3.c -Wl,--wrap=nghttp3_qpack_huffman_encode_count "$(archive)"
exec python3 tests/peers/peers.py target/peers/nghttp3 target/bin/replay "${1:-1}" "${2:-2000}"
