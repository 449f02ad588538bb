#!/usr/bin/env bash
# build.sh [RUST]: builds the oracle, h3's qpack modules with items made visible and nothing else edited, and the driver over it.
# RUST is the folder that holds src/qpack and src/proto (default ../shared/docs); RUSTC names another compiler. Everything goes to target/oracle:
#   src/          the copy with the visibility edits, and edits.diff, which shows them
#   wraps/        the build in which overflow wraps, as a release build
#   panics/       the build in which overflow panics, as a debug build
#   differ-wraps, differ-panics    the driver over each
set -euo pipefail
cd "$(dirname "$0")/../.."
rust=${1:-../shared/docs}
out=target/oracle

fail() { echo "build.sh: $*" >&2; exit 2; }
[ -f "$rust/src/qpack/dynamic.rs" ] || fail "$rust holds no src/qpack/dynamic.rs"
rustc=${RUSTC:-rustc}
command -v "$rustc" >/dev/null || fail "$rustc is not on the PATH"

# the one crate that qpack uses, from Debian's packages
bytes_root() { dpkg -L librust-bytes-dev 2>/dev/null | grep '/src/lib.rs$' || true; }
if [ -z "$(bytes_root)" ]; then
    { apt-get update && apt-get install -y --no-install-recommends librust-bytes-dev; } >/dev/null 2>&1 ||
        fail "librust-bytes-dev cannot be installed"
fi
bytes=$(bytes_root)
[ -n "$bytes" ] || fail "librust-bytes-dev has no src/lib.rs"

rm -rf "$out/src"
mkdir -p "$out/src/qpack/prefix_string" "$out/src/proto"
cp "$rust"/src/qpack/*.rs "$out/src/qpack/"
cp "$rust"/src/qpack/prefix_string/*.rs "$out/src/qpack/prefix_string/"
cp "$rust"/src/proto/coding.rs "$rust"/src/proto/varint.rs "$out/src/proto/"

# the lists of modules
cat >"$out/src/lib.rs" <<'R'
#![allow(warnings)]
pub mod proto { pub mod coding; pub mod varint; }
pub mod qpack;
R
cat >"$out/src/qpack/mod.rs" <<'R'
pub mod block; pub mod decoder; pub mod dynamic; pub mod encoder; pub mod field; pub mod parse_error;
pub mod prefix_int; pub mod prefix_string; pub mod static_; pub mod stream; pub mod vas;
pub use self::field::HeaderField;
R

# the visibility edits: functions of the table, the fields of its structs, and the reader of a field line
in_qpack() { local file=$1; shift; sed -i -E "$@" "$out/src/qpack/$file"; }
in_qpack dynamic.rs 's/^    pub\(super\) fn /    pub fn /'
in_qpack dynamic.rs "s/^    (table|base|commited|stream_id|block_refs|fields|curr_size|max_size|vas|field_map|name_map|track_map|track_blocks|largest_known_received|blocked_max|blocked_count|blocked_streams): (&'a|usize|bool|u64|HashMap|VecDeque|VirtualAddressSpace|BTreeMap)/    pub \\1: \\2/"
in_qpack vas.rs 's/^    (inserted|dropped|delta): usize,$/    pub \1: usize,/'
in_qpack block.rs 's/^    (encoded_insert_count|delta_base): usize,$/    pub \1: usize,/; s/^    sign_negative: bool,$/    pub sign_negative: bool,/'
in_qpack decoder.rs 's/^    table: DynamicTable,$/    pub table: DynamicTable,/; s/^    fn parse_header_field</    pub fn parse_header_field</'
in_qpack encoder.rs 's/^    table: DynamicTable,$/    pub table: DynamicTable,/'

# nothing else moved: the files are equal once every word of visibility is taken out
bare() { sed -E 's/pub(\((super|crate)\))? //g' "$1"; }
: >"$out/edits.diff"
for file in $(cd "$rust" && find src/qpack src/proto -name '*.rs'); do
    [ -f "$out/$file" ] || continue
    cmp -s <(bare "$rust/$file") <(bare "$out/$file") || fail "an edit beyond visibility in $file"
    diff -U0 --label "a/$file" --label "b/$file" "$rust/$file" "$out/$file" >>"$out/edits.diff" || true
done

for build in wraps panics; do
    flags=(-O --cap-lints allow)
    [ "$build" = wraps ] || flags+=(-C overflow-checks=yes -C debug-assertions=yes)
    lib=$out/$build
    mkdir -p "$lib"
    "$rustc" --crate-name bytes --crate-type rlib --edition 2018 --cfg 'feature="std"' --cfg 'feature="default"' \
        "${flags[@]}" -o "$lib/libbytes.rlib" "$bytes"
    "$rustc" --crate-name h3 --crate-type rlib --edition 2021 "${flags[@]}" --extern bytes="$lib/libbytes.rlib" \
        -L "$lib" -o "$lib/libh3.rlib" "$out/src/lib.rs"
    "$rustc" --crate-name differ --edition 2021 "${flags[@]}" --extern h3="$lib/libh3.rlib" --extern bytes="$lib/libbytes.rlib" \
        -L "$lib" -o "$out/differ-$build" tests/oracle/main.rs
done
echo "oracle built in $out: $(grep -c '^+[^+]' "$out/edits.diff") lines made visible, nothing else edited; $("$rustc" --version)"
