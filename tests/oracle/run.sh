#!/usr/bin/env bash
# run.sh [--rust DIR] [--build wraps|panics] WHAT: the crate and the program replay, call by call (docs/DIFFERENCES.md).
#   random SEED STEPS      random sequences of calls; STEPS may be a number of minutes, as 5m
#   short NAME             all short inputs of a kind: integers, bytes, prefixes, bounds, encoder-streams, decoder-streams,
#                          encoder-streams-3, decoder-streams-3 (half an hour each), sections, stateless, lines,
#                          rooms, or all
#   short NAME FIRST LAST  the part of such a list whose inputs have a first byte from FIRST to LAST (all of it is 0 255)
#   lists                  the fixed lists of tests/lists that the crate has calls for; the gate replays all of them
#   sample SEED STEPS      writes such a list: the shortest script for each call, answer and difference that a run meets
#   differences            the names of the listed differences
#   wrong                  whether wrong answers near the listed differences are refused
# DIR holds the Rust's src/ (default ../shared/docs). It stops at the first difference that is on no list.
set -euo pipefail
cd "$(dirname "$0")/../.."
fail() { echo "run.sh: $*" >&2; exit 2; }
rust=../shared/docs build=wraps
while [ $# -gt 1 ]; do
    case $1 in
    --rust) rust=$2 ;;
    --build) build=$2 ;;
    *) break ;;
    esac
    shift 2
done
case $build in wraps | panics) ;; *) fail "--build is wraps or panics" ;; esac
[ $# -gt 0 ] || fail "usage: run.sh [--rust DIR] [--build wraps|panics] random SEED STEPS | short NAME [FIRST LAST] | lists | sample SEED STEPS | differences | wrong"
if [ ! -x "target/oracle/differ-$build" ] || [ -n "$(find tests/oracle -name '*.rs' -newer "target/oracle/differ-$build")" ]; then
    tests/oracle/build.sh "$rust" >&2
fi
differ=target/oracle/differ-$build
[ "$1" != differences ] || exec "$differ" differences
tests/program.sh replay >&2 || fail "the program replay is not proved"
[ "$1" != wrong ] || exec python3 tests/oracle/wrong.py "$differ"
if [ "$1" = lists ]; then
    for list in documents differences oracle; do
        echo "tests/lists/$list.replay"
        python3 tests/replay.py "tests/lists/$list.replay" | "$differ" target/bin/replay script
    done
    exit
fi
exec "$differ" target/bin/replay "$@"
