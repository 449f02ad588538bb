#!/usr/bin/env bash
# lists.sh [--write]: whether stdin and stdout of the programs replay and replay_leaves are what tests/lists gives; with --write they are made so.
set -euo pipefail
cd "$(dirname "$0")/.."
case "$*" in '' | --write) ;; *) echo "usage: lists.sh [--write]" >&2; exit 2 ;; esac
made=$(mktemp -d)
trap 'rm -rf "$made"' EXIT

# program PROGRAM [--leaves]: its script and its answers
program() {
    local name=$1 file
    shift
    python3 tests/replay.py "$@" tests/lists/*.replay >"$made/stdin"
    python3 tests/replay.py "$@" --answers tests/lists/*.replay >"$made/stdout"
    for file in stdin stdout; do
        if [ "$write" = 1 ]; then
            cp "$made/$file" "crates/$name/$file"
        elif ! cmp -s "$made/$file" "crates/$name/$file"; then
            echo "lists.sh: crates/$name/$file is not what tests/lists gives: run tests/lists.sh --write" >&2
            exit 1
        fi
    done
    echo "$name: $(wc -l <"$made/stdout") calls and their answers"
}

write=$#
program replay
program replay_leaves --leaves
