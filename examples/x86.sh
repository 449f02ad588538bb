# shellcheck shell=bash disable=SC2034
# Sourced by the scripts that build programs for x86-64, as the archive is, from the repository's folder. On another
# processor such a program is built by compilers for x86-64, and runs under the kit's emulator.
machine=$(uname -m)

# Ends the script with one line.
fail() { echo "${0##*/}: $*" >&2; exit 2; }

# Installs packages where a command is missing.
need() { # COMMAND PACKAGE..
    command -v "$1" >/dev/null && return
    shift
    { apt-get update -qq && apt-get install -qq -y --no-install-recommends "$@"; } >&2 || fail "install $* and try again"
}

# Sets cc to a C compiler for x86-64.
c_compiler() {
    cc=cc
    if [ "$machine" = x86_64 ]; then need cc gcc libc6-dev; return; fi
    cc=x86_64-linux-gnu-gcc
    need $cc gcc-x86-64-linux-gnu libc6-dev-amd64-cross
}

# Sets rustc to a Rust compiler for x86-64.
rust_compiler() {
    rustc=rustc
    if [ "$machine" = x86_64 ]; then need rustc rustc; need cc gcc libc6-dev; return; fi
    rustc=$PWD/target/x86/rustc
    [ -x "$rustc" ] || examples/x86-rustc.sh target/x86 >&2 || fail "no Rust compiler for x86-64"
}

# Runs a program for x86-64.
run() {
    if [ "$machine" = x86_64 ]; then "$@"; else "$(dirname "$(dirname "$(rt doc)")")/on/$machine/toolchain/bin/qemu-x86_64" "$@"; fi
}
