#!/usr/bin/env bash
# Puts a Rust compiler for x86-64 into a folder, as DIR/rustc, on Debian 12 for Arm: examples/x86-rustc.sh DIR. It comes from
# Debian's packages, which are unpacked there and not installed; the kit's clang and lld link its programs, static.
set -euo pipefail
fail() { echo "x86-rustc.sh: $*" >&2; exit 2; }
[ $# -eq 1 ] || fail "usage: examples/x86-rustc.sh DIR"
[ "$(uname -m)" = aarch64 ] || fail "this machine is $(uname -m), and not aarch64"
command -v rt >/dev/null || fail "the Rattle kit's command rt is not on the PATH"
kit=$(dirname "$(dirname "$(rt doc)")")/on/$(uname -m)/toolchain/bin
mkdir -p "$1"
cd "$1"
here=$(pwd -P)

# package lists of both architectures from one update, so that both standard libraries are of one version
rm -rf debs host x86
mkdir -p debs host x86 lists/partial cache/archives/partial
cat >apt.conf <<A
APT::Architecture "arm64"; APT::Architectures { "arm64"; "amd64"; }; APT::Sandbox::User "root"; Acquire::Languages "none";
Dir::State::lists "$here/lists"; Dir::Cache "$here/cache"; Dir::State::status "/dev/null";
A
export APT_CONFIG=$here/apt.conf
apt-get update -qq || fail "Debian's package lists cannot be fetched"
# the compiler's own libraries, whose names have versions, but for the C library
depends=(apt-cache depends --recurse --no-recommends --no-suggests --no-conflicts --no-breaks --no-replaces --no-enhances)
mapfile -t libraries < <("${depends[@]}" libstd-rust-web-dev:arm64 | grep -E '^z?lib' | grep -vxE 'libc6|libstd-rust-web-dev')
[ ${#libraries[@]} -gt 0 ] || fail "Debian's package lists have no rustc-web"
(
    cd debs
    apt-get download -qq rustc-web:arm64 "${libraries[@]/%/:arm64}"
    apt-get download -qq libstd-rust-web-dev:amd64 libc6-dev:amd64 libc6:amd64 libgcc-12-dev:amd64 libgcc-s1:amd64
) || fail "Debian's packages cannot be fetched"
for d in debs/*_arm64.deb debs/libstd-rust-web-dev*; do dpkg -x "$d" host; done
for d in debs/libc6*_amd64.deb debs/libgcc*_amd64.deb; do dpkg -x "$d" x86; done
# /lib and /lib64 are links to those below /usr on Debian, and not so in its packages
for d in lib lib64; do
    if [ -d x86/$d ] && [ ! -L x86/$d ]; then mkdir -p x86/usr/$d && cp -a x86/$d/. x86/usr/$d/ && rm -rf "x86/${d:?}" && ln -s usr/$d x86/$d; fi
done
cat >./link <<S
#!/bin/sh
exec "$kit/clang" --target=x86_64-linux-gnu --sysroot="$here/x86" -fuse-ld=lld -B"$kit" "\$@"
S
cat >rustc.new <<S
#!/bin/sh
LD_LIBRARY_PATH="$here/host/usr/lib/aarch64-linux-gnu:$here/host/lib/aarch64-linux-gnu" exec "$here/host/usr/bin/rustc" --sysroot "$here/host/usr" --target x86_64-unknown-linux-gnu -C linker-flavor=gcc -C linker="$here/link" -C target-feature=+crt-static -C relocation-model=static "\$@"
S
chmod +x link rustc.new
rm -rf debs lists cache
# last, so that a compiler is there only where all of it is
mv rustc.new rustc
