#!/bin/sh
# build.sh FOLDER: the C baselines as static x86-64 programs in FOLDER, and the counting plugin.
# Native where the machine is x86-64, else by Debian's cross compiler; it and the emulator are installed where they are missing.
set -e
here=$(cd "$(dirname "$0")" && pwd)
out=${1:?usage: build.sh FOLDER}
mkdir -p "$out"
if [ "$(uname -m)" = x86_64 ]; then cc=gcc; else cc=x86_64-linux-gnu-gcc; fi
if ! command -v $cc >/dev/null || ! command -v qemu-x86_64 >/dev/null; then
	apt-get update -qq
	apt-get install -y -qq qemu-user
	[ "$(uname -m)" = x86_64 ] || apt-get install -y -qq gcc-x86-64-linux-gnu libc6-dev-amd64-cross
fi
flags="-std=gnu11 -O2 -static -Wall -Wextra"
for level in 0 1 2 9; do $cc $flags -DLEVEL=$level "$here/echo.c" -o "$out/echo$level"; done
$cc $flags -DSORTED=1 "$here/ledger.c" "$here/bench_ledger.c" -o "$out/bench_ledger_b"
$cc $flags -DSORTED=1 -DFORM=1 "$here/ledger.c" "$here/bench_ledger.c" -o "$out/bench_ledger_f"
gcc -O2 -Wall -shared -fPIC "$here/icount.c" -o "$out/icount.so"
