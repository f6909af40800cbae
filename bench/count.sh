#!/bin/sh
# count.sh PLUGIN PROGRAM [WORDS..] < INPUT: the program's output on standard output, and on standard error "insns N blocks M", the instructions that it took.
# PLUGIN is icount.so of build.sh. The emulated processor is a Nehalem, which has x86-64-v2 and no fast `rep movsb`, so that the C library copies by SSE2: that word counts once a byte.
plugin=$1
shift
log=$(mktemp)
qemu-x86_64 -cpu Nehalem -plugin "$plugin" -d plugin -D "$log" "$@"
status=$?
cat "$log" >&2
rm -f "$log"
exit $status
