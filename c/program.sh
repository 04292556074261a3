#!/bin/sh
# Builds the program edfvd for 64-bit ARM Linux, as c/out/aarch64/edfvd, by the C compiler CC for that machine, which is
# aarch64-linux-gnu-gcc if CC is not set. ./edfvd builds the program for x86-64. Nothing is built that is not proved: after ./edfvd or the
# gate the crates below are proved, and edfvd_program alone is proved here. The program needs glibc 2.34 or later.
# usage: program.sh
set -eu
unset CDPATH
export LC_ALL=C
umask 022
here=$(cd "$(dirname -- "$0")/.." && pwd)
c=$here/c
. "$here/tools/usage.sh"
. "$here/sources.sh"
. "$c/machine.sh"
takes 0 0 "$@"
: "${CC:=aarch64-linux-gnu-gcc}"
find_machine
[ -n "$machine" ] || { echo "program.sh: $CC compiles for x86-64, for which ./edfvd builds the program" >&2; exit 1; }
out=$c/out/$machine
begin "$out"

digest=$(digest_of "$machine/edfvd")
crate=edfvd_program
made=$crates/$crate/out/$machine/$crate.o
if ! is_newest "$made" "$crate"; then
    if ! on_gate "$crate"; then (cd "$crates/$crate" && rt run -- check data/tasks.toml >&2); fi
    compile "$crate" main.rt "$made"
fi
# shellcheck disable=SC2086
"$CC" $strict ${CFLAGS:--O2} -pthread -o "$parts/edfvd" "$made" "$c/system.c" "$c/heap.c" -Wl,-z,defs,-z,now,-z,relro
put "$parts/edfvd" "$out/edfvd" 755
note_unless_changed "$out/edfvd" "$machine/edfvd" "$digest"
echo "built $out/edfvd"
