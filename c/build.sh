#!/bin/sh
# Builds the C libraries from the proved static libraries and the guards, into c/out, and puts the shared one where the Python
# package looks for it:
#
#     libedfvd.a        every call of edfvd.h
#     libedfvd_core.a   every call except edfvd_ask, which is most of the code
#     libedfvd.so       every call, shared, with the soname libedfvd.so.N, where N is EDFVD_VERSION of edfvd.h
#     libedfvd.so.N     a link to it, by which a program that was linked with it finds it
#     edfvd.pc          for pkg-config, with these folders; install.sh writes one with its own
#
# The libraries are for the machine that the C compiler CC compiles for: x86-64 Linux, or 64-bit ARM Linux, as in
#
#     CC=aarch64-linux-gnu-gcc c/build.sh
#
# which builds into c/out/aarch64 and leaves the Python package as it is. A linker finds nothing to leave out of a static library unless
# it is called with --gc-sections.
# With FOLDER, only the static libraries are built, and into that folder. A file takes its name once it is whole, and by renaming,
# so a program that has the old one open goes on with that. Each has the mode 644. A run that is ended early leaves no file behind
# that it had begun.
# Nothing is built that is not proved. After ./edfvd or the gate the crates below are proved, and only edfvd_c, edfvd_ask_c and what
# else the program does not have are proved here, which takes some minutes; with no change since, it takes seconds. What was proved for
# one machine is not proved again for the other. CFLAGS may be set, and LD, AR and OBJCOPY may name other tools than the compiler's own.
# usage: build.sh [FOLDER]
set -eu
unset CDPATH
# The order of the objects in a library must not depend on the caller's language.
export LC_ALL=C
umask 022
here=$(cd "$(dirname -- "$0")/.." && pwd)
c=$here/c
. "$here/tools/usage.sh"
. "$here/sources.sh"
. "$here/about.sh"
. "$c/machine.sh"
takes 0 1 "$@"
find_machine
out=${1:-$c/out${machine:+/$machine}}
begin "$out"

# library CRATE: proves and builds the crate's static library for the machine
library() {
    made=$crates/$1/out/${machine:+$machine/}lib$1.a
    if ! on_gate "$1"; then
        if [ -z "$machine" ] || ! is_newest "$made" "$1"; then (cd "$crates/$1" && rt lib >&2); fi
        if [ -z "$machine" ]; then return; fi
    fi
    if ! is_newest "$made" "$1"; then compile "$1" lib.rt "$made" --crate-type staticlib; fi
}

# object SOURCE TO: compiles a source of c, each function in a section of its own, so that a linker can leave out the unused ones
object() {
    # shellcheck disable=SC2086
    "$CC" $strict $sections ${CFLAGS:--O2} -fPIC -c "$c/$1" -o "$2"
}

# one CRATE GUARD: an object with the proved code, the guard and the calls of malloc, of which other objects see only the calls of
# edfvd.h. Each crate brings the library code that it uses, so two of these objects can be linked together. The calls of malloc are
# the kit's, or for 64-bit ARM, for which the kit has none, those of heap.c.
one() {
    library "$1"
    mkdir "$parts/$1.d"
    object "$2" "$parts/$1.d/guard.o"
    (cd "$parts/$1.d" && "$AR" x "$crates/$1/out/${machine:+$machine/}lib$1.a")
    if [ -z "$machine" ]; then (cd "$parts/$1.d" && "$AR" x "$kit/c/liblibc_c.a"); else object heap.c "$parts/$1.d/heap.o"; fi
    "$LD" -r -o "$parts/$1.o" "$parts/$1.d"/*.o
    "$OBJCOPY" --keep-global-symbols="$parts/calls" "$parts/$1.o"
}

# escaped FOLDER: the folder's name as edfvd.pc has it, with a backslash before each character that would end it or be read as a quote
escaped() {
    printf '%s\n' "$1" | sed "s/[\\\\ '\"]/\\\\&/g"
}

digest=$(digest_of libedfvd.so)
soname=libedfvd.so.$(sed -n 's/^#define EDFVD_VERSION //p' "$c/edfvd.h")
sed -n 's/^\(edfvd_status \|uint32_t \|const char \*\)\(edfvd_[a-z_]*\)(.*$/\2/p' "$c/edfvd.h" >"$parts/calls"
one edfvd_c edfvd.c
one edfvd_ask_c edfvd_ask.c
"$AR" rcs "$parts/libedfvd_core.a" "$parts/edfvd_c.o"
"$AR" rcs "$parts/libedfvd.a" "$parts/edfvd_c.o" "$parts/edfvd_ask_c.o"
put "$parts/libedfvd_core.a" "$out/libedfvd_core.a"
put "$parts/libedfvd.a" "$out/libedfvd.a"
if [ $# -eq 1 ]; then exit; fi
"$CC" -shared -o "$parts/libedfvd.so" "$parts/edfvd_c.o" "$parts/edfvd_ask_c.o" \
    -Wl,-z,defs,-z,now,-z,relro -Wl,-soname,"$soname"
put "$parts/libedfvd.so" "$out/libedfvd.so"
for old in "$out"/libedfvd.so.[0-9]*; do
    if [ -L "$old" ] && [ "${old##*/}" != "$soname" ]; then rm "$old"; fi
done
ln -sf libedfvd.so "$parts/$soname"
mv -f "$parts/$soname" "$out/$soname"
note_unless_changed "$out/libedfvd.so" libedfvd.so "$digest"
[ -n "$machine" ] || put "$parts/libedfvd.so" "$here/python/edfvd/libedfvd.so"
pkg_config "$(escaped "$out")" "$(escaped "$c")" >"$parts/edfvd.pc"
put "$parts/edfvd.pc" "$out/edfvd.pc"
echo "built $out/libedfvd.a, libedfvd_core.a and libedfvd.so"
