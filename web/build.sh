#!/bin/sh
# Makes the page, web/out/edfvd.html: one file, which a browser opens from a disk or from a server. The proved code in it is that of
# edfvd_ask of the C library, and of three of its calls for sets of numbers; beside the page stand its modules, edfvd.wasm and sets.wasm.
#
# The toolchain's own target for WebAssembly refuses code with a heap. So rattle proves and lowers the static libraries for x86-64, as for
# C, and each LLVM module that it hands to clang is compiled a second time: retarget.py makes it one for WebAssembly with 64-bit memory,
# which is linked with heap.c. Binaryen's wasm-opt then makes the addresses 32-bit, so that every browser runs the module. Nothing is built
# that is not proved: crates that are not proved yet are proved first. After the gate the build takes some minutes, and seconds if only the
# page's own files have changed since. Two builds of one tree with one wasm-opt make the same bytes.
# usage: build.sh
set -eu
unset CDPATH
export LC_ALL=C
umask 022
here=$(cd "$(dirname -- "$0")/.." && pwd)
. "$here/tools/usage.sh"
. "$here/sources.sh"
takes 0 0 "$@"
for tool in rt python3 wasm-opt; do
    command -v "$tool" >/dev/null || { echo "build.sh: $tool is not on the PATH" >&2; exit 127; }
done
web=$here/web
crates=$here/crates
kit=$(dirname "$(dirname "$(readlink -f "$(command -v rt)")")")
if is_noted "$here/$built_page" edfvd.html; then
    echo "built $here/$built_page"
    exit
fi
beside=
parts=
trap 'rm -rf ${parts:+"$parts"} ${beside:+"$beside"}' EXIT
trap 'exit 1' HUP INT TERM
parts=$(mktemp -d) || exit 1

# below CRATE: the crates of this repository that the crate stands on
below() {
    crate_lines "$1" | sed "s/:.*//; /^$1\$/d"
}

# are_proved CRATE: whether the library of each crate below is there and newer than the crate's sources
are_proved() {
    for name in $(below "$1"); do
        rlib=$crates/$name/out/rlib/$name.rlib
        if ! [ -d "$rlib" ] || [ -n "$(find "$crates/$name" -name out -prune -o \
            \( -name '*.rt' -o -name '*.antt' \) -newer "$rlib" -print -quit)" ]; then return 1; fi
    done
}

# used CRATE: the libraries that the crate stands on, of this repository and of the kit
used() {
    sed -n "s/^$1 staticlib: //p" "$here/crates.txt"
}

# prove CRATE: proves the crates below. For each library that the crate uses, rt proves those below it, unless they are proved already.
prove() {
    for name in $(used "$1"); do
        if [ -d "$crates/$name" ]; then (cd "$crates/$name" && rt lib >&2); fi
    done
}

# put_tools: the kit's tools in $parts/tools, with a clang that also keeps the module which it is given
put_tools() {
    [ ! -d "$parts/tools" ] || return 0
    mkdir -p "$parts/tools/bin"
    ln -s "$kit/toolchain/lib" "$parts/tools/lib"
    for tool in "$kit"/toolchain/bin/*; do ln -s "$tool" "$parts/tools/bin/"; done
    rm "$parts/tools/bin/clang"
    cat >"$parts/tools/bin/clang" <<END
#!/bin/sh
for word; do case \$word in *.bc) cp "\$word" "$parts/module.bc" ;; esac; done
exec "$kit/toolchain/bin/clang" "\$@"
END
    chmod +x "$parts/tools/bin/clang"
}

# lower CRATE: proves the crate over the libraries below it, and keeps the LLVM module that rattle makes of it in $parts/module.bc
lower() {
    crate=$1
    set -- --antt-project "$kit/rattle/logic/antt-project.json" --logic-built "$kit/logic_built" -L "dependency=$kit/rlibs"
    for name in $(below "$crate"); do set -- "$@" -L "dependency=$crates/$name/out/rlib"; done
    for name in std $(used "$crate"); do
        rlib=$crates/$name/out/rlib/$name.rlib
        [ -d "$rlib" ] || rlib=$kit/rlibs/$name.rlib
        set -- "$@" --extern "$name=$rlib"
    done
    (cd "$crates/$crate" && "$kit/bin/rattle" build --crate-name "$crate" --crate-type staticlib src/lib.rt --links "$crate=" "$@" \
        --jobs 2 --cpu x86-64 --toolchain "$parts/tools" --backend llvm -o "$parts/lib$crate.a" >&2)
}

# compile CALL..: makes $parts/small.wasm of the module, with these calls
compile() {
    clang=$kit/toolchain/bin/clang
    python3 -B "$web/retarget.py" "$clang" "$parts/module.bc" "$parts/module.o" "$@"
    "$clang" --target=wasm64-unknown-unknown -mcpu=lime1 --no-default-config -std=c11 -Wall -Wextra -Werror -O2 -ffreestanding -nostdinc \
        -ffunction-sections -fdata-sections -c "$web/heap.c" -o "$parts/heap.o"
    "$kit/toolchain/bin/llvm-ar" --format=gnu rcsD "$parts/all.a" "$parts/module.o" "$parts/heap.o"
    "$kit/bin/rattle-link" --target wasm64-unknown-unknown --toolchain "$kit/toolchain" -o "$parts/large.wasm" "$parts/all.a"
    wasm-opt --enable-memory64 --enable-mutable-globals --enable-bulk-memory --enable-sign-ext --enable-multivalue \
        --enable-nontrapping-float-to-int --memory64-lowering "$parts/large.wasm" -o "$parts/small.wasm"
}

# module_digest CRATE: a digest of what the module of the crate is made of
module_digest() {
    (cd "$here" && sources_digest "$1" && cat KIT && wasm-opt --version && sha256sum web/build.sh web/heap.c web/retarget.py) | sha256sum | sed 's/ .*//'
}

# is_of_module CRATE MODULE: whether the module that was built here is of the sources that are here
is_of_module() {
    [ -e "$here/$2" ] && [ "$(cat "$here/$2.sources" 2>/dev/null)" = "$(module_digest "$1") $(sha256sum <"$here/$2" | sed 's/ .*//')" ]
}

# module CRATE MODULE CALL..: makes the file MODULE of the crate, with these calls, unless it is there
module() {
    if is_of_module "$1" "$2"; then return; fi
    made_of=$1 module=$2
    shift 2
    digest=$(module_digest "$made_of")
    are_proved "$made_of" || prove "$made_of"
    put_tools
    lower "$made_of"
    rm -f "$parts/all.a"
    compile "$@"
    put "$parts/small.wasm" "$module" "$digest" module_digest "$made_of"
}

# put MADE NAME DIGEST COMMAND..: the file that was made takes this name, below the repository's folder, with the mode 644. The digest of
# its sources is noted, if the command still writes the same one: sources that were changed meanwhile may be in the file or not.
put() {
    beside=$(mktemp "$here/$2.XXXXXX")
    cat "$1" >"$beside"
    chmod 644 "$beside"
    mv -f "$beside" "$here/$2"
    beside=
    rm -f "$here/$2.sources"
    name=$2 noted=$3
    shift 3
    if [ "$("$@")" = "$noted" ]; then note_sources "$name" "$noted"; fi
}

mkdir -p "$web/out"
module edfvd_ask_c web/out/edfvd.wasm edfvd_raw_ask
module edfvd_c web/out/sets.wasm edfvd_raw_sensitivity edfvd_raw_scales edfvd_raw_speed
digest=$(digest_of edfvd.html)
python3 -B "$web/examples.py" >"$parts/examples.js"
python3 -B "$web/single.py" "$web/out/edfvd.wasm" "$web/out/sets.wasm" "$parts/examples.js" >"$parts/edfvd.html"
put "$parts/edfvd.html" "$built_page" "$digest" digest_of edfvd.html
echo "built $here/$built_page"
