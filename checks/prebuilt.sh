#!/bin/sh
# Compares the folder prebuilt with the sources and with what the gate built, and tries its scripts and reproduce.sh in a copy of the tree
# with stand-ins for the toolchain: what refresh.sh writes and when it refuses, and that compare.sh finds each thing that differs.
# library.sh must have built the library, arm.sh what is for 64-bit ARM where the compiler for it is there, and web.sh the page where
# wasm-opt is there.
# usage: prebuilt.sh
. "$(dirname -- "$0")/../tools/usage.sh"
takes 0 0 "$@"
cd "$(dirname -- "$0")/../examples" || exit 1
. ../checks/copied_tree.sh
kit=$(cat ../KIT)
# What compare.sh ends with where nothing differs: with all tools, without a compiler for 64-bit ARM, and without the wasm-opt of SOURCES.
whole='prebuilt: 17 compared, 0 failed'
without_arm='prebuilt: 14 compared, 0 failed'
without_optimizer='prebuilt: 16 compared, 0 failed'

# build_tree: the copy gets what the scripts need: the folder without the files that refresh.sh writes, and the files in c and web. The
# library is a text, which the stand-in for nm writes. The stand-ins for c/build.sh and c/program.sh make it, and what is for 64-bit ARM;
# the one for web/build.sh makes the page.
build_tree() {
    mkdir -p "$tree/prebuilt" "$tree/c"
    cp ../prebuilt/*.sh ../prebuilt/README.md "$tree/prebuilt"
    cp ../reproduce.sh ../about.sh "$tree"
    cp ../c/*.c ../c/*.h ../c/machine.sh "$tree/c"
    put_page_sources
    cat >"$tree/web/build.sh" <<'END'
#!/bin/sh
cd "${0%/*}" || exit
[ ! -e fails ] || exit 1
mkdir -p out
echo '<!doctype html>' >out/edfvd.html
END
    chmod +x "$tree/web/build.sh"
    cat >"$tree/c/build.sh" <<'END'
#!/bin/sh
cd "${0%/*}" || exit
[ ! -e fails ] || exit 1
mkdir -p out/aarch64
case ${CC:-} in
aarch64-*)
    [ ! -e fails_for_arm ] || exit 1
    for file in libedfvd.so libedfvd_core.a; do echo "$file for ARM" >"out/aarch64/$file"; done
    ;;
*) printf '0 T edfvd_ask\n0 T edfvd_check\n' >out/libedfvd.so ;;
esac
END
    cat >"$tree/c/program.sh" <<'END'
#!/bin/sh
cd "${0%/*}" && [ ! -e fails ] && echo 'edfvd for ARM' >out/aarch64/edfvd && chmod 755 out/aarch64/edfvd
END
    chmod +x "$tree/c/build.sh" "$tree/c/program.sh"
    cat >"$work/rt/rt" <<END
#!/bin/sh
case \$1 in
version) echo "$kit" ;;
*) cp "$work/made" out/edfvd_program ;;
esac
END
    cp "$program" "$work/made"
    for tool in cc ld aarch64-linux-gnu-gcc aarch64-linux-gnu-ld wasm-opt; do
        printf '#!/bin/sh\necho "%s of the test, 1.0"\necho more\n' "$tool" >"$work/rt/$tool"
    done
    # shellcheck disable=SC2016
    printf '#!/bin/sh\ncat "$3"\n' >"$work/rt/nm"
    chmod +x "$work/rt"/*
    for tool in cmp tail head diff; do ln -s "$(command -v "$tool")" "$work/tools/$tool"; done
}

# files: the files in prebuilt with their modes and sums
files() {
    (cd "$tree/prebuilt" && find . -type f -printf '%m %p\n' | sort -k 2 && find . -type f -exec sha256sum {} + | sort -k 2)
}

# fails SAYS TOOLS COMMAND..: the command has status 1, says this, and changes nothing in prebuilt
fails() {
    says=$1
    tools=$2
    shift 2
    files >"$work/files"
    bounded env PATH="$tools" "$@" >"$work/text" 2>&1
    status=$?
    holds "$1: $says" [ "$status" -eq 1 ]
    holds "$1 says: $says" grep -qF -e "$says" "$work/text"
    files >"$work/out"
    judge 0 0 "$work/files" "the files after: $says"
}

# passes COMMAND..: the command has status 0, and says this at the end
passes() {
    says=$1
    shift
    bounded env PATH="$with" "$@" >"$work/text" 2>"$work/err"
    status=$?
    tail -n 1 "$work/text" >"$work/out"
    judge 0 "$status" "$(says "$says")" "$*"
}

refused() {
    refresh=$tree/prebuilt/refresh.sh
    fails 'the toolchain of KIT is not on the PATH' "$alone" "$refresh"
    fails 'the program is not built from the sources that are here' "$with" "$refresh"
    put_program
    echo 'rattle-kit-0 logic 0' >"$tree/KIT"
    fails 'the toolchain of KIT is not on the PATH' "$with" "$refresh"
    cp ../KIT "$tree/KIT"
    touch -d '1 hour ago' "$built"
    fails 'the program is not built from the sources that are here' "$with" "$refresh"
    put_program
    : >"$tree/c/fails"
    fails 'the library was not built' "$with" "$refresh"
    mv "$tree/c/fails" "$tree/c/fails_for_arm"
    fails 'the files for 64-bit ARM were not built' "$with" "$refresh"
    rm "$tree/c/fails_for_arm"
    for tool in aarch64-linux-gnu-gcc wasm-opt; do
        mv "$work/rt/$tool" "$work/kept"
        fails "$tool is not on the PATH" "$with" "$refresh"
        mv "$work/kept" "$work/rt/$tool"
    done
    : >"$tree/web/fails"
    fails 'the page was not built' "$with" "$refresh"
    rm "$tree/web/fails"
}

# sum FILE: its sha256
sum() {
    sha256sum <"$1" | sed 's/ .*//'
}

# written: the files, their modes and what SOURCES says; and the same bytes again
written() {
    passes "$whole" "$tree/prebuilt/refresh.sh"
    find "$tree/prebuilt" -mindepth 1 -printf '%m %P\n' | sort -k 2 >"$work/out"
    {
        printf '755 %s.sh\n' compare library program refresh
        printf '755 %s\n' edfvd aarch64 aarch64/edfvd
        printf '644 %s\n' aarch64/libedfvd.so aarch64/libedfvd_core.a LICENSE-APACHE LICENSE-MIT README.md SHA256SUMS SOURCES \
            THIRD-PARTY-LICENSES edfvd.html libedfvd.so tools.sh
    } | sort -k 2 >"$work/wanted"
    judge 0 0 "$work/wanted" 'the files that refresh.sh writes'
    cut -d ' ' -f 1 "$tree/prebuilt/SOURCES" | tr '\n' ' ' >"$work/out"
    printf '%s ' kit machine cc ld aarch64/cc aarch64/ld wasm-opt edfvd libedfvd.so edfvd.html aarch64/edfvd aarch64/libedfvd.so \
        aarch64/libedfvd_core.a >"$work/wanted"
    judge 0 0 "$work/wanted" 'the first words of SOURCES'
    grep -v 'edfvd' "$tree/prebuilt/SOURCES" >"$work/out"
    printf 'kit %s\nmachine %s\ncc cc of the test, 1.0\nld ld of the test, 1.0\n' "$kit" "$(uname -m)" >"$work/wanted"
    printf 'aarch64/cc aarch64-linux-gnu-gcc of the test, 1.0\naarch64/ld aarch64-linux-gnu-ld of the test, 1.0\n' >>"$work/wanted"
    echo 'wasm-opt wasm-opt of the test, 1.0' >>"$work/wanted"
    judge 0 0 "$work/wanted" 'the tools in SOURCES'
    holds 'the sum of the program' grep -q "^edfvd [0-9a-f]\{64\} $(sum "$program")\$" "$tree/prebuilt/SOURCES"
    holds 'the sum of the library' grep -q "^libedfvd.so [0-9a-f]\{64\} $(sum "$tree/c/out/libedfvd.so")\$" "$tree/prebuilt/SOURCES"
    holds 'the sum of the page' grep -q "^edfvd.html [0-9a-f]\{64\} $(sum "$tree/web/out/edfvd.html")\$" "$tree/prebuilt/SOURCES"
    for name in edfvd libedfvd.so libedfvd_core.a; do
        holds "the sum of aarch64/$name" grep -q "^aarch64/$name [0-9a-f]\{64\} $(sum "$tree/c/out/aarch64/$name")\$" "$tree/prebuilt/SOURCES"
        holds "aarch64/$name" cmp "$tree/prebuilt/aarch64/$name" "$tree/c/out/aarch64/$name"
    done
    (cd "$tree/prebuilt" && for name in LICENSE-APACHE LICENSE-MIT SOURCES THIRD-PARTY-LICENSES aarch64/edfvd aarch64/libedfvd.so \
        aarch64/libedfvd_core.a edfvd edfvd.html libedfvd.so; do
        printf '%s  %s\n' "$(sum "$name")" "$name"
    done) >"$work/wanted"
    holds 'SHA256SUMS' cmp "$tree/prebuilt/SHA256SUMS" "$work/wanted"
    files >"$work/first"
    umask 077
    passes "$whole" "$tree/prebuilt/refresh.sh"
    umask 022
    files >"$work/out"
    judge 0 0 "$work/first" 'the files that refresh.sh writes under umask 077'
}

# finds SAYS FILE: compare.sh says this after a line more in the file, which is then put back
finds() {
    cp -p "$tree/$2" "$work/kept"
    echo '// more' >>"$tree/$2"
    fails "$1" "$with" "$tree/prebuilt/compare.sh"
    cp -p "$work/kept" "$tree/$2"
}

# found: each thing that may differ
found() {
    passes "$whole" "$tree/prebuilt/compare.sh"
    finds 'SHA256SUMS is wrong' prebuilt/SOURCES
    finds 'SHA256SUMS is wrong' prebuilt/SHA256SUMS
    finds 'edfvd is not the program that was built' prebuilt/edfvd
    finds 'libedfvd.so is not the one that was built' prebuilt/libedfvd.so
    for name in edfvd libedfvd.so libedfvd_core.a; do
        finds "aarch64/$name is not of the sources that are here" "prebuilt/aarch64/$name"
        finds "aarch64/$name is not the one that was built" "prebuilt/aarch64/$name"
        finds "aarch64/$name is not the one that was built" "c/out/aarch64/$name"
        mv "$tree/c/out/aarch64/$name" "$work/kept"
        fails "c/out/aarch64/$name is not built" "$with" "$tree/prebuilt/compare.sh"
        mv "$work/kept" "$tree/c/out/aarch64/$name"
    done
    for file in heap.c system.c machine.sh program.sh; do
        finds 'aarch64/edfvd is not of the sources that are here' "c/$file"
    done
    for file in heap.c machine.sh build.sh edfvd.h; do
        finds 'aarch64/libedfvd.so is not of the sources that are here' "c/$file"
        finds 'aarch64/libedfvd_core.a is not of the sources that are here' "c/$file"
    done
    finds 'aarch64/edfvd is not of the sources that are here' crates/edfvd_program/src/main.rt
    finds 'edfvd is not the program that was built' crates/edfvd_program/out/edfvd_program
    finds 'libedfvd.so is not the one that was built' c/out/libedfvd.so
    finds 'LICENSE-MIT is not the one of the repository' LICENSE-MIT
    finds 'THIRD-PARTY-LICENSES is not the one of the repository' THIRD-PARTY-LICENSES
    finds 'edfvd is not of the sources that are here' crates/edfvd_program/src/main.rt
    finds 'edfvd is not of the sources that are here' KIT
    finds 'libedfvd.so is not of the sources that are here' crates/edfvd_c/src/lib.rt
    finds 'libedfvd.so is not of the sources that are here' c/edfvd.c
    finds 'libedfvd.so is not of the sources that are here' c/edfvd.h
    finds 'libedfvd.so is not of the sources that are here' c/build.sh
    finds 'edfvd.html is not the one that was built' prebuilt/edfvd.html
    finds 'edfvd.html is not the one that was built' web/out/edfvd.html
    for file in crates/edfvd_ask_c/src/lib.rt crates/edfvd_c/src/lib.rt web/build.sh web/heap.c web/single.py web/retarget.py web/style.css web/index.html \
        web/src/page.js web/src/sets.js examples/overrun/work.csv; do
        finds 'edfvd.html is not of the sources that are here' "$file"
    done
    # A source of the library alone is none of the program.
    echo '// more' >>"$tree/c/edfvd_ask.c"
    fails 'libedfvd.so is not of' "$with" "$tree/prebuilt/compare.sh"
    holds 'the programs are of their sources' [ "$(grep -c 'edfvd is not of' "$work/text")" -eq 0 ]
    cp ../c/edfvd_ask.c "$tree/c"
    mv "$tree/c/out/libedfvd.so" "$work/kept"
    fails "$tree/c/out/libedfvd.so is not built" "$with" "$tree/prebuilt/compare.sh"
    mv "$work/kept" "$tree/c/out/libedfvd.so"
    mv "$tree/web/out/edfvd.html" "$work/kept"
    fails "$tree/web/out/edfvd.html is not built" "$with" "$tree/prebuilt/compare.sh"
    mv "$work/kept" "$tree/web/out/edfvd.html"
    mv "$built" "$work/kept"
    fails 'edfvd_program is not built' "$with" "$tree/prebuilt/compare.sh"
    mv "$work/kept" "$built"
    cp "$tree/prebuilt/libedfvd.so" "$work/kept"
    head -c 3145728 /dev/zero >>"$tree/prebuilt/libedfvd.so"
    fails 'more than 3145728 bytes' "$with" "$tree/prebuilt/compare.sh"
    cp "$work/kept" "$tree/prebuilt/libedfvd.so"
}

# another_compiler: the bytes of the library are not compared then, and its calls are
another_compiler() {
    only='prebuilt: of libedfvd.so the names of the calls are compared, and not the bytes: cc or ld is not that of prebuilt/SOURCES'
    for tool in cc ld; do
        printf '#!/bin/sh\necho another\n' >"$work/rt/$tool"
        printf '9 T edfvd_check\n8 T edfvd_ask\n' >"$tree/c/out/libedfvd.so"
        passes "$whole" "$tree/prebuilt/compare.sh"
        holds 'a line says so' grep -qxF "$only" "$work/text"
        printf '9 T edfvd_check\n' >"$tree/c/out/libedfvd.so"
        fails 'libedfvd.so has not the calls of the one that was built' "$with" "$tree/prebuilt/compare.sh"
        printf '#!/bin/sh\necho "%s of the test, 1.0"\n' "$tool" >"$work/rt/$tool"
        "$tree/c/build.sh"
    done
}

# another_arm_compiler: without one for 64-bit ARM, or with another one than that of SOURCES, what was built for it is not compared, and a
# line says why
another_arm_compiler() {
    echo more >>"$tree/c/out/aarch64/edfvd"
    for tool in gcc ld; do
        cp "$work/rt/aarch64-linux-gnu-$tool" "$work/kept"
        printf '#!/bin/sh\necho another\n' >"$work/rt/aarch64-linux-gnu-$tool"
        passes "$without_arm" "$tree/prebuilt/compare.sh"
        holds 'a line says so' grep -q 'is not compared with what was built: its cc or ld is not that of prebuilt/SOURCES' "$work/text"
        cp "$work/kept" "$work/rt/aarch64-linux-gnu-$tool"
    done
    mv "$work/rt/aarch64-linux-gnu-gcc" "$work/kept"
    passes "$without_arm" "$tree/prebuilt/compare.sh"
    holds 'a line says so' grep -q 'is not compared with what was built: there is no aarch64-linux-gnu-gcc' "$work/text"
    mv "$work/kept" "$work/rt/aarch64-linux-gnu-gcc"
    "$tree/c/program.sh"
}

# another_optimizer: the page is compared with the sources alone then, and also without one
another_optimizer() {
    echo other >"$tree/web/out/edfvd.html"
    rm "$work/rt/wasm-opt"
    passes "$without_optimizer" "$tree/prebuilt/compare.sh"
    holds 'a line says so' grep -qF 'prebuilt: edfvd.html is not compared with what was built' "$work/text"
    printf '#!/bin/sh\necho another\n' >"$work/rt/wasm-opt"
    chmod +x "$work/rt/wasm-opt"
    passes "$without_optimizer" "$tree/prebuilt/compare.sh"
    holds 'a line says so' grep -qF 'prebuilt: edfvd.html is not compared with what was built' "$work/text"
    rm -r "$work/again"
    cp "$program" "$work/made"
    passes "$without_optimizer" "$reproduce" "$work/again"
    holds 'no page is built with another wasm-opt' [ ! -e "$work/again/web/out" ]
    printf '#!/bin/sh\necho "wasm-opt of the test, 1.0"\n' >"$work/rt/wasm-opt"
    "$tree/web/build.sh"
}

# reproduced: from nothing, in another folder
reproduced() {
    reproduce=$tree/reproduce.sh
    passes "$whole" "$reproduce" "$work/again"
    holds 'the copy stays' cmp "$program" "$work/again/crates/edfvd_program/out/edfvd_program"
    holds 'what is for ARM is built again' cmp "$tree/c/out/aarch64/edfvd" "$work/again/c/out/aarch64/edfvd"
    holds 'what is prebuilt is not copied' [ ! -e "$work/again/prebuilt/edfvd" ]
    holds 'what is prebuilt for ARM is not copied' [ ! -e "$work/again/prebuilt/aarch64" ]
    holds 'the prebuilt page is not copied' [ ! -e "$work/again/prebuilt/edfvd.html" ]
    holds 'the page is built' cmp "$tree/web/out/edfvd.html" "$work/again/web/out/edfvd.html"
    mkdir "$work/temporary"
    passes "$whole" TMPDIR="$work/temporary" CC=none CFLAGS=-none "$reproduce"
    holds 'no other copy stays' [ -z "$(ls -A "$work/temporary")" ]
    fails 'is not empty' "$with" "$reproduce" "$work/again"
    fails 'is no folder' "$with" "$reproduce" "$work/made"
    fails 'the command rt, which proves and builds, is not on the PATH' "$alone" "$reproduce"
    echo more >>"$work/made"
    fails 'edfvd is not the program that was built' "$with" "$reproduce"
    : >"$tree/web/fails"
    fails 'the page was not built' "$with" "$reproduce"
    rm "$tree/web/fails"
    : >"$tree/c/fails"
    fails 'the library was not built' "$with" "$reproduce"
    rm "$tree/c/fails" "$work/made"
    fails 'the program was not built' "$with" "$reproduce"
}

bounded ../prebuilt/compare.sh >"$work/text" 2>&1
holds 'prebuilt is what is built here' [ $? -eq 0 ]
cat "$work/text"
if [ -e ../.git ]; then
    printf 'prebuilt/%s: binary: set\n' edfvd libedfvd.so aarch64/edfvd aarch64/libedfvd.so aarch64/libedfvd_core.a >"$work/wanted"
    (cd .. && sed 's/: .*//' "$work/wanted" | git check-attr --stdin binary && git check-attr text prebuilt/edfvd.html) >"$work/out"
    status=$?
    echo 'prebuilt/edfvd.html: text: unset' >>"$work/wanted"
    judge 0 "$status" "$work/wanted" 'the attributes of the binary files'
fi
build_tree
refused
written
found
another_compiler
another_arm_compiler
reproduced
another_optimizer
ends prebuilt
