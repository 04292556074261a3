#!/bin/sh
# Tries the libraries and the program for 64-bit ARM where the C compiler for that machine and rt are there: it builds them by c/build.sh
# and c/program.sh, and archives them. In the emulator of qemu-user-static, where it is there, it runs the examples and tests in C;
# compares what 2,000 random sets and 200 random schedules come to with the libraries for x86-64, and runs of the program with those of
# the program for x86-64. c/build.sh must have built the libraries for x86-64: library.sh does.
# usage: arm.sh
. "$(dirname -- "$0")/../tools/usage.sh"
takes 0 0 "$@"
cd "$(dirname -- "$0")/../examples" || exit 1
. ../checks/expect.sh
. ../checks/in_c.sh
CC=aarch64-linux-gnu-gcc
native=${NATIVE_CC:-cc}
python=$PWD/../python
arm=$c/out/aarch64
# The emulator, which finds the C library of the compiler.
qemu="qemu-aarch64-static -L /usr/aarch64-linux-gnu"

# made: the files have their modes and notes, and the Python package keeps the library for this machine
made() {
    find "$arm" -type f -printf '%m %P\n' | sort -k 2 >"$work/out"
    printf '%s\n' '755 edfvd' '644 edfvd.pc' '644 edfvd.sources' '644 libedfvd.a' '644 libedfvd.so' '644 libedfvd.so.sources' '644 libedfvd_core.a' |
        sort -k 2 >"$work/wanted"
    judge 0 0 "$work/wanted" 'the files for 64-bit ARM'
    # shellcheck disable=SC2016
    for name in edfvd libedfvd.so; do
        passes "the note beside $name" sh -c 'here=$1; . "$1/sources.sh"; is_noted "$1/c/out/aarch64/$2" "aarch64/$2"' sh "$c/.." "$name"
    done
    passes 'the library of the Python package is for this machine' cmp "$python/edfvd/libedfvd.so" "$c/out/libedfvd.so"
    aarch64-linux-gnu-nm -D --defined-only "$arm/libedfvd.so" | sed 's/.* //' >"$work/out"
    nm -D --defined-only "$c/out/libedfvd.so" | sed 's/.* //' >"$work/wanted"
    judge 0 0 "$work/wanted" 'the calls of the shared library'
}

# tried_in_c: each example and test of c, except that of places, since the emulator sets no limit on memory. Those of threads are tried
# with fewer calls, since it is slow.
tried_in_c() {
    stated
    compiled examples/posix "$work/posix" -O2 -static "$arm/libedfvd_core.a"
    # In the emulator a program cannot call itself, so the words come from here.
    # shellcheck disable=SC2086
    compiled tests/standins "$work/standins" -O2 && passes tests/standins $qemu "$work/standins" ab '' "$(printf '\377\200!')"
    for source in $in_c; do
        name=${source##*/}
        [ "$name" != places ] || continue
        library=$arm/$(library_for "$name")
        words=
        case $name in
        fuzz | schedules) words='1 2000' ;;
        threads) words=2000 ;;
        esac
        compiled "$source" "$work/$name" -O2 -static "$library" || continue
        # shellcheck disable=SC2086
        tries "$source" "$name" $qemu "$work/$name" $words
    done
}

# in_shared: an example with the shared library
in_shared() {
    compiled examples/control "$work/shared" -O2 "$arm/libedfvd.so" || return
    # shellcheck disable=SC2086
    tries 'control with the shared library' control env LD_LIBRARY_PATH="$arm" $qemu -E LD_LIBRARY_PATH="$arm" "$work/shared"
}

# compared: the random sets and schedules come to the same text. It has a part for each, and statuses of many kinds.
compared() {
    compiled tests/cross "$work/cross" -O2 -static "$arm/libedfvd_core.a"
    # shellcheck disable=SC2086
    passes 'tests/cross for x86-64' "$native" -std=c11 $strict -I"$c" -O2 "$c/tests/cross.c" "$c/out/libedfvd_core.a" -o "$work/cross.x86"
    # shellcheck disable=SC2086
    timeout "$limit" $qemu "$work/cross" 2000 200 >"$work/arm.text" 2>&1
    timeout "$limit" "$work/cross.x86" 2000 200 >"$work/text" 2>&1
    passes 'the random sets and schedules of both machines' cmp "$work/arm.text" "$work/text"
    passes 'the 2,000 sets' [ "$(grep -c '^set ' "$work/arm.text")" -eq 2000 ]
    passes 'the 200 schedules' [ "$(grep -c '^schedule ' "$work/arm.text")" -eq 200 ]
    passes 'the statuses, of which there are 20 or more' [ "$(sed -n 's/.* calls, \([0-9]*\) statuses$/\1/p' "$work/arm.text")" -ge 20 ]
    echo "arm: $(tail -n 1 "$work/arm.text") on both machines"
}

# both WORDS..: the two programs write the same to standard output and to standard error, and have the same status
both() {
    bounded "$program" "$@" >"$work/wanted" 2>"$work/err"
    want=$?
    # shellcheck disable=SC2086
    bounded $qemu "$arm/edfvd" "$@" >"$work/out" 2>"$work/err.arm"
    judge "$want" $? "$work/wanted" "$* on 64-bit ARM"
    cp "$work/err.arm" "$work/out"
    judge 0 0 "$work/err" "$* on 64-bit ARM, standard error"
}

# archived: dist.sh makes an archive for the machine, whose program is the one for ARM
archived() {
    passes 'dist.sh for aarch64' ../dist.sh "$work" aarch64
    passes 'one archive for aarch64' [ "$(find "$work" -name 'edfvd-*-aarch64-linux.tar.gz' | wc -l)" -eq 1 ]
    mkdir "$work/unpacked"
    passes 'the archive' tar -xzf "$work"/edfvd-*-aarch64-linux.tar.gz --strip-components=1 -C "$work/unpacked"
    for file in edfvd libedfvd.a libedfvd_core.a libedfvd.so; do
        to=lib/$file
        [ "$file" != edfvd ] || to=libexec/edfvd/edfvd
        passes "$file in the archive" cmp "$arm/$file" "$work/unpacked/$to"
    done
    passes 'what RELEASE says' grep -qx '# needs Linux on aarch64, with glibc 2.34 or later' "$work/unpacked/share/doc/edfvd/RELEASE"
    aarch64-linux-gnu-objdump -T "$arm/edfvd" "$arm/libedfvd.so" | sed -n 's/.*GLIBC_\([0-9.]*\).*/\1/p' | sort -t . -k 1,1n -k 2,2n |
        tail -n 1 >"$work/out"
    judge 0 0 "$(says 2.34)" 'the newest glibc that is asked for on 64-bit ARM'
}

if has "$CC" '64-bit ARM is' && has rt '64-bit ARM is'; then
    limit=3600
    passes 'c/build.sh' env -u LD -u AR -u OBJCOPY CC="$CC" "$c/build.sh"
    passes 'c/program.sh' env -u LD -u AR -u OBJCOPY CC="$CC" "$c/program.sh"
    limit=600
    made
    if has python3 'the layout of structs is'; then
        python3 "$c/declared.py" offsets >"$work/offsets.c"
        # shellcheck disable=SC2086
        passes 'the layout of structs' "$CC" -std=c11 $strict -I"$c" -c "$work/offsets.c" -o "$work/offsets.o"
    fi
    if has qemu-aarch64-static 'what runs on 64-bit ARM is'; then
        tried_in_c
        in_shared
        compared
        for_examples both
    fi
    archived
fi
ends arm
