#!/bin/sh
# Tries dist.sh in a copy of the tree: the archive has what install.sh installs, and the same bytes each time, whatever the umask is; it
# is unpacked over a prefix and run; a call that fails or is interrupted leaves the archive that stood there before.
# usage: archive.sh
. "$(dirname -- "$0")/../tools/usage.sh"
takes 0 0 "$@"
cd "$(dirname -- "$0")/../examples" || exit 1
. ../checks/copied_tree.sh
put_program
version=$(sed -n '/^## /{ s/^## Since \(.*\)/\1+changes/; s/^## \([0-9.]*\).*/\1/; p; q; }' ../CHANGELOG.md)
name=edfvd-$version-$(uname -m)-linux
none='dist.sh: the archive has no C libraries'

# archives FOLDER SAYS: an archive there, whose sum is written
archives() {
    mkdir -p "$1"
    bounded env PATH="$alone" "$tree/dist.sh" "$1" >"$work/sum" 2>"$work/err"
    holds "dist.sh $1" [ $? -eq 0 ]
    holds "dist.sh $1 says '$2'" [ "$(sed 's/, since.*//' "$work/err")" = "$2" ]
    holds "the sum that dist.sh $1 writes" sums_hold "$1" "$work/sum"
    ls -A "$1" >"$work/out"
    judge 0 0 "$(says "$name.tar.gz")" "what dist.sh writes to $1"
}

refused() {
    tries 2 "$work/empty" 'usage: dist.sh FOLDER [MACHINE]' "$alone" "$tree/dist.sh"
    tries 0 "$(says 'usage: dist.sh FOLDER [MACHINE]')" '' "$alone" "$tree/dist.sh" --help
    tries 1 "$work/empty" 'there is no program for sparc64 here' "$alone" "$tree/dist.sh" "$work" sparc64
    tries 1 "$work/empty" 'is no folder' "$alone" "$tree/dist.sh" "$tasks"
    mkdir -p "$work/way/$name.tar.gz"
    tries 1 "$work/empty" "$name.tar.gz is a folder" "$alone" "$tree/dist.sh" "$work/way"
    find "$work/way" >"$work/out"
    printf '%s\n' "$work/way" "$work/way/$name.tar.gz" >"$work/wanted"
    judge 0 0 "$work/wanted" 'what stood beside a folder at the place of the archive'
}

# The archive is the same under each umask, from each folder and with each setting of tar and gzip.
same_bytes() {
    for mask in 022 027 077; do
        umask "$mask"
        archives "$work/$mask" "$none"
        umask 022
        holds "under umask $mask" cmp "$work/022/$name.tar.gz" "$work/$mask/$name.tar.gz"
        holds "the archive's mode under umask $mask" [ "$(find "$work/$mask" -type f -printf %m)" = 644 ]
    done
    mkdir -p "$work/a folder/to here" "$work/elsewhere/to here"
    (
        cd "$work/a folder" || exit
        CDPATH=$work/elsewhere GZIP=-1 TAR_OPTIONS=--mode=0600 bounded env PATH="$alone" "$tree/dist.sh" 'to here' >"$work/text" 2>/dev/null
    )
    sed 's/^[0-9a-f]*  //' "$work/text" >"$work/out"
    judge 0 0 "$(says "$name.tar.gz")" 'dist.sh with a relative folder writes'
    holds 'from another folder' cmp "$work/022/$name.tar.gz" "$work/a folder/to here/$name.tar.gz"
}

# The modes in the archive are 755 and 644, its owner is 0, and its files are those that are installed.
content() {
    tar --numeric-owner -tvzf "$work/022/$name.tar.gz" >"$work/list"
    awk '{ wanted = $1 ~ /^d/ || $6 ~ /\/(bin|libexec\/edfvd)\/edfvd$/ ? "rwxr-xr-x" : "rw-r--r--" }
        substr($1, 2) != wanted || $2 != "0/0" || $6 !~ /^edfvd-[^\/]*-linux\// { print }' "$work/list" >"$work/out"
    judge 0 0 "$work/empty" 'modes, owners and names in the archive'
    bounded env PATH="$alone" "$tree/install.sh" "$work/prefix" >/dev/null
    mkdir "$work/unpacked"
    tar -xzf "$work/022/$name.tar.gz" -C "$work/unpacked"
    holds 'what is in the archive is what is installed' diff -r "$work/prefix" "$work/unpacked/$name"
    tries 0 control/check.txt '' "$alone" "$work/unpacked/$name/bin/edfvd" check "$tasks"
}

# over_prefix TEXT: the line that the heading of dist.sh has for this unpacks the archive over a prefix in which something stands
over_prefix() {
    line=$(sed -n 's/^#  *\(tar -xzf .*\)/\1/p' ../dist.sh)
    rm -rf "$work/over"
    mkdir -p "$work/over/bin"
    echo mine >"$work/over/bin/mine"
    (
        cd "$1" || exit
        PREFIX=$work/over
        # shellcheck disable=SC2046
        set -- $(echo "$line" | sed "s/edfvd-VERSION-MACHINE-linux/$name/; s/ PREFIX\$//")
        "$@" "$PREFIX"
    )
    rm -rf "$work/mine"
    cp -R "$work/over" "$work/mine"
    rm "$work/mine/bin/mine"
    holds 'the archive over a prefix' diff -r "$work/prefix" "$work/mine"
    holds 'what stood there' [ "$(cat "$work/over/bin/mine")" = mine ]
    holds 'the checksums over a prefix' sums_hold "$work/over" share/doc/edfvd/RELEASE
    tries 0 control/check.txt '' "$alone" "$work/over/bin/edfvd" check "$tasks"
}

# The libraries are in the archive if they are there, or if prebuilt ones are of these sources.
libraries() {
    put_prebuilt libedfvd.so aarch64/libedfvd.so aarch64/libedfvd_core.a
    archives "$work/with_prebuilt" ''
    tar -tzf "$work/with_prebuilt/$name.tar.gz" >"$work/list"
    holds 'the prebuilt library' grep -q '/lib/libedfvd\.so\.[0-9]*$' "$work/list"
    holds 'the header beside it' grep -q '/include/edfvd\.h$' "$work/list"
    rm -r "$tree/prebuilt" "$tree/c"
    put_libraries
    archives "$work/with" ''
    bounded env PATH="$alone" "$tree/install.sh" "$work/prefix" >/dev/null
    over_prefix "$work/with"
    holds 'the libraries' [ -e "$work/over/lib/pkgconfig/edfvd.pc" ]
    rm -r "$tree/c"
}

# for_arm: the archive for 64-bit ARM has its name, and what install.sh installs for that machine
for_arm() {
    [ "$(uname -m)" = x86_64 ] || return 0
    put_arm
    mkdir "$work/arm"
    bounded env PATH="$alone" "$tree/dist.sh" "$work/arm" aarch64 >"$work/sum" 2>"$work/err"
    holds 'dist.sh for aarch64' [ $? -eq 0 ]
    holds 'the sum for ARM' sums_hold "$work/arm" "$work/sum"
    ls -A "$work/arm" >"$work/out"
    judge 0 0 "$(says "edfvd-$version-aarch64-linux.tar.gz")" 'what dist.sh writes for aarch64'
    bounded env PATH="$alone" "$tree/install.sh" "$work/installed" aarch64 >/dev/null
    tar -xzf "$work/arm/edfvd-$version-aarch64-linux.tar.gz" -C "$work/arm"
    holds 'what is in the archive for ARM is what is installed' diff -r "$work/installed" "$work/arm/edfvd-$version-aarch64-linux"
    holds 'the program for ARM' [ "$(cat "$work/arm/edfvd-$version-aarch64-linux/libexec/edfvd/edfvd")" = 'edfvd for ARM' ]
    rm -r "$tree/c"
}

# A link at a name that a call could be guessed to write leads nowhere, nor does one at the archive's own place.
planted() {
    echo untouched >"$work/victim"
    for planted in '.$$' ''; do
        rm -rf "$work/planted"
        mkdir "$work/planted"
        bounded env PATH="$alone" victim="$work/victim" at="$work/planted/$name.tar.gz" dist="$tree/dist.sh" sh -c "
            ln -s \"\$victim\" \"\$at$planted\"
            exec \"\$dist\" '$work/planted'
        " >"$work/out" 2>/dev/null
        holds 'what the link leads to' cmp "$work/victim" "$(says untouched)"
        holds 'the archive beside the link' cmp "$work/022/$name.tar.gz" "$work/planted/$name.tar.gz"
    done
}

# stopped TOOL NUMBER SIGNAL: a call that the tool stops so leaves the archive that stood there, and nothing else
stopped() {
    stand_in "$1" "$2" "$3"
    echo before >"$work/stop/$name.tar.gz"
    bounded env --default-signal=INT PATH="$work/stopped:$alone" "$tree/dist.sh" "$work/stop" >"$work/out" 2>"$work/err"
    judge 1 $? "$work/empty" "dist.sh, stopped by $1 with signal $3"
    holds 'the archive that stood there' cmp "$work/stop/$name.tar.gz" "$(says before)"
    ls -A "$work/stop" >"$work/out"
    judge 0 0 "$(says "$name.tar.gz")" "what dist.sh leaves, stopped by $1 with signal $3"
}

# The second cat and the last mktemp are those that write the archive beside its place.
interrupted() {
    mkdir "$work/stop"
    stopped tar 1 INT
    stopped gzip 1 TERM
    stopped cat 2 INT
    stopped tar 1 0
    stopped gzip 1 0
    stopped cat 2 0
    stopped mktemp 4 0
    stopped mv 1 0
}

refused
same_bytes
content
over_prefix "$work/022"
libraries
for_arm
planted
interrupted
ends archive
