#!/bin/sh
# Makes an archive FOLDER/edfvd-VERSION-MACHINE-linux.tar.gz of what install.sh installs: the proved program, its manual page, the
# pages, the licences, the page edfvd.html, RELEASE with version, commit, kit and the sha256 of each file, and the C libraries with their
# header, if c/build.sh has made them or those in the folder prebuilt are of the sources that are here. It writes the archive's sha256. The
# same program, libraries, page and commit make the same bytes, whatever the umask: an archive with the modes of umask 077 would lock the
# folders that it is unpacked over.
# The archive has one folder, edfvd-VERSION-MACHINE-linux, from which the program can be run as it is. It is unpacked over a prefix by
#     tar -xzf edfvd-VERSION-MACHINE-linux.tar.gz --strip-components=1 -C PREFIX
# and the program needs glibc 2.34 or later there. MACHINE is x86_64, or aarch64 for 64-bit ARM, and without the word this machine.
# usage: dist.sh FOLDER [MACHINE]
set -u
unset CDPATH TAR_OPTIONS GZIP
umask 022
here=$(dirname -- "$(readlink -f -- "$0")")
. "$here/tools/usage.sh"
takes 1 2 "$@"
machine=${2-$(uname -m)}

# refuse WHY: ends without an archive
refuse() {
    echo "dist.sh: $1" >&2
    exit 1
}

# clean: nothing is left but the archive
clean() {
    trap '' HUP INT TERM
    rm -rf "$work"
    if [ -n "$new" ]; then rm -f "$new"; fi
}

[ -d "$1" ] || refuse "$1 is no folder"
new=
work=$(mktemp -d) || exit 1
trap clean EXIT
trap 'exit 1' HUP INT TERM
"$here/install.sh" "$work/edfvd" "$machine" >/dev/null || exit 1
if ! [ -e "$work/edfvd/include/edfvd.h" ]; then
    echo "dist.sh: the archive has no C libraries, since $here/c/build.sh has not made them, and prebuilt has none of these sources" >&2
fi

name=edfvd-$(awk 'NR == 1 { print $3 }' "$work/edfvd/share/doc/edfvd/RELEASE")-$machine-linux
mv "$work/edfvd" "$work/$name" || exit 1
seconds=0
[ ! -e "$here/.git" ] || seconds=$(git -C "$here" log -1 --format=%ct) || exit 1
if ! { tar --sort=name --format=gnu --owner=0 --group=0 --numeric-owner --mode='u=rwX,go=rX' --mtime="@$seconds" -C "$work" \
    -cf "$work/archive" "$name" && gzip -n "$work/archive"; }; then
    refuse 'the archive was not made'
fi
# Written beside its place under a name that nobody could know, and renamed in one step.
if [ -d "$1/$name.tar.gz" ]; then refuse "$1/$name.tar.gz is a folder"; fi
new=$(mktemp "$1/.edfvd.XXXXXX" 2>/dev/null) || refuse "$1 cannot be written"
if ! { cat "$work/archive.gz" >"$new" && chmod 644 "$new" && mv -f "$new" "$1/$name.tar.gz"; }; then
    refuse "$1/$name.tar.gz cannot be written"
fi
new=
cd -- "$1" && sha256sum "$name.tar.gz"
