# shellcheck shell=sh disable=SC2154
# Sourced by scripts that write texts with the version. They set $here to the repository's folder.

# about [MACHINE]: the version, the commit, the kit and what the program needs, a line each: without the word, that of this machine. A
# version that CHANGELOG.md has changes after is marked so.
about() {
    version=$(awk '/^version: / { version = $2 } /^## Since / { changes = "+changes" } END { print "edfvd " version changes }' \
        "$here/CITATION.cff" "$here/CHANGELOG.md") || return
    commit=unknown
    if [ -e "$here/.git" ]; then
        commit=$(git -C "$here" rev-parse HEAD 2>/dev/null) || commit=unknown
        [ -z "$(git -C "$here" status --porcelain 2>/dev/null)" ] || commit="$commit, and changes that are not committed"
    fi
    cat <<END
$version
commit $commit
kit $(cat "$here/KIT")
needs Linux on ${1:-$(uname -m)}, with glibc 2.34 or later
END
}

# pkg_config LIBRARIES HEADER: the text of edfvd.pc, from which pkg-config takes the flags for a program in C. The C libraries are in the
# folder LIBRARIES, and edfvd.h is in the folder HEADER. In these two names a backslash stands before each blank; pkg-config itself writes
# the folder of edfvd.pc, ${pcfiledir}, in this way.
pkg_config() {
    version=$(sed -n 's/^version: //p' "$here/CITATION.cff") || return
    cat <<END
libdir=$1
includedir=$2

Name: edfvd
Description: EDF-VD task sets tested, traces judged, and a scheduler driven event by event
Version: $version
Libs: -L\${libdir} -ledfvd
Cflags: -I\${includedir}
END
}
