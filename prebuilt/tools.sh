# shellcheck shell=sh disable=SC2034
# Sourced by the scripts of this folder, and by reproduce.sh above it, before they do anything: $here is the repository's folder.
set -u
unset CDPATH
case ${0##*/} in
reproduce.sh) here=$(cd "$(dirname -- "$0")" && pwd) ;;
*) here=$(cd "$(dirname -- "$0")/.." && pwd) ;;
esac || exit 1
. "$here/tools/usage.sh"
. "$here/sources.sh"

# The programs and libraries here, the page, what is for 64-bit ARM, and all files here that are not scripts, in the order of their names,
# without SHA256SUMS, which has their sums.
native='edfvd libedfvd.so'
page=edfvd.html
arm='aarch64/edfvd aarch64/libedfvd.so aarch64/libedfvd_core.a'
files="LICENSE-APACHE LICENSE-MIT SOURCES THIRD-PARTY-LICENSES $arm edfvd $page libedfvd.so"
arm_cc=aarch64-linux-gnu-gcc

# tools_of TOOL..: for each word, which is a name, a blank and a command, the line of SOURCES with the version of the command
tools_of() {
    for tool; do
        echo "${tool%% *} $("${tool#* }" --version 2>/dev/null | sed 1q)"
    done
}

# compilers: the lines for the compiler and the linker in C, on which the bytes of the library depend
compilers() {
    tools_of "cc ${CC:-cc}" "ld ${LD:-ld}"
}

# arm_compilers: the lines for the tools that compile and link for 64-bit ARM
arm_compilers() {
    tools_of "aarch64/cc $arm_cc" 'aarch64/ld aarch64-linux-gnu-ld'
}

# has_arm: whether there is a compiler for 64-bit ARM
has_arm() {
    command -v "$arm_cc" >/dev/null 2>&1
}

# optimizer: the line for the tool on which the bytes of the page depend
optimizer() {
    tools_of 'wasm-opt wasm-opt'
}
