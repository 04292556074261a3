#!/bin/sh
# The installed command edfvd: runs the proved program, which stands in libexec/edfvd beside the folder of this file, so the whole prefix
# may be moved. The words --help and --version, each alone, are answered here: the program has no such words.
set -u
file=$0
[ ! -L "$0" ] || file=$(readlink -f -- "$0")
case $file in
*/*) home=${file%/*}/../libexec/edfvd ;;
*) home=../libexec/edfvd ;;
esac
case $#${1-} in
1--help | 1--version)
    cat "$home/${1#--}.txt" || exit 8
    exit
    ;;
esac
exec "$home/edfvd" "$@"
