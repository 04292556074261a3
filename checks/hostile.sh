#!/bin/sh
# Gives hostile files to each script that reads files, and to record/fifo.c: no file, a folder, a pipe, a device, bytes that are no
# text, lines of 100 MB, numbers of thousands of digits, documents that nest deeply, and what else may come (hostile.py has the
# table). Each run must end with one line and a status, in bounded time and memory. No built program is needed.
# usage: hostile.sh
. "$(dirname -- "$0")/../tools/usage.sh"
takes 0 0 "$@"
cd "$(dirname -- "$0")/../examples" || exit 1
if ! python3 -c 'import tomllib' 2>/dev/null; then
    echo "hostile: skipped, there is no python3 of version 3.11 or later"
    exit 0
fi
exec python3 -B ../checks/hostile.py
