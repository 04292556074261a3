#!/bin/sh
# Warns where the toolchain on the PATH is not the kit of the file KIT, with which this version was proved, or where README
# names another one. It refuses nothing: what another kit proves is proved too.
# usage: kit.sh
. "$(dirname -- "$0")/../tools/usage.sh"
takes 0 0 "$@"
cd "$(dirname -- "$0")/.." || exit 0
wanted=$(cat KIT)
found=$(rt version 2>/dev/null) || found='no kit, as no rt is on the PATH'
if [ "$found" != "$wanted" ]; then
    echo "kit: warning: proved here with $found, and KIT says $wanted" >&2
fi
if ! grep -qF "${wanted%% *}" README.md; then
    echo "kit: warning: README.md does not name ${wanted%% *}, the kit of KIT" >&2
fi
exit 0
