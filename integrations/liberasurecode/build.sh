#!/usr/bin/env bash
# Builds libphazr.so.1: build.sh FOLDER [FLAG..], with flags for gcc. It needs gcc,
# liberasurecode-dev, and the coder for C (tools/libraries.py lrc_coder).
set -eu
here=$(dirname "$0")
# shellcheck source=integrations/coder.sh
. "$here/../coder.sh"
gcc -std=c11 -O2 -shared -fPIC -fvisibility=hidden -Wall -Wextra -Wpedantic -Wconversion -Wshadow \
    -Werror -I "$top/include" -I "$here/.." "${@:2}" "$here/lrc_backend.c" "$here/libphazr.c" \
    "$archive" -lerasurecode -Wl,-soname,libphazr.so.1 -Wl,-z,nodelete -Wl,--exclude-libs,ALL \
    -o "$1/libphazr.so.1"
