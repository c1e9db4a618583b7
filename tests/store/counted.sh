#!/usr/bin/env bash
# Makes a shared library of the store that counts its blocks of memory, by tests/store/counted.c, of
# the archive in the folder that LRC_LIBRARIES names:
#
#     tests/store/counted.sh FOLDER
set -eu
cd "$(dirname "$0")/../.."
mkdir -p "$1"
# what counts comes first, so that no block is made before it runs
gcc -std=gnu11 -O1 -fPIC -Wall -Wextra -Wconversion -Wshadow -Werror -shared tests/store/counted.c \
    -Wl,--whole-archive "$LRC_LIBRARIES/liblrc_store.a" -Wl,--no-whole-archive \
    -Wl,--wrap=malloc,--wrap=calloc,--wrap=realloc,--wrap=free -Wl,-Bsymbolic-functions \
    -Wl,-soname,liblrc_store.so.0.1 -lpthread -o "$1/liblrc_store.so"
ln -sf liblrc_store.so "$1/liblrc_store.so.0.1"
