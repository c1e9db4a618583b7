#!/usr/bin/env bash
# Runs the command go in bindings/go, over the libraries in the folder that LRC_LIBRARIES names:
#
#     tests/store/go.sh WORD..
#
# It links the store, or the library that LRC_GO_LIBRARY names.
set -eu
cd "$(dirname "$0")/../../bindings/go"
include=$PWD/../../include
library=${LRC_GO_LIBRARY:-lrc_store}
# The go command does not see that the header changes, but that a flag does.
sum=$(cksum < "$include/$library.h")
export CGO_CFLAGS="'-I$include' -Wall -Wextra -Werror -DHEADER_SUM=${sum% *}"
export CGO_LDFLAGS="'-L$LRC_LIBRARIES' -l$library '-Wl,-rpath,$LRC_LIBRARIES'"
# The library of tests/store/counted.sh counts the slots that the package makes, too.
[ -z "${LRC_COUNTED:-}" ] || CGO_LDFLAGS+=" -Wl,--wrap=malloc,--wrap=calloc,--wrap=free"
export GOFLAGS="-tags=nopkgconfig -mod=mod" GOPROXY=off
exec go "$@"
