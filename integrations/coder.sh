# shellcheck shell=bash
# For the build scripts of the integrations: `archive` is the coder for C, which has its code for two
# processors. LRC_LIBRARIES names its folder, if it is not built/ at the top of the clone.
top=$(cd "$(dirname "${BASH_SOURCE[0]}")/.." && pwd)
archive=${LRC_LIBRARIES:-$top/built}/liblrc_coder.a
if [ ! -e "$archive" ]; then
    echo "no $archive: build it by tools/libraries.py lrc_coder, or set LRC_LIBRARIES to its folder" >&2
    exit 1
fi
