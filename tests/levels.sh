#!/usr/bin/env bash
# Prints the levels of this processor for which the coder has code, the least one first: v2 v3 v4.
set -eu
has() {
    local each
    for each in "$@"; do grep -m 1 '^flags' /proc/cpuinfo | grep -qw "$each" || return; done
}
levels=v2
if has avx2 bmi2 movbe; then
    levels+=" v3"
    if has avx512f avx512bw avx512cd avx512dq avx512vl; then levels+=" v4"; fi
fi
echo "$levels"
