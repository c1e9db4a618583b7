#!/bin/sh
# bench/run.sh [--lost] [ROUNDS]: proves and builds the coder as a static library for x86-64-v2,
# x86-64-v3 and x86-64-v4, and times it beside ISA-L and memcpy. Prints five tables, or with --lost
# that of lost fragments alone. It needs gcc, binutils and libisal-dev of Debian, and fetches nothing.
set -eu
bench=$(cd "$(dirname "$0")" && pwd)
for tool in gcc objcopy nm ar; do
    command -v $tool > /dev/null || { echo "bench: $tool is missing: apt-get install gcc binutils" >&2; exit 1; }
done
echo '#include <isa-l.h>' | gcc -E - > /dev/null 2>&1 || { echo "bench: ISA-L is missing: apt-get install libisal-dev" >&2; exit 1; }
grep -q avx2 /proc/cpuinfo || { echo "bench: this processor has no AVX2" >&2; exit 1; }
made=$(mktemp -d)
trap 'rm -r "$made"' EXIT
# linked CRATE CPU: one object, whose calls have the processor's name before their own
linked() {
    (cd "$made" && ar x "$made/lib$1.a" && rm "$made/lib$1.a")
    nm --defined-only "$made"/*.o | awk -v cpu="$2" '/ T (timed|lrc)_/ { print $3, cpu "_" $3 }' > "$made/names"
    ld -r -o "$made/$1.$2.linked" "$made"/*.o
    objcopy --redefine-syms="$made/names" "$made/$1.$2.linked"
    rm "$made"/*.o
}
archives='coder_c/v2 coder_c/v3 coder_c/v4'
if [ "${1:-}" = --lost ]; then shift; else archives="bench_coder/v2 bench_coder/v3 $archives"; fi
for each in $archives; do
    crate=${each%/*} cpu=${each#*/}
    python3 "$bench/../tools/rt_once.py" archive "$crate" "$cpu" "$made/lib$crate.a" > "$made/log" 2>&1 \
        || { cat "$made/log" >&2; exit 1; }
    tail -n 1 "$made/log" >&2
    linked "$crate" "$cpu"
done
gcc -O2 -o "$made/bench" "$bench/bench.c" "$made"/*.linked -lisal
lscpu | sed -n 's/^Model name: */processor: /p'
echo "load: $(cut -d ' ' -f 1-3 /proc/loadavg)"
"$made/bench" "$@"
