#!/bin/sh
# bench/store_c/run.sh [FOLDER]: proves and builds the store for C, many reads in one call of
# Rattle, and clients in Rattle that wait, in a clone in FOLDER. It prints what a read costs from C
# and inside Rattle, and how many reads four threads make. It needs gcc and git. From nothing it
# takes half an hour; a FOLDER that is kept is used again.
set -eu
bench=$(cd "$(dirname "$0")" && pwd)
folder=${1:-$(mktemp -d)/store}
[ -d "$folder/crates" ] || git clone -q "$bench/../.." "$folder"
crate="$folder/crates/timed_store"
mkdir -p "$crate/src" "$crate/proofs/read_all" "$crate/proofs/read_once"
cp "$bench/timed_store.rattle" "$crate/src/lib.rt"
cat > "$crate/proofs/read_all/Invariants.antt" << 'END'
use Rattle.std.proofs.Common.{◌≤◌}
use Rattle.timed_store.proofs.read_all.Given as goal

abbrev pub invariant-loop : goal.invariant-loop
invariant-loop l = l.done ≤ l.counter
END
cat > "$crate/proofs/read_once/Answers.antt" << 'END'
use Rattle.timed_store.proofs.read_once.Goals as goal

pub copy_out-requires-clause-stands : goal.copy_out-requires-clause-stands
copy_out-requires-clause-stands c =
    let here = rw c.in-Ok-Granted.field-0-is at c.in-Ok-Granted.ensures.grant in
    (here.blob.bytes, here.blob.lost, here.represents.stands)
END
grep -q '^timed_store' "$folder/crates.txt" || echo 'timed_store staticlib: shared session lent lrc_code sealed history book gate requests bytes' >> "$folder/crates.txt"
mkdir -p "$folder/crates/clients/src"
for each in "$bench"/../clients/*.rattle; do
    cp "$each" "$folder/crates/clients/src/$(basename "$each" .rattle).rt"
done
grep -q '^clients' "$folder/crates.txt" || echo 'clients may_wait=8: anyhow shared' >> "$folder/crates.txt"
(cd "$folder/crates/clients" && rt run -- copies 1 1) > "$folder/log" 2>&1 || { cat "$folder/log" >&2; exit 1; }
(cd "$folder/crates/timed_store" && rt lib) > "$folder/log" 2>&1 || { cat "$folder/log" >&2; exit 1; }
"$folder/tools/libraries.py" --to "$folder/built" lrc_store > "$folder/log" 2>&1 || { cat "$folder/log" >&2; exit 1; }
gcc -std=gnu11 -O2 -I "$folder/include" "$bench/cost.c" "$folder/crates/timed_store/out/libtimed_store.a" \
    "$folder/built/liblrc_store.a" "$(dirname "$(rt doc)")/c/liblibc_c.a" -lpthread -o "$folder/cost"
# the code that is timed inside Rattle is for the same processor
export LRC_STORE_CPU=v2
lscpu | sed -n 's/^Model name: */processor: /p'
echo "load: $(cut -d ' ' -f 1-3 /proc/loadavg)"
"$folder/cost"
for _ in 1 2 3 4 5 6 7; do
    "$folder/cost" 4 300
    "$folder/crates/clients/out/clients" copies 4 300 \
        | awk '{ printf "waiting in Rattle: %.2f million reads a second\n", $2 * 1000 / $4 }'
done
