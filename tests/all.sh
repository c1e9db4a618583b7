#!/usr/bin/env bash
# All proofs, mutants and tests, also on a fresh machine: installs what the tests need, runs the
# gate, and then the other tests. CI runs it. The last line counts all parts.
set -euo pipefail
cd "$(dirname "$0")/.."
tests/setup.sh
LRC_GATE_LOG=$(mktemp) # its table is printed at the end once more
export LRC_GATE_LOG
if ! bench/gate_time.py | tee "$LRC_GATE_LOG"; then
    echo "0 passed, 1 failed: rt ci"
    exit 1
fi
exec tests/gate.py 1
