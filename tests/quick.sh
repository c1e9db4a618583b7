#!/usr/bin/env bash
# The tests for the time between two runs of the gate, in at most ten minutes on two processors,
# without a proof kept: documents, the form of sources, the program and all scripts by `rt try`, and
# the proof of `gf256` with its mutants. If LRC_LIBRARIES names the folder of the libraries, also
# the tests of the coder and of the store over them. The last line counts all tests, and the lines
# before it have the seconds of the longest. tests/all.sh is the gate.
cd "$(dirname "$0")/.." || exit
command -v pytest > /dev/null || { echo "quick.sh: no pytest: run tests/setup.sh" >&2; exit 1; }
tests=(tests/test_{documents,pages,figures,prose,versions,declarations}.py)
tests+=(tests/test_{crates,commits,form,gate,quick}.py)
if [ -n "${LRC_LIBRARIES:-}" ]; then
    tests+=(tests/test_{store,library}.py)
else
    echo "skipped: the libraries, as LRC_LIBRARIES names no folder of tools/libraries.py"
fi
exec timeout 2400 pytest -q -rs --durations=10 "${tests[@]}"
