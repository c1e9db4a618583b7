#!/usr/bin/env bash
# choice.sh PROGRAM [HIGHEST]: tests/edges/choice.c takes the code for this processor, or the best
# that the environment allows, at most the highest, v4 if none is given.
set -eu
read -ra levels <<< "$("$(dirname "$0")/../levels.sh")"
if [ "${2:-v4}" = v3 ] && [ "${levels[-1]}" = v4 ]; then unset 'levels[-1]'; fi
best=${levels[-1]}
"$1" "$best"
for each in v4 other ""; do CHOICE=$each "$1" "$best"; done
for each in "${levels[@]}"; do CHOICE=$each "$1" "$each"; done
echo "choice: $best, and each of ${levels[*]} if it is forced"
