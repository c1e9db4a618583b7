# shellcheck shell=bash
# What the test scripts share: `test_of` runs a test, or skips it and names what it lacks; `summary`
# is the last line. The script that sources this file stands at the top of the repository. No test
# installs anything: tests/setup.sh does. LRC_TEST names one test, and the others are left out. With
# LRC_FIRST_FAILURE the script ends at the first failure.
work=$(mktemp -d)
trap 'rm -rf "$work"' EXIT
passed=0
failed=0
skipped=()

# Whether a command or a file is here.
has() {
    command -v "$1" > /dev/null || [ -e "$1" ]
}

# test_of NAME NEED PACKAGE FUNCTION WORD..: calls the function with the words, or skips it if NEED,
# a command or a file of PACKAGE, is missing.
test_of() {
    local name=$1 need=$2 package=$3
    shift 3
    [ "${LRC_TEST:-$name}" = "$name" ] || return 0
    if ! has "$need"; then
        skipped+=("$name: no $package")
    elif "$@"; then
        passed=$((passed + 1))
    else
        failed=$((failed + 1))
        echo "failed: $name"
        [ -z "${LRC_FIRST_FAILURE:-}" ] || exit 1
    fi
}

# summary WHAT: how many tests of it passed, failed and were skipped. It fails if one failed, and if
# there was none.
summary() {
    printf '%d tests of the %s passed, %d failed, %d skipped%s\n' "$passed" "$1" "$failed" \
        "${#skipped[@]}" "${skipped[*]:+ (${skipped[*]})}"
    [ $((passed + failed + ${#skipped[@]})) != 0 ] || {
        echo "no test of the $1 has the name ${LRC_TEST:-}" >&2
        return 1
    }
    [ "$failed" = 0 ]
}
