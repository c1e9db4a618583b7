#!/usr/bin/env bash
# Installs those of Debian's packages that the tests need and that are missing, and says first
# which. tests/all.sh runs it; no test installs anything.
set -eu

# What a test needs, a command or a file by a pattern, and the package that has it.
needs=(
    "gcc gcc"
    "g++ g++"
    "nm binutils"
    "clang clang"
    "clang-format clang-format"
    "/usr/lib/llvm-*/lib/clang/*/lib/linux/libclang_rt.asan-x86_64.a libclang-rt-dev"
    "cargo cargo"
    "cmake cmake"
    "git git"
    "mypy mypy"
    "shellcheck shellcheck"
    "go golang-go"
    "pkg-config pkg-config"
    "pytest python3-pytest"
    "python3 python3"
    "python3-coverage python3-coverage"
    "/usr/include/python3*/Python.h python3-dev"
    "valgrind valgrind"
    "ceph-osd ceph-osd"
    "/usr/include/rados/librados.h librados-dev"
    "/usr/include/rados/buffer.h libradospp-dev"
    "/usr/include/liberasurecode/erasurecode_backend.h liberasurecode-dev"
    "/usr/lib/python3/dist-packages/pyeclib python3-pyeclib"
)

# What tests/release.sh, the example of FUSE and the comparison with another coder for Go need. If it
# can't be had, tests are skipped by name.
wishes=(
    "/usr/share/gocode/src/github.com/klauspost/reedsolomon golang-github-klauspost-reedsolomon-dev"
    "/usr/lib/python3/dist-packages/fusepy.py python3-fusepy"
    "fusermount fuse3"
    "mmdebstrap mmdebstrap"
    "dh debhelper"
    "dh_python3 dh-python"
    "lintian lintian"
    "man man-db"
    "zsh zsh"
    "fish fish"
)

# lacking NEED..: the packages of those that are not here
lacking() {
    local each need
    for each in "$@"; do
        need=${each% *}
        command -v "$need" > /dev/null || compgen -G "$need" > /dev/null || echo "${each#* }"
    done
}

mapfile -t missing < <(lacking "${needs[@]}")
mapfile -t wished < <(lacking "${wishes[@]}")
if [ $((${#missing[@]} + ${#wished[@]})) = 0 ]; then
    echo "setup: all $((${#needs[@]} + ${#wishes[@]})) packages that the tests need are here"
    exit
fi
echo "setup: installs" "${missing[@]}" "${wished[@]}"
if [ "$(id -u)" != 0 ] || ! command -v apt-get > /dev/null; then
    [ ${#missing[@]} = 0 ] && exit
    echo "setup: install these packages, as root by apt-get or as your system does" >&2
    exit 1
fi
log=$(mktemp)
trap 'rm -f "$log"' EXIT
export DEBIAN_FRONTEND=noninteractive RUNLEVEL=1 # no service is started
get=(apt-get -o DPkg::Lock::Timeout=300)
install() { "${get[@]}" install -y --no-install-recommends "$@"; }
"${get[@]}" update > "$log" 2>&1 || [ ${#missing[@]} = 0 ] || { tail -20 "$log" >&2; exit 1; }
if [ ${#missing[@]} != 0 ] && ! install "${missing[@]}" > "$log" 2>&1; then
    tail -20 "$log" >&2
    exit 1
fi
if [ ${#wished[@]} != 0 ] && ! install "${wished[@]}" > "$log" 2>&1; then
    echo "setup: can't install ${wished[*]}, so their tests are skipped"
fi
