#!/usr/bin/env bash
# Tests of tools/install.py: the commands of docs/install.md, as they stand there, with a prefix
# that the system does not search. LRC_LIBRARIES names the folder of the libraries.
set -u
cd "$(dirname "$0")/.." || exit
# shellcheck source=tests/runner.sh
. tests/runner.sh
# shellcheck source=tests/libraries.sh
. tests/libraries.sh
top=$PWD
page=docs/install.md
prefix=$work/srv/lrc
app=$work/app
# Without it no package for Python is installed.
header=$(tools/python_extension.py --header)

# block LANGUAGE NUMBER: a fenced block of the page, for this prefix and this Python
block() {
    local version
    version=$(python3 -c 'import sysconfig; print(sysconfig.get_python_version())')
    awk -v fence="\`\`\`$1" -v number="$2" '$0 == fence { inside = ++count == number; next }
        $0 == "```" { inside = 0 } inside' "$page" \
        | sed "s#/srv/lrc#$prefix#g; s#python3\.[0-9]*/#python$version/#"
}

# prints TEXT COMMAND WORD..: whether the last line that the command prints is this
prints() {
    local printed
    printed=$("${@:2}" 2>&1) && printed=$(tail -n 1 <<< "$printed")
    [ "$printed" = "$1" ] || { echo "${*:2} prints '$printed', not '$1'"; return 1; }
}

# logged COMMAND WORD..: runs it, and prints what it printed if it fails
logged() { "$@" > "$work/log" 2>&1 || { cat "$work/log"; return 1; }; }

# The command of the page, which prints the variables of the page.
installs() {
    local command
    command=$(sed -n 's/^    \(tools\/install\.py --prefix .*\)/\1/p' "$page")
    logged eval "${command//\/srv\/lrc/$prefix} --reuse" || return
    diff <(block sh 1) <(grep '^export ' "$work/log")
}

# A folder with the programs of the tutorial and the build files of the page.
write_app() {
    mkdir -p "$app/src"
    cp bindings/c/store.c bindings/cpp/store.cpp bindings/python/store.py "$app/"
    cp bindings/rust_store/examples/store.rs "$app/src/main.rs"
    block cmake 1 > "$app/CMakeLists.txt"
    block toml 1 > "$app/Cargo.toml"
}

# A line of the page's commands, with the page's variables and no others of this script.
command_of_page() { # NUMBER [TEXT]
    { block sh 1; echo "cd '$app'"; block sh 2 | sed -n "$1p"; } > "$work/script"
    prints "${2:-HELLO, WORLD}" env -u LRC_LIBRARIES -u LD_LIBRARY_PATH CARGO_NET_OFFLINE=true \
        CARGO_TERM_QUIET=true PYTHONDONTWRITEBYTECODE=1 bash -e "$work/script"
}

# The Go package finds the library by pkg-config, whose words the go command keeps in its cache.
in_go() {
    prints "HELLO, WORLD" env PKG_CONFIG_PATH="$prefix/lib/pkgconfig" GOCACHE="$work/go" bash -c \
        "cd bindings/go && go run ./examples/store"
}

# A program of the coder over the installed module, which needs nothing of the clone.
coder_in_go() {
    local in_go=$work/app_in_go
    mkdir -p "$in_go" && cp bindings/go/examples/rebuild/main.go "$in_go/" || return
    {
        printf 'module app\n\ngo 1.19\n\n'
        sed -n 's/^    \(require lrcstore .*\)/\1/p' "$page"
        sed -n "s#^    \(replace lrcstore => \)/srv/lrc#\1$prefix#p" "$page"
    } > "$in_go/go.mod"
    prints HELL env PKG_CONFIG_PATH="$prefix/lib/pkgconfig" GOCACHE="$work/go" GOFLAGS=-mod=mod \
        bash -c "cd '$in_go' && go build lrcstore/coder/reedsolomon && go run ."
}

# The program of each language that uses shards: the page's commands, with other files.
of_shards() {
    local language text="HELLO, WORLD: 2000 repaired, 0 lost"
    cp bindings/c/shards.c "$app/store.c"
    cp bindings/cpp/shards.cpp "$app/store.cpp"
    cp bindings/python/shards.py "$app/store.py"
    cp bindings/rust_store/examples/shards.rs "$app/src/main.rs"
    for language in 1 2 3 5; do
        [ $language = 3 ] && [ ! -e "$header" ] && continue
        command_of_page $language "$text" || return
    done
    prints "$text" env PKG_CONFIG_PATH="$prefix/lib/pkgconfig" GOCACHE="$work/go" bash -c \
        "cd bindings/go && go run ./examples/shards"
}

program() {
    local version
    version=$(PKG_CONFIG_PATH="$prefix/lib/pkgconfig" pkg-config --modversion lrc_coder) \
        && prints "lrcstore $version" "$prefix/bin/lrcstore" --version \
        && prints "lrc $version" "$prefix/bin/lrc" --version
}

# Either kind of each library by CMake, in a folder for libraries that this system may not search.
with_cmake() {
    local kind other=$work/other
    logged tools/install.py --prefix "$other" --libdir lib64 --reuse || return
    logged cmake -S tests/install -B "$work/cmake" -DBINDINGS="$top/bindings" \
        -DCMAKE_PREFIX_PATH="$other/lib64/cmake" || return
    logged cmake --build "$work/cmake" || return
    for kind in "" _static; do
        prints HELL "$work/cmake/rebuild$kind" || return
        prints "HELLO, WORLD" "$work/cmake/store$kind" || return
    done
}

# A caller's number is accepted if and only if no version between may have broken it.
cmake_versions() {
    local accepted="" number
    for number in 0 0.1 0.1.0 0.1.1 0.10 0.2 1 1.0; do
        cmake -DFILE="$prefix/lib/cmake/lrc_store/lrc_storeConfigVersion.cmake" \
            -DPACKAGE_FIND_VERSION=$number -P tests/install/accepts.cmake > /dev/null 2>&1 \
            && accepted="$accepted $number"
    done
    [ "$accepted" = " 0.1 0.1.0" ] || { echo "accepted:$accepted"; return 1; }
}

# The folders of a Debian package. A system's prefix needs no variables.
package() {
    local root=$work/package/usr libdir=lib/x86_64-linux-gnu
    logged tools/install.py --prefix /usr --destdir "$work/package" --libdir $libdir \
        --pythondir lib/python3/dist-packages --reuse || return
    grep -qE '^export (PATH|PKG_CONFIG_PATH|CMAKE_PREFIX_PATH)' "$work/log" && return 1
    grep -q '^prefix=/usr$' "$root/$libdir/pkgconfig/lrc_store.pc" \
        && ! grep -q rpath "$root/$libdir/pkgconfig/lrc_store.pc" \
        && { [ ! -e "$header" ] || PYTHONPATH=$root/lib/python3/dist-packages \
            PYTHONDONTWRITEBYTECODE=1 python3 -c "from lrcstore import Store, coder"; }
}

# The program of the tutorial makes no mistake, as the installed library says. That finds the store
# by itself.
checked() {
    env LD_PRELOAD="$prefix/lib/liblrc_store_checked.so" /bin/true || return
    cp bindings/c/store.c "$work/checked.c"
    PKG_CONFIG_PATH=$prefix/lib/pkgconfig bash -c \
        "gcc '$work/checked.c' \$(pkg-config --cflags --libs lrc_store) -o '$work/checked'" || return
    LRC_STORE_CHECK=count LD_PRELOAD=$prefix/lib/liblrc_store_checked.so \
        logged "$work/checked" || return
    grep -q "^lrc_store_checked: 8 calls, 0 reports$" "$work/log"
}

sonames() {
    local name
    for name in lrc_coder lrc_store; do
        readelf -d "$prefix/lib/lib$name.so" | grep -q "soname: \[lib$name.so.0.1\]" || return
    done
}

uninstall() {
    tools/install.py --prefix "$prefix" --uninstall > /dev/null && [ -z "$(ls "$prefix")" ]
}

installs || exit 1
write_app
test_of "program" pkg-config pkg-config program
test_of "C" pkg-config pkg-config command_of_page 1
test_of "C++" pkg-config pkg-config command_of_page 2
test_of "Python" "$header" python3-dev command_of_page 3
test_of "CMake" cmake cmake command_of_page 4
test_of "Rust" cargo cargo command_of_page 5
test_of "Go" go golang-go in_go
test_of "coder in Go" go golang-go coder_in_go
test_of "shards in each language" go golang-go of_shards
test_of "both kinds of each library" cmake cmake with_cmake
test_of "versions that CMake accepts" cmake cmake cmake_versions
test_of "package" pkg-config pkg-config package
test_of "checked library" pkg-config pkg-config checked
test_of "sonames" readelf binutils sonames
test_of "uninstall" python3 python3 uninstall
summary installation
