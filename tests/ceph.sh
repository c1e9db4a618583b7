#!/usr/bin/env bash
# Tests Ceph's plugin without a cluster: by Ceph's own tool, and by a program that loads plugins as
# Ceph does. tests/test_library.py runs it. integrations/ceph/cluster_test.py tests the plugin in a
# cluster. LRC_LIBRARIES names the folder of the libraries.
set -eu
cd "$(dirname "$0")/.."
work=$(mktemp -d)
trap 'rm -rf "$work"' EXIT
. integrations/ceph/programs.sh
sanitizers=(-g "-fsanitize=address,undefined" -fno-sanitize-recover=all)
profile=plugin=azure_lrc,k=12,m=4

# It exports two functions. As Ceph's own plugins, it links no library of Ceph.
symbols() { # FILE
    local exported needed
    exported=$(nm -D --defined-only "$1" | awk '$2 == "T" { print $3 }' | sort | tr '\n' ' ')
    needed=$(readelf -d "$1" | grep NEEDED | grep -vE 'lib(stdc\+\+|gcc_s|c|m)\.|ld-linux' || true)
    [ "$exported" = "__erasure_code_init __erasure_code_version " ] && [ -z "$needed" ]
    echo "Ceph: the plugin exports two functions, and links no library of Ceph"
}

tool() { # FOLDER WORD..
    CEPH_ARGS="--erasure_code_dir=$work/$1" ceph-erasure-code-tool "${@:2}" > "$work/printed" 2>&1
}

# The tool decodes a file from files that it finds by their places. These sets are recoverable in
# each order.
decoded_by_tool() {
    local order lost set place count=0
    if ceph-osd --version | grep -q "version 20"; then
        echo "Ceph: skipped: its tool encodes only data (Ceph 20.2, of isa too)"
        return
    fi
    seq 200000 | head -c 1000000 > "$work/object"
    for order in interleaved groups; do
        tool plugins encode "$profile,order=$order" 4096 "$(seq -s, 0 15)" "$work/object"
        for lost in 0 6 7 15 "0 1" "0 8" "0 1 2" "0 1 2 8" "0 1 8 9" "0 1 6 14" "6 7 14 15"; do
            set=$(seq 0 15 | grep -vxF "$(tr ' ' '\n' <<< "$lost")" | paste -sd,)
            rm -rf "$work/remaining"
            mkdir "$work/remaining"
            for place in ${set//,/ }; do
                ln "$work/object.$place" "$work/remaining/object.$place"
            done
            tool plugins decode "$profile,order=$order" 4096 "$set" "$work/remaining/object"
            cmp -n 1000000 "$work/object" "$work/remaining/object"
            count=$((count + 1))
        done
        rm "$work"/object.*
    done
    echo "Ceph: its tool decodes $count lost sets"
}

other_version() {
    local other
    other=$(ceph-osd --version | awk '{ sub(/[0-9]+$/, "99", $3); print $3 }')
    mkdir "$work/other"
    CEPH_VERSION=$other compile_plugin "$work/other"
    if tool other test-plugin-exists azure_lrc; then
        echo "a plugin for Ceph $other is loaded"
        return 1
    fi
    grep -q "claims to be $other instead" "$work/printed"
    echo "Ceph: a plugin for another version is refused"
}

# No plugin is built for a release whose table of functions may differ.
untested_release() {
    local version
    for version in 15.2.17 17.2.7 19.2.0 20.1.0 21.2.0 18.20.1; do
        if CEPH_VERSION=$version "$here/build.sh" "$work/other" > "$work/printed" 2>&1; then
            echo "a plugin for Ceph $version is built"
            return 1
        fi
        grep -q "tested with Ceph 16.2, 18.2 and 20.2, and this is $version" "$work/printed"
    done
    CEPH_VERSION=18.2.99 compile_plugin "$work/other"
    echo "Ceph: no plugin is built for a release that was not tested"
}

# A build tests the plugin before it leaves the file. The calls that Ceph 20.2 adds are tested beside
# any release: the plugin takes of Ceph's package only the header of buffers, which these calls use
# alike.
built() {
    local copy=$work/copy
    mkdir "$work/built" "$copy" "$work/unfit"
    "$here/build.sh" "$work/built"
    CEPH_VERSION=20.2.4 "$here/build.sh" "$work/built" -O0
    cp -r include integrations "$copy/"
    sed -i 's/return order != Order::GROUPS;/return true;/' "$copy/integrations/ceph/azure_lrc.cc"
    if CEPH_VERSION=20.2.4 LRC_LIBRARIES=$(dirname "$archive") \
        "$copy/integrations/ceph/build.sh" "$work/unfit" -O0 2> "$work/printed"; then
        echo "a plugin that fails its test is built"
        return 1
    fi
    grep -q "k=12 groups: what it supports" "$work/printed"
    [ -z "$(ls "$work/unfit")" ]
    echo "Ceph: a plugin that fails its test is not left"
}

sanitized() {
    plugins sanitized "${sanitizers[@]}"
    program plugin_test "${sanitizers[@]}"
    # A plugin is never unloaded, so leaks are not asked for.
    ASAN_OPTIONS=detect_leaks=0:detect_odr_violation=0 "$work/plugin_test" "$work/sanitized" \
        tests/corpus "$here/README.md" > "$work/printed" 2>&1 || { tail -20 "$work/printed"; return 1; }
    echo "Ceph: sanitizers find nothing"
}

plugins plugins
symbols "$work/plugins/libec_azure_lrc.so"
program plugin_test
"$work/plugin_test" "$work/plugins" tests/corpus "$here/README.md"
tool plugins test-plugin-exists azure_lrc
tool plugins validate-profile "$profile"
decoded_by_tool
other_version
untested_release
sanitized
built
