# shellcheck shell=bash
# Part of tests/release.sh: the packages in a fresh Debian that has no kit. $root is its folder, and
# $work/dist has the packages. What Debian itself has is installed before a test, and what can't be
# had is skipped; the packages of the release are then installed by apt without a network.
# shellcheck disable=SC2016,SC2154 # commands are for the other root, variables of the script

# in_root COMMAND: runs it there, with no variable of this system
in_root() {
    chroot "$root" env -i PATH=/usr/local/sbin:/usr/local/bin:/usr/sbin:/usr/bin:/sbin:/bin \
        HOME=/root LANG=C.UTF-8 DEBIAN_FRONTEND=noninteractive CARGO_NET_OFFLINE=true \
        GOPROXY=off GOFLAGS=-mod=mod sh -ec "$1" > "$work/log" 2>&1 < /dev/null
}

# steps COMMAND: runs it there, and prints the end of what it printed if it fails
steps() { in_root "$1" || { tail -n 20 "$work/log"; return 1; }; }

# The file in which this system names Debian's archive, if the root is of this system's release.
sources_of_debian() {
    local each
    [ "$suite" = bookworm ] || return
    for each in /etc/apt/sources.list.d/debian.sources /etc/apt/sources.list; do
        [ -s "$each" ] && { echo "$each"; return; }
    done
}

# Makes the root, or says what is missing for it.
make_root() {
    local sources
    sources=$(sources_of_debian)
    grep -q '^VERSION_ID="12"' /etc/os-release || { echo "no Debian 12 here"; return 1; }
    [ "$(id -u)" = 0 ] || { echo "no root user"; return 1; }
    [ -n "${RELEASE_MOUNTS:-}" ] || { echo "no namespace of mounts"; return 1; }
    [ "$(df -k --output=avail "$work" | tail -n 1)" -gt 4000000 ] || { echo "no 4 GB"; return 1; }
    mkdir "$root"
    if [ -n "${LRC_DEBIAN:-}" ]; then
        tar -C "$root" -xf "$LRC_DEBIAN" || { echo "no $LRC_DEBIAN"; return 1; }
    else
        has mmdebstrap || { echo "no mmdebstrap"; return 1; }
        mmdebstrap --mode=root --variant=apt "$suite" "$root" ${sources:+"$sources"} \
            > "$work/log" 2>&1 || { echo "mmdebstrap has failed"; return 1; }
    fi
    mount -t proc proc "$root/proc" || { echo "no mount of proc"; return 1; }
    chroot "$root" true || { echo "no chroot"; return 1; }
    cp /etc/resolv.conf "$root/etc/resolv.conf"
    echo "127.0.0.1 localhost" > "$root/etc/hosts" # PyECLib looks it up
    printf '#!/bin/sh\nexit 101\n' > "$root/usr/sbin/policy-rc.d" # no service is started
    chmod +x "$root/usr/sbin/policy-rc.d"
    echo force-unsafe-io > "$root/etc/dpkg/dpkg.cfg.d/quick"
    cp -r "$work/dist" "$root/dist"
    mkdir "$root/src"
    cp -rL bindings scripts tests/install tests/release "$root/src/"
    in_root "apt-get -o Acquire::Retries=3 update" || { echo "no list of packages"; return 1; }
}

# debian NAME..: installs what Debian has
debian() {
    in_root "apt-get -o Acquire::Retries=3 install -y --no-install-recommends $*"
}

# ours NAME..: the command that installs packages of the release by apt
ours() {
    local words=""
    for each in "$@"; do words+=" /dist/${each}_*.deb"; done
    echo "apt-get install -y --no-install-recommends$words"
}

# Both commands of docs/install.md print the lines of README.md, in a system that has nothing else.
program() {
    local install run
    install=$(sed -n 's/^    \(apt install .*\)/\1/p' docs/install.md)
    run=$(sed -n 's/^    \(lrcstore .*\)/\1/p' docs/install.md)
    sed -n '/^    1 stored 1$/,/^    lawful yes$/s/^    //p' README.md > "$root/src/shown"
    [ -s "$root/src/shown" ] && [ -n "$install" ] && [ -n "$run" ] || return
    steps 'if command -v rt || command -v rattle; then exit 1; fi' || return
    steps "cd / && ${install/apt install/apt-get install -y --no-install-recommends}" || return
    steps "test \"\$(lrcstore --version)\" = 'lrcstore $number'" || return
    steps "$run > /src/printed && cmp /src/printed /src/shown" || return
    steps 'cd /src/scripts && lrcstore degraded_read.csv --history > /src/printed
        cmp /src/printed degraded_read.txt'
}

# A file in fragments over four folders: one folder is lost, and then a fragment damaged. Each time
# the file is the same, and a repair makes all whole.
file_in_fragments() {
    steps "test \"\$(lrc --version)\" = 'lrc $number'" || return
    steps 'mkdir -p /src/files && cd /src/files && mkdir a b c d && seq 300000 > film
        lrc split film --to a b c d --width 4096
        lrc verify a b c d | grep -q "whole: any 3 further fragments may be lost"' || return
    steps 'cd /src/files && rm -r b && mkdir b && lrc join a b c d --to again || test $? = 1
        cmp film again && lrc repair a b c d && lrc verify a b c d' || return
    steps 'cd /src/files && printf damage | dd of=a/film.00.lrc bs=1 seek=5000 conv=notrunc
        lrc verify a b c d || test $? = 1
        lrc repair --check a b c d && lrc verify a b c d
        lrc join a b c d --to again --force && cmp film again'
}

in_c() {
    steps 'cd /src && gcc bindings/c/store.c $(pkg-config --cflags --libs lrc_store) -o store
        test "$(./store)" = "HELLO, WORLD" && test "$(LRC_STORE_CPU=v2 ./store)" = "HELLO, WORLD"
        gcc bindings/c/rebuild.c $(pkg-config --cflags --libs lrc_coder) -o rebuild
        test "$(./rebuild)" = HELL && test "$(LRC_CODER_CPU=v2 ./rebuild)" = HELL
        ldd store | grep -q liblrc_store.so.0.1
        LRC_STORE_CHECK=count LD_PRELOAD=liblrc_store_checked.so ./store 2> calls
        grep -q " calls, 0 reports" calls'
}

in_c_static() {
    steps 'cd /src && gcc bindings/c/store.c -l:liblrc_store.a -o static
        test "$(./static)" = "HELLO, WORLD"
        if ldd static | grep lrc; then exit 1; fi
        gcc -static bindings/c/store.c -l:liblrc_store.a -o whole
        test "$(./whole)" = "HELLO, WORLD"'
}

in_cpp() {
    steps 'cd /src && g++ -std=c++17 bindings/cpp/store.cpp \
            $(pkg-config --cflags --libs lrc_store) -o cpp
        test "$(./cpp)" = "HELLO, WORLD"'
}

in_cmake() {
    steps 'cd /src && cmake -S install -B cmake -DBINDINGS=/src/bindings && cmake --build cmake
        for kind in "" _static; do
            test "$(cmake/rebuild$kind)" = HELL && test "$(cmake/store$kind)" = "HELLO, WORLD"
        done'
}

in_rust() {
    steps 'mkdir /src/rust && cd /src/rust
        for each in /dist/*.crate; do tar -xzf "$each"; done
        cd lrc_store-* && test "$(cargo run -q --release --example store)" = "HELLO, WORLD"
        cd ../lrc_coder-* && test "$(cargo run -q --release --example rebuild)" = HELL'
}

# A program of its own, over the sources and the static library of the package.
in_rust_of_package() {
    steps 'mkdir -p /src/app/src && cd /src/app
        cp ../bindings/rust_store/examples/store.rs src/main.rs
        printf "[package]\nname = \"app\"\nversion = \"0.1.0\"\nedition = \"2021\"\n" > Cargo.toml
        printf "[dependencies]\nlrc_store = { path = \"%s\" }\n" \
            /usr/share/lrcstore/rust/lrc_store >> Cargo.toml
        test "$(cargo run -q --release)" = "HELLO, WORLD"'
}

in_go() {
    steps 'mkdir /src/go && cd /src/go && cp ../bindings/go/examples/store/main.go .
        printf "module app\n\ngo 1.19\n\nrequire lrcstore v0.1.0\n" > go.mod
        echo "replace lrcstore => /usr/share/lrcstore/go" >> go.mod
        test "$(go run .)" = "HELLO, WORLD"'
}

in_python() {
    steps "$(ours python3-lrcstore)" || return
    steps 'cp /src/bindings/python/store.py /src/bindings/python/rebuild.py /tmp/ && cd /tmp
        test "$(python3 store.py)" = "HELLO, WORLD" && test "$(python3 rebuild.py)" = HELL'
}

by_pip() {
    steps 'dpkg --purge python3-lrcstore && python3 -m venv /venv
        /venv/bin/pip install --no-index /dist/lrcstore-*.whl && cd /tmp
        test "$(/venv/bin/python store.py)" = "HELLO, WORLD"
        /venv/bin/python -c "import lrcstore._native, lrcstore._coder"
        test "$(/venv/bin/python rebuild.py)" = HELL' || return
    steps "test \"\$(/venv/bin/lrc --version)\" = 'lrc $number'"
}

pages() {
    steps 'man -w lrcstore && man -w lrc && man -w lrc_store && man -w lrc_coder
        MANPAGER=cat man lrcstore | grep -q "one thread"
        MANPAGER=cat man lrc | grep -q "may be lost"'
}

in_pyeclib() {
    steps "$(ours liberasurecode-azure-lrc)" || return
    steps 'python3 /src/release/lost_threes.py'
}

in_swift() {
    steps "$(ours liberasurecode-azure-lrc python3-lrcstore-swift)" || return
    steps 'python3 -c "import lrcstore_swift.proxy, lrcstore_swift.reconstructor"
        python3 -c "from importlib.metadata import entry_points as points; print(points())" \
            | grep -q "lrcstore_swift.proxy:filter_factory"'
}

# Ceph itself loads the plugin, and decodes a file without three of its chunks.
in_ceph() {
    steps "$(ours ceph-plugin-azure-lrc)" || return
    steps 'cd /src && ceph-erasure-code-tool test-plugin-exists azure_lrc
        seq 200000 | head -c 589824 > file && profile=plugin=azure_lrc,k=12,m=4
        ceph-erasure-code-tool encode $profile 4096 0,1,2,3,4,5,6,7,8,9,10,11,12,13,14,15 file
        mv file whole && rm file.0 file.1 file.2
        ceph-erasure-code-tool decode $profile 4096 3,4,5,6,7,8,9,10,11,12,13,14,15 file
        cmp file whole'
}

# Nothing of the packages stays, and the tarball needs none of them, wherever it is unpacked.
moved() {
    steps 'apt-get purge -y $(dpkg-query -W -f "\${Package}\n" | grep -E "lrc" | xargs)
        if find /usr -name "*lrc_*" -o -name "*lrcstore*" -o -name lrc -o -name "lrc.*" -o -name \
            _lrc | grep .; then exit 1; fi' || return
    steps 'mkdir -p "/srv/a place" && cd "/srv/a place" && tar -xzf /dist/lrcstore-*.tar.gz
        mv lrcstore-* here && cd here && sha256sum --quiet -c share/lrcstore/SHA256SUMS
        bin/lrcstore /src/scripts/degraded_read.csv --history > /src/printed
        cmp /src/printed /src/scripts/degraded_read.txt
        bin/lrc verify /src/files/a /src/files/b /src/files/c /src/files/d
        mv "/srv/a place/here" /srv/moved
        cd /src && PYTHONPATH=/srv/moved/share/lrcstore/python python3 /tmp/store.py'
}

by_tarball() {
    steps 'export PKG_CONFIG_PATH=/srv/moved/lib/pkgconfig && cd /src
        gcc bindings/c/store.c $(pkg-config --cflags --libs lrc_store) -o moved
        test "$(./moved)" = "HELLO, WORLD"
        cmake -S install -B moved_cmake -DBINDINGS=/src/bindings -DCMAKE_PREFIX_PATH=/srv/moved
        cmake --build moved_cmake && test "$(moved_cmake/store)" = "HELLO, WORLD"'
}

# test_in NAME COMMAND PACKAGE FUNCTION: a test that needs a command or file in the root
test_in() { test_of "fresh: $1" "$root$2" "$3" "$4"; }

fresh_tests() {
    local lacks
    if ! lacks=$(make_root); then
        skipped+=("packages in a fresh Debian: $lacks")
        return
    fi
    test_in "program" /usr/bin/apt-get apt program
    test_in "files in fragments" /usr/bin/apt-get apt file_in_fragments
    debian gcc g++ libc6-dev pkg-config cmake make
    test_in "C" /usr/bin/pkg-config gcc in_c
    test_in "C, static" /usr/bin/pkg-config gcc in_c_static
    test_in "C++" /usr/bin/g++ g++ in_cpp
    test_in "CMake" /usr/bin/cmake cmake in_cmake
    debian cargo
    test_in "Rust, crates" /usr/bin/cargo cargo in_rust
    test_in "Rust, package" /usr/bin/cargo cargo in_rust_of_package
    debian golang-go
    test_in "Go" /usr/bin/go golang-go in_go
    debian man-db
    test_in "man pages" /usr/bin/man man-db pages
    debian python3 python3-venv
    test_in "Python, package" /usr/bin/python3 python3 in_python
    test_in "Python, wheel" /usr/share/python-wheels python3-venv by_pip
    if [ "$suite" = bookworm ] && [[ " ${options[*]} " != *" --no-plugins "* ]]; then
        debian liberasurecode1 python3-pyeclib
        test_in "PyECLib" /usr/lib/python3/dist-packages/pyeclib python3-pyeclib in_pyeclib
        debian python3-swift
        test_in "Swift" /usr/lib/python3/dist-packages/swift python3-swift in_swift
        debian ceph-osd
        test_in "Ceph" /usr/bin/ceph-osd ceph-osd in_ceph
    fi
    test_in "removal, and a moved tarball" /usr/bin/python3 python3 moved
    test_in "C by the tarball" /usr/bin/cmake cmake by_tarball
}
