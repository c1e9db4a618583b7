#!/usr/bin/env bash
# The tests of one integration in fresh roots of Debian 12, 13 and unstable, made by mmdebstrap, as
# root. CI does not run it: each root takes some twenty minutes.
#
#     integrations/roots.sh ceph|swift|packages [SUITE..] [-- WORD..]
#
# `packages` makes the Debian packages of the plugins in each root, for the Ceph and the Swift of
# its release, installs them there, and runs the commands of the plugin's page. It leaves the
# packages in the folder that LRC_DIST names. After `ceph`, a cluster of each suite is upgraded to
# the next one.
#
# Of the suites bookworm, trixie and sid it takes those that are named, or all. Words after -- are
# for cluster_test.py. LRC_LIBRARIES names the folder of the libraries. LRC_ROOTS names a folder
# that keeps the roots; MMDEBSTRAP has options for mmdebstrap, quoted as for a shell. If this
# system's apt takes a Release file that is too old, so do the roots. LRC_TEST names one test. The
# last line counts.
set -u
cd "$(dirname "$0")/.." || exit
# The mounts are in a namespace, and end with it. In a chroot whose root is no mount point, they may
# be seen outside, too, until the script ends.
if [ -z "${ROOTS_MOUNTS:-}" ]; then
    propagation=private
    unshare --mount --propagation private true 2> /dev/null || propagation=unchanged
    ROOTS_MOUNTS=yes exec unshare --mount --propagation "$propagation" integrations/roots.sh "$@"
fi
: "${LRC_LIBRARIES:?has to name a folder that tools/libraries.py lrc_coder has filled}"
libraries=$(realpath "$LRC_LIBRARIES")
integration=${1:-}
case $integration in
ceph | swift | packages) shift ;;
*)
    echo "roots.sh: unknown integration '$integration'; name ceph, swift or packages" >&2
    exit 2
    ;;
esac
# shellcheck source=tests/runner.sh
. tests/runner.sh
roots=${LRC_ROOTS:-$work}
root=
end_mounts() { [ -z "$root" ] || umount "$root/proc" "$root/dev" 2> /dev/null; }
trap 'end_mounts; rm -rf --one-file-system "$work"' EXIT
suites=()
while [ $# != 0 ] && [ "$1" != -- ]; do
    case $1 in
    bookworm | trixie | sid) suites+=("$1") ;;
    *)
        echo "roots.sh: unknown suite '$1'; name bookworm, trixie or sid" >&2
        exit 2
        ;;
    esac
    shift
done
words="${*:2}"
[ ${#suites[@]} != 0 ] || suites=(bookworm trixie sid)

# in_root COMMAND: runs it in the clone there, with no variable of this system but the folder of the
# libraries
in_root() {
    chroot "$root" env -i PATH=/usr/local/sbin:/usr/local/bin:/usr/sbin:/usr/bin:/sbin:/bin \
        HOME=/root LANG=C.UTF-8 DEBIAN_FRONTEND=noninteractive LRC_LIBRARIES=/libraries \
        sh -ec "cd /src && $1" < /dev/null
}

# The options for mmdebstrap: a root does not read this system's settings of apt.
set_options() {
    options=()
    if apt-config dump Acquire::Check-Valid-Until | grep -q '"\(false\|0\|no\)"'; then
        options+=('--aptopt=Acquire::Check-Valid-Until "false"')
    fi
    [ -z "${MMDEBSTRAP:-}" ] || mapfile -d '' -O "${#options[@]}" -t options \
        < <(xargs printf '%s\0' <<< "$MMDEBSTRAP")
}

# Makes the root of a suite, unless it was kept, and puts the clone and the libraries there.
make_root() {
    root=$roots/$integration-$1
    if [ ! -e "$root/made" ]; then
        set_options
        mmdebstrap --mode=root --variant=apt --include=ca-certificates,gcc,libc6-dev,python3 \
            "${options[@]}" "$1" "$root" > "$work/log" 2>&1 || { cat "$work/log"; return 1; }
        cp /etc/resolv.conf "$root/etc/resolv.conf"
        echo "127.0.0.1 localhost" > "$root/etc/hosts"
        printf '#!/bin/sh\nexit 101\n' > "$root/usr/sbin/policy-rc.d" # no service is started
        chmod +x "$root/usr/sbin/policy-rc.d"
        touch "$root/made"
    fi
    mount -t proc proc "$root/proc" && mount --bind /dev "$root/dev" || return
    rm -rf "$root/src" "$root/libraries"
    mkdir "$root/src" && cp -r "$libraries" "$root/libraries" || return
    git ls-files -z --cached --others --exclude-standard include integrations bindings/python \
        tests packaging docs tools CHANGELOG.md crates/command_line/src \
        | xargs -0 cp -P --parents -t "$root/src"
}

# cluster WORD..: the cluster test. It installs the packages that the other tests use.
cluster() { in_root "python3 integrations/$integration/cluster_test.py $*"; }

plugin() { in_root "tests/ceph.sh"; }

modules() { in_root "pytest -q -p no:cacheprovider integrations/swift/test_module.py"; }

backend() {
    in_root "gcc -std=c11 -O1 -Wall -Wextra -Werror -I include -I integrations \
        integrations/liberasurecode/lrc_backend.c integrations/liberasurecode/test_backend.c \
        /libraries/liblrc_coder.a -lerasurecode -o /tmp/backend && /tmp/backend"
}

pyeclib() {
    in_root "integrations/liberasurecode/build.sh /tmp
        LD_LIBRARY_PATH=/tmp pytest -q -p no:cacheprovider \
            integrations/liberasurecode/test_pyeclib.py"
}

liberasurecode() { in_root "python3 integrations/liberasurecode/upstream_test.py"; }

# The parts of the cluster test for which it matters that the plugin is installed.
installed_plugin() {
    local folder=/usr/lib/x86_64-linux-gnu/ceph/erasure-code status
    in_root "integrations/ceph/build.sh $folder" || return
    cluster --only profiles --only racks --only missing
    status=$?
    in_root "rm $folder/libec_azure_lrc.so"
    return $status
}

# The steps of README.md, and then the parts of the cluster test for which it matters that the
# library and the modules are there.
installed() {
    local steps status
    steps=$(sed -nE 's#^    ((integrations/lib|to=|cp -r integrations/).*)#\1#p' \
        integrations/swift/README.md)
    [ "$(wc -l <<< "$steps")" = 3 ] || return
    in_root "$steps
        cd / && python3 -c 'import lrcstore_swift.proxy, lrcstore_swift.reconstructor'" || return
    cluster --only swift_without_module --only wrong_installations
    status=$?
    in_root "cd /usr/local/lib && rm -r libphazr.so.1 python3*/dist-packages/lrcstore_swift*
        ldconfig"
    return $status
}

# Ceph's own tests, and what they have stored in the roots that came before.
upstream() {
    local status
    mkdir -p "$work/corpora" && rm -rf "$root/corpora" && cp -r "$work/corpora" "$root/" || return
    in_root "integrations/ceph/upstream_test.py --corpora /corpora"
    status=$?
    cp -r "$root/corpora" "$work/"
    return $status
}

# upgrade SUITE LATER: a cluster of the suite's Ceph is upgraded to that of the later one.
upgrade() {
    local status
    make_root "$2" && end_mounts && make_root "$1" || return
    mkdir -p "$root/later" && mount --bind "$roots/ceph-$2" "$root/later" || return
    in_root "python3 integrations/ceph/upgrade_test.py /later"
    status=$?
    umount "$root/later"
    end_mounts
    return $status
}

packages() {
    local epoch
    epoch=$(git log -1 --format=%ct) || return
    in_root "apt-get update
        apt-get install -y --no-install-recommends ceph-osd debhelper dh-python g++ \
            liberasurecode-dev libradospp-dev python3-pyeclib python3-swift
        rm -rf /dist
        export SOURCE_DATE_EPOCH=$epoch
        tools/package.py plugins --from /libraries --to /dist --unlicensed" \
        > "$work/log" 2>&1 || { tail -n 20 "$work/log"; return 1; }
    [ -z "${LRC_DIST:-}" ] || { mkdir -p "$LRC_DIST" && cp "$root"/dist/*.deb "$LRC_DIST"; }
}

# Ceph, Swift and PyECLib find what the packages have, as soon as they are installed.
packages_installed() {
    in_root "apt-get install -y --no-install-recommends /dist/*.deb
        ceph-erasure-code-tool test-plugin-exists azure_lrc
        cd / && python3 -c 'import lrcstore_swift.proxy, lrcstore_swift.reconstructor'
        python3 /src/tests/release/lost_threes.py" > "$work/log" 2>&1 \
        || { tail -n 20 "$work/log"; return 1; }
}

# The commands of the plugin's page, with the package.
page() {
    local status
    in_root "python3 integrations/ceph/page_test.py"
    status=$?
    in_root "dpkg --purge ceph-plugin-azure-lrc python3-lrcstore-swift liberasurecode-azure-lrc"
    return $status
}

case $integration in
ceph) tests=(plugin installed_plugin upstream) ;;
swift) tests=(modules backend pyeclib liberasurecode installed) ;;
packages) tests=(packages packages_installed page) ;;
esac
for each in "${suites[@]}"; do
    echo "== $each"
    if ! make_root "$each"; then
        failed=$((failed + 1))
        continue
    fi
    [ "$integration" = packages ] || test_of "$each: cluster" python3 python3 cluster "$words"
    for name in "${tests[@]}"; do
        test_of "$each: $name" python3 python3 "$name"
    done
    end_mounts
    root=
done
for ((at = 1; at < ${#suites[@]}; at++)); do
    [ "$integration" = ceph ] || break
    later=${suites[at]} each=${suites[at - 1]}
    test_of "upgrade from $each to $later" python3 python3 upgrade "$each" "$later"
    root=
done
summary roots
