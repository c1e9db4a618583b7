# shellcheck shell=bash
# For scripts that build the plugin, or load it without a cluster; `work` names a temporary folder.
# The plugin needs g++, libradospp-dev, and the coder for C (tools/libraries.py lrc_coder).
# shellcheck disable=SC2154
here=$(dirname "${BASH_SOURCE[0]}")
ceph=/usr/lib/x86_64-linux-gnu/ceph
# shellcheck source=integrations/coder.sh
. "$here/../coder.sh"

# The version that `ceph-osd` prints, as 16.2.15, or nothing if it is not installed.
installed_version() { ceph-osd --version 2> /dev/null | awk '{ print $3 }'; }

# Ceph loads a plugin if and only if the plugin names Ceph's own version. CEPH_VERSION names another
# version than the installed one.
version_of_ceph() {
    local version=${CEPH_VERSION:-$(installed_version)}
    echo "${version:?is unknown: install ceph-osd, or name a version by CEPH_VERSION}"
}

# compile_plugin FOLDER FLAG..: puts the plugin there, with flags for g++. Only series with a release
# that the plugin was tested with are built for: another one may call its functions by other places
# of their table.
compile_plugin() {
    local version
    version=$(version_of_ceph) || return
    case $version in
    16.2.* | 18.2.* | 20.2.*) ;;
    *)
        echo "azure_lrc was tested with Ceph 16.2, 18.2 and 20.2, and this is $version:" \
            "install one of these, or a version of lrcstore for $version" >&2
        return 1
        ;;
    esac
    g++ -std=c++17 -O2 -fPIC -shared -fvisibility=hidden -fvisibility-inlines-hidden -Wall -Wextra \
        -Wshadow -Werror -DCEPH_VERSION="\"$version\"" -DCEPH_RELEASE="${version%%.*}" \
        -I "$top/include" -I "$here/.." "${@:2}" "$here/azure_lrc.cc" "$archive" \
        -Wl,--exclude-libs,ALL -o "$1/libec_azure_lrc.so"
}

# plugins FOLDER FLAG..: a folder of $work with the plugin and links to Ceph's own, since Ceph looks
# for all of them in one (`erasure code dir`).
plugins() {
    mkdir "$work/$1"
    link_plugins "$work/$1"
    compile_plugin "$work/$1" "${@:2}"
}

# link_plugins FOLDER: links to Ceph's own plugins.
link_plugins() {
    ln -s "$ceph"/erasure-code/libec_*.so "$1"
    rm -f "$1/libec_azure_lrc.so"
}

# program NAME FLAG..: compiles NAME.cc, as $work/NAME. Plugins look for Ceph's registry in it.
# CEPH_VERSION is as above.
program() {
    local version
    version=$(version_of_ceph) || return
    g++ -std=c++17 -O2 -Wall -Wextra -Wshadow -Werror -rdynamic \
        -DCEPH_VERSION="\"$version\"" -DCEPH_RELEASE="${version%%.*}" "${@:2}" "$here/$1.cc" \
        -o "$work/$1" -lrados -L "$ceph" -l:libceph-common.so.2 -Wl,-rpath,"$ceph" -ldl
}
