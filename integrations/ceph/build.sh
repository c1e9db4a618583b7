#!/usr/bin/env bash
# Builds libec_azure_lrc.so for the installed Ceph, and tests it: build.sh FOLDER [FLAG..], with
# flags for g++. If a test fails, the folder gets no file. It needs g++, libradospp-dev, ceph-osd,
# and the coder for C (tools/libraries.py lrc_coder). CEPH_VERSION names another version than the
# installed one: then Ceph's own plugins are not there to compare types and tables with.
set -eu
work=$(mktemp -d)
trap 'rm -rf "$work"' EXIT
# shellcheck source=integrations/ceph/programs.sh
. "$(dirname "$0")/programs.sh"
mkdir "$work/plugins"
if [ "$(version_of_ceph)" = "$(installed_version)" ]; then
    link_plugins "$work/plugins"
fi
compile_plugin "$work/plugins" "${@:2}"
program plugin_test -O1 "${@:2}"
"$work/plugin_test" "$work/plugins" "$top/tests/corpus" built > "$work/printed" || {
    echo "the plugin fails these tests, and is not left in $1:" >&2
    cat "$work/printed" >&2
    exit 1
}
cat "$work/printed"
cp "$work/plugins/libec_azure_lrc.so" "$work/libec_azure_lrc.so"
mv "$work/libec_azure_lrc.so" "$1/"
