#!/usr/bin/env bash
# Counts and times LRC(12,2,2) beside Ceph's own plugins, in one run: bench.sh [--disk]. It needs
# g++, librados-dev, libradospp-dev and ceph-osd, and the coder for C (tools/libraries.py
# lrc_coder). With --disk it also replaces a disk in a cluster, and prints what each plugin read.
set -eu
case $* in
'' | --disk) ;;
*)
    echo "bench.sh: unknown option '$*'; it takes --disk" >&2
    exit 2
    ;;
esac
work=$(mktemp -d)
trap 'rm -rf "$work"' EXIT
# shellcheck source=integrations/ceph/programs.sh
. "$(dirname "$0")/programs.sh"
plugins plugins
program plugin_bench
"$work/plugin_bench" "$work/plugins"
if [ $# != 0 ]; then
    "$here/cluster_test.py" --only counters
fi
