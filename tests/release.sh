#!/usr/bin/env bash
# Tests of tools/package.py and tools/verify_release.py: two packings are the same bytes, a planted
# difference is named, and in a fresh Debian 12 without the kit the packages are installed and run.
# LRC_BUILT names the folder that `tools/package.py build` has filled, and LRC_LIBRARIES that of the
# libraries. LRC_DEBIAN names a root of Debian as a tar, if there is one; else mmdebstrap makes one,
# of the release that LRC_SUITE names (trixie is Debian 13). In another one than bookworm the plugins
# are left out: they are for what this system has. No step has a deadline. What can't be had here, a
# package or a mount, is skipped by its name.
set -u
cd "$(dirname "$0")/.." || exit
# The mounts of the fresh root are in a namespace, and end with it.
if [ -z "${RELEASE_MOUNTS:-}" ] && unshare --mount --propagation private true 2> /dev/null; then
    RELEASE_MOUNTS=yes exec unshare --mount --propagation private "tests/$(basename "$0")" "$@"
fi
# shellcheck source=tests/runner.sh
. tests/runner.sh
# shellcheck source=tests/libraries.sh
. tests/libraries.sh
: "${LRC_BUILT:?has to name a folder that tools/package.py build --to FOLDER has filled}"
built=$(realpath "$LRC_BUILT")
clone=$work/clone
root=$work/root
suite=${LRC_SUITE:-bookworm}
trap 'umount "$root/proc" 2> /dev/null; rm -rf --one-file-system "$work"' EXIT
# shellcheck source=tests/release/fresh.sh
. tests/release/fresh.sh

# The version, as file names have it.
number=$(sed -n 's/.*VERSION: &str = "\(.*\)".*/\1/p' crates/command_line/src/reading.rt)
# What is made here, as far as the packages that it needs are here.
kinds=(crate tar assembly)
options=(--unlicensed)

# logged COMMAND WORD..: runs it, and prints what it printed if it fails
logged() { "$@" > "$work/log" 2>&1 || { tail -n 20 "$work/log"; return 1; }; }

# fails TEXT COMMAND WORD..: whether it fails and prints this
fails() {
    "${@:2}" > "$work/log" 2>&1 && { echo "${*:2} does not fail"; return 1; }
    grep -qF -- "$1" "$work/log" || { cat "$work/log"; return 1; }
}

# A clone in which the files as they are here, also those not yet committed, are a commit.
clone_here() {
    mkdir "$clone" || return
    # shellcheck disable=SC2016 # for the other shell
    git ls-files -z --cached --others --exclude-standard \
        | xargs -0 sh -c 'for it; do [ ! -e "$it" ] || cp -P --parents "$it" "$0"; done' \
            "$clone"
    (cd "$clone" && git init -q -b main && git add -A \
        && git -c user.name=tests -c user.email=tests@invalid -c commit.gpgsign=false \
            commit -q --no-verify -m "ci: what is here")
}

# What wheels and Debian packages need here. What is missing is skipped.
choose_kinds() {
    local missing
    if [ ! -e "$(tools/python_extension.py --header)" ]; then
        skipped+=("wheel, Debian packages: no python3-dev")
        return
    fi
    kinds+=(wheel)
    if ! has dpkg-buildpackage || ! has dh || ! has dh_python3; then
        skipped+=("Debian packages: no debhelper, dh-python")
        return
    fi
    kinds+=(deb)
    missing=$(PYTHONPATH=tools PYTHONDONTWRITEBYTECODE=1 python3 -c \
        'from packages import debian; print(*debian.missing_for_plugins(), sep=", ")')
    [ -z "$missing" ] && return
    skipped+=("plugins in packages: no $missing")
    options+=(--no-plugins)
}

# pack DIST KIND..: packs from the clone
pack() {
    logged "$clone/tools/package.py" pack --from "$built" --to "$1" "${options[@]}" "${@:2}"
}

packs() {
    local kind
    pack "$work/dist" "${kinds[@]}" || return
    for kind in .crate 64.tar.gz assembly.tar.gz .provenance.json .cdx.json; do
        compgen -G "$work/dist/*$kind" > /dev/null || { echo "no $kind"; return 1; }
    done
    if [[ " ${kinds[*]} " == *" wheel "* ]]; then
        compgen -G "$work/dist/*-cp311-abi3-*.whl" > /dev/null || return
    fi
    (cd "$work/dist" && sha256sum --quiet -c SHA256SUMS)
}

# Packing again in another folder, clone, time zone and umask, and with flags of the user.
same_bytes() {
    (umask 077 && mkdir "$work/other place" && logged env TZ=Asia/Tokyo LC_ALL=C CFLAGS=-O0 \
        SOURCE_DATE_EPOCH=1 DEB_BUILD_OPTIONS=nostrip "$clone/tools/verify_release.py" \
        "$work/dist" --from "$built" --keep "$work/other place/dist") || return
    diff -r "$work/dist" "$work/other place/dist" \
        && grep -q "^$(find "$work/dist" -type f | wc -l) files of the release, 0 differ" \
            "$work/log"
}

# A byte more in a header of the tarball, with checksums that fit.
names_difference() {
    local dist=$work/planted tar=lrcstore-$number-linux-x86_64.tar.gz
    pack "$dist" tar || return
    (cd "$dist" && tar -xzf "$tar" && echo >> "lrcstore-$number/include/lrc_store.h" \
        && tar -czf "$tar" "lrcstore-$number" && rm -r "lrcstore-$number" \
        && sha256sum lrcstore-* > SHA256SUMS) || return
    fails "lrcstore-$number/include/lrc_store.h" "$clone/tools/verify_release.py" "$dist" \
        --from "$built"
}

refuses_without_licence() {
    fails "there is no LICENSE" "$clone/tools/package.py" pack --from "$built" --to "$work/no" tar \
        && [ ! -e "$work/no" ]
}

# One byte of an archive that is not what the record names.
refuses_other_archive() {
    cp -r "$built" "$work/built" && printf x >> "$work/built/libcoder_c_v3.a" || return
    fails "libcoder_c_v3.a" "$clone/tools/package.py" pack --from "$work/built" --to "$work/no" \
        --unlicensed tar
}

# What is built is taken as it is, and nothing else.
reuses() {
    logged "$clone/tools/package.py" build --to "$work/again" --reuse "$built" || return
    diff -r --exclude built.json "$built" "$work/again"
}

# lintian finds nothing, but that the packages close no bug of Debian's.
lints() {
    lintian --allow-root --fail-on error,warning --suppress-tags initial-upload-closes-no-bugs \
        "$work"/dist/*.deb
}

# No line of a man page is too long or unknown to groff.
man_pages() {
    local page said
    for page in lrcstore.1 lrc.1 lrc_coder.3 lrc_store.3; do
        tar -xzOf "$work/dist/lrcstore-$number-linux-x86_64.tar.gz" \
            "lrcstore-$number/share/man/man${page##*.}/$page" > "$work/$page" || return
        said=$(LC_ALL=C.UTF-8 MANWIDTH=100 man --warnings -E UTF-8 -l -Tutf8 -Z "$work/$page" \
            2>&1 > /dev/null)
        [ -z "$said" ] || { echo "$page: $said"; return 1; }
    done
}

# The options are those that the program has.
completions() {
    local each said
    # shellcheck disable=SC2016 # for the other shell
    said=$(bash -c '. packaging/completion/lrcstore.bash; COMP_WORDS=(lrcstore --) COMP_CWORD=1
        _lrcstore; printf "%s\n" "${COMPREPLY[@]}"' | sort)
    for each in $said; do
        "$built/lrcstore" --help | grep -q -e "$each" || { echo "no option $each"; return 1; }
    done
    [ "$(wc -l <<< "$said")" = 6 ] || { echo "$said"; return 1; }
}

# The options of a command are those that the program has.
completions_of_lrc() {
    local command said
    for command in split verify repair join show; do
        # shellcheck disable=SC2016 # for the other shell
        said=$(bash -c '. packaging/completion/lrc.bash; COMP_WORDS=(lrc "$1" --) COMP_CWORD=2
            _lrc; printf "%s\n" "${COMPREPLY[@]}"' - "$command" | sort)
        diff <("$built/lrc" "$command" --help | grep -o -e '--[a-z]*' | sort -u) - <<< "$said" \
            || { echo "the options of $command"; return 1; }
    done
}

clone_here || exit 1
choose_kinds
test_of "modules" python3 python3 logged python3 tests/release/modules.py
test_of "packages" gcc gcc packs
test_of "two packings" git git same_bytes
test_of "planted difference" git git names_difference
test_of "no licence" git git refuses_without_licence
test_of "other archive" git git refuses_other_archive
test_of "built archives" gcc gcc reuses
test_of "man pages" man man-db man_pages
test_of "completion for bash" bash bash completions
test_of "completion of lrc for bash" bash bash completions_of_lrc
for program in lrcstore lrc; do
    test_of "completion of $program for zsh" zsh zsh zsh -n "packaging/completion/$program.zsh"
    test_of "completion of $program for fish" fish fish fish -n "packaging/completion/$program.fish"
done
if [[ " ${kinds[*]} " == *" deb "* ]]; then
    test_of "lintian" lintian lintian lints
    fresh_tests
fi
summary release
