#!/usr/bin/env python3
"""Makes the packages of a release.

    tools/package.py build --to BUILT [--reuse FOLDER].. [--verdicts LOG]
    tools/package.py pack --from BUILT --to DIST [--no-plugins] [--unlicensed]
                          [deb] [wheel] [crate] [tar] [assembly]
    tools/package.py all --to DIST [--built BUILT] ..    both, with the words of both
    tools/package.py plugins --from FOLDER --to DIST [--unlicensed]

`build` needs the Rattle kit. It leaves both programs, the archives of both libraries for each
processor, and what they come from in BUILT. With --reuse it takes from FOLDER what is built there,
and with --verdicts the prover's last line of each crate from LOG, what `rt ci --anew` has printed.

`pack` needs no kit, and takes less than a minute. It writes packages into DIST, all kinds if none
is named, with their provenance, a bill of materials and checksums. The bytes of DIST depend on
BUILT, the commit, the compiler, and Python's headers alone. It needs gcc and binutils; for `wheel`
python3-dev; for `deb` also debhelper, dh-python, and the headers of liberasurecode and Ceph, unless
--no-plugins leaves these plugins out. Without a file LICENSE it ends, unless --unlicensed is given.

`plugins` needs no kit either. It writes the Debian packages of the plugins for Ceph, liberasurecode
and Swift alone, for the Debian and the Ceph that are installed. FOLDER has liblrc_coder.a, as the
package liblrc-dev. It takes the time of all files from SOURCE_DATE_EPOCH, or from the commit.
"""

import argparse

from packages import building, packing, plugins


def add_building(verb):
    verb.add_argument(
        "--reuse", metavar="FOLDER", action="append", default=[], help="take what is built there"
    )
    verb.add_argument("--verdicts", metavar="LOG", help="what rt ci --anew has printed")


def add_packing(verb):
    verb.add_argument("--no-plugins", action="store_true", help="nothing for Swift and Ceph")
    verb.add_argument("--unlicensed", action="store_true", help="also without a file LICENSE")
    verb.add_argument("kinds", nargs="*", help=", ".join(packing.KINDS))


def arguments(words=None):
    parser = argparse.ArgumentParser(description=__doc__.splitlines()[0])
    verbs = parser.add_subparsers(dest="verb", required=True)
    first = verbs.add_parser("build", help="with the kit: the programs and the archives")
    first.add_argument("--to", required=True, metavar="BUILT")
    add_building(first)
    second = verbs.add_parser("pack", help="without the kit: packages")
    second.add_argument("--from", dest="source", required=True, metavar="BUILT")
    second.add_argument("--to", required=True, metavar="DIST")
    add_packing(second)
    both = verbs.add_parser("all", help="with the kit: packages")
    both.add_argument("--to", required=True, metavar="DIST")
    both.add_argument("--built", default="built", metavar="BUILT", help="built if left out")
    add_building(both)
    add_packing(both)
    alone = verbs.add_parser("plugins", help="without the kit: packages of the plugins alone")
    alone.add_argument("--from", dest="source", required=True, metavar="FOLDER")
    alone.add_argument("--to", required=True, metavar="DIST")
    alone.add_argument("--unlicensed", action="store_true", help="also without a file LICENSE")
    given = parser.parse_args(words)
    unknown = sorted(set(getattr(given, "kinds", [])) - set(packing.KINDS))
    if unknown:
        parser.error(f"there is no kind {unknown[0]}: there are {', '.join(packing.KINDS)}")
    return given


def pack(given, source):
    kinds = given.kinds or packing.KINDS
    packing.pack(source, given.to, kinds, not given.no_plugins, given.unlicensed)


def main(words=None):
    given = arguments(words)
    if given.verb == "all":
        building.build_to(given.built, given.reuse, given.verdicts)
        pack(given, given.built)
    elif given.verb == "plugins":
        plugins.pack(given.source, given.to, given.unlicensed)
    elif given.verb == "build":
        building.build_to(given.to, given.reuse, given.verdicts)
    else:
        pack(given, given.source)


if __name__ == "__main__":
    main()
