#!/usr/bin/env python3
"""rt, with no work done twice.

    tools/rt_once.py WORD..                         the words of rt
    tools/rt_once.py archive CRATE v2|v3|v4 FILE    builds a static library for a processor
    tools/rt_once.py program CRATE v2|v3            builds a program for a processor
    tools/rt_once.py prove CRATE                    proves a static library or a program, with the
                                                    crates below it

tools/kit.py has what is done otherwise than by rt itself, tools/rounds.py how mutants are tried,
and tools/archives.py how archives and programs are built.
"""

import sys

import archives
import kit


def main():
    words = sys.argv[1:]
    rt = kit.load_rt(words)
    if words[:1] == ["archive"]:
        if len(words) != 4 or words[2] not in ("v2", "v3", "v4"):
            sys.exit(__doc__)
        sys.exit(archives.build_archive(rt, *words[1:]))
    if words[:1] == ["program"]:
        if len(words) != 3 or words[2] not in ("v2", "v3"):
            sys.exit(__doc__)
        sys.exit(archives.build_program(rt, *words[1:]))
    if words[:1] == ["prove"]:
        if len(words) != 2:
            sys.exit(__doc__)
        sys.exit(archives.prove(rt, words[1]))
    sys.exit(rt.main(words))


if __name__ == "__main__":
    main()
