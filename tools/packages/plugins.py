"""The Debian packages of the plugins alone, for the Debian and the Ceph of this system. Neither the
kit nor what it builds is needed, but the coder as an archive."""

import os
import shutil
import sys
import tempfile

import libraries
from packages import debian, licence
from packages.reproducible import moment, settle

ARCHIVE = "liblrc_coder.a"
PARTS = ("include", "integrations", "CHANGELOG.md")
SYSTEM = "/etc/os-release"
# A file of each package that is needed here, beside debian.PROGRAMS.
NEEDED = {
    **debian.HEADERS,
    "/usr/bin/ceph-osd": "ceph-osd",
}


def demand(folder):
    """Ends if the packages can't be made here."""
    if not os.path.exists(os.path.join(folder, ARCHIVE)):
        sys.exit(f"{folder} has no {ARCHIVE}: the package liblrc-dev has it")
    missing = [name for it, name in debian.PROGRAMS.items() if not shutil.which(it)]
    missing += [name for it, name in NEEDED.items() if not os.path.exists(it)]
    if missing:
        sys.exit(f"packages of the plugins need {' '.join(missing)}")


def revision(path=SYSTEM):
    """The end of the packages' version, which grows with the release of Debian: 1+deb13, 1+sid."""
    with open(path, encoding="utf-8") as file:
        fields = dict(line.rstrip().split("=", 1) for line in file if "=" in line)
    number = fields.get("VERSION_ID", "").strip('"')
    return f"1+deb{number}" if number else "1+sid"


def ceph_version():
    """The version of the installed Ceph, as 18.2.7."""
    return libraries.run("ceph-osd", "--version").split()[2]


def when_made():
    """The time of all files: SOURCE_DATE_EPOCH, or the commit's."""
    given = os.environ.get("SOURCE_DATE_EPOCH")
    return int(given) if given else moment()


def pack(folder, dist, is_unlicensed):
    """Writes the packages, for the coder of a folder."""
    licence.demand(is_unlicensed)
    demand(folder)
    number, when, ceph = libraries.version(), when_made(), ceph_version()
    os.makedirs(dist, exist_ok=True)
    settle(when)
    with tempfile.TemporaryDirectory() as room:
        work = os.path.join(room, f"lrcstore-{number}")
        os.makedirs(os.path.join(work, "stage", "usr"))
        os.makedirs(os.path.join(work, "linked"))
        shutil.copyfile(os.path.join(folder, ARCHIVE), os.path.join(work, "linked", ARCHIVE))
        debian.copy_sources(work, PARTS)
        debian.write_texts(os.path.join(work, "debian"), number, when, ceph, revision())
        made = debian.build(work, dist, when, ceph, debian.ONLY_PLUGINS)
    for path in made:
        print(f"{os.path.getsize(path):>10}  {os.path.basename(path)}")
