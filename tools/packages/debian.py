"""The Debian packages: debhelper makes them of packaging/debian and of a prefix, filled here.

What follows from the version and from the headers is written here: the changelog, and for each
library the names of its package, its files and its symbols."""

import os
import shutil
import sys
import tempfile
import time

import libraries
import python_extension
from installation import Installation
from packages import licence, record
from packages.reproducible import environment, normalise

HERE = os.path.join("packaging", "debian")
# What the packages have of the clone, or compile.
LEFT_OUT = shutil.ignore_patterns("__pycache__", "target", "*.so", "*.pyc")
PARTS = ("include", "integrations", "bindings", "docs", "scripts", "CHANGELOG.md", "SECURITY.md")
# The plugin is loaded by the Ceph that it was built for and by no other: this one is tested.
CEPH = "16.2.15"
NO_PLUGINS, ONLY_PLUGINS = "pkg.lrcstore.noplugins", "pkg.lrcstore.onlyplugins"
# What has to be here for the plugins: a file, and the package that has it.
HEADERS_OF_CEPH = "libradospp-dev"
HEADERS = {
    "/usr/include/liberasurecode/erasurecode_backend.h": "liberasurecode-dev",
    "/usr/include/rados/buffer.h": HEADERS_OF_CEPH,
}
PROGRAMS = {"dpkg-buildpackage": "dpkg-dev", "dh": "debhelper", "dh_python3": "dh-python"}


def package_of(name):
    """The name of a library's package, which changes with its soname: liblrc-store0.1."""
    return f"lib{name.replace('_', '-')}{libraries.abi(libraries.version())}"


def missing_for_plugins():
    """The packages without which the plugins are not made."""
    missing = [package for it, package in HEADERS.items() if not os.path.exists(it)]
    if not missing:
        query = ("dpkg-query", "-W", "-f", "${source:Upstream-Version}")
        found = libraries.run(*query, HEADERS_OF_CEPH)
        if found.split("+")[0] != CEPH:
            missing.append(f"{HEADERS_OF_CEPH} {CEPH}, which is {found} here")
    return missing


def demand(has_plugins):
    """Ends if the packages can't be made here."""
    missing = [package for it, package in PROGRAMS.items() if not shutil.which(it)]
    missing += [] if os.path.exists(python_extension.header()) else ["python3-dev"]
    if missing:
        sys.exit(f"Debian packages need {' '.join(missing)}")
    missing = missing_for_plugins() if has_plugins else []
    if missing:
        sys.exit(f"the plugins need {' '.join(missing)}: install it, or give --no-plugins")


def fill(work, source, linked):
    """Puts into a folder the files under /usr, and what the rules and lists of packages name."""
    copy_sources(work)
    multiarch = libraries.run("dpkg-architecture", "-qDEB_HOST_MULTIARCH").strip()
    staged = Installation(
        os.path.join(work, "stage", "usr"),
        "/usr",
        f"lib/{multiarch}",
        "lib/python3/dist-packages",
    )
    for name in record.PROGRAMS:
        staged.program(os.path.join(source, name))
    staged.headers()
    for name in libraries.LIBRARIES:
        staged.library(name, linked)
        staged.rust(name)
    staged.checked(linked, has_path=False)
    staged.python_package(linked, has_path=False)
    staged.go()
    shutil.copytree(linked, os.path.join(work, "linked"))


def copy_sources(work, parts=PARTS):
    """What the packages have of the clone, or compile, and what says how."""
    for part in parts:
        there, copied = os.path.join(libraries.TOP, part), os.path.join(work, part)
        if os.path.isdir(there):
            shutil.copytree(there, copied, ignore=LEFT_OUT)
        else:
            shutil.copyfile(there, copied)
    shutil.copytree(os.path.join(libraries.TOP, HERE), os.path.join(work, "debian"))


def symbols(name):
    """The symbols of a library, by which other packages know the version that they need."""
    number, package = libraries.version(), package_of(name)
    label = libraries.label(name)
    yield f"{libraries.soname(name)} {package} #MINVER#"
    yield "* Build-Depends-Package: liblrc-dev"
    for each in sorted([label, *libraries.declared(name)]):
        yield f" {each}@{label} {number}"


def write_lists(debian):
    """The files and symbols of each library's package."""
    for name in libraries.LIBRARIES:
        package, soname = package_of(name), libraries.soname(name)
        files = [
            f"usr/lib/*/{soname}",
            f"usr/lib/*/lib{name}.so.{libraries.version()}",
        ]
        libraries.write(files, debian, f"{package}.install")
        libraries.write(symbols(name), debian, f"{package}.symbols")


def replace(path, **words):
    """Puts words in place of their names in capitals, as @ABI@."""
    with open(path, encoding="utf-8") as file:
        text = file.read()
    for name, word in words.items():
        text = text.replace(f"@{name}@", word)
    libraries.write(text.rstrip("\n").split("\n"), path)


def after(ceph):
    """What is below all later versions: apt takes a package for this one with no other."""
    first, _, last = ceph.rpartition(".")
    return f"{first}.{int(last) + 1}~"


def write_texts(debian, number, when, ceph=CEPH, revision="1"):
    """What the version, the time and the licence determine."""
    abi = libraries.abi(number)
    with open(os.path.join(debian, "maintainer"), encoding="utf-8") as file:
        maintainer = file.read().strip()
    os.remove(os.path.join(debian, "maintainer"))
    replace(
        os.path.join(debian, "control"),
        ABI=abi,
        MAINTAINER=maintainer,
        CEPH=ceph,
        AFTER_CEPH=after(ceph),
    )
    year = time.gmtime(when).tm_year
    replace(os.path.join(debian, "copyright"), LICENCE=licence.in_debian(year).rstrip())
    stamp = libraries.run("date", "-u", "-R", "-d", f"@{when}").strip()
    entry = [
        f"lrcstore ({number}-{revision}) unstable; urgency=medium",
        "",
        f"  * Version {number}: changelog.gz has its changes.",
        "",
        f" -- {maintainer}  {stamp}",
    ]
    libraries.write(entry, debian, "changelog")


def pack(source, linked, provenance, dist, number, when, has_plugins):
    """Writes the packages."""
    with tempfile.TemporaryDirectory() as room:
        work = os.path.join(room, f"lrcstore-{number}")
        fill(work, source, linked)
        shutil.copyfile(provenance, os.path.join(work, "provenance.json"))
        write_lists(os.path.join(work, "debian"))
        write_texts(os.path.join(work, "debian"), number, when)
        return build(work, dist, when, CEPH, "" if has_plugins else NO_PLUGINS)


def build(work, dist, when, ceph, profile):
    """Has debhelper make the packages, and copies them."""
    normalise(work, when)
    variables = {
        **environment(when),
        "CEPH_VERSION": ceph,
        "LRC_LIBRARIES": os.path.join(work, "linked"),
        "DEB_BUILD_PROFILES": profile,
    }
    libraries.run("dpkg-buildpackage", "-b", "-us", "-uc", "-d", cwd=work, env=variables)
    room = os.path.dirname(work)
    made = sorted(it for it in os.listdir(room) if it.endswith(".deb"))
    return [shutil.copyfile(os.path.join(room, it), os.path.join(dist, it)) for it in made]
