"""The texts of files under a prefix by which programs find the libraries: pkg-config and CMake; and
the variables that a user sets for a prefix that the system does not search."""

import os
import shlex
import subprocess
import sys

import libraries

WHAT = {
    "lrc_coder": "Coder of the Local Reconstruction Codes LRC(12,2,2) and LRC(6,2,2)",
    "lrc_store": "In-memory blob store in the Local Reconstruction Code LRC(12,2,2)",
}
# Prefixes whose library folders every loader and linker searches.
SYSTEM = ("/", "/usr")

PKG_CONFIG = """prefix={prefix}
libdir=${{prefix}}/{libdir}
includedir=${{prefix}}/include

Name: {name}
Description: {what}
Version: {version}
Cflags: -I${{includedir}}
Libs: -L${{libdir}} -l{name}{rpath}
"""

CMAKE = """get_filename_component(_prefix "${{CMAKE_CURRENT_LIST_DIR}}/{up}" ABSOLUTE)
foreach(_kind SHARED STATIC)
  set(_target {name}::{name})
  set(_file lib{name}.so)
  if(_kind STREQUAL STATIC)
    set(_target {name}::{name}_static)
    set(_file lib{name}.a)
  endif()
  if(NOT TARGET ${{_target}})
    add_library(${{_target}} ${{_kind}} IMPORTED)
    set_target_properties(${{_target}} PROPERTIES
      IMPORTED_LOCATION "${{_prefix}}/{libdir}/${{_file}}"
      INTERFACE_INCLUDE_DIRECTORIES "${{_prefix}}/include")
  endif()
endforeach()
"""

CMAKE_VERSION = """set(PACKAGE_VERSION "{version}")
set(PACKAGE_VERSION_COMPATIBLE FALSE)
if("${{PACKAGE_FIND_VERSION}}" STREQUAL "" OR ("${{PACKAGE_FIND_VERSION}}." MATCHES "^{abi}[.]"
    AND NOT "${{PACKAGE_FIND_VERSION}}" VERSION_GREATER PACKAGE_VERSION))
  set(PACKAGE_VERSION_COMPATIBLE TRUE)
endif()
"""


def up_from(folder):
    """The way from a folder under the prefix to the prefix."""
    return os.path.relpath("/", os.path.join("/", folder))


def pkg_config(name, prefix, libdir):
    """The .pc file. Below a prefix that can be moved it has the way from itself, and it gives
    programs the folder of the shared library."""
    is_system = prefix in SYSTEM
    return PKG_CONFIG.format(
        prefix=prefix if is_system else f"${{pcfiledir}}/{up_from(f'{libdir}/pkgconfig')}",
        libdir=libdir,
        name=name,
        what=WHAT[name],
        version=libraries.version(),
        rpath="" if is_system else " -Wl,-rpath,${libdir}",
    )


def cmake(name, libdir):
    """The two files of the CMake package, by their names."""
    number = libraries.version()
    up = up_from(f"{libdir}/cmake/{name}")
    return {
        f"{name}Config.cmake": CMAKE.format(name=name, libdir=libdir, up=up),
        f"{name}ConfigVersion.cmake": CMAKE_VERSION.format(
            version=number, abi=libraries.abi(number).replace(".", "[.]")
        ),
    }


def searched_by_pkg_config():
    """The folders that pkg-config searches without a variable."""
    try:
        ran = subprocess.run(
            ["pkg-config", "--variable", "pc_path", "pkg-config"],
            stdout=subprocess.PIPE,
            text=True,
            check=False,
        )
    except FileNotFoundError:
        return []
    return ran.stdout.strip().split(":")


def searched_by_cmake(libdir):
    """The folders of packages that CMake searches without a variable."""
    return [os.path.join(prefix, libdir, "cmake") for prefix in (*SYSTEM, "/usr/local")]


def variables(prefix, libdir, pythondir):
    """The lines that a user of the prefix gives to a shell, none for what the system searches."""
    places = (
        ("PATH", "bin", os.environ.get("PATH", "").split(":")),
        ("PKG_CONFIG_PATH", f"{libdir}/pkgconfig", searched_by_pkg_config()),
        ("CMAKE_PREFIX_PATH", f"{libdir}/cmake", searched_by_cmake(libdir)),
        ("PYTHONPATH", pythondir, sys.path),
    )
    for variable, folder, searched in places:
        path = os.path.join(prefix, folder).rstrip("/") or "/"
        if path not in searched:
            yield f"export {variable}={shlex.quote(path)}${{{variable}:+:${variable}}}"
