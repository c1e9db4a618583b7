"""Programs that are built of Ceph's source against Debian's own libceph-common."""

import glob
import os
import re
from pathlib import Path

from source_package import run

CEPH = "/usr/lib/x86_64-linux-gnu/ceph"
# What is not unpacked, since no program here includes it.
LEFT_OUT = (
    *("arrow", "boost", "c-ares", "crimson", "crypto", "jaegertracing", "nvmeof", "pmdk", "pybind"),
    *("qatlib", "rgw", "rocksdb", "s3select", "seastar", "spdk", "zstd"),
)
# What CMake finds of Linux and glibc. All else is undefined, as if it were not there.
FOUND = """CEPH_HAVE_FALLOCATE CEPH_HAVE_SPLICE CEPH_LITTLE_ENDIAN HAVE_ARPA_NAMESER_COMPAT_H
HAVE_ASM_SYMVER HAVE_ATTR_SYMVER HAVE_EVENTFD HAVE_EXECINFO_H HAVE_FDATASYNC HAVE_FUNC
HAVE_GETENTROPY HAVE_GETGROUPLIST HAVE_IN_ADDR_T HAVE_LIBAIO HAVE_LINUX_TYPES_H HAVE_LINUX_VERSION_H
HAVE_LZ4 HAVE_MALLINFO HAVE_NAME_TO_HANDLE_AT HAVE_PIPE2 HAVE_POSIX_FADVISE HAVE_POSIX_FALLOCATE
HAVE_PRETTY_FUNC HAVE_PTHREAD_GETNAME_NP HAVE_PTHREAD_RWLOCKATTR_SETKIND_NP HAVE_PTHREAD_SETNAME_NP
HAVE_PTHREAD_SPINLOCK HAVE_PWRITEV HAVE_REENTRANT_STRSIGNAL HAVE_RES_NQUERY HAVE_SCHED
HAVE_SIGDESCR_NP HAVE_SSE HAVE_SSE2 HAVE_STATIC_CAST HAVE_STAT_ST_MTIM_TV_NSEC
HAVE_STDLIB_MAP_SPLICING HAVE_SUSECONDS_T HAVE_SYNC_FILE_RANGE HAVE_SYS_MOUNT_H HAVE_SYS_PARAM_H
HAVE_SYS_PRCTL_H HAVE_SYS_SYNCFS HAVE_SYS_TYPES_H HAVE_SYS_VFS_H HAVE_THREAD_SAFE_RES_QUERY
HAVE___S16 HAVE___S32 HAVE___S64 HAVE___S8 HAVE___U16 HAVE___U32 HAVE___U64 HAVE___U8
STRERROR_R_CHAR_P WITH_BLUESTORE WITH_CEPHFS WITH_EC_ISA_PLUGIN WITH_RADOSGW WITH_RBD""".split()
FLAGS = """-std=c++20 -O1 -w -fPIC -D_FILE_OFFSET_BITS=64 -D_GNU_SOURCE -D_REENTRANT -D__CEPH__
-DHAVE_CONFIG_H -DBOOST_ALLOW_DEPRECATED_HEADERS -DBOOST_MPL_CFG_NO_PREPROCESSED_HEADERS
-DFMT_DEPRECATED_OSTREAM -DCEPH_LIBDIR="/usr/lib" """.split()
# What programs of Ceph have beside libceph-common: how they start, and how plugins are loaded.
COMMON = """global/global_init.cc global/pidfile.cc global/signal_handler.cc
erasure-code/ErasureCodePlugin.cc""".split()
LIBRARIES = f"""-L{CEPH} -l:libceph-common.so.2 -Wl,-rpath,{CEPH} -lboost_program_options -lfmt
-ldl -lpthread""".split()


def version():
    """The version of the installed Ceph, as 20.2.4."""
    return run("ceph-osd", "--version").split()[2]


def unpack(archive, folder):
    os.makedirs(f"{folder}/ceph")
    words = ["--strip-components=1", *(f"--exclude=*/src/{each}/*" for each in LEFT_OUT)]
    run("tar", "-xf", archive, "-C", f"{folder}/ceph", *words, "--wildcards", "*/src/*")
    return f"{folder}/ceph/src"


def replaced(path, values, other):
    """The text of a file that CMake fills, with the values and with `other` for all others."""
    text = Path(path).read_text("utf-8")
    return re.sub(r"@(\w+)@", lambda found: values.get(found[1], other), text)


def configure(source):
    """Writes the headers that CMake would write."""
    values = {"PROJECT_VERSION": version(), "CMAKE_SHARED_LIBRARY_SUFFIX": ".so"}
    values["CEPH_GIT_NICE_VER"] = version()
    values["CEPH_RELEASE"] = version().split(".", maxsplit=1)[0]
    text = replaced(f"{source}/include/config-h.in.cmake", values, "3")

    def defined(found):
        is_there = found[1] in (*FOUND, *values)
        return f"#define {found[1]} {found[2]}" if is_there else ""

    text = re.sub(r"(?m)^#cmakedefine (\w+)(.*)$", defined, text)
    headers = {"acconfig.h": text}
    for name in "ceph_release.h", "ceph_ver.h":
        if os.path.exists(f"{source}/{name}.in.cmake"):
            headers[name] = replaced(f"{source}/{name}.in.cmake", values, "none")
    for name, text in headers.items():
        Path(source, "include", name).write_text(text, "utf-8")
    for path in glob.glob(f"{source}/common/options/*.yaml.in"):
        write_options(source, path, os.path.basename(path).split(".", maxsplit=1)[0])


def write_options(source, path, name):
    """Has Ceph's own script write a header of options."""
    options = f"{source}/common/options/{name}"
    numbers = dict.fromkeys(("ms_bind_retry_count", "ms_bind_retry_delay"), "3")
    Path(f"{options}.yaml").write_text(replaced(path, numbers, "none"), "utf-8")
    words = "--input", f"{options}.yaml", "--output", f"{options}.cc", "--name", name
    legacy = f"{source}/include/{name}_legacy_options.h"
    run("python3", f"{source}/common/options/y2c.py", *words, "--legacy", legacy)


def compile_flags(source):
    folders = source, f"{source}/include", f"{source}/erasure-code", f"{source}/global"
    return [*FLAGS, *(f"-I{each}" for each in folders), "-isystem", f"{source}/xxHash"]


def build(source, path, target, *words):
    """A program of a file, and of what all of Ceph's programs have."""
    flags, objects = compile_flags(source), []
    for each in COMMON:
        objects.append(f"{source}/{os.path.basename(each)}.o")
        if not os.path.exists(objects[-1]):
            run("g++", *flags, "-c", f"{source}/{each}", "-o", objects[-1])
    run("g++", *flags, "-rdynamic", path, *objects, "-o", target, *words, *LIBRARIES)
    return target
