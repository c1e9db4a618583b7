"""The files of the programs, of both libraries and of what describes them, under a prefix. An
installation and every package is made of these."""

import os
import shutil

import checked_library
import libraries
import package_files
import python_extension
from packages import manual

TOP = libraries.TOP
HEADERS = ("lrc_coder.h", "lrc_store.h", "lrc_store.hpp")
RUST = {"lrc_coder": "rust", "lrc_store": "rust_store"}
PACKAGE = "lrcstore"
# A Python module beside the package: the coder by its older name.
ALIAS = "lrc_coder"
MANIFEST = os.path.join("share", "lrcstore", "installed.txt")
# Where each shell looks for the completions of a program, under a prefix.
COMPLETIONS = {
    "bash": "share/bash-completion/completions/{}",
    "zsh": "share/zsh/site-functions/_{}",
    "fish": "share/fish/vendor_completions.d/{}.fish",
}


class Installation:
    """The files under a prefix, and their list."""

    def __init__(self, root, prefix, libdir, pythondir):
        self.root = root
        self.prefix = prefix
        self.libdir = libdir
        self.pythondir = pythondir
        self.paths = []

    def place(self, path):
        """A path under the prefix, with its folder, and nothing there yet."""
        there = os.path.join(self.root, path)
        os.makedirs(os.path.dirname(there), exist_ok=True)
        if os.path.lexists(there):
            os.remove(there)
        self.paths.append(path)
        return there

    def copy(self, source, path, mode=0o644):
        os.chmod(shutil.copyfile(source, self.place(path)), mode)

    def write(self, text, path):
        with open(self.place(path), "w", encoding="utf-8") as file:
            file.write(text)

    def link(self, target, path):
        os.symlink(target, self.place(path))

    def program(self, source):
        """A program, its man page, and its completions for shells."""
        name = os.path.basename(source)
        self.copy(source, f"bin/{name}", 0o755)
        self.write(manual.of_program(name), f"share/man/man1/{name}.1")
        for shell, path in COMPLETIONS.items():
            completion = os.path.join(TOP, "packaging", "completion", f"{name}.{shell}")
            self.copy(completion, path.format(name))

    def headers(self):
        """The headers, and a man page for each library."""
        for header in HEADERS:
            self.copy(os.path.join(TOP, "include", header), f"include/{header}")
        for name in libraries.LIBRARIES:
            self.write(manual.of_header(name), f"share/man/man3/{name}.3")

    def library(self, name, folder):
        """A library's two forms, and what pkg-config and CMake know of it."""
        number, soname = libraries.version(), libraries.soname(name)
        self.copy(os.path.join(folder, f"lib{name}.a"), f"{self.libdir}/lib{name}.a")
        whole = f"lib{name}.so.{number}"
        self.copy(os.path.join(folder, f"lib{name}.so"), f"{self.libdir}/{whole}", 0o755)
        self.link(whole, f"{self.libdir}/{soname}")
        self.link(soname, f"{self.libdir}/lib{name}.so")
        text = package_files.pkg_config(name, self.prefix, self.libdir)
        self.write(text, f"{self.libdir}/pkgconfig/{name}.pc")
        for file, text in package_files.cmake(name, self.libdir).items():
            self.write(text, f"{self.libdir}/cmake/{name}/{file}")

    def checked(self, folder, has_path=True):
        """The library that checks callers, over the store's in a folder. It finds the installed one
        beside it, or as the system's loader does."""
        there = os.path.dirname(self.place(f"{self.libdir}/{checked_library.NAME}"))
        checked_library.build(folder, there, "$ORIGIN" if has_path else None)

    def python_package(self, folder, has_path=True):
        """The Python package, if this machine can compile its extension modules over the libraries
        in a folder. They find the installed ones by a path, or as the system's loader does."""
        if not os.path.exists(python_extension.header()):
            print(f"no package for Python, as there is no {python_extension.header()}")
            return
        source, to = os.path.join(TOP, "bindings", "python"), f"{self.pythondir}/{PACKAGE}"
        self.copy(os.path.join(source, f"{ALIAS}.py"), f"{self.pythondir}/{ALIAS}.py")
        for file in sorted(os.listdir(os.path.join(source, PACKAGE))):
            if file.endswith((".py", ".pyi", ".typed")):
                self.copy(os.path.join(source, PACKAGE, file), f"{to}/{file}")
        rpath = f"$ORIGIN/{os.path.relpath(self.libdir, to)}" if has_path else None
        for name in python_extension.MODULES:
            there = os.path.dirname(self.place(f"{to}/{python_extension.file_of(name)}"))
            python_extension.build(name, folder, there, rpath)

    def rust(self, name):
        """The sources of a Rust crate, which links the library by pkg-config."""
        crate = os.path.join(TOP, "bindings", RUST[name])
        sources = [os.path.join("src", it) for it in sorted(os.listdir(os.path.join(crate, "src")))]
        to = f"share/lrcstore/rust/{name}"
        for path in ["Cargo.toml", *sources]:
            self.copy(os.path.join(crate, path), f"{to}/{path}")
        self.copy(os.path.join(TOP, "bindings", "rust", "build.rs"), f"{to}/build.rs")

    def go(self):
        """The sources of the Go module, whose packages link the libraries by pkg-config."""
        for package in ("", "coder", "coder/reedsolomon"):
            folder = os.path.join(TOP, "bindings", "go", package)
            for file in sorted(os.listdir(folder)):
                is_source = file.endswith((".go", ".h")) and not file.endswith("_test.go")
                if file == "go.mod" or is_source:
                    to = os.path.join("share/lrcstore/go", package, file)
                    self.copy(os.path.join(folder, file), to)

    def finish(self):
        listed = "".join(f"{path}\n" for path in [*self.paths, MANIFEST])
        self.write(listed, MANIFEST)
