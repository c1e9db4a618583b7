"""Another root beside this system, for tests of two releases at once."""

import contextlib
import os
import subprocess
import sys

import harness

ENVIRONMENT = "env", "-i", "PATH=/usr/sbin:/usr/bin:/sbin:/bin", "LRC_LIBRARIES=/libraries"


def run(description, packages, work, integration, needed):
    """As harness.run, with the root as `options.root`, which roots.sh has left for the integration:
    it has the file `needed`. What is mounted ends with the program."""
    if "LRC_MOUNTS" not in os.environ:
        os.environ["LRC_MOUNTS"] = "own"
        os.execvp("unshare", ["unshare", "--mount", "--propagation", propagation(), *sys.argv])

    def root_at(path):
        root = os.path.realpath(path)
        for each in needed, "src/integrations", "libraries":
            if not os.path.exists(f"{root}/{each}"):
                parser.error(
                    f"{root} has no {each}; name a root that "
                    f"`LRC_ROOTS=FOLDER integrations/roots.sh {integration} SUITE` leaves in FOLDER"
                )
        return root

    def work_with_mounts(report, folder, options):
        with contextlib.ExitStack() as mounts:
            for kind, at in (["-t", "proc", "proc"], "proc"), (["--bind", "/dev"], "dev"):
                subprocess.run(["mount", *kind, f"{options.root}/{at}"], check=True)
                mounts.callback(subprocess.run, ["umount", f"{options.root}/{at}"], check=False)
            work(report, folder, options)

    parser = harness.parser_of(description)
    parser.add_argument("root", type=root_at, help="a root that integrations/roots.sh has left")
    return harness.run(parser, packages, work_with_mounts)


def propagation():
    """In a chroot whose root is no mount point, mounts may be seen outside until they end."""
    words = ["unshare", "--mount", "--propagation", "private", "true"]
    done = subprocess.run(words, stderr=subprocess.DEVNULL, check=False)
    return "unchanged" if done.returncode else "private"


@contextlib.contextmanager
def seen_from(root, folder):
    """The folder has the same path in the root."""
    inside = f"{root}{folder}"
    os.makedirs(inside, exist_ok=True)
    subprocess.run(["mount", "--bind", folder, inside], check=True)
    try:
        yield
    finally:
        subprocess.run(["umount", inside], check=True)


def shell(root, steps):
    """Runs the steps in the root, with no variable of this system."""
    subprocess.run(["chroot", root, *ENVIRONMENT, "sh", "-ec", steps], check=True)
