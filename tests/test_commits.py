"""The subjects of commits.

Each commit since the first that is judged has a subject of at most 72 characters. It begins with
areas: crates of that commit, or docs, ci, bench, bindings, integrations or specs. A blank line
follows it. Merges are not judged, and of a shallow clone only the last commit is.
"""

import re
import subprocess

from sources import TOP, expect_none

BEFORE = "103819db5ee7fc6a727a9e57eb27278fbdab519d"
AREAS = {"docs", "ci", "bench", "bindings", "integrations", "specs"}
SUBJECT = re.compile(r"([a-z0-9_]+(?:, [a-z0-9_]+)*): \S")
LONGEST = 72


def git(*words):
    """What git prints, or None if it fails."""
    ran = subprocess.run(["git", "-C", TOP, *words], capture_output=True, text=True)
    return ran.stdout if ran.returncode == 0 else None


def crates_of(commit):
    """The crates of a commit and of the one before it."""
    lists = [git("show", f"{one}:crates.txt") or "" for one in (commit, f"{commit}^")]
    return set(re.findall(r"^([a-z0-9_]+)\b.*:", "\n".join(lists), re.M))


def wrong_message(commit, message):
    subject, *rest = message.rstrip("\n").split("\n")
    named = SUBJECT.match(subject)
    if not named:
        yield "the subject names no area"
    else:
        unknown = set(named.group(1).split(", ")) - AREAS
        for area in sorted(unknown - crates_of(commit)):
            yield f"there is no area {area}"
    if len(subject) > LONGEST:
        yield f"the subject has {len(subject)} characters"
    if rest and rest[0]:
        yield "no blank line follows the subject"


def test_messages():
    is_there = git("cat-file", "-e", BEFORE) is not None
    since = [f"{BEFORE}..HEAD"] if is_there else ["-1", "HEAD"]
    commits = (git("rev-list", "--no-merges", *since) or "").split()
    expect_none(
        f"{commit[:12]}: {fault}"
        for commit in commits
        for fault in wrong_message(commit, git("log", "-1", "--format=%B", commit))
    )
