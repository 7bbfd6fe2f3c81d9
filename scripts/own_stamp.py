"""Writes into a built program of which commit it is, and whether all of it is proved: what its --version prints."""

from __future__ import annotations

import re
import subprocess
import sys
from pathlib import Path

REPOSITORY = Path(__file__).resolve().parent.parent
PROVED, NOT_PROVED = "all proved", "not proved"
# What the constant VERSION of p9_shell has behind its number, before and after it is written over.
STAMP = re.compile(rb"of (?:an unknown commit|commit [0-9a-f]{9}[0-9a-f+]), (?:all|not) proved")


def said_by_git(*words: str) -> str | None:
    """What git prints of the repository, or nothing where it fails or this is no repository."""
    try:
        ran = subprocess.run(["git", *words], cwd=REPOSITORY, capture_output=True, text=True, check=False)
    except OSError:
        return None
    return ran.stdout.strip() if ran.returncode == 0 else None


def commit_here() -> str:
    """The commit of the repository, in ten characters, of which the last is a plus where files differ from the commit's. It is empty
    where that isn't known."""
    commit, changes = said_by_git("rev-parse", "HEAD"), said_by_git("status", "--porcelain")
    if not commit or changes is None:
        return ""
    return commit[:9] + "+" if changes else commit[:10]


def put_stamp(program: Path, commit: str, verdict: str) -> None:
    """Writes into a program a commit, as `commit_here` gives it, and this verdict. The program has to have the place for them exactly
    once."""
    data = program.read_bytes()
    stamp = f"{f'of commit {commit}' if commit else 'of an unknown commit'}, {verdict}".encode()
    found = STAMP.findall(data)
    if len(found) != 1 or len(found[0]) != len(stamp):
        sys.exit(f"{program} has {len(found)} places for its commit, and not one")
    if found[0] == stamp:
        return
    # (a program that runs can't be written, but another can take its place)
    new = program.with_name(f".{program.name}.new")
    new.write_bytes(data.replace(found[0], stamp))
    new.chmod(program.stat().st_mode & 0o777)
    new.replace(program)
