"""Runs the scripts that compare the pages with the repository and that try the built programs, and counts what they say."""

from __future__ import annotations

import os
import re
import subprocess
import sys
import time
from pathlib import Path

REPOSITORY = Path(__file__).resolve().parent.parent
# The scripts with their words, and the seconds that each may take.
SCRIPTS = (
    "trusted --check", "program", "pack", "pages", "pictures", "completions --check", "misled", "faults 200", "hostile-server", "daemon",
    "kept", "unpack",
)
# Those that the gate runs too, which take too long over programs that are built without a proof.
OF_THE_GATE = ("large", "soak --kept --minutes 0.3")
SCRIPT_LIMIT = 900
COUNTS = re.compile(r"(\d+) passed, (\d+) failed")


def counts_in(line: str) -> tuple[int, int] | None:
    """How much passed and failed, as a last line says."""
    found = COUNTS.match(line.strip())
    return (int(found[1]), int(found[2])) if found else None


def is_python(name: str) -> bool:
    """Whether a script is one of Python."""
    return "python" in (REPOSITORY / "scripts" / name).read_text(encoding="utf-8").splitlines()[0]


def run_script(name: str, more: dict[str, str] | None = None) -> tuple[int, int]:
    """Runs a script with its words, and with more in its environment. Prints what it prints, and returns how much passed and
    failed."""
    begun = time.monotonic()
    script, *words = name.split()
    command = [sys.executable if is_python(script) else "bash", str(REPOSITORY / "scripts" / script), *words]
    try:
        ran = subprocess.run(
            command, cwd=REPOSITORY, env={**os.environ, **(more or {})}, stdin=subprocess.DEVNULL, stdout=subprocess.PIPE,
            stderr=subprocess.STDOUT, text=True, errors="replace", timeout=SCRIPT_LIMIT,
        )
    except subprocess.TimeoutExpired:
        print(f"scripts/{name}: it took more than {SCRIPT_LIMIT} seconds", flush=True)
        return 0, 1
    lines = ran.stdout.splitlines()
    print("\n".join(lines[:-1][-100:]), flush=True)
    counts = counts_in(lines[-1]) if lines else None
    passed, failed = counts or (0, 1)
    if ran.returncode != 0 and failed == 0:
        failed = 1
    print(f"scripts/{name}: {passed} passed, {failed} failed, {time.monotonic() - begun:.0f} seconds", flush=True)
    return passed, failed
