"""The two programs that read lists of events: `sessions_check`, and the plain Rust one."""

import os
import shutil
import subprocess

from measure import HERE

CRATE = os.path.join(HERE, "..", "crates", "sessions_check")
CHECK = os.path.join(CRATE, "out", "sessions_check")
PLAIN_FOLDER = os.path.join(HERE, "plain_sessions")
PLAIN = os.path.join(PLAIN_FOLDER, "out", "release", "plain_sessions")


def build_check():
    if not os.path.exists(CHECK):
        nothing = subprocess.DEVNULL
        subprocess.run(["rt", "run"], cwd=CRATE, stdin=nothing, stdout=nothing, check=True)


def build_plain():
    """Builds the plain program, or says why not."""
    missing = [program for program in ("cargo", "time") if shutil.which(program) is None]
    if missing:
        return "not installed: " + " ".join(missing)
    done = subprocess.run(
        ["cargo", "build", "--release", "--offline", "--quiet"],
        cwd=PLAIN_FOLDER,
        capture_output=True,
        text=True,
    )
    return None if done.returncode == 0 else done.stderr
