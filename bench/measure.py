"""Runs of programs, with their time and their peak of memory."""

import os
import resource
import shutil
import statistics
import subprocess
import tempfile

HERE = os.path.dirname(os.path.abspath(__file__))
REGISTRY = "/usr/share/cargo/registry"
PACKAGES = ["librust-serde-json-dev", "librust-base64-dev", "librust-sha2-dev"]


def launcher(name):
    """The script that proves and builds a program where need be, and runs it."""
    return os.path.join(HERE, "..", name)


def program(name):
    """The program itself, once it is built."""
    return os.path.join(HERE, "..", "crates", name, "out", name)


def plain(name):
    """The plain Rust program of this name, once it is built."""
    return os.path.join(HERE, name, "out", "release", name)


def build_plain(name):
    """Builds the plain Rust program of this name, or says why not."""
    missing = [tool for tool in ("cargo", "time") if shutil.which(tool) is None]
    if not os.path.isdir(REGISTRY):
        missing += PACKAGES
    if missing:
        return "not installed: " + " ".join(missing)
    done = subprocess.run(
        ["cargo", "build", "--release", "--offline", "--quiet"],
        cwd=os.path.join(HERE, name),
        capture_output=True,
        text=True,
    )
    return None if done.returncode == 0 else "%s is not built (it needs %s):\n%s" % (
        name,
        " ".join(PACKAGES),
        done.stderr,
    )


def run(words):
    """The output, the seconds of processor time and the peak of memory, in megabytes, of one run.

    Neither program has a second thread or waits for anything but its files, so on an idle machine this is
    the time that passes; on a busy one it is steadier. `time` starts the program, since the peak that the
    system counts for a child begins with what its parent held."""
    with tempfile.NamedTemporaryFile("r") as peak:
        before = resource.getrusage(resource.RUSAGE_CHILDREN)
        done = subprocess.run(
            ["time", "-f", "%M", "-o", peak.name, *words], stdout=subprocess.PIPE, stderr=subprocess.DEVNULL
        )
        after = resource.getrusage(resource.RUSAGE_CHILDREN)
        seconds = after.ru_utime + after.ru_stime - before.ru_utime - before.ru_stime
        return done.stdout.decode(), seconds, int(peak.read().split()[-1]) / 1024


def medians(words, runs):
    outputs, seconds, peaks = zip(*(run(words) for _ in range(runs)))
    return outputs[0], statistics.median(seconds), statistics.median(peaks)


def print_head(first, ours, other):
    print("%-20s %10s %10s %7s %10s %10s" % (first, ours, other, "ratio", ours, other))


def print_row(name, ours, theirs):
    print(
        "%-20s %8.1fms %8.1fms %7.2f %8.1fMB %8.1fMB"
        % (name, ours[1] * 1e3, theirs[1] * 1e3, ours[1] / theirs[1], ours[2], theirs[2]),
        flush=True,
    )
