"""A copy of the tree, whose programs report its commit and whether they are proved.

./install and ./try build from such a copy. So the work tree stays as it is, whatever ends them.
"""
import contextlib
import os
import shutil
import signal
import subprocess
import tempfile

TOP = os.path.dirname(os.path.dirname(os.path.abspath(__file__)))
# what a build reads
PARTS = ("crates", "crates.txt", "HANDLES")
# the file that has the record, and what it has in the tree
RECORD = "crates/build_record/src/record.rt"
UNRECORDED = "commit not recorded"


def git(*words):
    """What git prints, or "" if it fails or isn't there."""
    try:
        return subprocess.run(["git", *words], cwd=TOP, capture_output=True, text=True, check=True).stdout.strip()
    except (OSError, subprocess.CalledProcessError):
        return ""


def commit():
    """The commit that is built, in the words of the record."""
    number = git("rev-parse", "--short=8", "HEAD")
    if not number:
        return "commit unknown"
    return f"commit {number} with changes" if git("status", "--porcelain", "--", *PARTS) else f"commit {number}"


def write_record(top, record):
    """Writes the record of a tree."""
    with open(f"{top}/{RECORD}", encoding="utf-8") as it:
        text = it.read()
    if text.count(UNRECORDED) != 1:
        raise ValueError(f"{top}/{RECORD} has '{UNRECORDED}' {text.count(UNRECORDED)} times, and not once")
    with open(f"{top}/{RECORD}", "w", encoding="utf-8") as it:
        it.write(text.replace(UNRECORDED, record))


@contextlib.contextmanager
def copied(proof):
    """A copy of what a build reads, which is removed at the end. Its record has the commit, and whether it is proved."""
    room = tempfile.mkdtemp(prefix="zoclesavory-")
    try:
        for part in PARTS:
            if os.path.isdir(f"{TOP}/{part}"):
                shutil.copytree(f"{TOP}/{part}", f"{room}/{part}", ignore=shutil.ignore_patterns("out"))
            elif os.path.exists(f"{TOP}/{part}"):
                shutil.copy2(f"{TOP}/{part}", f"{room}/{part}")
        write_record(room, f"{commit()}, {proof}")
        yield room
    finally:
        # a signal that comes now waits until the copy is gone
        before = signal.pthread_sigmask(signal.SIG_BLOCK, {signal.SIGINT, signal.SIGTERM})
        shutil.rmtree(room, ignore_errors=True)
        signal.pthread_sigmask(signal.SIG_SETMASK, before)
