"""What building the proved program and compiling the unproved one have in common: what is said, who waits, and the stamp by
which ./pat knows whether a program still fits the sources."""
import fcntl
import os
import signal
import subprocess
import sys

from kit import PROGRAM, from_below
from repository import ROOT

PARTS = ("src", "specs", "proofs")


def say(text):
    print(f"pat: {text}", file=sys.stderr, flush=True)


def minutes(seconds):
    return f"{round(seconds / 60)} min" if seconds >= 90 else f"{max(10, round(seconds, -1)):.0f} s"


def end_on_signals():
    """Has a call that is to end go the way of one that is interrupted, so that what it began is ended and put away."""
    for number in (signal.SIGTERM, signal.SIGHUP):
        signal.signal(number, signal.default_int_handler)


def lock(folder):
    """Waits until no other build is at work there, and returns what keeps others out until this process ends."""
    os.makedirs(folder, exist_ok=True)
    held = open(os.path.join(folder, "build.lock"), "w")
    try:
        fcntl.flock(held, fcntl.LOCK_EX | fcntl.LOCK_NB)
    except BlockingIOError:
        say("another build is at work here; waiting for it")
        fcntl.flock(held, fcntl.LOCK_EX)
    return held


def changed_at(paths):
    """When the newest of these files and folders changed, all below them included; a file that comes or goes changes its folder."""
    found = [0]
    for path in paths:
        found += [os.stat(at).st_mtime for at, _, _ in os.walk(path)]
        found += [os.stat(os.path.join(at, it)).st_mtime for at, _, names in os.walk(path) for it in names]
    return max(found)


def sources():
    """The program's sources, as paths from the top."""
    parts = (f"crates/{it}/{part}" for it in (*from_below(PROGRAM), PROGRAM) for part in PARTS)
    return ["crates.txt", *(it for it in parts if os.path.exists(os.path.join(ROOT, it)))]


def commit():
    """The commit that is checked out, with a plus where a source differs from it, or nothing where git doesn't know."""
    ask = {"cwd": ROOT, "capture_output": True, "text": True}
    try:
        head = subprocess.run(["git", "rev-parse", "--short", "HEAD"], **ask)
        changed = subprocess.run(["git", "status", "--porcelain", "--", "crates.txt", "crates"], **ask)
    except OSError:
        return ""
    return head.stdout.strip() + "+" * bool(changed.stdout.strip()) if head.returncode == 0 else ""


def write_stamp(path, started, kit):
    """Writes what ./pat reads of a program: the sources, the commit and the kit; as its time, when the making began."""
    with open(f"{path}.part", "w", encoding="utf-8") as file:
        file.write(f"sources='{' '.join(sources())}'\ncommit='{commit()}'\nkit='{kit}'\n")
    os.utime(f"{path}.part", (started, started))
    os.replace(f"{path}.part", path)


def fits(program, stamp):
    """Whether the program is there and no source is newer than the beginning of its making."""
    if not (os.access(program, os.X_OK) and os.path.isfile(stamp)):
        return False
    newest = max(changed_at([os.path.join(ROOT, it)]) if "/" in it else os.stat(os.path.join(ROOT, it)).st_mtime for it in sources())
    return newest <= os.stat(stamp).st_mtime
