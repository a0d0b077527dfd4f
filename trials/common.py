"""What the trials have in common."""

import atexit
import importlib.util
import pathlib
import shutil
import subprocess
import sys
import tempfile
import time

sys.path.insert(0, str(pathlib.Path(__file__).resolve().parents[1] / "tools"))

TRIALS = pathlib.Path(__file__).resolve().parent
SKIPPED = 77  # the status of a trial that was not run

# The line that names the columns of the records which the trials write.
HEADER = "op,kind,id,dmap.itemname\n"


def skip(why):
    """Ends the trial as skipped."""
    print(why)
    sys.exit(SKIPPED)


def need_tool(tool, package):
    """Skips the trial if a program is missing that a Debian package has."""
    if not shutil.which(tool):
        skip(f"{tool} is missing: install the package {package}")


def need_module(module, package):
    """Skips the trial if a module of Python is missing that a Debian package has."""
    if not importlib.util.find_spec(module):
        skip(f"Python's {module} is missing: install the package {package}")


def need_strace():
    """Skips the trial if strace is missing, or may not trace here."""
    need_tool("strace", "strace")
    if not may_trace():
        skip("strace may not trace programs here")


def may_trace():
    """Returns whether strace may trace programs here."""
    tried = subprocess.run(["strace", "-qq", "-o", "/dev/null", "-e", "inject=sync:error=EIO", "true"], capture_output=True)
    return tried.returncode == 0


def check(held, what):
    """Ends the trial as failed if something does not hold."""
    if not held:
        sys.exit(f"FAILED: {what}")


def work_folder():
    """Makes a folder that is removed when the trial ends."""
    folder = pathlib.Path(tempfile.mkdtemp())
    atexit.register(shutil.rmtree, folder, True)
    return folder


def waited(done, seconds, what):
    """Calls `done` until it returns something true, and returns that. Ends the trial as failed after `seconds`."""
    end = time.monotonic() + seconds
    while time.monotonic() < end:
        found = done()
        if found:
            return found
        time.sleep(0.02)
    sys.exit(f"FAILED: waited {seconds} s for {what}")


def compiled(source, *words):
    """Compiles a C file of this folder, with these words for cc. Returns the path of what was made."""
    made = work_folder() / "made"
    done = subprocess.run(["cc", "-O2", "-o", made, TRIALS / source, *words], capture_output=True, text=True)
    check(done.returncode == 0, f"cc {source}: {done.stderr}")
    return made
