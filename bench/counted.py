"""What the scripts beside this file have in common that count instructions.

PROGRAMS names a folder of programs to count in place of those in crates/*/out. EARLIER names one of programs of an earlier
state, built the same way, for the figures whose aim is a ratio to it."""

import os, pathlib, re, subprocess

TOP = pathlib.Path(__file__).resolve().parent.parent
PROGRAMS, EARLIER = os.environ.get("PROGRAMS"), os.environ.get("EARLIER")
CACHEGRIND = ["valgrind", "--tool=cachegrind", "--cache-sim=no", "--cachegrind-out-file=/dev/null"]


def program(name):
    return os.path.join(PROGRAMS, name) if PROGRAMS else str(TOP / "crates" / name / "out" / name)


def earlier(name):
    return os.path.join(EARLIER, name)


def instructions(*words, source=os.devnull):
    """How many instructions a run takes. Counts as callgrind does, in less time."""
    with open(source, "rb") as bytes_in:
        run = subprocess.run(CACHEGRIND + [str(word) for word in words], stdin=bytes_in, stdout=subprocess.DEVNULL,
            stderr=subprocess.PIPE, check=True)
    return int(re.search(rb"I +refs: +([\d,]+)", run.stderr).group(1).replace(b",", b""))


def compare(what, now, before, most=None):
    """Prints a figure, that of the earlier state, and their ratio beside its aim."""
    ratio = now / before
    aim = "" if most is None else f" of at most {most}" + (", MISSED" if ratio > most else "")
    print(f"{what}: {now:.0f} instructions, earlier {before:.0f}, ratio {ratio:.3f}{aim}")
