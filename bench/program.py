"""What the scripts of bench/ share: which program they run, and their words."""

import os
import shutil
import signal
import subprocess
import sys

TOP = os.path.dirname(os.path.dirname(os.path.realpath(__file__)))
LAUNCHER = os.path.join(TOP, "orochi")
BUILT = os.path.join(TOP, "crates", "orochi", "out", "orochi")
BENCHES = os.path.join(TOP, "crates", "benches", "out", "benches")


def orochi():
    """The program that the environment variable `orochi` names, or else what the launcher builds: its whole path. Ends the
    script where it isn't there and can't be built."""
    named = os.environ.get("orochi")
    if named and os.path.realpath(named) != LAUNCHER:
        found = shutil.which(named)
        return os.path.abspath(found) if found else sys.exit(f"no program: {named}")
    # (without words it prints the usage, once it is built)
    if subprocess.run([LAUNCHER], stdin=subprocess.DEVNULL, stdout=subprocess.DEVNULL).returncode == 125:
        sys.exit("the program can't be built")
    return BUILT


def benches(named=BENCHES):
    """The program of this name, or else what `rt run` built in crates/benches: its whole path. Ends the script where it isn't
    there."""
    program = os.path.abspath(named)
    return program if os.access(program, os.X_OK) else sys.exit(f"no program: {program}")


def words(use):
    """The words after the script's name. `--help` prints the use in their place."""
    if "--help" in sys.argv[1:]:
        signal.signal(signal.SIGPIPE, signal.SIG_DFL)
        print(use.strip())
        sys.exit(0)
    return sys.argv[1:]
