#!/usr/bin/env python3
"""What ./ltd and a release's bin/ltd run: disability studies from CSV files, over the engine's proved calls."""

import signal
import sys

if sys.version_info < (3, 11):
    sys.stderr.write("ltd: Python 3.11 or later is needed, and this is " + sys.version.split()[0] + "\n")
    sys.exit(2)

# Until the command runs there is nothing to remove, and an interrupt ends it without a traceback. One that is ignored stays so.
if signal.getsignal(signal.SIGINT) is signal.default_int_handler:
    signal.signal(signal.SIGINT, signal.SIG_DFL)

import subprocess
from pathlib import Path

HERE = Path(__file__).resolve().parent
BUILD_CALLS = HERE.parent / "scripts" / "build-calls"
# A release has nothing to build, and may stand in a folder that is read only.
if BUILD_CALLS.is_file():
    sys.pycache_prefix = str(HERE.parent / "target" / "pycache")
else:
    sys.dont_write_bytecode = True
sys.path.insert(0, str(HERE))

from ltd_study import library
from ltd_study.desk.command import main


def build_calls() -> None:
    """Proves and builds the static library, with a line for each crate on standard error."""
    subprocess.run([str(BUILD_CALLS)], stdin=subprocess.DEVNULL, check=False)


if __name__ == "__main__":
    if BUILD_CALLS.is_file():
        library.builder = build_calls
    sys.exit(main())
