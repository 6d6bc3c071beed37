"""The program that `./xatmi` runs: the proved one where it is built of these sources, and else one without a proof."""

import functools
import subprocess
import sys
from pathlib import Path

TOP = Path(__file__).resolve().parents[2]


def tell(line):
    print(line, file=sys.stderr, flush=True)


@functools.cache
def program(say=tell):
    """The path of the program, which is compiled first, without a proof, where there is none; what the launcher says meanwhile is
    told line by line."""
    with subprocess.Popen(
        [TOP / "xatmi", "which"], stdin=subprocess.DEVNULL, stdout=subprocess.PIPE, stderr=subprocess.PIPE, text=True, errors="replace"
    ) as launcher:
        try:
            for line in launcher.stderr:
                say(line.rstrip("\n"))
            path = launcher.stdout.read().strip()
        except BaseException:
            launcher.terminate()
            raise
    if launcher.returncode:
        sys.exit(launcher.returncode)
    return path
