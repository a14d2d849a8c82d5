"""The built program that the tools run."""
import subprocess
import sys
from pathlib import Path

from repository import TOP


def built_program(words: list[str]) -> Path:
    """The program that the words name, else the one that `./idsm` runs. Ends the tool where it is not there."""
    if words:
        program = Path(words[0]).resolve()
    else:
        which = subprocess.run([TOP / "idsm", "--which"], stdin=subprocess.DEVNULL, stdout=subprocess.PIPE, text=True)
        if which.returncode:
            sys.exit(f"{Path(sys.argv[0]).name}: ./idsm has no program to run")
        program = Path(which.stdout[:-1])
    if not program.is_file():
        sys.exit(f"{Path(sys.argv[0]).name}: there is no program {program}")
    return program
