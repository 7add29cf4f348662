"""What pfplan takes from the repository beside it: the programs, and the document of differences."""

import os
import shutil
import subprocess
from pathlib import Path

from pfplan.common.errors import Status, Trouble, reason_of

TOP = Path(__file__).resolve().parent.parent.parent.parent
DIFFERENCES = TOP / "docs" / "DIFFERENCES.md"


def program(name: str = "pfsrc") -> str:
    """What the environment names as PFSRC or PFSTRACE, else the program beside pfplan (that of the repository builds
    itself on first use), else that on the PATH."""
    beside = str(TOP / name)
    return os.environ.get(name.upper()) or (beside if os.path.lexists(beside) else shutil.which(name) or beside)


def check_program(name: str = "pfsrc") -> None:
    """Has a program built where it is not yet, which takes minutes and shows on standard error how far it is.

    Trouble with status 70 where it is not there or can't be built; the line that says why is then the builder's own.
    """
    try:
        ended = subprocess.run(
            [program(name), "--version"], stdin=subprocess.DEVNULL, stdout=subprocess.DEVNULL, check=False
        )
    except OSError as error:
        raise Trouble(
            f"{program(name)}: can't be run: {reason_of(error)} ({name.upper()} names the program)", Status.NOT_BUILT
        ) from None
    if ended.returncode == Status.NOT_BUILT:
        raise Trouble("", Status.NOT_BUILT)
    if ended.returncode:
        raise Trouble(
            f"{program(name)}: is not {name}: --version ends with status {ended.returncode}", Status.NOT_BUILT
        )
