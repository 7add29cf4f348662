"""Runs a command, and tells what went wrong in one line."""

import gc
import signal
import sys
from collections.abc import Sequence
from types import FrameType

from pfplan.commands.parser import COMMANDS, parse
from pfplan.common.errors import Status, Trouble, reason_of
from pfplan.common.exchanges import ENDING
from pfplan.common.visible import visible

# Values that are made before the collector looks for circles of them. Records are made and let go by the million, and
# stand in no circle.
UNWATCHED = 200_000


def main(words: Sequence[str] | None = None) -> int:
    """Runs the command that the words name, and answers the status (man/pfplan.1)."""
    given = list(sys.argv[1:] if words is None else words)
    name = f"pfplan {given[0]}" if given and given[0] in [it for it, _ in COMMANDS] else "pfplan"
    try:
        _heed_endings()
        gc.set_threshold(UNWATCHED, 20, 20)
        arguments = parse(given)
        if arguments.completion:
            from pfplan.commands.completions import script_of

            print(script_of(arguments.completion), end="")
            return Status.DONE
        return int(arguments.run(arguments))
    except Trouble as trouble:
        message, status = trouble.message, trouble.status
    except KeyboardInterrupt:
        message, status = "interrupted", Status.INTERRUPTED
    except MemoryError:
        message, status = "no memory", Status.FAILED
    except OSError as error:
        message, status = f"{error.filename or 'reading or writing'}: {reason_of(error)}", Status.FAILED
    if message:
        print(visible(f"{name}: {message}"), file=sys.stderr)
    return status


def _heed_endings() -> None:
    """What ends pfplan is an interrupt, also as a terminal goes; what nohup or a shell has ignored stays so."""
    for number in ENDING:
        if signal.getsignal(number) != signal.SIG_IGN:
            signal.signal(number, _interrupt)


def _interrupt(number: int, frame: FrameType | None) -> None:
    """One is enough: what is removed on the way out is removed whole."""
    for it in ENDING:
        signal.signal(it, signal.SIG_IGN)
    raise KeyboardInterrupt


if __name__ == "__main__":
    sys.exit(main())
