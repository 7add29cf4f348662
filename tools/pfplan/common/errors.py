"""What goes wrong: one line for the user, and the status with which pfplan ends."""

import enum


class Status(enum.IntEnum):
    """How pfplan ends. The numbers are those of pfsrc where it has them (man/pfsrc.1)."""

    DONE = 0
    REFUSED = 1  # a trace, a report or a capture
    WORDS = 2  # of the command line
    RULES = 3  # a pf.conf or a rules text is refused
    FAILED = 4  # reading or writing failed, or there was no memory
    NOT_BUILT = 70  # pfsrc or pfstrace is not there, or could not be built
    INTERRUPTED = 130


class Trouble(Exception):
    """Ends the command. The message is one line: the file or the word, the place in it, and what is wrong."""

    def __init__(self, message: str, status: int = Status.WORDS) -> None:
        super().__init__(message)
        self.message = message
        self.status = int(status)


def reason_of(error: OSError) -> str:
    """The system's words for a failure, as `No space left on device`."""
    return error.strerror or str(error)
