"""Why a command ends early, and with which status."""

ALL_DONE = 0
REFUSED = 1
SAYS_NOTHING = 2
FAILED = 3


class Stop(Exception):
    """A command that ends here: its status, and the lines for the clerk."""

    status = FAILED

    def __init__(self, *lines: str) -> None:
        super().__init__("\n".join(lines))
        self.lines = list(lines)


class SaysNothing(Stop):
    """Input that says nothing: file, line, why; nothing was done."""

    status = SAYS_NOTHING


class Failed(Stop):
    """A failure of files or programs: nothing is lost."""

    status = FAILED
