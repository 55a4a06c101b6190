"""How a command ends."""

from __future__ import annotations


class Stop(Exception):
    """Ends the command with a message and an exit status."""

    status = 1


class Refused(Stop):
    """A person has to look; raised as an alarm."""


class Misused(Stop):
    """The words, the configuration or a key are wrong."""

    status = 2


class Unavailable(Stop):
    """Something could not be reached; the same command can be run again."""

    status = 3


class NoAnswer(Unavailable):
    """A request was perhaps carried out, and its answer did not come."""


class Rejected(Refused):
    """The desk refused a call, and changed nothing."""

    def __init__(self, text: str, name: str, refusal: str) -> None:
        super().__init__(text)
        self.name = name
        self.refusal = refusal
