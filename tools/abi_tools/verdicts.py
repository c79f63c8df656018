"""The verdicts of a gate."""

from __future__ import annotations

import enum

# The percentage of the compared exports that must have types in both libraries, if the arguments name no other.
DEFAULT_SHARE = 90.0


class Verdict(enum.IntEnum):
    """A verdict, which is also the exit status of a gate."""

    YES = 0
    NO = 1
    CANNOT_TELL = 2

    def words(self) -> str:
        """The verdict in words."""
        return self.name.lower().replace("_", " ")
