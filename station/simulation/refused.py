"""What a module says to a write that it doesn't take."""


class Refused(Exception):
    """The text says why."""
