"""The ways in which a request, a fault or a run can fail."""

from collections.abc import Iterator
from contextlib import contextmanager


class Refused(Exception):
    """The database rolled the transaction back: it had no effect, and may be tried again."""


class Lost(Exception):
    """The connection ended before the commit was sent: the transaction had no effect."""


class Unknown(Lost):
    """The connection ended during the commit: the transaction may have taken effect. If it did, it gave this reply;
    none if the reply is not known either."""

    def __init__(self, why: str = "", reply: str | None = None):
        super().__init__(why)
        self.reply = reply


class Damaged(Exception):
    """The database does not start, or reports that its data are damaged."""


class CutShort(Exception):
    """The run cannot be judged: a part of it is missing."""


class NoEffect(CutShort):
    """A fault was injected and did nothing."""


class Missing(Exception):
    """A package or a right that a run needs is missing."""


@contextmanager
def raising(outcome: type[Exception], errors) -> Iterator[None]:
    """Raises an outcome in the place of errors of a client library."""
    try:
        yield
    except errors as error:
        raise outcome(repr(error)) from error
