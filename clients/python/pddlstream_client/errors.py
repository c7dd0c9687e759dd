"""The exceptions of this package."""
from __future__ import annotations


class UnsupportedError(ValueError):
    """A part of PDDLStream that the planner hasn't got. The text names it and says what to write in its place."""


class ProgramNotFoundError(FileNotFoundError):
    """The planner's program isn't where it was looked for."""


class SolveError(RuntimeError):
    """The planner ended without an outcome.

    `report` is what it printed, `last_line` the last line of that, and `status` its exit status (negative: a signal).
    """

    def __init__(self, message: str, report: str = "", status: int | None = None) -> None:
        super().__init__(message)
        self.report = report
        self.status = status

    @property
    def last_line(self) -> str:
        """The last line of the report, as `fault answer 3 count`; empty where nothing was printed."""
        lines = self.report.splitlines()
        return lines[-1] if lines else ""


class TextError(SolveError):
    """The planner refused a text; the message shows the line and the place."""


class SamplerError(SolveError):
    """A function of the stream map failed; `request` is what was asked, and `__cause__` what was raised."""

    def __init__(self, message: str, report: str = "", status: int | None = None, request: str = "") -> None:
        super().__init__(message, report, status)
        self.request = request
